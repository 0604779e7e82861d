"""What the contracts must not say, seen by their text and by the calls of what is proved: each rule here would have kept out a contract
from which nothing follows, or which nobody proves.  `self_test` plants a fault of each kind."""
import os
import re
import subprocess
import sys

from sources import TOP, contracts_in, headers, lay_out, read, units

sys.path.append(os.path.join(TOP, "c", "tests"))
from memory_order import accesses  # noqa: E402


def without_comments(text):
    return re.sub(r"//(?!@).*", "", text)


def rows(text=None):
    """What checks/wp/assumed.rows lists of each kind: the names, with the reason."""
    found = {"axiom": {}, "twice": {}, "assumed": {}, "load": {}}
    for line in (read("checks/wp/assumed.rows") if text is None else text).split("\n"):
        if line and not line.startswith("#"):
            kind, names, why = re.match(r"(\w+) ([\w ]+): (\S.*)$", line).groups()
            found[kind].update(dict.fromkeys(names.split(), why))
    return found


def compare(kind, seen, what, listed=None):
    """What was seen and isn't listed, and what is listed and wasn't seen."""
    listed = (listed or rows())[kind]
    return [f"{it} {what}, and assumed.rows doesn't say why" for it in sorted(set(seen) - set(listed))] + \
        [f"assumed.rows lists {it}, which isn't so: {kind}" for it in sorted(set(listed) - set(seen))]


# ---- by the text of the contracts


def open_quantifiers(texts):
    """Quantifiers over pointers that nothing restricts but that they can be read or written: these mean the objects of the call as well."""
    for name, text in texts.items():
        for it in re.finditer(r"\\(?:forall|exists) [^;]*\*[^;]*;((?:[^;()]|\([^()]*\))*?)(?:==>|<==>|&&\s*\\separated|;|$)", without_comments(text)):
            if not re.search(r"(?<!\\)\b(?!valid|separated)\w+\(", it[1]):
                yield f"{name} speaks of all pointers{' that are valid' * ('valid' in it[1])}: {' '.join(it[0].split())}"


def twice(texts):
    """The functions that have more than one contract."""
    found = [function for text in texts.values() for _, _, function, _, _ in contracts_in(text)]
    return {it for it in found if found.count(it) > 1}


def axioms(texts):
    return [it for text in texts.values() for it in re.findall(r"\baxiom (\w+):", without_comments(text))]


def assumed(texts):
    """The functions with a contract that no unit proves; of those of the proved library check_contracts speaks."""
    proved = {it for unit in units() for it in unit.proves}
    return {function for name, text in texts.items() if name not in ("core.h", "compiler.h") for _, _, function, _, _ in contracts_in(text)} - proved


def loads():
    """The words that a proof reads as if nobody else wrote them, of which class.h doesn't say that their user or their holder alone does."""
    table = read("c/admit/class.h").partition("*/")[0]
    writers = {}
    for line in table.split("\n"):
        if line.startswith(" *\t"):
            words, _, by, *_ = re.split(r"\t+", line[3:].rstrip()) + [""]
            writers.update(dict.fromkeys(words.split(), by))
    names = {name for unit in units() for name in unit.proves + unit.inlines}
    return {field for field, of in accesses(os.path.join(TOP, "c")).items() for name, orders in of.items()
            if name in names and re.search(r"load (rlx|acq)", orders) and writers.get(field) not in ("its user", "its holder")}


def by_text(texts=None, listed=None):
    texts = texts or headers()
    return list(open_quantifiers(texts)) + compare("twice", twice(texts), "has two contracts", listed) + \
        compare("axiom", axioms(texts), "is an axiom", listed) + compare("assumed", assumed(texts), "has a contract that nobody proves", listed) + \
        compare("load", loads(), "is read as if nobody else wrote it", listed)


# ---- by what is called


def printed(unit, folder):
    """The unit's functions as Frama-C read them: whether each has a body, what it calls, and its contract."""
    words = ["frama-c", "-no-autoload-plugins", "-machdep", "gcc_x86_64", "-c11", f"-cpp-extra-args={' '.join(unit.words(folder))}",
             os.path.join(folder, unit.source), "-print", "-ocode", os.path.join(folder, "printed.i")]
    subprocess.run(words, cwd=folder, capture_output=True, text=True, check=True)
    with open(os.path.join(folder, "printed.i"), encoding="utf-8") as file:
        text = file.read()
    found = {}
    head = re.compile(r"(?:/\*@((?:(?!\*/)[\s\S])*)\*/\n)?^(?!typedef)[A-Za-z_][^;{}=/]*?\b(\w+)\([^;{}]*\)\s*(?:;|(\{[\s\S]*?^\}))", re.MULTILINE)
    for it in head.finditer(text):
        contract, body = found.get(it[2], ("", None))
        said = it[1] if it[1] and not re.match(r"\s*(?:predicate|ghost|axiomatic|logic|lemma)", it[1]) else ""
        found[it[2]] = (contract + said, it[3] or body)
    return found


def calls(unit, folder):
    """What a function that is proved, or one that is read where it is called, calls of which the proof would know too little, or too much."""
    functions = printed(unit, folder)
    todo, seen = list(unit.proves), set()
    while todo:
        name = todo.pop()
        if name in seen:
            continue
        seen.add(name)
        body = re.sub(r"/\*[\s\S]*?\*/|\"(?:\\.|[^\"\\])*\"", "", functions.get(name, ("", None))[1] or "")
        if not body:
            yield f"{unit.name}: {name} has no body that could be {'proved' if name in unit.proves else 'read'}"
        for callee in sorted(set(re.findall(r"(?<![\w>.])(\w+)\(", body)) & set(functions)):
            contract, has_body = functions[callee]
            if callee in unit.inlines:
                todo.append(callee)
            elif not contract.strip():
                yield f"{unit.name}: {name} calls {callee}, which has no contract and isn't in inlines"
            elif not has_body and not re.search(r"\bassigns\b", contract):
                yield f"{unit.name}: {name} calls {callee}, whose contract doesn't say what it assigns"


# ---- whether each rule finds a fault of its kind


PLANTED = [
    ("speaks of all pointers", "mutex.h", "    predicate no_seat =",
     "    predicate is_apart_from_all(ww_seat *s) = \\forall struct ww_how *how; \\valid_read(how) ==> \\separated(how, s);\n    predicate no_seat ="),
    ("speaks of all pointers", "mutex.h", "    predicate no_seat =",
     "    predicate is_none(ww_seat *s) = \\forall ww_seat *t; t != s;\n    predicate no_seat ="),
    ("has two contracts", "context.h", "/* By which seat, if it began. */", "/*@ assigns \\nothing; */\nvoid ww_mutex_lock_slow(struct ww_mutex *m, struct ww_acquire_ctx *x);\n"),
    ("is an axiom", "loop.h", "    axiomatic Bits {", "    axiomatic More {\n\taxiom more: \\forall integer n; n > 0;\n    }\n    axiomatic Bits {"),
    ("that nobody proves", "context.h", "/* By which seat, if it began. */", "/*@ assigns \\nothing; */\nbool ww_knows_better(ww_seat *s);\n"),
]


def self_test():
    """What was planted and isn't found."""
    bad, before = [], by_text()
    for kind, name, old, new in PLANTED:
        texts = headers()
        assert texts[name].count(old) == 1, old
        texts[name] = texts[name].replace(old, new)
        found = [it for it in by_text(texts) if it not in before]
        if not any(kind in it for it in found):
            bad.append(f"a planted fault isn't found: {kind}")
    listed = rows()
    listed["load"].pop("waiters")
    if not any("as if nobody else wrote it" in it for it in by_text(listed=listed)):
        bad.append("a planted fault isn't found: a load of a word that others write")
    print(f"check_wp: {len(PLANTED) + 1} planted faults, of which {len(PLANTED) + 1 - len(bad)} were found by text")
    return bad


def planted_calls(folder):
    """Whether calls of which a proof knows too little are found: with no contract, and with one that has no `assigns`."""
    unit = units(["lock"])[0]
    lay_out(folder)
    path = os.path.join(folder, unit.source)
    with open(path, encoding="utf-8") as file:
        text = file.read()
    old = "int ww_unlock_of(struct ww_mutex *m, struct ww_acquire_ctx *x)\n{\n"
    assert text.count(old) == 1
    found = {}
    for kind, contract in (("a call of a function without a contract", ""), ("a call of a function that doesn't say what it assigns", "/*@ requires m != \\null; */\n")):
        with open(path, "w", encoding="utf-8") as file:
            file.write(text.replace(old, f"{contract}void planted(struct ww_mutex *m);\n{old}\tplanted(m);\n"))
        found[kind] = any("calls planted" in it for it in calls(unit, folder))
    return found
