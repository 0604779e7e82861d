"""Whether what the contracts assume can be so: a probe for each predicate and each contract, which must not prove \\false, and witnesses with
real objects (checks/wp/witness), of which all that is asked for is proved."""
import os
import re

from rules import without_comments
from sources import TOP, contracts_in, parts, read

WITNESSES = "checks/wp/witness"
BODY = r"(?:\\(?:forall|exists) [^;]*;|[^;\\]|\\(?!forall|exists))*"  # of a predicate or a clause, up to its semicolon


def predicates_of(unit):
    """Each predicate that the unit's contracts define: its name, labels, parameters and body."""
    found = {}
    for name, text in unit.texts().items():
        for it in re.finditer(rf"\bpredicate (\w+)(?:\{{([\w, ]+)\}})?(?:\(([^()]*)\))? =\s+({BODY});", without_comments(text)):
            found[it[1]] = (name, [label.strip() for label in (it[2] or "").split(",") if label.strip()], it[3] or "", " ".join(it[4].split()))
    return found


def predicate_in(text, name):
    """The body of a predicate without labels, by its name."""
    return " ".join(re.search(rf"\bpredicate {name}(?:\([^()]*\))? =\s+({BODY});", without_comments(text))[1].split())


def quantified(body):
    """What follows a \\forall of a body, up to the end of what this is in: the type, the name and the rest."""
    for it in re.finditer(r"\\forall ([\w ]+?\**) ?(\w+); ", body):
        depth, end = 0, it.end()
        while end < len(body) and depth >= 0:
            depth += (body[end] in "([{") - (body[end] in ")]}")
            end += depth >= 0
        yield it[1].strip(), it[2], body[it.end():end]


POINTERS = {"struct ww_acquire_ctx": ("->own", "->newest", "->contending_lock"), "ww_seat": ("->pool",), "struct ww_mutex": ("->older", "->pool", "->ctx")}


def terms_of(parameters):
    """What a quantifier may be tried with: each pointer, and what lies behind it; and small numbers."""
    found = ["the_seat"]
    for parameter in filter(None, (it.strip() for it in parameters.split(","))):
        what, name = re.match(r"(.*?)(\w+)$", parameter).groups()
        if "*" in what:
            found += [name] + [name + it for it in POINTERS.get(re.sub(r"const |\*", "", what).strip(), ())]
    return found


def calls_in(body, name):
    """The arguments of each call of this predicate in a body; none if it has no parameters."""
    for it in re.finditer(rf"\b{name}\b(\()?", body):
        depth, end = 1, it.end()
        while it[1] and depth and end < len(body):
            depth += (body[end] == "(") - (body[end] == ")")
            end += 1
        yield [part.strip() for part in parts(body[it.end():end - 1], ",")] if it[1] else []


def with_arguments(body, parameters, arguments):
    """The body with these arguments for its parameters."""
    names = [re.search(r"(\w+)$", part.strip())[1] for part in parameters.split(",") if part.strip()]
    given = dict(zip(names, arguments))
    return re.sub(r"(?<!->)(?<!\.)\b\w+\b", lambda it: f"({given[it[0]]})" if it[0] in given and given[it[0]] != it[0] else it[0], body)


def hints(bodies, parameters, defined):
    """Of each quantifier of these bodies, and of what they name, what it says of each term at hand: to be proved, and then to be used."""
    todo, seen, said = list(bodies), set(bodies), []
    while todo:
        body = todo.pop()
        for kind, name, rest in quantified(body):
            terms = [f"(({kind}){term})" for term in terms_of(parameters)] if "*" in kind else ["0", "1", "(-1)", "nodes"]
            said += [re.sub(rf"\b{name}\b", lambda _, it=term: it, rest) for term in terms]
        for name, (_, labels, of, inner) in defined.items():
            for arguments in calls_in(body, name) if not labels and re.search(rf"\b{name}\b", body) else ():
                text = with_arguments(inner, of, arguments)
                if text not in seen:
                    seen.add(text)
                    todo.append(text)
    return said


def macros_of(unit):
    """The macros of the unit's contracts: their parameters and text."""
    return {it[1]: (it[2], it[3].replace("\\\n", " ")) for text in unit.texts().values()
            for it in re.finditer(r"(?m)^#define ([A-Z_]+)\(([^()]*)\) ((?:.*\\\n)*.*)$", text)}


def expanded(text, macros):
    for _ in range(4):
        for name, (of, inner) in macros.items():
            for it in reversed(list(re.finditer(rf"\b{name}\(", text))):
                depth, end = 1, it.end()
                while depth and end < len(text):
                    depth += (text[end] == "(") - (text[end] == ")")
                    end += 1
                text = text[:it.start()] + with_arguments(inner, of, parts(text[it.end():end - 1], ",")) + text[end:]
    return text


def probe_of(name, it, defined):
    """A function that has the predicate to go by, and says that this can't be."""
    _, labels, parameters, body = it
    parameters = re.sub(r"\binteger\b", "int", parameters)
    arguments = [re.search(r"(\w+)$", part.strip())[1] for part in parameters.split(",") if part.strip()]
    call = name + (f"({', '.join(arguments)})" if arguments else "")
    asks = [f"/*@ assert hint: {text}; */" for text in (hints([body], parameters, defined) if not labels else [])]
    if len(labels) < 2:
        head = f"/*@ requires {call}; ensures probe: \\false; */\nvoid probe_{name}({parameters or 'void'})\n"
        return head + "{\n" + "".join(f"\t{ask}\n" for ask in asks) + "}\n"
    ghosts = "core_has, core_holds, core_told, core_told_of, core_call, core_of, core_context"
    pointers = [re.search(r"(\w+)$", part.strip())[1] for part in parameters.split(",") if "*" in part]
    changes = ", ".join([ghosts] + [f"*{it}" for it in pointers])
    two = name + "{Old, Here}" + (f"({', '.join(arguments)})" if arguments else "")
    valid = "".join(f"requires \\valid({it}); " for it in pointers) + (f"requires \\separated({', '.join(pointers)}); " if len(pointers) > 1 else "")
    return (f"/*@ assigns {changes}; ensures {two}; */\nvoid step_{name}({parameters or 'void'});\n"
            f"/*@ {valid}ensures probe: \\false; */\nvoid probe_{name}({parameters or 'void'})\n{{\n\tstep_{name}({', '.join(arguments)});\n}}\n")


def axioms_of(unit):
    return [(name, it[1], " ".join(it[2].split())) for name, text in unit.texts().items()
            for it in re.finditer(rf"\b(?:axiom|lemma) (\w+): ({BODY});", without_comments(text))]


def probe_of_axioms(axioms):
    """One for all of the unit's axioms together, with what they say of small numbers and of NULL."""
    asks = []
    for _, _, body in axioms:
        for kind, name, rest in quantified(body):
            asks += [re.sub(rf"\b{name}\b", lambda _, it=term: it, rest) for term in (("\\null", "the_seat") if "*" in kind else
                     ("0", "256", "272", "(-1)"))]
    return "/*@ ensures probe: \\false; */\nvoid probe_axioms(void)\n{\n" + "".join(f"\t/*@ assert hint: {it}; */\n" for it in asks) + "}\n"


def probes_of_calls(unit, defined):
    """Of each function with contracts: its name, and a probe.  One that is proved must not be proved of nothing, so not all that it requires
    together is false; of another, which is assumed, not what it promises then."""
    told, asked, said, macros = {}, {}, {}, macros_of(unit)
    for clauses, head, name, parameters, _ in (it for text in unit.texts().values() for it in contracts_in(text)):
        told.setdefault(name, (head, "" if parameters == "void" else parameters))
        clauses = expanded(without_comments(clauses), macros)
        asked.setdefault(name, []).extend(re.findall(rf"\brequires (?:\w+: )?({BODY});", clauses))
        said.setdefault(name, []).extend(re.findall(rf"\bensures (?:\w+: )?({BODY});", clauses))
    for name, (head, parameters) in told.items():
        if name not in unit.proves and "\\false" in said[name]:
            continue  # it never comes back, which is what is meant
        lines, kind = "", re.match(rf"(?:static )?(?:inline )?(.*?) ?\b{name}\(", head)[1]
        for ask in hints(asked[name], parameters, defined):
            lines += f"\t/*@ assert hint: {ask}; */\n"
        if name not in unit.proves:
            arguments = ", ".join(re.search(r"(\w+)(?:\[\])?$", it.strip())[1] for it in parameters.split(",") if it.strip())
            lines += f"\t{name}({arguments});\n" if kind == "void" else f"\t{kind} it_came = {name}({arguments});\n"
            then = [re.sub(r"\\result", "it_came", it) for it in said[name] if not re.search(r"\\old|Old", it)]
            for ask in hints(then, parameters + (f", {kind} it_came" if "*" in kind else ""), defined):
                lines += f"\t/*@ assert hint: {ask}; */\n"
        requires = " ".join(f"requires {it};" for it in asked[name])
        yield name, f"/*@ {requires} ensures probe: \\false; */\nstatic void probe_of_{name}({parameters or 'void'})\n{{\n{lines}}}\n"


def witnesses_of(unit):
    """The unit's witnesses, of its own and of the objects that all have."""
    path = f"{WITNESSES}/{unit.name}.c"
    if not os.path.exists(os.path.join(TOP, path)):
        return ""
    objects = f'#line 1 "{WITNESSES}/objects.h"\n{read(WITNESSES + "/objects.h")}#line 1 "{path}"\n'
    return objects + read(path).replace('#include "objects.h"', "")


def owned(unit):
    """The files of contracts whose predicates and contracts this unit probes: its own, and the first unit those that no unit has."""
    return {f"{unit.name}.h"} | ({"core.h"} if unit.name == "wait" else set())


def probes(unit):
    """The functions that must not prove \\false: their names, and their text."""
    defined, own, axioms = predicates_of(unit), owned(unit), axioms_of(unit)
    found = {f"probe_{name}": probe_of(name, it, defined) for name, it in defined.items() if it[0] in own}
    mine = {name for file in own for _, _, name, _, _ in contracts_in(read(f"checks/wp/{file}"))} | set(unit.proves)
    found.update({f"probe_of_{name}": probe for name, probe in probes_of_calls(unit, defined) if name in mine})
    if any(file in own for file, _, _ in axioms):
        found["probe_axioms"] = probe_of_axioms(axioms)
    return found


def false_ones(unit, asked, said):
    """Which probes proved \\false, by what Frama-C said; of a name WP makes each row of underscores one."""
    still_open = set(re.findall(r"Goal \S*?_(probe\w*?)_ensures_probe : (?!Valid)", re.sub("__+", "_", said)))
    for probe in asked:
        if re.sub("__+", "_", probe).rstrip("_") not in still_open:
            vain = re.findall(rf"Goal \S*_{probe}_assert_hint\S* : (?!Valid)", said)
            yield f"{unit.name}: {probe.removeprefix('probe_')} is false" + (f", if {len(vain)} hints are right that weren't proved" if vain else "")


def without_witness(unit, witnesses):
    """The predicates that no witness asserts, and the functions that are proved and that none calls."""
    named = {it for at in os.listdir(os.path.join(TOP, WITNESSES)) for it in re.findall(r"@ assert has_(\w+):", read(f"{WITNESSES}/{at}"))}
    own, called = owned(unit), set(re.findall(r"\b(\w+)\(", witnesses))
    return [f"{unit.name}: the predicate {name} has no witness" for name, it in predicates_of(unit).items() if it[0] in own and name not in named] + \
        [f"{unit.name}: {name} is called by no witness" for name in unit.proves if name not in called]


def unwitnessed(said):
    """The goals of witnesses that aren't proved, but for the \\false at the end of each."""
    return [it for it in re.findall(r"Goal (\S+) : (?!Valid)", said) if "_never" not in it]


def of_nothing(functions, said):
    """The witnesses that prove \\false at their end, so that all that they prove is proved of nothing."""
    return [it for it in functions if not re.search(rf"Goal \S*{it}_\w*never\w* : (?!Valid)", said)]
