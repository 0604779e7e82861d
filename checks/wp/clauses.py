"""Whether checks/wp/core.h quotes the proved clauses as they are, and whether each contract there says no more than these."""
import re

from sources import parts, read

SOURCES = {"Answers.antt": "crates/ww_steps/specs/Answers.antt", "Codes.antt": "crates/ww_c/specs/Codes.antt",
           "Exports.antt": "crates/ww_c/specs/Exports.antt", "Modes.antt": "crates/ww_c/specs/Modes.antt"}
EXPORTS, SLOT = "crates/ww_c/src/exports.rt", "crates/ww_c/src/slot.rt"


def definitions(path):
    """The lines of each definition, by its name, a line and those that go on with it as one."""
    found, name = {}, ""
    for line in read(path).split("\n"):
        if line[:1] in (" ", "}"):
            if name and line.strip():
                found[name][-1] += " " + line.strip()
        elif line[:1].isalpha():
            begins = re.match(r"(?:abbrev )?(?:pub )?(record )?([\w']+)", line)
            name = begins[2]
            if begins[1] or " = " in line:
                found.setdefault(name, []).append(line)
            else:
                found[name] = [""]  # its type, and what goes on with that
    return {name: [line for line in lines if not line.startswith(" ") and line] for name, lines in found.items()}


def check_clauses():
    """Whether core.h quotes the proved library exactly: each line, all lines of each relation, and what exports.rt says of each
    function; what is wrong."""
    quotes = re.findall(r"^ *// (\w+\.\w+)(?: (\w+))?: (.*(?:\n *//     .*)*)", read("checks/wp/core.h"), re.MULTILINE)
    quotes = [(file, function, " ".join(re.sub(r"\n *//", "", text).split())) for file, function, text in quotes]
    exports, bad = read(EXPORTS), []
    for name in {function for file, function, _ in quotes if file == "exports.rt"}:
        clauses = re.search(rf'pub extern "C" fn {name}\([^\n]*\n((?:    (?:requires|ensures).*\n)*)', exports)
        says = [line.strip() for line in clauses[1].split("\n")[:-1]] if clauses else []
        if says != [text for _, function, text in quotes if function == name]:
            bad.append(f"{EXPORTS} says of {name}: {'; '.join(says)}")
    rules = [line.strip().rstrip(",") for line in read(SLOT).split("\n") if line.startswith("    ghost ")]
    bad += [f"{SLOT} doesn't say: {text}" for file, _, text in quotes if file == "slot.rt" and f"ghost {text}" not in rules]
    for file, path in SOURCES.items():
        said = [text for of, _, text in quotes if of == file]
        for name, lines in definitions(path).items():
            quoted = [text for text in said if re.match(rf"(?:pub record )?{re.escape(name)} ", text)]
            if quoted:
                bad += [f"{path} says: {line}" for line in lines if " ".join(line.split()) not in quoted]
                bad += [f"{path} doesn't say: {text}" for text in quoted if text not in [" ".join(line.split()) for line in lines]]
                said = [text for text in said if text not in quoted]
        bad += [f"{path} doesn't say: {text}" for text in said]
    return bad


def changes(part):
    """What a record's change lets core.h say: of what it names, and that the rest stays."""
    set_to = dict(re.findall(r"(\w+) = ([^;}]*?) *[;}]", part))
    turn, held, told, stamp = (set_to.get(it, "") for it in ("turn", "held", "told", "stamp"))
    goes_on = not turn or re.match(r"s'\.turn|at\.Wants n Woken", turn)
    said = ["same_turn{Old, Here}"] if goes_on else ["rests"] if turn == "at.Rests" else ["core_call == LOCKS", "core_of == lock"]
    said += ["same_held{Old, Here}"] if not held else ["more_held{Old, Here}(lock)"] if "++" in held else ["less_held{Old, Here}(lock)"]
    said += ["same_told{Old, Here}"] if not told else ["core_told == 0"] if told == "None" else ["core_told == 1", "core_told_of == lock"]
    said += [] if not stamp else ["core_context == 0"] if stamp == "0" else ["core_context == 1"]
    return said + (["same{Old, Here}"] if goes_on and not held and not told and not stamp else [])


def may_say(clause, records):
    """All that core.h may say beneath a clause."""
    words = dict(line.split(" => ") for line in read("checks/wp/words").split("\n") if " => " in line)
    right = clause.split(" = ", 1)[1]
    said = [words.get(right, "")] + [text for part, text in words.items() if "×" in part and part in right]
    for part in parts(right, "×"):
        said += [words.get(part, "")] + changes(part) * part.startswith("s' ≡ record")
        said += [it for name, record in records.items() if part.startswith(name + " ") for it in changes(record)]
    return {it.strip() for text in said for it in text.split(";")}


def changed(text, defined):
    """The ghosts of core.h that a call may change, of which its clauses, and what these name, change a part."""
    named = " ".join(line for name in set(re.findall(r"\b(?:Has|Is|Tried)\w+", text)) for line in defined.get(name, ()))
    ghosts = {"held": {"core_has", "core_holds"}, "told": {"core_told"}, "stamp": {"core_context"}}
    found = set()
    for record in re.findall(r"record s \{(.*?)\}", text + named):
        for part, to in re.findall(r"(\w+) = ([^;]*)", record):
            found |= ghosts.get(part, set()) | ({"core_told_of"} if part == "told" and to.startswith("Some") else set())
            if part == "turn" and not re.match(r"s'\.turn|at\.Wants n Woken|until_cancelled", to):
                found |= {"core_call"} if to.startswith("at.Rests") else {"core_call", "core_of"}
    return found


def check_contracts(core=None):
    """Whether each contract of core.h says no more than the clauses above it: of each answer what its parts say (checks/wp/words), and
    all answers that there are, of the function that exports.rt gives this relation; what is wrong."""
    code = {name: "-" + text[7:] if text.startswith("negsuc") else text[4:] for name, text in
            re.findall(r"code_of \(?(\w+).*? = (.*)", "\n".join(definitions(SOURCES["Codes.antt"])["code_of"]))}
    names = {"0": "0", "1": "WW_AGAIN", "3": "WW_SLEEPS", "5": "WW_AWAITS", "-15": "-EBUSY", "-21": "-EINVAL", "-113": "-EALREADY", "-27": "-ENOSPC",
             "-34": "-EDEADLK", "-3": "-EINTR"}
    defined = definitions(SOURCES["Answers.antt"])
    records = {"HasToBackOff": "; ".join(defined["HasToBackOff"])}
    bad = []
    for contract in re.findall(r"/\*@.*\n((?:.*\n)*?.*)\*/\n(?=([^;]*;)?)", core or read("checks/wp/core.h")):
        quotes, answers = [], {}
        text = re.sub(r"\n *//     ", " ", contract[0])
        told = re.search(r"// exports\.rt (\w+):", text)
        if told and not re.search(rf"\b{told[1]}\(", contract[1]):
            bad.append(f"core.h has the clause of {told[1]} above another function")
        if told:
            assigns = re.search(r"^ *assigns ([^;]*);", text, re.MULTILINE)[1]
            bad += [f"core.h says that {told[1]} leaves {it}" for it in sorted(changed(text, defined) - set(assigns.split(", ")))]
        for piece in re.findall(r"// \w+\.\w+: .*|^ *(?:ensures|predicate)[^;]*;", text, re.MULTILINE):
            if piece.startswith("//"):
                clause = piece.split(": ", 1)[1]
                answer = re.match(r"(Is\w+).* \(?([A-Z]\w*)(?: \w+\))? s' = ", clause)
                if answer:
                    answers.setdefault(answer[1], set()).add(names[code[answer[2]]])
                if " = " in clause and not re.search(r"^pub record|^IsCall answers \(Some| a s'$", clause):
                    quotes.append((clause, names[code[answer[2]]] if answer else None))
                continue
            if not quotes:
                continue
            says = re.sub(r"\{A, B\}", "{Old, Here}", re.sub(r"\\at\((\w+), B\)", r"\1", " ".join(piece.split())[:-1]))
            says = re.sub(r"\((?:n|core_of)\)", "(lock)", says.replace("core_told_of == core_of", "core_told_of == lock"))
            says = says.split(" ", 1)[1] if piece.split()[0] == "ensures" else says.split(" = ", 1)[1]
            only, _, then = says.rpartition(" ==> ")
            last = re.match(r"(Is\w+) .*_ s' = ⊥$", quotes[-1][0])
            if last:
                if set(re.findall(r"\\result == ([-\w]+)", then)) != answers[last[1]] or "&&" in then:
                    bad.append(f"core.h says of {last[1]}: {says}; there are {', '.join(sorted(answers[last[1]]))}")
            else:
                of = re.findall(r"\\result (== [-\w]+|> 0)", only)
                for clause, answer in quotes:
                    if answer and of != [f"== {answer}"] and (of != ["> 0"] or answer[0] in "-0"):
                        bad.append(f"core.h says of another answer: {clause}")
                    bad += [f"core.h says {it}, beneath: {clause}" for it in parts(then, "&&") if it not in may_say(clause, records)]
            quotes = []
    return bad


def refuse_contracts():
    """Which contracts of core.h could say more than their clauses: each with another answer, with a word more, and with one that isn't
    changed."""
    core, bad, tried = read("checks/wp/core.h"), [], 0
    for old in re.finditer(r"^ *ensures [^;]*;|^ *assigns seat->[^;]*, core_\w+;", core, re.MULTILINE):
        it = old[0]
        edits = {re.sub(r"(\\result ==) [-\w]+", r"\1 -EPERM", it, count=1), re.sub(r", core_\w+;", ";", it),
                 re.sub(r"(==>.*);", r"\1 && core_has == core_told;", it, flags=re.DOTALL)}
        for new in edits - {it}:
            tried += 1
            if not check_contracts(core[:old.start()] + new + core[old.end():]):
                bad.append(f"core.h could say: {' '.join(new.split())}")
    print(f"check_wp: {tried} edits of core.h, of which {tried - len(bad)} were refused")
    return bad
