"""The sources of C as check_wp gives them to Frama-C, and its units: what each proves, and what it reads."""
import glob
import os
import re
import sys

WP = os.path.dirname(os.path.abspath(__file__))
TOP = os.path.dirname(os.path.dirname(WP))
FOLDERS = ("include", "base", "admit", "lock", "doors", "debug")


def read(path):
    with open(os.path.join(TOP, path), encoding="utf-8") as file:
        return file.read()


def function_at(lines, name):
    """The lines of a function's body: the first and the one after the last; or None."""
    for at, line in enumerate(lines):
        if re.match(rf"\w[^;]*\b{name}\(", line) and not line.rstrip().endswith(";"):
            for end in range(at, len(lines)):
                if lines[end].rstrip() == "}" or (end == at and line.rstrip().endswith("}")):
                    return at, end + 1
    return None


def place_of(path, lines, function, where):
    """The line before which a note belongs: of the loop with this number, or the line that stands once in the function."""
    body = function_at(lines, function)
    within = range(*body) if body else []
    if isinstance(where, str):
        found = [at for at in within if lines[at].strip() == where]
        if len(found) != 1:
            sys.exit(f"check_wp: {path}: {function} doesn't have once: {where}")
        return found[0]
    found = [at for at in within if re.match(r"\t+(for|while|do)\b", lines[at])]
    # the `while` behind the body of a `do` is no loop of its own
    found = [at for at in found if not re.match(r"\t+(\} )?while .*;$", lines[at]) or lines[at + 1].strip() == ";"]
    if where > len(found):
        sys.exit(f"check_wp: {path}: {function} has no loop {where}")
    return found[where - 1]


def with_loops(path, text, told):
    """The text, with the notes of its functions' loops before these; each line keeps its number."""
    lines = text.split("\n")
    notes = {place_of(path, lines, function, where): note for function, where, note in told}
    out = [f'#line 1 "c/{path}"']
    for at, line in enumerate(lines):
        if at in notes:
            out += [notes[at], f'#line {at + 1} "c/{path}"']
        out.append(line)
    return "\n".join(out)


def loops():
    """What checks/wp/loops says of each source: FILE FUNCTION NUMBER, or `before` and a line, and then the note, up to an
    empty line."""
    told = {}
    for part in re.sub(r"(?m)^#.*\n", "", read("checks/wp/loops")).strip().split("\n\n"):
        head, note = part.split("\n", 1)
        path, function, number, *line = head.split(" ", 3)
        told.setdefault(path, []).append((function, line[0] if number == "before" else int(number), note))
    return told


def lay_out(folder, edited=None):
    """Writes the sources into the folder, as an edit leaves them."""
    told = loops()
    for name in FOLDERS:
        for at in sorted(glob.glob(os.path.join(TOP, "c", name, "*.[ch]"))):
            path = os.path.relpath(at, os.path.join(TOP, "c"))
            text = edited[path] if edited and path in edited else read(os.path.join("c", path))
            os.makedirs(os.path.join(folder, name), exist_ok=True)
            with open(os.path.join(folder, path), "w", encoding="utf-8") as file:
                file.write(with_loops(path, text, told.get(path, ())))


def parts(text, between):
    """A text's parts, between which this stands outside of brackets."""
    found, depth = [""], 0
    for piece in re.split(rf"([(\[{{}}\])]|{re.escape(between)})", text):
        depth += (piece in tuple("([{") and bool(piece)) - (piece in tuple(")]}") and bool(piece))
        if piece == between and not depth:
            found.append("")
        else:
            found[-1] += piece
    return [re.sub(r"^\((.*)\)$", r"\1", part.strip()) if between == "×" else part.strip() for part in found]


def headers():
    """The files of contracts, by their names."""
    return {os.path.basename(at): read(f"checks/wp/{os.path.basename(at)}") for at in sorted(glob.glob(os.path.join(WP, "*.h")))}


CONTRACT = re.compile(r"/\*@((?:(?!\*/)[\s\S])*?)\*/\n([^\n/#][^;{]*?\b(\w+)\(((?:[^()]|\([^()]*\))*)\))(;)?")


def contracts_in(text):
    """Each contract in a text: what it says, the function's head, name and parameters, and where it begins."""
    for it in CONTRACT.finditer(text):
        if not re.match(r"\s*(?://.*\s*)*(?:predicate|ghost|axiomatic|lemma)", it[1]):
            yield it[1], it[2], it[3], it[4], it.start()


class Unit:
    def __init__(self, name):
        self.name = name
        head = read(f"checks/wp/{name}.h")
        self.source = re.search(r"^ \* source: (\S+)$", head, re.MULTILINE)[1]
        self.proves = re.search(r"^ \* proves: ((?:.*\n)+?) \*(?: \w+:|/| *\n)", head, re.MULTILINE)[1].replace("*", "").split()
        inlines = re.search(r"^ \* inlines: ((?:.*\n)+?) \*(?: \w+:|/| *\n)", head, re.MULTILINE)
        self.inlines = (inlines[1].replace("*", "").split() if inlines else []) + self.helpers()

    def helpers(self):
        """The source's own functions that have no contract: each is read where it is called."""
        contracts = "".join(headers().values())
        source = re.sub(r"__attribute__\(\(\w+\)\) ", "", read(f"c/{self.source}"))
        own = re.findall(r"^(?:COLD )?static [\w *]*?(\w+)\([^;{]*\)(?:\n\{| \{)", source, re.MULTILINE)
        return sorted({name for name in own if not re.search(rf"\b{name}\(", contracts)})

    def texts(self):
        """Its file of contracts, after those that it includes; what #include names elsewhere isn't read."""
        def with_included(name):
            text = read(f"checks/wp/{name}")
            before = [it for found in re.findall(r'(?m)^#include "(\w+\.h)"$', text) for it in with_included(found)]
            return before + [(name, text)]
        return dict(with_included(f"{self.name}.h"))

    def words(self, folder):
        """What the preprocessor is told, of the sources that lie there."""
        here = os.path.dirname(os.path.join(folder, self.source))
        return [f"-I{WP}", f"-I{folder}/include", "-iquote", here, "-iquote", f"{folder}/lock", "-include", f"{WP}/compiler.h",
                "-include", f"{WP}/{self.name}.h", "-D__x86_64__"]


def units(names=()):
    found = [name[:-2] for name, text in headers().items() if " * source: " in text]
    return [Unit(name) for name in found if not names or name in names]
