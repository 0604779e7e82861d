"""The pages of the manual. That of a header is told by what it says at its head, and of each call that it declares; that
of the program by the page of what it reads and prints.

A call whose name ends with _ is told of the steps alone, and the part of a header that is compiled into callers isn't read.
"""
import itertools
import re

LONGEST = 100
# What a terminal of 80 columns shows of a line that isn't filled.
WIDEST = 72
COMMENT = re.compile(r"^/\*.*?\*/$", re.DOTALL | re.MULTILINE)
# A call, a macro that takes arguments (but for those that only add a line to a call), and a value with what it is for.
ARGUMENTS = r"((?:[^()]|\([^()]*\))*)"
CALL = re.compile(rf"^(?:WW_MUST_CHECK )?((?:\w+[ *]+)+)(\w*[a-z\d])\({ARGUMENTS}\)(?: [^;{{}}]*)?;", re.MULTILINE)
STEP = re.compile(CALL.pattern.replace(r"[a-z\d])", r"[a-z\d]_?)"), re.MULTILINE)
MACRO = re.compile(r"^#define (DEFINE_\w+|WW_[A-Z_]*[A-Z]|ww_\w*[a-z])\(([\w, ]+|\.\.\.)\)(?! \(WW_HERE_)", re.MULTILINE)
VALUE = re.compile(r"^\t(WW_\w+) = \d+,\s*/\* (.*?) \*/$", re.MULTILINE)
NAME = re.compile(r"(?<![/\w])((?:ww_|DEFINE_W)\w*[a-zA-Z]_?|WW_[A-Z_]+[A-Z])\b(?!\.h)")
END = "#define WW_NO_INLINE\n"


def said_by(comment):
    """A comment's lines, without what marks them as one."""
    return [re.sub(r"^ ?\* ?", "", line).rstrip() for line in comment[2:-2].strip().split("\n")]


def roff(text):
    """A line of text: names are bold, and a minus sign is one."""
    text = re.sub(r"(?<![\w-])-(?=[A-Z\dlpD])", r"\\-", text.replace("\\", r"\e"))
    return re.sub(r"^(?=[.'])", r"\\&", NAME.sub(r"\\fB\1\\fP", text))


def filled(text):
    """Words in lines that aren't too long."""
    line = ""
    for word in " ".join(text).split():
        if line and len(line) + len(word) >= LONGEST:
            yield roff(line)
            line = ""
        line = f"{line} {word}".strip()
    if line:
        yield roff(line)


def rows(lines):
    """The rows of a table of two columns, or nothing if these lines are none: a first column that ends with a comma goes on below."""
    lines = [f" *{line}".expandtabs(8)[8:] for line in lines]
    first = re.match(r"\S.*?  +(?=\S)", lines[0])
    at = first.end() if first else 0
    if len(lines) < 3 or not at or any(line[at:] and not (line[at - 1] == " " != line[at]) for line in lines):
        return []
    made = []
    for line in lines:
        left, right = line[:at].strip(), line[at:]
        if left and not (made and made[-1][0].endswith(",")):
            made.append([left, right])
        else:
            made[-1] = [f"{made[-1][0]} {left}".strip(), f"{made[-1][1]} {right}"]
    return made


def told(lines, between):
    """A comment with its paragraphs, which what is given stands between, its tables as lists, and the code in it, as it is."""
    made = []
    for kind, run in itertools.groupby(lines, lambda line: "code" if line.startswith("\t") else bool(line)):
        run = list(run)
        if not kind:
            continue
        made += [between] if made else []
        table = rows(run) if kind == "code" else []
        if table:
            made += [".RS", *(line for left, right in table for line in (".TP", f".B {roff(left)}", *filled([right]))), ".RE"]
        elif kind == "code":
            made += [".nf", *(line.replace("\\", r"\e").expandtabs(4) for line in run), ".fi"]
        else:
            made += filled(run)
    return made


def declared(kind, name, arguments):
    """A declaration, with its arguments slanted; in two lines if it is long."""
    if arguments in ("void", "..."):
        return [f".B {kind}{name}({arguments}){';' if kind else ''}"]
    # An argument may be a function's address, whose name stands within.
    each = re.split(r", (?![^()]*\))", " ".join(arguments.split()))
    parts = [re.fullmatch(r"(.*?)(\w+)(\[.*\]|\).*|)", it).groups() for it in each]
    lines, before, width = [[f"{kind}{name}("]], "", len(kind + name) + 1
    for of, argument, after in parts:
        length = len(of + argument + after) + 2
        if before and width + length > WIDEST:
            lines.append([" " * 8])
            before, width = "", 8
        width += len(before) + length
        lines[-1][-1] += before + of
        lines[-1] += [argument, after + ("," if (of, argument, after) != parts[-1] else ");" if kind else ")")]
        before = " "
    return [".BI " + " ".join(f'"{it}"' for it in line) for line in lines]


def parts_of(header, call):
    """Each comment of a header, with the calls and values below it, up to the next comment or blank line."""
    text = header.split(END)[0]
    for comment in COMMENT.finditer(text):
        below = text[comment.end() + 1 :].split("\n\n")[0]
        below = "" if text.startswith("\n\n", comment.end()) else COMMENT.split(below)[0]
        calls = [("", *it) for it in MACRO.findall(below)] + call.findall(below)
        stands_alone = text.startswith("\n\n", comment.end())
        yield said_by(comment[0]), calls, VALUE.findall(below), stands_alone


def entries(parts):
    for said, calls, values, stands_alone in parts:
        if calls:
            yield from [".TP", ".B " + ", ".join(f"{name}()" for _, name, _ in calls), *told(said, ".IP")]
            for value, what in values:
                yield from [".RS", ".TP", f".B {value}", *filled([what]), ".RE"]
        elif said[0].startswith("----"):
            yield f".SS {said[0].strip('- ').capitalize()}"
        elif stands_alone or values:
            yield from [".PP", *told(said, ".PP")]
            for value, what in values:
                yield from [".TP", f".B {value}", *filled([what])]


def page(header, version):
    """The page of a header."""
    call = STEP if header.startswith("/*\n * ww_steps.h") else CALL
    (head, *_), *parts = parts_of(header, call)
    name, _, what = head[0].rstrip(".").partition(".h - ")
    left = {it for _, it, _ in call.findall(header.split(END)[0])} - {it for _, calls, *_ in parts for _, it, _ in calls}
    if left:
        raise SystemExit(f"pages: {name}.h has no comment right above {', '.join(sorted(left))}")
    made = [f'.TH {name.upper()} 3 "" "libww {version}" "Wound/wait locks"']
    made += ['.\\" Written by tools/pages from the header: change its comments, not this page.', ".nh"]
    debugs = name == "ww_mutex_debug"
    included = [".B #define WW_DEBUG", ".B #include <ww_mutex.h>"] if debugs else [f".B #include <{name}.h>"]
    made += [".SH NAME", f"{name} \\- {what}", ".SH SYNOPSIS", ".nf", *included, ".PP"]
    made += [line for _, calls, *_ in parts for it in calls for line in declared(*it)]
    library = r"\-lww_debug" if debugs else r"\-lww"
    made += [".fi", ".PP", rf"Link with \fI{library} \-pthread\fP.", ".SH DESCRIPTION", *told(head[2:], ".PP")]
    made += [".SH CALLS", "If nothing else is said, 0 is success, and an error a negative number of", ".BR errno (3)."]
    made += entries(parts)
    other = "ww_number" if name == "ww_mutex" else "ww_mutex"
    return "\n".join([*made, ".SH SEE ALSO", f".BR {other} (3)", ""])


# ---- the program


def prose(text):
    """A paragraph of a page: what is code there is bold, and links are their words."""
    text = re.sub(r"\[([^\]]*)\]\([^)]*\)", r"\1", text.replace("\\", r"\e"))
    return re.sub(r"`([^`]*)`", r"\\fB\1\\fP", re.sub(r"\*([^*]+)\*", r"\\fI\1\\fP", text))


def program(formats, version):
    """The page of the program, told from the head of a page, its section on the input, and its table of statuses."""
    head = formats.split("\n## ")[0].split("\n\n", 1)[1].strip()
    reads = re.search(r"^## The input\n\n(.*?)\n\n", formats, re.DOTALL | re.MULTILINE)[1]
    status = re.search(r"^## The exit status\n\n(.*?)\n\n(.*?)\n(?:\n## |\Z)", formats, re.DOTALL | re.MULTILINE)
    rows = [[cell.strip() for cell in row.strip("|").split("|")] for row in status[1].splitlines()[2:]]
    made = [f'.TH WW_RUN 1 "" "libww {version}" "Wound/wait locks"']
    made += ['.\\" Written by tools/pages from program/FORMATS.md, which says more: change that, not this page.', ".nh"]
    made += [".SH NAME", r"ww_run \- run transactions under wound/wait locks, or replay a schedule of lock events"]
    made += [".SH SYNOPSIS", r"\fBww_run\fP < \fIINPUT\fP", ".SH DESCRIPTION", prose(head), ".PP", prose(reads)]
    made += [".PP", r"FORMATS.md in \fIshare/doc/ww/program\fP says what an input may have, and what is printed. Of the tools in"]
    made += [r"\fIshare/ww/tools\fP \fBexplain\fP says where an input is wrong, and why; \fBtrace\fP and \fBpicture\fP show what was"]
    made += [r"printed; \fBjson\fP makes JSON of it.", ".SH EXIT STATUS"]
    for number, when, written in rows:
        made += [".TP", f".B {number}", prose(f"{when}: {written}.")]
    return "\n".join([*made, ".PP", prose(" ".join(status[2].split())), ".SH SEE ALSO", ".BR ww_mutex (3)", ""])
