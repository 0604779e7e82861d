"""Each call of the headers with NULL for each pointer. If that may not be NULL (WW_NONNULL_), the debug library says the line and the
call, and what there isn't, and ends the program or returns an error. Any other pointer may be NULL: the call doesn't crash.

nulls.py libww.so"""
import ctypes
import glob
import os
import re
import signal
import sys

HERE = os.path.dirname(os.path.abspath(__file__))
LIBRARY = ctypes.CDLL(sys.argv[1].replace("libww.so", "libww_debug.so"))
# By the end of a parameter's type: what is said if there is none of these.
NONE = {"ww_class": "class", "ww_acquire_ctx": "context", "ww_mutex": "mutex", "ww_shared_mutex": "mutex", "ww_table": "table"}


def calls():
    """Of each call that is no inline function its name, its parameters, and which of them are marked; of steps only marked ones."""
    for path in glob.glob(os.path.join(HERE, "../../include/*.h")):
        with open(path, encoding="utf-8") as file:
            text = re.sub(r"/\*.*?\*/", "", file.read(), flags=re.DOTALL)
        for inline, name, words, marks in re.findall(r"^(static )?[^#\n]*?\b(ww_\w+)\(([^;{}]*?)\)(?:\s__attribute__\S*)?(?:\sWW_NONNULL_\(([^)]*)\))?;", text, re.M):
            if not inline and (marks or not name.endswith("_")):
                words = re.sub(r"\(\*(\w+)\)\([^()]*\)", r"* \1", words)
                yield name, words.split(","), [int(it) - 1 for it in marks.split(",") if it]


kept = []  # The library's structures stay where they are.


def memory():
    kept.append(ctypes.create_string_buffer(4096))
    return kept[-1]


def arguments(words):
    """One that each call would take: of a class, with a context and a mutex of it, and what else is of zeros."""
    of, context, mutex, table = memory(), memory(), memory(), ctypes.c_void_p()
    LIBRARY.ww_class_init(of, 1, b"c")
    LIBRARY.ww_mutex_init(mutex, of)
    LIBRARY.ww_acquire_init(context, of)
    assert LIBRARY.ww_table_open(ctypes.byref(table), of, 8) == 0
    kinds = {"struct ww_class *": of, "struct ww_acquire_ctx *": context, "struct ww_mutex *": mutex, "struct ww_shared_mutex *": mutex, "struct ww_table *": table}
    for word in words:
        kind = re.sub(r"\bconst |\w+$", "", word.strip())
        yield kinds.get(kind) or (memory() if "*" in kind else 0)


def made(name, words, at):
    """How a child ends that makes the call with NULL there, and what is said."""
    read, write = os.pipe()
    child = os.fork()
    if not child:
        os.dup2(write, 2)
        all_words = list(arguments(words))
        all_words[at] = None
        LIBRARY.ww_debug_line_(b"bank.c", 12)
        getattr(LIBRARY, name)(*all_words)
        os._exit(0)
    os.close(write)
    with os.fdopen(read, "rb") as file:
        said = file.read().decode()
    return os.waitpid(child, 0)[1], said


def main():
    count = 0
    for name, words, marks in calls():
        for at in (at for at, word in enumerate(words) if "*" in word):
            end, said = made(name, words, at)
            assert end in (0, signal.SIGABRT, signal.SIGABRT | 0x80), (name, at, end, said)
            if at not in marks:
                continue
            kind = re.sub(r"^(?:const )?struct (\w+) \*\w+$", r"\1", words[at].strip())
            none = f"there is no {NONE[kind]}" if kind in NONE else "an argument is NULL"
            told = [call for call, why in re.findall(r"^bank\.c:12: (ww_\w+): (?:class \"c\": )?(.*)", said, re.M) if why == none]
            # What a macro calls is told by the macro's name, and a lock call of several kinds by the name of the plain one.
            assert told and (name.endswith("_") or name.replace("trylock", "lock").startswith(told[0].replace("trylock", "lock"))), (name, at, said)
            count += 1
    assert count > 90, count
    print(f"nulls: each of {count} is told")


main()
