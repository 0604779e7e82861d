"""Programs in C++ that are wrong don't compile, or clang's analysis of locks warns of them; those beside them, which are right, compile.

wrong_cpp.py libww.so"""
import os
import shutil
import subprocess
import sys

C = os.path.dirname(os.path.dirname(os.path.dirname(os.path.abspath(__file__))))
HEAD = """#include "ww_table.hpp"
#include <memory>
#include <shared_mutex>
#include <vector>
using namespace std::chrono_literals;
ww::mutex_class boxes{ ww::mutex_class::wound_wait, "boxes" };
struct account {
	ww::mutex lock{ boxes };
	long money WW_GUARDED_BY(lock) = 0;
} a, b;
void waits();
ww::lock_table table(boxes);
inline constexpr auto shared = ww::table_mode::shared;
struct padded { char first; int second; };
"""
# What is wrong; the words of the error, or of the warning of the analysis; the wrong lines, and the right ones.
LIST = "auto r = ww::lock_all(boxes, { &a.lock, &b.lock }, "
PROGRAMS = [
    ("a number where a time was meant", "a time has a unit", LIST + "[] {}, 500); (void)r;", LIST + "[] {}, 500ms); (void)r;"),
    ("a number where flags were meant", "a time has a unit", LIST + "[] {}, 1); (void)r;",
     LIST + "[] {}, WW_IGNORE_DUPLICATES | WW_INTERRUPTIBLE); (void)r;"),
    ("a number of flags beside a time", "no matching ", LIST + "[] {}, ww::limits(1s, 2)); (void)r;",
     LIST + "[] {}, ww::limits(1s, WW_INTERRUPTIBLE)); (void)r;"),
    ("a time of another clock", "the steady clock", LIST + "[] {}, std::chrono::system_clock::now() + 1s); (void)r;",
     LIST + "[] {}, std::chrono::steady_clock::now() + 1s); (void)r;"),
    ("a vector of mutexes", "a ww::mutex_array", "std::vector<ww::mutex> row(3);", "ww::mutex_array row(boxes, 3);"),
    ("a list of mutexes", "initializer_list<mutex", "auto r = ww::lock_all(boxes, { a.lock, b.lock }, [] {}); (void)r;", LIST + "[] {}); (void)r;"),
    ("a context with a number", "a time has a unit", "ww::context x(boxes, 2);", "ww::context x(boxes, WW_INTERRUPTIBLE);"),
    ("a context that is moved", "pass it on by reference", "ww::context x(boxes); ww::context y(std::move(x));", "ww::context x(boxes); ww::context &y = x; (void)y;"),
    ("a mutex that is moved", "keep it by a pointer", "ww::mutex m(std::move(a.lock));", "auto m = std::make_unique<ww::mutex>(boxes);"),
    ("a callable that returns whether it succeeded", "returns 0 or the first error",
     "auto r = ww::lock_by(boxes, [](ww::context &x) { return x.lock(a.lock) == 0; }, [] {}); (void)r;",
     "auto r = ww::lock_by(boxes, [](ww::context &x) { return x.lock(a.lock); }, [] {}); (void)r;"),
    ("the same by a context", "returns 0 or the first error", "ww::context x(boxes); (void)x.lock_by([&] { return !x.lock(a.lock); });",
     "ww::context x(boxes); (void)x.lock_by([&] { return x.lock(a.lock); });"),
    ("the truth of a result of a bool", "has_value()", "if (" + LIST[9:] + "[] { return false; })) waits();",
     "if (" + LIST[9:] + "[] { return false; }).value_or(false)) waits();"),
    ("a reference that outlives its locks", "without the locks", LIST + "[]() -> long & { a.lock.assert_held(); return a.money; }); (void)r;",
     LIST + "[] { a.lock.assert_held(); return a.money; }); (void)r;"),
    ("an answer that nobody looks at", "ignoring return", LIST[9:] + "[] {});", "(void)" + LIST[9:] + "[] {});"),
    ("a table's result as a condition", "to 'bool'", "ww::transaction t(table, 1); if (t.lock(\"k\", shared)) waits();",
     "ww::transaction t(table, 1); if (is_locked(t.lock(\"k\", shared))) waits();"),
    ("a table's result that nobody looks at", "ignoring return", "ww::transaction t(table, 1); t.lock(\"k\", shared);",
     "ww::transaction t(table, 1); (void)t.lock(\"k\", shared);"),
    ("a number for a mode", "no matching ", "ww::transaction t(table, 1); (void)t.lock(\"k\", 1);", "ww::transaction t(table, 1); (void)t.lock(\"k\", shared, 1s);"),
    ("a number for a key", "ambiguous", "ww::transaction t(table, 1); (void)t.lock(0, shared);", "ww::transaction t(table, 1); (void)t.lock(\"0\", shared);"),
    ("a key with padding", "no padding", "ww::transaction t(table, 1); (void)t.lock(std::vector<padded>(1), shared);",
     "ww::transaction t(table, 1); (void)t.lock(std::vector<int>(1), shared);"),
    ("two of one age", "deleted", "ww::suspended age; ww::suspended other(age);", "ww::suspended age; ww::suspended other(std::move(age));"),
    ("a guard without a name", "ignoring", "ww::guard(a.lock); a.lock.assert_held(); a.money++;", "ww::guard held(a.lock); a.money++;"),
    ("a context without a name", "ignoring", "ww::context{ boxes };", "ww::context x{ boxes };"),
    ("a transaction without a name", "ignoring", "ww::transaction(table, 1);", "ww::transaction t(table, 1);"),
    ("an age without a name", "give the age a name", "ww::context x(boxes); ww::context y(boxes, x.suspend());",
     "ww::context x(boxes); auto age = x.suspend(); ww::context y(boxes, age, 1s);"),
    ("an age of a transaction without a name", "give it a name", "ww::suspended age; ww::transaction t(table, 1, std::move(age), 1s);",
     "ww::suspended age; ww::transaction t(table, 1, age, 1s);"),
    ("a transaction that is moved", "keep it by a pointer", "ww::transaction t(table, 1); ww::transaction other(std::move(t));",
     "auto t = std::make_unique<ww::transaction>(table, 1); auto other = std::move(t);"),
    ("an age that is lost", "ignoring return", "ww::transaction t(table, 1); t.suspend();", "ww::transaction t(table, 1); auto age = t.suspend();"),
    ("a read without a context", "lock_shared", "ww::shared_mutex m(boxes); std::shared_lock reads(m);",
     "ww::shared_mutex m(boxes); ww::context x(boxes); if (x.lock_shared(m)) return;"),
    ("money without its lock", "requires holding", "ww::context x(boxes); a.money++;",
     "ww::context x(boxes); if (x.lock(a.lock)) return; a.money++;"),
    ("money of another", "requires holding", "ww::context x(boxes); if (x.lock(a.lock)) return; b.money++;",
     "ww::context x(boxes); if (x.lock(a.lock)) return; if (x.lock(b.lock)) return; a.money--; b.money++; x.unlock_all();"),
    ("money behind its unlock", "requires holding", "ww::context x(boxes); if (x.lock(a.lock)) return; x.unlock(a.lock); a.money++;",
     "ww::context x(boxes); if (x.lock(a.lock)) return; a.money++; x.unlock(a.lock);"),
    ("money in a callable", "requires holding", LIST + "[] { a.money++; }); (void)r;",
     LIST + "[] { a.lock.assert_held(); a.money++; }); (void)r;"),
    ("money behind a loop", "requires holding",
     "ww::context x(boxes); for (;;) { int r = x.lock(a.lock); if (!r) r = x.lock(b.lock); if (!r) break; x.back_off(); } b.money++;",
     "ww::context x(boxes); for (;;) { int r = x.lock(a.lock); if (!r) r = x.lock(b.lock); if (!r) break; x.back_off(); } "
     "b.lock.assert_held(); b.money++; x.unlock(b.lock);"),
    ("a mutex that is locked by hand and stays so", "still held", "a.lock.lock(); a.money++;", "ww::guard held(a.lock); a.money++;"),
]


def said(compiler, lines):
    """What the compiler says of these lines, or nothing."""
    analysis = ["-Wthread-safety"] * ("clang" in compiler)
    words = [compiler, "-std=c++17", "-Wall", "-Wextra", "-Werror", *analysis, f"-I{C}/include", "-fsyntax-only", "-x", "c++", "-"]
    told = subprocess.run(words, input=f"{HEAD}void works() {{ {lines} }}\n", env={**os.environ, "LC_ALL": "C"}, text=True,
                          stdout=subprocess.PIPE, stderr=subprocess.STDOUT, check=False)
    return told.stdout if told.returncode else ""


def main():
    compilers = [it for it in (os.environ.get("CXX", "c++"), "clang++") if shutil.which(it)]
    for compiler in compilers:
        for what, words, wrong, right in PROGRAMS:
            told = said(compiler, right)
            assert not told, (compiler, what, "is right", told)
            if "clang" in compiler or words not in ("requires holding", "still held"):
                told = said(compiler, wrong)
                assert words in told, (compiler, what, told)
    print(f"wrong_cpp: {len(PROGRAMS)} wrong programs are told, by {' and '.join(compilers) or 'no compiler'}")
    if "clang++" not in compilers:
        print("passed over: clang's analysis of locks, since clang++ isn't here")
        sys.exit(os.environ.get("CI") == "true")


main()
