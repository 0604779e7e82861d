"""What bench/c and bench/score share: programs, built of a source with `engines.hpp`, and tables of their goes."""
import os
import statistics
import subprocess
import sys
from typing import NamedTuple

TOP = os.path.dirname(os.path.dirname(os.path.abspath(__file__)))
LIBRARY = os.path.join(TOP, "c/out/libww.a")


def headers_of(library):
    """Those beside a library that stands in c/out, also as they lay in an earlier version."""
    folder = os.path.dirname(os.path.dirname(library))
    inside = os.path.join(folder, "include")
    return inside if os.path.exists(os.path.join(inside, "ww_mutex.h")) else folder
KINDS = ("wound-wait", "wait-die")
ONE = "one mutex"
PEER = "peer"
# what the columns of mutexes are called
MUTEXES = {"sorted": "`std::mutex`, sorted", "scoped_lock": "`std::scoped_lock`"}


class Engine(NamedTuple):
    """A program, and what its words call the engine."""

    program: str
    name: str


def told_by(words, seconds=600, apart=False):
    """What a program prints, which ends within so many seconds; apart: in a session of its own."""
    me, go = os.path.basename(sys.argv[0]), " ".join(words)
    try:
        done = subprocess.run(words, stdout=subprocess.PIPE, text=True, check=False, timeout=seconds, start_new_session=apart)
    except subprocess.TimeoutExpired:
        sys.exit(f"{me}: it hasn't ended after {seconds} s: {go}")
    if done.returncode != 0:
        sys.exit(f"{me}: status {done.returncode}: {go}")
    return done.stdout


def build(source, program, peer=None, library=LIBRARY, headers=None):
    """A program, of a source of bench/ over the library, whose headers lie one folder above it, and the peer in a folder."""
    folders = [headers or headers_of(library), *([peer] if peer else [])]
    flags = ["-std=c++17", "-O2", "-Wall", "-Wextra", "-Wpedantic", *[f"-I{it}" for it in folders]]
    libraries = [library, os.path.join(peer, "libpeer.a")] if peer else [library]
    subprocess.run(["c++", *flags, os.path.join(TOP, "bench", source), *libraries, "-pthread", "-o", program], check=True)
    return program


class Built:
    """What is measured, a source of bench/ built into a folder: one program for each peer, and one without."""

    def __init__(self, source, folder, peers):
        if not os.path.exists(LIBRARY):
            sys.exit(f"{os.path.basename(sys.argv[0])}: first ./build c")
        self.peers = []
        for number, peer in enumerate(peers):
            program = build(source, os.path.join(folder, f"peer{number}"), peer)
            self.peers.append((told_by([program, PEER]).strip(), program))
        self.mine = build(source, os.path.join(folder, "mine"))

    def in_both(self, name, program=None):
        return [Engine(program or self.mine, f"{name} {kind}") for kind in KINDS]

    def beside(self, *names):
        """Columns of the peers, in both kinds, and of these engines."""
        peers = {title: self.in_both(PEER, program) for title, program in self.peers}
        return peers | {MUTEXES[name]: self.alone(name) for name in names}

    def alone(self, name):
        return [Engine(self.mine, name)]


def write(titles, lines):
    print("| " + " | ".join(titles) + " |")
    print("|---" * len(titles) + "|")
    for cells in lines:
        print("| " + " | ".join(cells) + " |")
    print()


class Table:
    """Loads, which are rows, and engines, which are columns; what each go of them told."""

    def __init__(self, loads, columns, programs):
        self.loads, self.columns = loads, columns
        self.go = programs.go
        self.one = Engine(programs.mine, ONE)
        self.told = {}

    def rows(self):
        """Each engine of each load."""
        return [(engine, load) for load in self.loads for engines in self.columns.values() for engine in engines]

    def measure(self, goes, seconds, **how):
        self.told = goes.of(self.go, {row: (*row, seconds) for row in self.rows()}, **how)

    def ratio(self, engine, load):
        """Of the rates of two goes of one round, in the middle."""
        pairs = zip(self.told[engine, load], self.told[self.one, load])
        return statistics.median(it.rate / one.rate for it, one in pairs)

    def middle(self, field, engine, load):
        return statistics.median(getattr(it, field) for it in self.told[engine, load])

    def cell(self, engines, told):
        """What is told of both kinds, or of the one engine."""
        return "/".join(told(engine) for engine in engines)
