"""gdb shows who holds the mutexes of libww and who waits for them, in a running process or a core file, also if libww is stripped.

    (gdb) ww waits                  who holds what and waits for whom, of each open class, and each cycle of waits
    (gdb) ww waits CLASS or MUTEX   the same of one class, or of those who hold a mutex or wait for it
    (gdb) ww waits -again           the same twice, while the program runs on for a second: a cycle that stays lasts forever
    (gdb) print MUTEX               also a context or a class

gdb loads this file by itself beside libww.so, if `info auto-load python-scripts` names it; else `source FILE` does. It calls nothing
in the program, and reads the library's own table of offsets, which is a section of its own (admit/layout.c). Without gdb it has no
commands: tools/top puts functions of its own in the place of those that ask gdb, and reads a program that runs.
"""
import os
import re
import signal
import struct
import threading
import time

try:
    import gdb
except ImportError:
    gdb = None
Unreadable = gdb.MemoryError if gdb else OSError
MOST = 1 << 16  # so many in a queue at most, since a list of a program that runs may be in a circle when it is read


# ---- what is asked of gdb ----


def memory(at, size):
    return gdb.selected_inferior().read_memory(at, size).tobytes()


def word(at, form="Q"):
    return struct.unpack("<" + form, memory(at, struct.calcsize(form)))[0]


def text(at):
    return gdb.Value(at).cast(gdb.lookup_type("char").pointer()).string(errors="replace") if at else ""


def is_core():
    connection = getattr(gdb.selected_inferior(), "connection", None)
    return bool(connection) and connection.type == "core"


def layouts():
    """The begin and end of each section that has a table of offsets."""
    sections = re.findall(r"0x(\w+) - 0x(\w+) is \.ww_layout", gdb.execute("info files", to_string=True))
    return sorted({(int(begin, 16), int(end, 16)) for begin, end in sections})


def threads_of_program():
    return [Thread(it) for it in sorted(gdb.selected_inferior().threads(), key=lambda it: it.num) if it.is_valid()]


class Thread:
    """A thread of the program, as gdb knows it."""

    def __init__(self, thread):
        self.thread, self.lwp, self.waits = thread, thread.ptid[1] or thread.ptid[0], []
        thread.switch()
        self.stack = int(gdb.newest_frame().read_register("sp")) % 2**64
        self.words = "thread {}{} (LWP {})".format(thread.num, f' "{thread.name}"' if thread.name else "", self.lwp)

    def __str__(self):
        return self.words

    def place(self):
        """Where the program's own code is: the innermost line of it outside libww, and what it calls there; or an empty text."""
        self.thread.switch()
        frames, frame = [], gdb.newest_frame()
        try:
            while frame and len(frames) < 60:
                frames.append(frame)
                frame = frame.older()
        except gdb.error:
            pass
        libraries = [gdb.solib_name(frame.pc()) or "" for frame in frames]
        ours = [k for k, frame in enumerate(frames) if re.match(r"ww_\w+$", frame.name() or "") or "/libww" in libraries[k]]
        frames, libraries = frames[ours[-1] + 1 if ours else 0 :], libraries[ours[-1] + 1 if ours else 0 :]
        called = ""
        for frame, library in zip(frames, libraries):
            line, name = frame.find_sal(), frame.name() or ""
            is_binding = re.match(r"<?ww(_mutex)?::", name)  # of Rust or C++, whose callers' closures it calls
            is_systems = re.search(r"/(libc|libpthread|ld-linux)[-.]", library) or re.match("<?(std|core|alloc)::", name)
            if line.symtab and not is_systems and not is_binding:
                return f"{name}, {os.path.basename(line.symtab.filename)}:{line.line}" + f" in {called}" * bool(called)
            called = "" if is_binding else re.sub(r"^_*(GI_+)?(libc_)?|@.*|<.*>", "", name)
        own = [frame for frame, library in zip(frames, libraries) if not library] or frames
        return f"{own[0].name() or hex(own[0].pc())}, whose line isn't known" if own else ""


# ---- what the library's memory has ----


def table(begin, end):
    """Each offset, size and value by its name in C."""
    return {name.rstrip(b"\0").decode(): value for name, value in struct.iter_unpack("<28sI", memory(begin + 16, end - begin - 16))}


def tables():
    """The tables of each copy of libww in the process, by the address of its list of classes; the debug library has two tables."""
    found = {}
    for begin, end in layouts():
        owners, at = found.get(word(begin), (0, {}))
        found[word(begin)] = (owners or word(begin + 8), at | table(begin, end))
    return found


class Library:
    """A copy of libww in the process, with its table."""

    def __init__(self, opened, owners, at, threads):
        self.open, self.owners, self.at = opened, owners, at
        self.threads, self.by_lwp, self.mine = threads, {it.lwp: it for it in threads}, {}
        for k in range(self.at["MANY_OWN"]):
            self.learn(word(self.owners + 8 * k))
        pool, self.classes = word(self.open), []
        while pool:
            if not word(pool + self.at["ww_pool.gone"], "B"):
                self.classes.append(Class(self, pool))
            pool = word(pool + self.at["ww_pool.next"])

    def learn(self, mine):
        """What a thread has for itself says which one it is; what isn't there any more is no thread's."""
        if mine and mine not in self.mine:
            self.mine[mine] = self.by_lwp.get(word(mine + self.at["ww_mine.lwp"], "I"))
        return self.mine.get(mine)

    def by_stack(self, address):
        """The thread on whose stack that lies: the one that is deepest in it below."""
        below = [it for it in self.threads if it.stack - 128 <= address < it.stack + 2**23]
        return max(below, key=lambda it: it.stack, default=None)


class Class:
    def __init__(self, library, pool):
        self.library, self.pool, self.at = library, pool, library.at
        self.numbers, self.seats = pool + self.at["ww_pool.numbers"], self.of("ww_pool.seats")
        self.struct = self.of("ww_pool.class_")
        self.name = text(word(self.struct + self.at["ww_class.name"])) or hex(self.struct)
        self.is_wait_die = word(self.struct + self.at["ww_class.is_wait_die"], "I")
        self.locks, self.taken = (word(self.numbers + self.at["ww_numbers." + it], "I") for it in ("locks", "taken"))
        self.lies_at, self.held = word(self.numbers + self.at["ww_numbers.lies_at"]), dict(self.owner_words())
        count = word(pool + self.at["ww_pool.threads"] + self.at["ww_seats.count"], "I") + self.of("ww_pool.own_seats", "I")
        size = self.at["sizeof ww_seat"]
        whole, self.used = memory(self.seats, count * size), {}
        self.counts = self.so_far(whole, count)
        for k in range(count):
            if struct.unpack_from("<I", whole, k * size + self.at["ww_seat.busy"])[0] & self.at["BUSY"]:
                self.used[k] = Seat(self, k, whole[k * size : (k + 1) * size])
        for number, (seat, _) in self.held.items():
            if seat in self.used:
                self.used[seat].holds.append(number)
        for seat in self.used.values():
            seat.find_thread()
        self.seekers = [it for of in ("threads", "tasks") for it in self.queue(of)]

    def of(self, field, form="Q"):
        return word(self.pool + self.at[field], form)

    def so_far(self, seats, count):
        """What happened since the class was opened, as ww_class_stats counts it; and as many timestamps as contexts drew, of which several may share one."""
        size, sought = self.at["sizeof ww_seat"], self.at["ww_seats.sought"]
        waits, back_offs = (sum(struct.unpack_from("<Q", seats, k * size + self.at[it])[0] for k in range(count)) for it in ("ww_seat.waits", "ww_seat.back_offs"))
        for_context = sum(word(self.pool + self.at["ww_pool." + it] + sought) for it in ("threads", "tasks"))
        drawn = word(self.of("ww_pool.words") - 8 * self.at["DRAWN_BEFORE"])
        return {"contexts or more": drawn, "waits": waits, "back-offs": back_offs, "waits for a context": for_context, "waits for a permit": self.of("ww_pool.crowd.sought")}

    def owner_words(self):
        """Of each mutex that is held: its number, and the seat and the timestamp in its owner word (crates/ww_word)."""
        words, step = self.of("ww_pool.words"), 1 << 16
        for begin in range(0, 16 * self.locks, step):
            part = memory(words + begin, min(step, 16 * self.locks - begin))
            for k, (it, _) in enumerate(struct.iter_unpack("<QQ", part) if any(part) else ()):
                is_wide = 0xD4 >> it % 8 & 1
                place = 1 + it // 8 % 4096 if is_wide else it // 8 % 32
                if it and place:
                    yield begin // 16 + k, (place - 1, it >> (15 if is_wide else 8))

    def queue(self, of):
        """Those who wait for a context: the thread of each, or None for a task."""
        lines = self.pool + self.at["ww_pool." + of] + self.at["ww_seats.lines"]
        for k in range(self.at["SERVED"]):
            it, count = word(lines + k * self.at["sizeof ww_line"] + self.at["ww_line.first"]), 0
            while it and count < MOST:
                yield self.library.by_stack(it) if of == "threads" else None
                it, count = word(it + self.at["ww_seek.next_"]), count + 1

    def address(self, number):
        """Where the mutex of this number is; 0: nowhere."""
        return word(self.lies_at + 8 * number)

    def reader(self, number):
        """The seat of a reader whose slot has this number, or None."""
        mutex = self.address(number)
        try:
            is_slot = mutex and word(mutex + self.at["ww_mutex.waiters"], "I") & self.at["IS_SLOT"]
            return self.used.get(word(mutex + self.at["ww_slot.seat"], "I")) if is_slot else None
        except Unreadable:
            return None

    def said(self, number):
        """What the program calls the mutex (ww_mutex_name), of which the debug library alone knows; a number that was put back has no name."""
        if "ww_pool.debug" not in self.at:
            return ""
        it = word(self.of("ww_pool.debug") + self.at["debug.mutexes"]) + self.at["sizeof holding"] * number
        puts = word(word(self.numbers + self.at["ww_numbers.puts"]) + 4 * number, "I")
        return text(word(it + self.at["holding.name"])) if word(it + self.at["holding.puts"], "I") == puts else ""

    def mutex(self, number):
        if reader := self.reader(number):
            return f"what {reader} reads"
        at, said = self.address(number), self.said(number)
        name = name_of(at)
        return f"{name}, " * bool(name) + f"mutex {number}" + f' "{said}"' * bool(said) + f" at {at:#x}" * bool(at)

    def holder(self, number):
        return self.used.get(self.held.get(number, (None, 0))[0])


class Seat:
    """What a context, or a lock without one, has of a class while it is in use."""

    def __init__(self, of, number, words):
        self.of, self.number, self.at, self.words, self.holds = of, number, of.seats + number * len(words), words, []
        desk, self.awaits = self.get("ww_seat.handle"), self.get("ww_seat.awaits", "I") - 1
        self.stamp = word(desk + of.at["STAMP_AT"])
        token = self.get("ww_seat.token", "I")
        self.sleeps = token >= of.at["ARMED"]
        waker = struct.unpack_from("<QQQ", words, of.at["ww_seat.waker"])
        self.waker = waker if self.sleeps else None
        self.is_task = self.sleeps and waker[2] != self.at + of.at["ww_seat.token"]
        self.sleeper = of.library.learn(waker[1]) if self.sleeps and not self.is_task else None
        self.since = word(waker[1] + of.at["ww_mine.since"]) if self.sleeper else 0
        self.wait = (self.at, token)  # which has the number of each sleep

    def get(self, field, form="Q"):
        return struct.unpack_from("<" + form, self.words, self.of.at[field])[0]

    def find_thread(self):
        """By who sleeps there; by whose own it is; by who locked without a context; or, which may be wrong, where its context lies."""
        library, at = self.of.library, self.of.at
        own = (self.at - self.of.of("ww_pool.before_own")) // at["sizeof ww_seat"]
        self.is_guess, self.thread, self.who = False, self.sleeper, f"an unknown thread, which has context {self.number}"
        if self.get("ww_seat.ticket"):
            self.thread, self.who = None, f"suspended context {self.number}"
        elif not self.thread and not self.is_task and 0 < own <= self.of.of("ww_pool.own_seats", "I"):
            self.thread, self.who = library.mine.get(word(library.owners + 8 * (own - 1))), f"a thread that has ended, which has context {self.number}"
        elif not self.thread and not self.is_task and not self.stamp:
            number = self.get("ww_seat.user")
            self.thread = next((it for mine, it in library.mine.items() if it and word(mine + at["ww_mine.thread"]) == number), None)
        elif not self.thread and not self.is_task:
            contexts = [word(it + at["ww_mutex.ctx"]) for it in map(self.of.address, self.holds) if it]
            self.is_guess = True
            self.thread = next(filter(None, map(library.by_stack, contexts)), None)

    def reads(self):
        slot = self.get("ww_seat.slot")
        if not slot or not word(slot + self.of.at["ww_mutex.ctx"]):
            return []
        marks = memory(slot + self.of.at["ww_slot.marks"], (self.of.locks + 63) // 64 * 8)
        return [it for it in range(self.of.locks) if marks[it // 8] >> it % 8 & 1] if any(marks) else []

    def key(self):
        return self.thread or self

    def __str__(self):
        if self.is_task:
            return f"task {self.waker[2]:#x}" + (f" (waker {name_of(self.waker[0])})" if name_of(self.waker[0]) else "")
        return str(self.thread) + " probably" * self.is_guess if self.thread else self.who

    def begun(self):
        return f"timestamp {self.stamp}" if self.stamp else "without a context"


def inside(kind, offset):
    """The member of a variable of this type at an offset, as C names it."""
    kind = kind.strip_typedefs()
    if kind.code == gdb.TYPE_CODE_ARRAY and kind.target().sizeof:
        return f"[{offset // kind.target().sizeof}]{inside(kind.target(), offset % kind.target().sizeof)}"
    if kind.code == gdb.TYPE_CODE_STRUCT and kind.tag not in ("ww_mutex", "ww_shared_mutex"):
        for field in kind.fields():
            if hasattr(field, "bitpos") and field.name and 0 <= offset - field.bitpos // 8 < field.type.sizeof:
                return f".{field.name}{inside(field.type, offset - field.bitpos // 8)}"
    return ""


def name_of(at):
    """What the program calls what lies at this address, or an empty text."""
    said = re.match(r"(\S+)(?: \+ (\d+))? in section", gdb.execute(f"info symbol {at}", to_string=True) if at else "")
    if not said:
        return ""
    try:
        symbol = gdb.lookup_global_symbol(said[1]) or gdb.lookup_static_symbol(said[1])
        return said[1] + (inside(symbol.type, int(said[2] or 0)) if symbol and symbol.type else f"+{said[2]}" if said[2] else "")
    except gdb.error:
        return said[1]


# ---- a look ----


class Look:
    """All open classes, as the stopped program's memory has them."""

    now = None

    def __init__(self):
        threads = threads_of_program()
        libraries = [Library(opened, *of, threads) for opened, of in tables().items()]
        self.classes, self.is_there = [it for library in libraries for it in library.classes], bool(libraries)
        self.time = None if is_core() else time.clock_gettime_ns(time.CLOCK_MONOTONIC)

    def waits(self):
        """Of each thread or task that sleeps for a mutex: by which seat, and the seat that holds the mutex."""
        return {it.key(): (it, c.holder(it.awaits)) for c in self.classes for it in c.used.values() if it.awaits >= 0 and it.sleeps and c.holder(it.awaits)}

    def cycles(self):
        waits, seen = self.waits(), set()
        for begin in waits:
            path, at = [], begin
            while at in waits and at not in path and at not in seen:
                path.append(at)
                at = waits[at][1].key()
            seen |= {*path}
            if at in path:
                yield [waits[it] for it in path[path.index(at) :]]

    def ago(self, since):
        if not since:
            return ""
        if self.time:
            return f" {max(self.time - since, 0) / 1e9:.1f} s"
        newest = max(seat.since for it in self.classes for seat in it.used.values())
        return f" {(newest - since) / 1e9:.1f} s longer than the newest wait,"  # a core file doesn't say when it was written


def why_nobody_backs_off(cycle):
    """Why no class detects this cycle, or an empty text."""
    if len({seat.of.pool for seat, _ in cycle}) > 1:
        return "its mutexes are of several classes"
    if not all(it.stamp for pair in cycle for it in pair):
        return "a lock without a context (NULL) is in it"
    if {seat.at for seat, _ in cycle} != {holder.at for _, holder in cycle}:
        return "a thread in it holds by one context and waits by another one"
    return ""


def lines_of_cycle(cycle, is_core, is_old):
    yield f"CYCLE of {len(cycle)}:"
    for seat, holder in cycle:
        yield f"  {seat} waits for {seat.of.mutex(seat.awaits)}, which {holder} holds"
    if why := why_nobody_backs_off(cycle):
        lasts = "a core file doesn't show whether it lasts" if is_core else "`ww waits -again` shows whether it lasts"
        forever = "a second later these were the same waits, so it lasts forever, unless a wait has a time limit or is cancelled"
        yield f"  no class detects it, since {why}; {forever if is_old else lasts}"
        return
    wrong = {True: [seat for seat, holder in cycle if seat.stamp > holder.stamp], False: [holder for seat, holder in cycle if seat.stamp < holder.stamp]}
    yield from (f"  {it} backs off as soon as it runs" for it in wrong[bool(cycle[0][0].of.is_wait_die)])


def some(count, what):
    """So many of these, as `what` says it of several."""
    return f"{count} {what if count != 1 else re.sub(r'(?<=x)es|s', '', what)}"


def head_of(it):
    waits = some(sum(seat.awaits >= 0 for seat in it.used.values()), "waits")
    return f'{some(it.taken, "mutexes")}, {waits}'


def print_class(look, it, only):
    print(f'class "{it.name}" ({"Wait-Die" if it.is_wait_die else "Wound-Wait"}): {head_of(it)}')
    if it.seekers:
        whose = ", ".join(sorted({str(who or "a task") for who in it.seekers})[:4])
        print(f"  {some(len(it.seekers), 'waits')} for a context, since all are in use: {whose}")
    by_thread, alike = {}, {}
    for seat in it.used.values():
        by_thread.setdefault(seat.key(), []).append(seat)
    for key, seats in sorted(by_thread.items(), key=lambda at: at[0].thread.num if isinstance(at[0], Thread) else 1 << 30):
        place = key.place() if isinstance(key, Thread) else ""
        place = place and f" at {place}"
        lines = [f"    holds {it.mutex(n)}" for seat in seats for n in seat.holds if not it.reader(n)]
        lines += [f"    reads {it.mutex(n)}" for seat in seats for n in seat.reads()]
        for seat in (seat for seat in seats if seat.awaits >= 0):
            holder = it.holder(seat.awaits)
            whose = "" if it.reader(seat.awaits) else f", which {holder} holds" if holder else ", which nobody holds"
            lines.append(f"    waits{look.ago(seat.since)} for {it.mutex(seat.awaits)}{whose}")
        lines = lines or ["    holds nothing, by a context that hasn't ended"]
        what = "threads" if isinstance(key, Thread) else "tasks" if key.is_task else "contexts"
        kind = (what, place, re.sub(r"waits .*? s( longer than the newest wait,)?", "waits", lines[0])) if len(lines) == 1 else key
        alike[kind] = alike.get(kind, 0) + 1
        if only is not None and not any(only in (*seat.holds, *seat.reads(), seat.awaits) for seat in seats) or alike[kind] > 3:
            continue
        print(f"  {seats[0]}{place}, {', also '.join(sorted({seat.begun() for seat in seats}))}")
        print("\n".join(lines))
    for kind, count in alike.items():
        if count > 3:
            print(f"  and {some(count - 3, 'more ' + kind[0])}{kind[1]}, {'each of ' * (count > 4)}which\n{kind[2].rstrip()}")


# ---- commands ----

_look = None


def look():
    """The memory is read once at each stop."""
    global _look
    if not _look:
        thread, frame = gdb.selected_thread(), gdb.selected_frame() if gdb.selected_thread() else None
        try:
            _look = Look()
        finally:
            select(thread, frame)
    return _look


def select(thread, frame):
    if thread and thread.is_valid():
        thread.switch()
    if frame and frame.is_valid():
        frame.select()


def forget(*_):
    global _look
    _look = None


def run_on(seconds):
    """The program runs on, until it gets a signal that it doesn't see."""
    threading.Timer(seconds, os.kill, (gdb.selected_inferior().pid, signal.SIGINT)).start()
    gdb.execute("continue", to_string=True)


class Command(gdb.Command if gdb else object):
    """libww: ww waits shows who holds mutexes, and who waits for them."""

    def __init__(self):
        super().__init__("ww", gdb.COMMAND_STATUS, prefix=True)


class Waits(gdb.Command if gdb else object):
    """ww waits [-again] [CLASS or MUTEX]: who holds mutexes of libww, and who waits for them since when; -again looks twice."""

    def __init__(self):
        super().__init__("ww waits", gdb.COMMAND_STATUS)

    def invoke(self, words, _):
        words, old = words.split(), set()
        if not gdb.selected_inferior().threads():
            raise gdb.GdbError("there is neither a process nor a core file")
        if words[:1] == ["-again"]:
            words = words[1:]
            if look().time is None:
                raise gdb.GdbError("a core file doesn't run on")
            old = {seat.wait for cycle in look().cycles() for seat, _ in cycle}
            run_on(1)
        now, thread, frame = look(), gdb.selected_thread(), gdb.selected_frame()
        if not now.is_there:
            raise gdb.GdbError("no libww that says where things are was found in this program")
        of = gdb.parse_and_eval(" ".join(words)) if words else None
        while of is not None and of.type.strip_typedefs().code == gdb.TYPE_CODE_PTR:
            of = of.dereference()
        try:
            for it in now.classes:
                if of is None or int(of.address) == it.struct or belongs(of, it):
                    print_class(now, it, None if of is None or int(of.address) == it.struct else number_of(it, of))
            for cycle in now.cycles() if of is None else ():
                print("\n".join(lines_of_cycle(cycle, now.time is None, {seat.wait for seat, _ in cycle} <= old)))
        finally:
            select(thread, frame)


def belongs(value, it):
    """Whether a mutex, or what has one first, is of this class."""
    return word(int(value.address) + it.at["ww_mutex.pool"]) == it.pool


def number_of(it, value):
    return word(int(value.address) + it.at["ww_mutex.number"], "I")


def about_mutex(value, it):
    holder, number = it.holder(number_of(it, value)), number_of(it, value)
    many = sum(seat.awaits == number for seat in it.used.values())
    return f'mutex {number} of class "{it.name}", {f"held by {holder}" if holder else "free"}' + (f", {some(many, 'waits')}" if many else "")


def about_context(value, it):
    seat = next((seat for seat in it.used.values() if seat.at == int(value["own"])), None)
    waits = f", waits for {it.mutex(seat.awaits)}" if seat and seat.awaits >= 0 else ""
    return f'context of class "{it.name}", {seat.begun()}, holds {int(value["acquired"])}{waits}' if seat else "context that has ended"


def about_class(value, it):
    return f'class "{it.name}": {head_of(it)}; in all ' + ", ".join(some(count, what) for what, count in it.counts.items())


ABOUT = {"ww_mutex": about_mutex, "ww_acquire_ctx": about_context, "ww_class": about_class}


class Printer:
    def __init__(self, value, about):
        self.value, self.about = value, about

    def to_string(self):
        for it in look().classes:
            is_it = {about_mutex: belongs, about_context: lambda v, c: 0 <= int(v["own"]) - c.seats < 2**20, about_class: lambda v, c: int(v.address) == c.struct}
            if is_it[self.about](self.value, it):
                return self.about(self.value, it)
        return f"{self.value.type.strip_typedefs().tag} that isn't in use"


def printer_of(value):
    kind = value.type.strip_typedefs()
    return Printer(value, ABOUT[kind.tag]) if kind.code == gdb.TYPE_CODE_STRUCT and kind.tag in ABOUT else None


if gdb:
    Command()
    Waits()
    gdb.pretty_printers[:] = [it for it in gdb.pretty_printers if getattr(it, "__name__", "") != "printer_of"] + [printer_of]
    for changes in (gdb.events.cont, gdb.events.exited, gdb.events.new_objfile, gdb.events.memory_changed, gdb.events.stop):
        changes.connect(forget)
