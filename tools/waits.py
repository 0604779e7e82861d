"""Which threads wait for which mutexes, as a program, gdb or ww_run wrote it; and that as text."""
import re
import textwrap

WIDTH = 78
LEGEND = "(A ── M ──► B: A waits for M, which B holds; ══►: a cycle; [A] backs off)"
# Of a schedule.
LOCK = re.compile(r"lock (\S+) (?:-|([^ /]+)/\d+(h?)) :((?: [^ /]+/\d+\+?)*)")
SEAT = re.compile(r"seat (\S+) (\d+) (\d+)")
# Of ww_class_print, to which the debug library adds lines.
WHO = r"((?:unknown )?thread \d+|the user of context \d+)"
USED = re.compile(r'class "(.*)": .* in use, .*')
MUTEX = r'mutex (\d+(?: ".*?")?)(?: at 0x\w+)?'  # by its number, and its name, if it has one
WAIT = rf"waits(?: ([\d.]+ s))?(?: at (.*))? for {MUTEX}"
USES = re.compile(WHO + rf": (?:(context \d+)|a lock (without a context)(?:, or .*)?)(?: began at (.*?))?(?:; (suspended(?: at .*)?)|; {WAIT}(?:, which {WHO} holds)?)?")
HELD = re.compile(rf"{MUTEX} is held by {WHO}(?: since (.*))?")
REPORTED = re.compile(rf'{WHO} {WAIT} of class "(.*)", which {WHO} holds')
# Of gdb.
OF_GDB = re.compile(r'class "(.*)" \((?:Wound-Wait|Wait-Die)\): .*')
THREAD = re.compile(r"  ((?:thread|task|a thread|an unknown thread|suspended context)\b.*?)(?: at (\S+, .*?))?((?:, (?:also )?(?:timestamp \d+|without a context))+)")
ALSO = r'(?:, mutex \d+(?: ".*")? at \w+)?'
HOLDS = re.compile(rf"    (holds|reads) (.*?){ALSO}")
WAITS = re.compile(rf"    waits (?:(\S+ s(?: longer than the newest wait)?),? )?for (?:(what .*) reads|(.*?){ALSO}, which (?:nobody|(.*)) holds)")
MORE = re.compile(r"  (and \d+ more .*), (?:each of )?which")
BACKS_OFF = re.compile(r"  (.*) backs off as soon as it runs")


def waits_since(seconds, place):
    return "waits" + (f" {seconds}" if seconds else "") + (f" at {place}" if place else "")


def cycle_of(awaits):
    """The first that wait for one another, each for the next one, of those that wait for somebody."""
    for first in awaits:
        cycle = [first]
        while (it := awaits.get(cycle[-1])) not in (None, *cycle):
            cycle.append(it)
        if it == first:
            return cycle
    return []


class Waits:
    """What the lines say: of each thread what is known of it (`about`) and what it holds, and of each wait who, what, whose, and where."""

    def __init__(self, lines):
        self.lines, self.about, self.holds, self.readers, self.cycle, self.victims = lines, {}, {}, {}, [], []
        self.places, self.since, self.waits, self.handed, self.more = {}, {}, {}, set(), [it[1] for it in map(MORE.fullmatch, lines) if it]
        self.heads = [it for it in lines if USED.fullmatch(it) or OF_GDB.fullmatch(it)]
        self.is_cycle_known = any(map(REPORTED.fullmatch, lines)) or any(it.startswith("CYCLE of ") for it in lines)
        if any(map(SEAT.fullmatch, lines)):
            self.read_schedule()
        elif any(map(OF_GDB.fullmatch, lines)):
            self.read_gdb()
        else:
            self.read_library()

    def add(self, who, *facts):
        known = self.about.setdefault(who, [])
        known += [it for it in facts if it and it not in known]

    def holder(self, mutex):
        return next((who for who, held in self.holds.items() if mutex in held), None)

    def arrows(self):
        """Each wait. One that waits for what it holds has just got that, unless a cycle is reported."""
        holders = {it: self.readers.get(it) or self.holder(it) for it in self.waits.values()}
        return [(who, it, holders[it]) for who, it in self.waits.items() if holders[it] != who or self.is_cycle_known]

    def find_cycle(self):
        self.cycle = cycle_of({who: holder for who, _, holder in self.arrows() if holder})

    def read_schedule(self):
        known = {found[1]: found.groups()[1:] for found in map(SEAT.fullmatch, self.lines) if found}
        names = {it: f"thread {it}" for it in known}
        for found in filter(None, map(LOCK.fullmatch, self.lines)):
            mutex, owner, waiters = f"mutex {found[1]}", found[2], found[4].split()
            if owner is not None:
                self.holds.setdefault(names[owner], []).append(mutex)
                self.handed |= {mutex} if found[3] else set()
            self.waits.update({names[seat]: mutex for seat in (it.split("/")[0] for it in waiters) if seat != owner})
        for seat, (stamp, sign) in known.items():
            if stamp != "0":
                self.add(names[seat], f"timestamp {stamp}", sign != "0" and f"wounded by timestamp {sign}")
            elif names[seat] in self.holds or names[seat] in self.waits:
                self.add(names[seat], "no context")
        for word, *rest in (line.split(" ") for line in self.lines):
            if word == "ring":
                self.cycle = [names[it] for it in rest if it != "-"]
            elif word == "condemned":
                self.victims = [names[it] for it in rest if it != "-"]
        if not {*zip(self.cycle, [*self.cycle[1:], *self.cycle[:1]])} <= {(a, b) for a, _, b in self.arrows()}:
            raise ValueError("a cycle of which an arrow isn't there")

    def read_library(self):
        of, began = "", {}
        several = len({*self.heads}) != 1
        for line in self.lines:
            if found := USED.fullmatch(line):
                of = f" of {found[1]}" if several else ""
            elif found := USES.fullmatch(line):
                who, context, none, place, suspended, seconds, waits, mutex, _ = found.groups()
                self.add(who, (context + of if context else none) + (f" since {place}" if place else ""), suspended)
                began[who] = max(began.get(who, 0), int(context.split()[1]) if context else 0)
                if mutex:
                    self.waits[who], self.places[who] = f"mutex {mutex}{of}", waits_since(seconds, waits)
            elif found := HELD.fullmatch(line):
                self.add(found[2])
                self.holds.setdefault(found[2], []).append(f"mutex {found[1]}{of}")
                self.since[f"mutex {found[1]}{of}"] = f" since {found[3]}" if found[3] else ""
            elif found := REPORTED.fullmatch(line):
                who, seconds, place, mutex, name, holder = found.groups()
                self.add(holder)
                self.add(who)
                self.waits[who], self.places[who] = f"mutex {mutex} of {name}", waits_since(seconds, place)
                self.readers[self.waits[who]] = holder
        if not (self.about or self.heads):
            raise ValueError("nothing is known")
        self.find_cycle()
        if self.cycle and not several and all(began.get(it) for it in self.cycle):
            self.victims = [max(self.cycle, key=began.get)]

    def read_gdb(self):
        who = of = None
        for line in self.lines:
            if found := OF_GDB.fullmatch(line):
                of = f" of {found[1]}" if len({*self.heads}) > 1 else ""
            elif found := THREAD.fullmatch(line):
                who = found[1]
                self.add(who, found[2] and f"at {found[2]}", *(it + of if it.startswith("timestamp") else it for it in found[3][2:].split(", ")))
            elif MORE.fullmatch(line):
                who = None
            elif who and (found := HOLDS.fullmatch(line)):
                self.add(who, found[1] == "reads" and f"reads {found[2]}")
                if found[1] == "holds":
                    self.holds.setdefault(who, []).append(found[2])
            elif who and (found := WAITS.fullmatch(line)):
                self.places[who] = found[1] and f"waits {found[1]}"
                self.waits[who] = found[2] and f"{found[2]} reads" or found[3]
                self.readers.update({self.waits[who]: found[2] and found[2].removeprefix("what ") or found[4]})
            elif found := BACKS_OFF.fullmatch(line):
                self.victims.append(found[1])
        self.find_cycle()

    def facts(self, who):
        """What is known of a thread, and what it holds."""
        holds = [f"{'was handed' if it in self.handed else 'holds'} {it}{self.since.get(it, '')}" for it in self.holds.get(who, [])]
        return [it for it in (*self.about[who], *holds, self.places.get(who)) if it] or ["holds nothing"]

    def in_cycle(self, arrow):
        return arrow[::2] in [*zip(self.cycle, [*self.cycle[1:], *self.cycle[:1]])]


def text_of(waits):
    def named(who):
        return "free" if who is None else f"[{who}]" if who in waits.victims else who

    arrows = waits.arrows()
    yield from waits.heads
    if waits.cycle:
        mutexes = {arrow[0]: arrow[1] for arrow in arrows if waits.in_cycle(arrow)}
        steps = [f" ══ {mutexes[who]} ══► {named(of)}" for who, of in zip(waits.cycle, [*waits.cycle[1:], *waits.cycle[:1]])]
        whole = named(waits.cycle[0]) + "".join(steps)
        yield from [whole] if len(whole) <= WIDTH else [named(waits.cycle[0]), *(f"  {it.strip()}" for it in steps)]
    yield from (f"{named(who)} ── {mutex} ──► {named(of)}" for who, mutex, of in arrows if not waits.in_cycle((who, mutex, of)))
    if not arrows:
        yield "nobody waits"
    for who in waits.about:
        yield from textwrap.wrap(f"{named(who)}: {', '.join(waits.facts(who))}", WIDTH, subsequent_indent="    ", break_long_words=False, break_on_hyphens=False)
    yield from waits.more
    yield from [LEGEND] * bool(arrows)
