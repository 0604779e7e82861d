#!/usr/bin/env python3
"""Whether what orders the accesses of the C sources that threads share is enough: memory_order.py [FOLDER]

It reads each access by __atomic_* in the sources of FOLDER, c/ by itself, and holds it against the table below, which has
them by field and function: so an order can't change unseen, nor an access come or go, nor two change places. A second table
says what covers the plain accesses of what threads share: a lock, or that one thread alone writes. Who changes a table changes
the programs that have the field. And the table at the head of class.h has each field that several threads write, and names for
it a program of the search, or a test, that there is; and shake.h has a pause before each kind of access. Then it draws all executions of small programs (which write each read reads, in which order
the writes of each place come), and asks of each whether a memory model allows it: C's, as RC11 repairs it, with the release
sequences of C++20, which tells data races too; and AArch64's, the axiomatic one, over the code that gcc and clang make, with
load and store exclusive and with single instructions (LSE). First come programs whose answers are well known, and such that
have to be found wrong. The steps of the proved library are read-modify-writes of one sequentially consistent order here.
"""
import glob
import itertools
import os
import re
import sys

# ---- programs ----
# An instruction: ("W", place, value, order), ("R", register, place, order), ("X", register, place, function, order): a
# read-modify-write that puts function(old), or if that is None only reads; ("F", order); ("IF", register, value, [..]).
# Orders: na (plain), rlx, acq, rel, ar, sc. Places begin as 0, or as the program says.


class Event:
    def __init__(self, thread, kind, place=None, order="na", read=None, write=None, ctrl=(), register=None):
        self.thread, self.kind, self.place, self.order = thread, kind, place, order
        self.read, self.write, self.ctrl, self.register = read, write, ctrl, register

    @property
    def reads(self):
        return self.kind in ("R", "X")

    @property
    def writes(self):
        return self.kind in ("W", "I") or (self.kind == "X" and self.write is not None)

    def __repr__(self):
        return f"{self.thread}:{self.kind}{self.order} {self.place} {self.read}->{self.write}"


def values_of(program, begins):
    """What each place may ever have: a fixed point, over few values."""
    may = {}

    def add(place, value):
        seen = may.setdefault(place, {begins.get(place, 0)})
        if value is None or value in seen:
            return False
        seen.add(value)
        return True

    def sweep(code):
        grew = False
        for it in code:
            if it[0] == "W":
                grew |= add(it[1], it[2])
            elif it[0] == "R":
                add(it[2], None)
            elif it[0] == "X":
                add(it[2], None)
                for old in list(may[it[2]]):
                    if len(may[it[2]]) < 8:
                        grew |= add(it[2], it[3](old))
            elif it[0] == "IF":
                grew |= sweep(it[3])
        return grew

    while any([sweep(code) for code in program]):
        pass
    return may


def traces(thread, code, may):
    """All that a thread may do by itself, whatever its reads read."""

    def go(code, registers, events, ctrl):
        if not code:
            yield events, registers
            return
        it, rest = code[0], code[1:]
        if it[0] == "W":
            yield from go(rest, registers, events + [Event(thread, "W", it[1], it[3], write=it[2], ctrl=ctrl)], ctrl)
        elif it[0] in ("R", "X"):
            for value in sorted(may[it[2]]):
                put = it[3](value) if it[0] == "X" else None
                # One that puts nothing is a load by the order of a failed compare-exchange.
                kind = "X" if put is not None else "R"
                order = it[4] if it[0] == "X" else it[3]
                event = Event(thread, kind, it[2], order, read=value, write=put, ctrl=ctrl, register=it[1])
                yield from go(rest, {**registers, it[1]: value}, events + [event], ctrl)
        elif it[0] == "F":
            yield from go(rest, registers, events + [Event(thread, "F", order=it[1], ctrl=ctrl)], ctrl)
        elif it[0] == "IF":
            inside = ctrl + (it[1],)
            if registers[it[1]] == it[2]:
                yield from go(it[3] + rest, registers, events, inside)
            else:
                yield from go(rest, registers, events, inside)

    yield from go(code, {}, [], ())


# ---- relations, as sets of pairs of numbers ----


def compose(a, b):
    by = {}
    for x, y in b:
        by.setdefault(x, []).append(y)
    return {(x, z) for x, y in a for z in by.get(y, ())}


def closure(a):
    a = set(a)
    while True:
        more = compose(a, a) - a
        if not more:
            return a
        a |= more


def cyclic(a):
    return any(x == y for x, y in closure(a))


def executions(program, begins):
    may = values_of(program, begins)
    for chosen in itertools.product(*[list(traces(k, code, may)) for k, code in enumerate(program)]):
        events = [Event(-1, "I", place, "na", write=begins.get(place, 0)) for place in sorted(may)]
        sb = set()
        for done, _ in chosen:
            first = len(events)
            events += done
            sb |= {(first + i, first + j) for i in range(len(done)) for j in range(i + 1, len(done))}
        inits = [k for k, e in enumerate(events) if e.kind == "I"]
        sb |= {(i, k) for i in inits for k in range(len(inits), len(events))}
        readers = [k for k, e in enumerate(events) if e.reads]
        sources = [
            [w for w, e in enumerate(events) if e.writes and e.place == events[r].place and e.write == events[r].read and w != r]
            for r in readers
        ]
        writers = {}
        for k, e in enumerate(events):
            if e.writes and e.kind != "I":
                writers.setdefault(e.place, []).append(k)
        init_of = {events[i].place: i for i in inits}
        for picked in itertools.product(*sources):
            rf = set(zip(picked, readers))
            for orders in itertools.product(*[list(itertools.permutations(ws)) for ws in writers.values()]):
                mo, last, good = set(), {}, True
                for place, order in zip(writers, orders):
                    line = [init_of[place], *order]
                    mo |= {(line[i], line[j]) for i in range(len(line)) for j in range(i + 1, len(line))}
                    last[place] = events[line[-1]].write
                    # A read-modify-write comes just behind what it reads.
                    for w, r in rf:
                        if events[r].kind == "X" and events[r].place == place and line.index(r) != line.index(w) + 1:
                            good = False
                if good:
                    final = {place: last.get(place, begins.get(place, 0)) for place in may}
                    yield events, sb, rf, mo, [registers for _, registers in chosen], final


def rb_of(rf, mo):
    return {(r, w) for v, r in rf for x, w in mo if x == v and w != r}


# ---- C ----

ACQUIRES, RELEASES = ("acq", "ar", "sc"), ("rel", "ar", "sc")


def c_model(events, sb, rf, mo):
    """None: not allowed; else whether there is a data race."""
    n = range(len(events))
    rb = rb_of(rf, mo)
    eco = closure(rf | mo | rb)
    rmw = {k for k in n if events[k].kind == "X"}
    # Release sequences: a write, and the read-modify-writes that read from it, one from the other.
    rs = {(k, k) for k in n if events[k].writes and events[k].order != "na"}
    step = {(w, r) for w, r in rf if r in rmw}
    rs |= compose(rs, closure(step))
    fences = {k for k in n if events[k].kind == "F"}
    before = {(k, k) for k in n if events[k].writes and events[k].order in RELEASES}
    before |= {(f, k) for f, k in sb if f in fences and events[f].order in RELEASES and events[k].writes}
    after = {(k, k) for k in n if events[k].reads and events[k].order in ACQUIRES}
    after |= {(k, f) for k, f in sb if f in fences and events[f].order in ACQUIRES and events[k].reads}
    atomic_reads = {(k, k) for k in n if events[k].reads and events[k].order != "na"}
    sw = compose(compose(compose(compose(before, rs), rf), atomic_reads), after)
    hb = closure(sb | sw)
    if any(x == y for x, y in hb) or any((y, x) in eco for x, y in hb) or any(x == y for x, y in eco):
        return None
    if cyclic(sb | rf):
        return None  # out of thin air
    same = {(x, y) for x in n for y in n if events[x].place is not None and events[x].place == events[y].place}
    other = {(x, y) for x, y in sb if (x, y) not in same}
    scb = sb | compose(compose(other, hb), other) | {p for p in hb if p in same} | mo | rb
    sc = {(k, k) for k in n if events[k].order == "sc" and events[k].kind != "I"}
    sc_fences = {(k, k) for k in fences if events[k].order == "sc"}
    left = sc | sc_fences | compose(sc_fences, hb)
    right = sc | sc_fences | compose(hb, sc_fences)
    psc = compose(compose(left, scb), right)
    psc |= compose(compose(sc_fences, hb | compose(compose(hb, eco), hb)), sc_fences)
    if cyclic(psc):
        return None
    for x in n:
        for y in n:
            ex, ey = events[x], events[y]
            if (x, y) in same and x < y and (ex.writes or ey.writes) and "na" in (ex.order, ey.order):
                if ex.thread != ey.thread and -1 not in (ex.thread, ey.thread) and (x, y) not in hb and (y, x) not in hb:
                    return True
    return False


# ---- AArch64 ----


def arm_model(events, sb, rf, mo, lse):
    """Whether it is allowed. A read-modify-write is a read and a write here."""
    at, nodes = {}, []

    def node(k, kind, acquires=False, releases=False):
        nodes.append((k, kind, acquires, releases))
        return len(nodes) - 1

    for k, e in enumerate(events):
        if e.kind == "X":
            at[k] = (node(k, "R", e.order in ACQUIRES), node(k, "W", False, e.order in RELEASES))
        elif e.kind == "R":
            at[k] = (node(k, "R", e.order in ACQUIRES),) * 2
        elif e.kind == "F":
            at[k] = (node(k, "F"),) * 2
        else:
            at[k] = (node(k, "W", False, e.order in RELEASES and e.kind != "I"),) * 2
    po = {(b, a2) for x, y in sb for b in set(at[x]) for a2 in set(at[y])}
    rmw = {(at[k][0], at[k][1]) for k, e in enumerate(events) if e.kind == "X"}
    po |= rmw
    rf = {(at[w][1], at[r][0]) for w, r in rf}
    co = {(at[x][1], at[y][1]) for x, y in mo}
    fr = {(r, w) for v, r in rf for x, w in co if x == v}
    thread = lambda a: events[nodes[a][0]].thread
    place = lambda a: events[nodes[a][0]].place
    kind = lambda a: nodes[a][1]
    acquires, releases = (lambda a: nodes[a][2]), (lambda a: nodes[a][3])
    if cyclic({(a, b) for a, b in po if place(a) == place(b) and place(a)} | co | rf | fr):
        return False
    external = {(a, b) for a, b in rf | co | fr if thread(a) != thread(b)}
    bob = set()
    for a, b in po:
        if kind(a) == "F" or kind(b) == "F":
            if thread(a) == thread(b):
                bob.add((a, b))  # dmb ish
        if acquires(a) or releases(b) or (releases(a) and acquires(b)):
            bob.add((a, b))
    if lse:
        for r, w in rmw:
            if acquires(r) and releases(w):
                # range([A];amo;[L]);po, and what comes before it is before its write by [L].
                bob |= {(y, b) for y, b in po if y == w}
    dob = set()
    for a, b in po:
        e, f = events[nodes[a][0]], events[nodes[b][0]]
        if kind(a) == "R" and kind(b) == "W" and thread(a) == thread(b) and e.register in f.ctrl:
            dob.add((a, b))
    # Unless the compiler made a branch of it, a compare-exchange that puts something depends on what it read.
    aob = rmw | {(w, r) for w, r in rf if any(w == y for _, y in rmw) and thread(w) == thread(r) and acquires(r)}
    return not cyclic(external | bob | dob | aob)


# ---- the sources ----

# Those of both libraries, and of the debug library alone.
OF_BOTH = ["include/*.h", *(f"{it}/*.[ch]" for it in ("base", "admit", "lock", "doors"))]
SOURCES = [*OF_BOTH, "debug/*.[ch]"]
SHORT = {"RELAXED": "rlx", "ACQUIRE": "acq", "RELEASE": "rel", "ACQ_REL": "ar", "SEQ_CST": "sc"}

# Of each field, in each function that has it, in the order of the text: its accesses, and what orders them. Of a
# compare-exchange that fails the second order.
TABLE = {
    # A token that was given is taken away before its thread looks at the state again, which the giver changed before.
    "token": {
        "ww_park": "load sc, load sc, store sc", "ww_leave_token": "load sc, compare_exchange sc/sc",
        "is_parked": "load sc", "ww_arm": "compare_exchange sc/sc, store sc", "ww_disarm": "compare_exchange sc/sc",
    },
    # Tasks that were woken, and what they wrote before.
    "first_": {"ww_event_wake": "load rlx, compare_exchange rel/rlx", "ww_event_take": "exchange acq"},
    # What a waker is, as long as the token says that it is to be called.
    "wake": {"ww_arm": "store rlx", "ww_leave_token": "load rlx"},
    "loop": {"ww_arm": "store rlx", "ww_leave_token": "load rlx"},
    "task": {"ww_arm": "store rlx", "ww_leave_token": "load rlx"},
    # Said before the waiter is woken, which looks at it after it took its token away.
    "cancelled": {"of_seat": "store rlx", "stop_if_due": "load sc", "ww_acquire_cancel": "exchange sc", "lock_ends": "exchange sc"},
    # A canceller may look while a context begins or ends: a cancel that isn't ordered after ww_acquire_init is no right call.
    "own": {"of_seat": "store rlx", "no_more": "store rlx", "ww_acquire_cancel": "load rlx", "ww_mutex_is_held_by": "load rlx"},
    # A mutex's holder alone writes these, and the lock orders holders; whoever else looks has only a glance, or takes the lock.
    "ctx": {
        "WW_HOLDS_": "store rlx", "WW_HOLDS_NO_MORE_": "store rlx",
        "ww_mutex_unlock": "load rlx", "holder_of": "load rlx", "note_holder": "store rlx, store rlx", "unlock_unlisted": "store rlx",
    },
    # By it others look who uses the seat, which was said before.
    "alone": {"seat_of": "load acq", "note_holder": "store rel", "unlock_alone": "store rlx"},
    # By what lies there before, the words that a list fetches ahead are of no use, and nothing else.
    "number": {"ww_number_at_first": "store rlx", "begin_list": "load rlx"},
    "is_large": {"ww_open_numbers": "store rlx", "find_number": "store rlx", "begin_list": "load rlx"},
    # It lies in the place of that, and others see that it is even.
    "older": {"WW_HOLDS_": "store rlx", "enlist": "store rlx", "list_behind": "store rlx, store rlx"},
    "link": {"unlist": "store rlx"},
    "user": {"note_user": "store rlx", "is_used_here": "load rlx"},
    # A waiter says first that it holds the mutex, and then that it waits no more; who destroys looks the other way round.
    # Of one that is known by its number also that this is taken, which nobody asks for before.
    "waiters": {
        "has_user": "load sc", "ww_has_users": "load sc", "ww_shared_mutex_is_locked": "load sc", "count_waiter": "fetch_add sc, fetch_add sc",
        "lock_by_any": "fetch_add sc, fetch_sub sc", "put_number": "load sc, fetch_and sc", "ww_is_gone": "load sc",
        "wait_first": "fetch_add sc, fetch_sub sc", # as who waits: see ww_is_gone
        "ww_count_at_told": "fetch_add sc", "ww_stop_counting": "fetch_sub sc", # likewise
        "retire": "fetch_or sc", "is_awaited": "load sc", # likewise, of a key
        "ww_number_take": "store rlx, fetch_add rel",
        "is_slot": "load rlx", # which it always is
        "is_of_number": "load rlx", # likewise
        "try_slot": "load rlx", # in a loop
    },
    # A reader marks, and then looks whether the mutex is free; a writer has that, and then looks for bits, slots and marks. Of bits
    # the same: who finds its mutex free again, after another had it, finds the bit that this one cleared gone.
    "readers_": {
        "reads_at_once": "load sc, fetch_or sc, load sc", "read_held": "fetch_or sc",
        "await_readers": "load sc, fetch_and sc", "write_by": "load sc", "ww_has_users": "load sc",
        "is_vain_write": "load sc", "ww_shared_mutex_is_locked": "load sc",
    },
    "slots": {"make_slot": "store sc", "ww_is_read_by": "load sc", "ww_mutex_users": "load sc", "await_readers": "load sc", "is_vain_write": "load sc"},
    # What was read comes before a mark that is gone. Others than its own thread look at marks alone.
    "marks": {
        "mark": "load rlx, exchange sc", "unmark": "load rlx, store rel", "clear_marks": "store rel", "await_slot": "load sc",
        "ww_slot_reads": "load acq", "is_vain_write": "load sc", "has_mark": "load rlx",
    },
    # Whoever sees a read sees that the marks from before it are gone.
    "reads": {
        "take_slot": "store rlx", "add_read": "store rel", "ww_slot_reads": "load acq",
        "leave_reads": "store rlx",
    },
    # All of an open class; and of a mutex the number, which its first lock may just have given it.
    "pool": {
        "open_pool_of": "load acq, load acq", "ww_number_at": "load acq", "pool_at": "load acq", "open_now": "store rel", "ww_number_at_first": "load acq, store rel", "ww_class_open_with": "load acq",
        "ww_class_stats": "load acq", "ww_class_print": "load acq",
        "ww_class_free": "load acq, store rel", "is_open": "load rlx", "ww_acquire_init": "load acq", "begin_by_any": "load acq", "ww_acquire_init_poll": "load acq", "ww_mutex_lock": "load acq",
        "ww_mutex_trylock": "load acq", "ww_end_mutex": "store rel", "ww_number_take": "store rel",
        "take": "load acq",
        "is_made": "load sc", "ww_make_seat": "store sc", # of a seat: who cancels the class says so before it looks, and who waits looks behind this
    },
    # The proved library's, of which a lock's owner sees at least what it wrote there itself. A reader looks as that library does.
    "owners": {"owner_word": "load sc", "nobody_has": "load sc"},
    # What its mutex was by then comes before a number that is left; whom to ask of it is always the same. It is counted before:
    # who finds it left, and unused, and no more left in all than before that, finds the same use. It is given under the lock.
    "left": {"ww_leave_used": "fetch_or rel", "ww_reclaim_numbers": "load acq", "give_left": "fetch_and rlx"},
    "leaves": {"ww_leave_used": "fetch_add rel", "ww_reclaim_numbers": "load acq", "give_left": "load acq", "ww_take_number": "load acq"},
    # Who sees that another took the number (IS_TAKEN) sees that it had been put back.
    "puts": {"puts_of": "load rlx", "count_put": "store rlx"},
    "is_used": {"ww_reclaim_numbers": "load rlx", "ww_leave_used": "store rlx"},
    # Where a mutex lies: who holds it comes after that.
    "lies_at": {"lies_at": "store rlx", "mutex_with": "load rlx"},
    # The mutexes of numbers, which are empty then.
    "numbered": {"mutex_at": "load acq", "mutexes_of": "store rel"},
    "last_thread": {"ww_number_thread": "add_fetch rlx"},
    "last_ticket": {"new_ticket": "add_fetch rlx"},
    # What the user of a seat wrote goes with busy: to its keeper, or to whoever claims it, and to whoever frees the class. It is
    # given before its giver looks for seekers.
    "busy": {
        "use_own": "load acq, store rlx", "give_seat": "load rlx, store rel", "claim": "load sc, compare_exchange sc/sc",
        "ww_return_seat": "exchange sc", "is_idle": "load acq", "is_in_use": "load rlx",
        "return_otherwise": "exchange sc", "ww_class_stats": "load rlx", "ww_make_seat": "store rel",
    },
    # What the user of a seat wrote goes with the ticket to whoever takes it; who only asks for it counts contexts.
    "ticket": {"leave": "store rel", "take_ticket": "compare_exchange ar/rlx", "is_suspended": "load rlx"},
    "suspended": {"count_in": "fetch_add rlx, fetch_sub rlx", "count_out": "fetch_sub rlx"},
    # Who was called for a seat says first that it isn't any more, and then looks for one; whoever gives that looks the other way round.
    "called": {"note_call": "store sc", "needs_call": "load sc"},
    # Written under the lock of the queue. Who claims a seat by an older limit does what it might have done before.
    "open": {"look_at_limiter": "store sc", "open_seats": "load sc"},
    # Written under the lock of the queue; who finds that a seat is there finds what it has.
    "made": {"open_seats_of": "store rlx", "ww_claim_next": "store rel", "made_seats": "load acq"},
    # Hints: whoever sees them late waits for a permit without need, for a while, or begins without one.
    "at_hand": {
        "seat_at_hand": "load rlx", "ww_set_at_hand": "store rlx",
    },
    "is_crowded": {"is_crowded": "load rlx", "set_crowded": "store rlx"},
    "quiet_until": {"ww_reset_crowd": "store rlx", "ww_note_wait": "load rlx", "end_crowd": "store rlx"},
    # Hints for who stays awake, for a while at most. Who asks who is in the way sees with a wait what its call asks for, and whose it is.
    "awaits": {
        "begin_wait": "store rel", "end_wait": "store rlx", "is_in_cycle": "load rlx", "awaited_by": "load acq",
    },
    # Hints for who asks who is in the way, and looks behind a label whether that which led to it is still so.
    "target": {"note_meeting": "store rlx", "note_asked": "store rlx", "asked_by": "load rlx"},
    "label": {"forget_age": "store rlx", "ww_acquire_label": "store rlx", "user_by": "load acq"},
    # Counts for limiters.
    "given": {"return_otherwise": "store rlx", "contexts_ended": "load rlx"},
    "begun": {"begin_crowd": "store rlx", "look_whether_of_use": "load rlx", "ww_await_permit": "fetch_add rlx"},
    # How many processors and threads there are, hints.
    "processors": {"open_seats_of": "store rlx", "ww_processors": "store rlx", "processors_of": "load rlx"},
    "ww_threads": {"ww_take_own": "load rlx", "set_threads": "store rlx", "has_processors": "load rlx"},
    # Written before others see the class; whoever serves late finds nobody in the queue, or somebody who saw that. Of seats: a hint
    # of where a thread looks first.
    "id": {
        "make_pool": "store rlx", "ww_serve": "load rlx", "claim_last": "load rlx", "note_last": "load rlx", "ww_claim_any": "load rlx",
        "ww_set_at_hand": "store rlx",
    },
    # Whoever gives a seat looks for seekers then; a seeker has said so before it looks for a seat.
    "seekers": {"has_seekers": "load sc", "take_out": "fetch_sub sc", "put_into": "fetch_add sc", "waiters_of": "load rlx, load rlx"},
    # When to look at a limiter next, which is asked again under its lock.
    "due": {
        "look_at_crowd": "store rlx", "go_on_in_lease": "load rlx", "ww_reset_crowd": "store rlx", "open_seats_of": "store rlx", "look_at_limiter": "store rlx",
        "look_if_due": "load rlx",
    },
    # Changed under the lock of numbers; whoever frees a class at 0 sees all that those wrote who had one.
    "taken": {"find_number": "fetch_add rlx", "ww_give_locked": "fetch_sub rel", "taken_numbers": "load acq"},
    # How many wait for a permit, changed under the lock of the queue but by who has entered; whoever frees the class sees who does.
    "waiting": {"wait_for_permit": "fetch_add sc", "stop_waiting": "fetch_sub sc", "waiting_threads": "load sc"},
    # The seat that is handed over, and all that goes with it.
    "is_called": {"ww_call_waiting": "store rlx"},
    "served_": {"put_into": "store rlx", "ww_leave_queue": "store rlx", "hand_to": "store rel", "ww_seek_seat": "load acq", "ww_poll_seat": "load acq"},
    # Counts, which order nothing; and glances of the debug library. What a waiter in its list did before is ordered by its lock.
    "sought": {"open_seats_of": "store rlx", "ww_reset_crowd": "store rlx", "ww_class_stats": "load rlx, load rlx, load rlx"},
    "waits": {"ww_class_stats": "load rlx"},
    "back_offs": {"ww_class_stats": "load rlx", "back_offs_of": "load rlx"},
    # Said before a waiter is woken, which looks at it after it took its token away, or was taken out of the queue under its lock; or
    # before those that wait for a permit are called, which look at it under its lock.
    "ends_waits": {"make_pool": "store sc", "ww_ends_waits": "load sc", "ww_class_cancel": "store sc"},
    # The debug library's, which are glances all; and what it takes only once, or counts.
    "word": {"READ_ONCE": "load rlx", "WRITE_ONCE": "store rlx"},
    "is_leak_reported": {"is_stuck": "exchange rlx"},
    "is_said": {"trace": "exchange rlx"},
    "faults": {"ww_fault": "fetch_add rlx"},
    "seen": {"ww_times": "compare_exchange rlx/rlx"},
    "times": {"ww_times": "add_fetch rlx"},
    "warnings": {"ww_end_warning": "fetch_add rlx"},
    "stamps": {"ww_watch_begin": "add_fetch rlx"},
    "endless_waits": {"ww_wait_begins": "add_fetch rlx"},
    "about": {"line_at": "compare_exchange rlx/rlx"},
    "longest": {"ww_count_wait": "compare_exchange rlx/rlx"},
    "to": {"count_up": "fetch_add rlx"},
    # Said before others use the library: what the function needs comes before it.
    "reports_to": {"ww_report_to": "store rel", "ww_report_message": "load acq"},
    "reports_data": {"ww_report_to": "store rlx", "ww_report_message": "load rlx"},
    "counted": {"count": "store rlx, load rlx"},
    # How many there are, against a limit.
    # Who closes a table sees that a call is through with it.
    "has": {"note_has": "store rel", "ww_table_close": "load acq"},
    "is_in": {"note_in": "store rel", "ww_table_close": "load acq"},
    "entries": {"new_entry": "fetch_add rlx, fetch_sub rlx", "free_entry": "fetch_sub rlx"},
}


# What threads share and reach without __atomic_* too, in the library that programs run, and what covers that. Either a
# lock: whoever reaches it takes that, or says above that it is taken, or stands behind the colon. Or these functions
# alone write it, for the reason given, and others read what was written before.
LOCKS = {
    "opening": ("pthread_mutex_lock(&ww_opening)", "pening is locked"),
    "queue": ("pthread_mutex_lock(&p->queue)", "queue is locked"),
    "numbers": ("pthread_mutex_lock(&n->lock)", "numbers are locked"),
    "slots": ("pthread_mutex_lock(&p->numbers.lock)", "slots are locked"),
    "buckets": ("lock_bucket(", "bucket is locked"),
    "owners": ("lock_owners(", "owners are locked"),
}
PLAIN = {
    # Said before the class is opened first, which the caller orders.
    "c->mutexes": "by: ww_class_limit",
    "c->contexts": "by: ww_class_limit",
    "c->pool": "opening: ",
    "p->next": "opening: keep_memory",
    # Before others see the class; then under the lock, which a forked child has.
    # Of seekers; memory_of_pool has empty queues. One that was served, by another or by itself, reads its own.
    "lines->first": "queue: ",
    "lines->end": "queue: memory_of_pool",
    "line->end": "queue: ",
    "me->seat_": "queue: seek ww_free_seat ww_seek_seat",
    "me->served_": "queue: ww_seek_seat",
    "me->waker_": "queue: ww_seek_seat",
    "it->seat_": "queue: ",
    "it->served_": "queue: ",
    # In a forked child nobody else is there.
    "of->due": "queue: in_child",
    "lines->seekers": "queue: in_child",
    "pool->called": "queue: ",
    "p->called": "queue: ",
    "of->limiter": "queue: ",
    "of->open": "queue: ",
    "tasks->open": "by: open_seats_of",
    "threads->open": "by: open_seats_of",
    # By the user of a seat, or under the lock by who hands it over.
    "s->lease": "by: ww_hands_over",
    "s->given": "by: ",
    "it->waker_": "queue: ",
    "waker_->wake": "queue: ",
    # Before others see the class; and a seek's before it is in the queue.
    "of->pool": "by: memory_of_pool",
    "of->seats": "by: ",
    "threads->seats": "by: make_first_seats",
    "tasks->seats": "by: make_first_seats",
    "of->count": "by: ",
    "threads->count": "by: open_seats_of",
    "tasks->count": "by: open_seats_of",
    "of_->pool": "by: ",
    "pool->id": "by: ",
    "pool->gone": "by: ",
    # Of a crowd. Before others see the class; in a forked child nobody else is there.
    "crowd->quiet_until": "by: in_child",
    "crowd->permits": "queue: ww_reset_crowd",
    "crowd->quiet": "queue: ww_reset_crowd",
    "crowd->first": "queue: ww_reset_crowd",
    "crowd->end": "queue: ww_reset_crowd",
    "it->is_called": "queue: ",
    "me->is_called": "queue: ",
    "me->next": "queue: ",
    "me->link": "queue: ",
    "crowd->since": "queue: ",
    "crowd->sought": "queue: ",
    "crowd->held": "queue: ",
    "crowd->waited": "queue: ",
    "crowd->leased": "queue: ",
    "crowd->backed_off": "queue: ",
    "it->seat": "queue: ",
    "it->ends": "queue: ",
    "it->next": "by: ww_event_wake",
    # Before others see the class, by its pool.
    "p->seats": "by: make_pool",
    "p->class_": "by: make_pool",
    "pool->class_": "by: ",
    "s->pool": "by: ",
    "s->of": "by: ww_make_seat",
    # Whoever has a seat of the class reads `id`, so it isn't freed.
    "p->id": "by: ",
    "tasks->id": "by: in_child make_pool",
    "p->copy": "by: memory_of_pool",
    "p->own_seats": "by: make_pool",
    "p->is_crowded": "by: in_child",
    "p->before_own": "by: make_first_seats",
    "n->mutexes": "by: ww_open_numbers",
    "p->gone": "by: in_child",
    "p->numbered": "by: free_pool",
    # By whoever holds the mutex, which its lock orders, or makes or destroys it.
    "m->older": "by: ",
    "it->older": "by: ",
    # In that place, too: read where it has no number, before whoever gives it one, under the lock of opening, or by itself.
    "m->class_": "by: ww_mutex_destroy ww_end_mutex",
    # By nobody, so by __atomic_* alone; but for number, which is given before `pool` is stored.
    "m->pool": "by: ",
    "m->number": "by: ww_number_take",
    "mutex_->number": "by: ",
    "asked->number": "by: ",
    "contending_lock->number": "by: ",
    # Of a slot: before others see it, by its list; and what only who has it accesses.
    "mutex->number": "by: ",
    "slot->seat": "by: ",
    "slot->reads": "by: ",
    # Before others see the mutex.
    "m->readers_": "by: ww_shared_mutex_init ww_shared_mutex_init_checked",
    "n->of_slots": "numbers: ww_open_numbers ww_take_locked",
    "numbers->of_slots": "slots: ",
    "p->slots": "slots: free_pool",
    "s->slot": "by: make_slot",
    "x->own": "by: ",
    "x->puts": "by: lock_ends note_told",
    # By the user of a seat.
    "s->told": "by: lock_ends note_told",
    "s->puts": "by: ww_acquire_suspend",
    # By the context's own thread, and of a class before others see it, or in a forked child.
    "x->pool": "by: ww_become begin_core draw_age_by_hand let_be_older no_more of_seat",
    # By the user of a seat, and by its keeper, or whoever frees the class, once nobody uses it: all that goes with `busy`.
    "s->ages": "by: note_meeting leave_age share_age forget_age unlock_alone_on",
    "s->waits": "by: ",
    "s->back_offs": "by: ",
    "met->waits": "by: note_meeting",
    "met->back_offs": "by: note_meeting",
    "of->set_aside": "queue: ",
    "n->taken": "numbers: ww_take_locked",
    "n->left": "numbers: bytes_of_bits ww_close_numbers ww_open_numbers",
    "n->used": "numbers: free_from used_of ww_open_numbers",
    "n->lies_at": "by: ww_open_numbers",
    "n->puts": "by: ww_open_numbers",
    # Of a table. What is read without the lock the use's own context wrote.
    "b->root": "buckets: ",
    "t->pool": "by: ww_table_open",
    "e->uses": "buckets: ",
    "e->ways": "buckets: ",
    "u->next": "buckets: ww_table_close",
    "u->before": "buckets: ",
    "e->is_dead": "buckets: ",
    "of->is_dead": "buckets: ",
    "shown->waits": "buckets: ",
    "shown->mode": "buckets: release ww_table_lock",
    "me->has": "by: ",
    "b->joined": "owners: ",
    "s->other": "owners: ",
}
# What a thread has for itself, or its caller locks, under names of fields that others share; and names under which others stand for the same.
OWN = ["h", "limiter", "permit", "had", "wait", "waker", "front", "f", "ww_mine", "kept", "counts", "s->seat", "s->id", "last", "how", "asked->user"]
SAME = {"lock": "m", "owed": "m", "older": "m", "ctx": "x", "victim": "s", "by": "s", "own": "s", "seat": "s", "seats": "s", "told": "m"}


def arguments(text):
    """Of a call whose first parenthesis was just passed."""
    depth, found, at = 0, [""], 0
    while depth or text[at] != ")":
        depth += (text[at] in "([") - (text[at] in ")]")
        if text[at] == "," and not depth:
            found.append("")
        else:
            found[-1] += text[at]
        at += 1
    return [it.strip() for it in found]


def field_of(pointer):
    """The last name in what points to the field, but for an index."""
    return re.findall(r"\w+", re.sub(r"\[[^\]]*(\[[^\]]*\][^\]]*)*\]", "", pointer))[-1]


def functions(text):
    """The name of each function and macro that a source defines, its code without comments, and the comment above it."""
    code = re.sub(r"/\*.*?\*/", lambda it: re.sub(r"[^\n]", " ", it[0]), text, flags=re.DOTALL)
    begins = []
    for line in re.finditer(r"^(#define )?[A-Za-z_][^\n]*\([^\n]*(?<!;)$", code, re.MULTILINE):
        name = re.search(r"(\w+)\(", re.sub(r"__attribute__\(\(.*?\)\)+", "", line[0].removeprefix("#define ")))
        begins.append((line.start(), name[1] if name else ""))
    for (at, name), (end, _) in zip(begins, begins[1:] + [(len(code), "")]):
        above = re.search(r"/\*(?:(?!\*/).)*\*/\n$", text[:at], re.DOTALL)
        yield name, code[at:end], above[0] if above else ""


def functions_of(folder, sources):
    for source in (it for pattern in sources for it in sorted(glob.glob(os.path.join(folder, pattern)))):
        with open(source, encoding="utf-8") as file:
            yield from functions(file.read())


def accesses(folder):
    """By field and function, as the table has them."""
    found = {}
    for name, code, _ in functions_of(folder, SOURCES):
        for call in re.finditer(r"__atomic_(\w+?)(_n)?\(", code):
            if call[1] == "signal_fence":
                continue
            words = arguments(code[call.end() :])
            orders = "/".join(SHORT[it.removeprefix("__ATOMIC_")] for it in words if it.startswith("__ATOMIC_"))
            found.setdefault(field_of(words[0]), {}).setdefault(name, []).append(f"{call[1]} {orders}")
    return {field: {name: ", ".join(it) for name, it in by.items()} for field, by in found.items()}


def plain_accesses(code):
    """Of each field that this code reads or writes without __atomic_*: the field, and whether it is written."""
    for it in re.finditer(r"(&|\+\+|--)?((?:\w+(?:\[[^][]*\])?(?:->|\.))+\w+)\b(?!\()", code):
        names = [re.sub(r"\[.*", "", name) for name in re.split(r"->|\.", it[2])]
        behind = re.match(r"(?:\[[^][]*\])?\s*(?:[-+|&^]?=(?!=)|\+\+|--)", code[it.end() :])
        for k, (of, field) in enumerate(zip(names, names[1:])):
            is_last = k == len(names) - 2
            if not (is_last and it[1] == "&"):
                yield f"{SAME.get(of, of)}->{field}", is_last and bool(behind or it[1])


def is_under(lock, code, above):
    taken, said = LOCKS[lock]
    return taken in code or said in above


# This source copies what threads share through the system, by the calls SEES and ww_look, and else names its own copies alone.
LOOKS, OWN_COPIES = "doors/print.c", {"c", "to", "use", "place"}


def unlooked(folder):
    """What the source LOOKS reaches by a pointer, and doesn't copy."""
    for name, code, _ in functions_of(folder, [LOOKS]):
        rest = re.sub(r"\b(SEES|ww_look)\((?:[^()]|\((?:[^()]|\([^()]*\))*\))*\)", "", code)
        rest = re.sub(r"&(?:\w+->)+", "&", rest)  # an address alone
        for pointer in sorted({*re.findall(r"(?:\b(\w+)|[\])])->", rest)} - OWN_COPIES):
            yield f"in {name} {pointer or 'a pointer'} is followed, and not by SEES or ww_look"


def uncovered(folder):
    """Plain accesses of what PLAIN has that it doesn't cover, what it says and isn't so, and shared fields that it lacks."""
    seen, lacking = {}, {}
    looks = {name for name, _, _ in functions_of(folder, [LOOKS])}
    for name, code, above in functions_of(folder, OF_BOTH):
        for field, writes in () if name in looks else plain_accesses(code):
            lock, _, others = PLAIN.get(field, "").partition(": ")
            if lock in LOCKS and not is_under(lock, code, above) or lock == "by" and writes:
                seen.setdefault(field, set()).add(name)
            elif field in PLAIN:
                seen.setdefault(field, set())
            elif field.partition("->")[2] in TABLE and not {field, field.partition("->")[0]} & {*OWN}:
                lacking.setdefault(field, set()).add(name)
    for field, names in lacking.items():
        yield f"{field} is reached without __atomic_* in {' '.join(sorted(names))}, and not in the table of that"
    for field, due in PLAIN.items():
        lock, _, others = due.partition(": ")
        if field not in seen or seen[field] != set(others.split()):
            what = "is written" if lock == "by" else f"is reached, and not under the lock {lock}"
            yield f"{field} {what} in {' '.join(sorted(seen.get(field, ['nothing'])))}, and in the table: {due}"


def differences(folder):
    found = accesses(folder)
    for field in sorted(set(found) | set(TABLE)):
        of, due = found.get(field, {}), TABLE.get(field, {})
        for name in sorted(set(of) | set(due)):
            if of.get(name) != due.get(name):
                yield f"{field}, in {name}: {of.get(name)}, and in the table {due.get(name)}"


def unseen(folder):
    """How many orders stand in the sources that no row of the table has. Any other one differs from its row if it is made weaker."""
    has = sum(len(re.findall(r"\b(?:rlx|acq|rel|ar|sc)\b", text)) for by in accesses(folder).values() for text in by.values())
    stand = 0
    for source in (it for pattern in SOURCES for it in glob.glob(os.path.join(folder, pattern))):
        with open(source, encoding="utf-8") as file:
            code = re.sub(r"/\*.*?\*/|__atomic_signal_fence\(.*?\)", "", file.read(), flags=re.DOTALL)
        stand += code.count("__ATOMIC_")
    if has != stand:
        yield f"{stand} memory orders stand in the sources, and {has} of these are compared with the table"


def shared_words(folder):
    """What several threads write, by the sources: by __atomic_* or count(), or under a lock; but not of the debug library."""
    seen = set()
    for _, code, _ in functions_of(folder, OF_BOTH):
        for call in re.finditer(r"__atomic_(?!load|signal_fence)\w+\(", code):
            seen.add(field_of(arguments(code[call.end() :])[0]))
        seen |= set(re.findall(r"\bcount\(&\w+->(\w+)\)", code))
    seen |= {field.partition("->")[2] for field, due in PLAIN.items() if due.partition(": ")[0] in LOCKS}
    # These are other names: of what `count` counts, of the place of `older`, and of a waker's function.
    return seen - {"counted", "link"}


def untold(folder):
    """Of the table at the head of class.h: what it lacks, has besides, or names that isn't there."""
    with open(os.path.join(folder, "admit/class.h"), encoding="utf-8") as file:
        rows = [re.split(r"\t+", line[3:].rstrip()) for line in file.read().partition("*/")[0].split("\n") if line.startswith(" *\t")]
    programs = set()
    for name in ("programs", "shared", "table"):
        with open(os.path.join(folder, f"tests/search/{name}.c"), encoding="utf-8") as file:
            programs |= set(re.findall(r'^\t\{ "([\w-]+)", \{', file.read(), re.MULTILINE))
    due, told = shared_words(folder), {word for row in rows[1:] for word in row[0].split()}
    for word in sorted(due ^ told):
        yield f"{word} is {'not' if word in due else 'without need'} in the table of class.h"
    for row in rows[1:]:
        if len(row) != 4 or row[3] not in programs and not glob.glob(os.path.join(folder, "tests/*", f"{row[3]}.c")):
            yield f"the table of class.h names no program for {row[0]}"


def unshaken(folder):
    """Of the sources' atomic accesses the kinds before which shake.h has no pause."""
    code = " ".join(it for _, it, _ in functions_of(folder, [*SOURCES, "core/*.c"]))
    with open(os.path.join(folder, "tests/shake.h"), encoding="utf-8") as file:
        paused = re.findall(r"^#define (__\w+)\(\.\.\.\) \(shake\(\), \1\(__VA_ARGS__\)\)$", file.read(), re.MULTILINE)
    for kind in sorted(set(re.findall(r"\b__(?:atomic|sync)_\w+(?=\()", code)) - {*paused}):
        yield f"shake.h has no pause before {kind}"


# ---- questions ----


def asks(program, end, begins=None):
    """By each model: is there an execution that ends so? And in C: has any execution a data race?"""
    begins = begins or {}
    c = race = llsc = lse = False
    for events, sb, rf, mo, registers, final in executions(program, begins):
        is_end = end(registers, final)
        if not race or (is_end and not c):
            raced = c_model(events, sb, rf, mo)
            if raced is not None:
                race = race or raced
                c = c or is_end
        if is_end:
            llsc = llsc or arm_model(events, sb, rf, mo, False)
            lse = lse or arm_model(events, sb, rf, mo, True)
    return c, race, llsc, lse


def W(place, value, order="na"):
    return ("W", place, value, order)


def R(register, place, order="na"):
    return ("R", register, place, order)


def X(register, place, function, order):
    return ("X", register, place, function, order)


def F(order):
    return ("F", order)


def IF(register, value, *code):
    return ("IF", register, value, list(code))


def add(by):
    return lambda old: old + by


def put(new):
    return lambda old: new


def swap(is_, new):
    return lambda old: new if old == is_ else None


RIGHT = (False, False, False, False)


def known():
    """Their answers are well known."""
    both0 = lambda r, f: r[0]["a"] == 0 and r[1]["a"] == 0
    stale = lambda r, f: r[1]["a"] == 1 and r[1].get("b") == 0
    sb = lambda o: [[W("x", 1, o), R("a", "y", o)], [W("y", 1, o), R("a", "x", o)]]
    mp = lambda w, r: [[W("x", 1, "rlx"), W("y", 1, w)], [R("a", "y", r), R("b", "x", "rlx")]]
    iriw = lambda w, r: [[W("x", 1, w)], [W("y", 1, w)], [R("a", "x", r), R("b", "y", r)], [R("a", "y", r), R("b", "x", r)]]
    seen = lambda r, f: r[2]["a"] == 1 and r[2]["b"] == 0 and r[3]["a"] == 1 and r[3]["b"] == 0
    yield "SB, relaxed", (True, False, True, True), sb("rlx"), both0
    yield "SB, sc", RIGHT, sb("sc"), both0
    yield "SB, release and acquire", (True, False, False, False), [
        [W("x", 1, "rel"), R("a", "y", "acq")],
        [W("y", 1, "rel"), R("a", "x", "acq")],
    ], both0
    yield "SB, relaxed, fences", RIGHT, [
        [W("x", 1, "rlx"), F("sc"), R("a", "y", "rlx")],
        [W("y", 1, "rlx"), F("sc"), R("a", "x", "rlx")],
    ], both0
    yield "SB, sc read-modify-writes, relaxed reads", (True, False, True, False), [
        [X("i", "x", put(1), "sc"), R("a", "y", "rlx")],
        [X("i", "y", put(1), "sc"), R("a", "x", "rlx")],
    ], both0
    yield "MP, relaxed", (True, False, True, True), mp("rlx", "rlx"), stale
    yield "MP, release and relaxed", (True, False, True, True), mp("rel", "rlx"), stale
    yield "MP, release and acquire, plain", (False, True, False, False), [
        [W("x", 1), W("y", 1, "rel")],
        [R("a", "y", "acq"), R("b", "x")],
    ], stale
    yield "MP, release and acquire, plain after a test", RIGHT, [
        [W("x", 1), W("y", 1, "rel")],
        [R("a", "y", "acq"), IF("a", 1, R("b", "x"))],
    ], stale
    yield "LB, relaxed (C: not out of thin air here)", (False, False, True, True), [
        [R("a", "x", "rlx"), W("y", 1, "rlx")],
        [R("a", "y", "rlx"), W("x", 1, "rlx")],
    ], lambda r, f: r[0]["a"] == 1 and r[1]["a"] == 1
    yield "2+2W, relaxed", (True, False, True, True), [
        [W("x", 1, "rlx"), W("y", 2, "rlx")],
        [W("y", 1, "rlx"), W("x", 2, "rlx")],
    ], lambda r, f: f["x"] == 1 and f["y"] == 1
    yield "IRIW, sc", RIGHT, iriw("sc", "sc"), seen
    yield "IRIW, release and acquire", (True, False, False, False), iriw("rel", "acq"), seen
    yield "a release sequence over a read-modify-write", RIGHT, [
        [W("x", 1), W("y", 1, "rel")],
        [X("i", "y", swap(1, 2), "rlx")],
        [R("a", "y", "acq"), IF("a", 2, R("b", "x"))],
    ], lambda r, f: r[2].get("b") == 0


def seek(give, look, says, looks):
    """Whoever gives a seat, and then looks for seekers, against one that seeks. Bad: it is left asleep, with a seat free."""
    return (
        [[W("busy", 0, give), R("a", "seekers", look)], [X("i", "seekers", add(1), says), R("b", "busy", looks)]],
        lambda r, f: r[0]["a"] == 0 and r[1]["b"] == 1,
        {"busy": 1},
    )


def destroy(tries, last):
    """An unlock, against a destroy that takes the lock, if it does, and then writes the memory anew; or reads what stood there."""
    take = [X("l", "lock", swap(1, 2), "sc")] if tries else [R("l", "lock", "rlx")]
    unlock = [W("data", 1), R("n", "number"), W("ctx", 0, "rlx"), X("l", "lock", put(1), "sc")]
    then = IF("l", 1, R("d", "data"), W("data", 2), W("number", 9)) if tries else R("d", "data")
    if last:
        unlock = [W("data", 1), W("ctx", 0, "rlx"), X("l", "lock", put(1), "sc"), R("n", "number")]
    return (
        [unlock, [R("w", "waiters", "sc"), R("c", "ctx", "rlx"), IF("c", 0, *take, then)]],
        lambda r, f: f["data"] == 1 and r[1].get("d") is not None or r[1].get("d") == 0 or r[0]["n"] == 9,
        {"ctx": 1, "lock": 2, "number": 3},
    )


def token(looks):
    """A waker changes the state and leaves a token; the sleeper takes that away and looks. Bad: it took it, and saw nothing."""
    return (
        [[X("s", "state", put(1), "sc"), X("t", "token", put(1), "sc")], [W("token", 0, "sc"), R("s", "state", looks)]],
        lambda r, f: f["token"] == 0 and r[1]["s"] == 0,
    )


def anybodys(give, claim):
    """A seat that anybody may use goes from one user to the next, with what the first one wrote in it."""
    return (
        [[W("handle", 1), W("busy", 0, give)], [X("t", "busy", put(1), claim), IF("t", 0, R("h", "handle"))]],
        lambda r, f: r[1].get("h") == 0,
        {"busy": 1},
    )


def own(ends, looks):
    """Another thread ends a context on a thread's own seat, which that thread uses next."""
    return (
        [
            [W("handle", 1), W("busy", 0, ends)],
            [R("b", "busy", looks), IF("b", 0, W("busy", 1, "rlx"), R("h", "handle"))],
        ],
        lambda r, f: r[1].get("h") == 0,
        {"busy": 1},
    )


def given(gives):
    """A number is put back, and the class is freed."""
    return (
        [[W("below", 7), X("t", "taken", add(-1), gives)], [R("t", "taken", "acq"), IF("t", 0, R("b", "below"))]],
        lambda r, f: r[1].get("b") == 0,
        {"taken": 1},
    )


def made(counts, looks):
    """A seat is made, and another thread claims it."""
    return (
        [[W("handle", 1), W("made", 1, counts)], [R("m", "made", looks), IF("m", 1, X("b", "busy", swap(0, 1), "sc"), IF("b", 0, R("h", "handle")))]],
        lambda r, f: r[1].get("h") == 0,
    )


def cancelled(makes, looks):
    """A seat is made, by which its user waits, against whoever cancels the class."""
    return (
        [[W("pool", 1, makes), R("e", "ends", "sc")], [W("ends", 1, "sc"), R("p", "pool", looks)]],
        lambda r, f: r[0]["e"] == 0 and r[1]["p"] == 0,
    )


def waited(begins):
    """Whoever waited for a permit uses a seat, against whoever frees the class."""
    return (
        [[W("busy", 1, "rlx"), X("w", "waiting", add(-1), begins)], [R("w", "waiting", "acq"), IF("w", 0, R("b", "busy", "acq"))]],
        lambda r, f: r[1].get("b") == 0,
        {"waiting": 1},
    )


def share(marks, looks, finds):
    """A reader marks, and then looks whether the mutex is free; against a writer, which has it, and then looks for the mark."""
    return (
        [
            [X("m", "mark", put(1), marks), R("l", "lock", looks), IF("l", 0, R("d", "data"))],
            [X("l", "lock", swap(0, 1), "sc"), IF("l", 0, R("m", "mark", finds), IF("m", 0, W("data", 1)))],
        ],
        lambda r, f: r[0]["l"] == 0 and r[1].get("m") == 0,
    )


def shared_bit(looks, looks_again):
    """A reader whose bit is cleared and set again by another slot's reader, beside two writes; free are 0 and 2."""
    last = [R("k", "lock", "sc"), IF("k", 2, R("d", "data"))] if looks_again else [R("d", "data")]
    return (
        [
            [X("m", "mark", put(1), "sc"), R("l", "lock", "sc"), IF("l", 2, R("b", "bit", looks), IF("b", 1, *last))],
            [X("l", "lock", swap(0, 1), "sc"), IF("l", 0, R("m", "mark", "sc"), IF("m", 0, X("c", "bit", put(0), "sc"), X("u", "lock", put(2), "sc")))],
            [X("l", "lock", swap(2, 3), "sc"), IF("l", 2, R("b", "bit", "sc"), IF("b", 0, W("data", 1)))],
            [X("b", "bit", put(1), "sc")],
        ],
        lambda r, f: r[0].get("d") is not None and f["data"] == 1,
        {"bit": 1},
    )


def own_bit(sets, looks):
    """A reader sets its bit, which no other slot has; against a writer that looks for bits."""
    reads = IF("k", 0, R("d", "data"))
    return (
        [
            [X("b", "bit", put(1), sets), X("m", "mark", put(1), "sc"), R("l", "lock", "sc"),
             IF("l", 0, R("c", "bit", "sc"), IF("c", 1, R("k", "lock", "sc"), reads))],
            [X("l", "lock", swap(0, 1), "sc"), IF("l", 0, R("b", "bit", looks), IF("b", 0, W("data", 1)))],
        ],
        lambda r, f: r[0].get("d") is not None and f["data"] == 1,
    )


def new_slot(lists, looks):
    """A reader by a slot that has just been made, of which the bit was set before; against a writer that looks for slots."""
    return (
        [
            [W("number", 5), W("slots", 1, lists), X("m", "mark", put(1), "sc"), R("l", "lock", "sc"), IF("l", 0, R("d", "data"))],
            [X("l", "lock", swap(0, 1), "sc"), R("k", "slots", looks),
             IF("k", 0, W("data", 1)), IF("k", 1, R("n", "number"), R("m", "mark", "sc"), IF("m", 0, W("data", 1)))],
        ],
        lambda r, f: r[0]["l"] == 0 and f["data"] == 1 or r[1].get("n") == 0,
    )


def handed(looks):
    """A writer releases the mutex, and a reader finds that free: it reads what was written."""
    return (
        [[W("data", 1), X("u", "lock", put(0), "sc")], [X("m", "mark", put(1), "sc"), R("l", "lock", looks), IF("l", 0, R("d", "data"))]],
        lambda r, f: r[1].get("d") == 0,
        {"lock": 1},
    )


def taken_back(takes):
    """Whoever has a slot next wipes its mark, sets another one in that word (2), and takes it back; as below."""
    return (
        [
            [R("d", "data"), X("u", "slot", put(0), "sc")],
            [X("k", "slot", swap(0, 2), "sc"), IF("k", 0, W("mark", 0, "rel"), X("t", "mark", put(2), "sc"), W("mark", 0, takes))],
            [R("m", "mark", "sc"), IF("m", 0, W("data", 1)), IF("m", 2, W("data", 1))],
        ],
        lambda r, f: r[0]["d"] == 1,
        {"slot": 1, "mark": 1},
    )


def counted(counts, looks):
    """A slot with a mark from before gets a read; who sees that, and the mark, takes it for one."""
    return (
        [[W("mark", 0, "rel"), W("reads", 1, counts)], [R("n", "reads", looks), R("m", "mark", "acq")]],
        lambda r, f: r[1]["n"] == 1 and r[1]["m"] == 1,
        {"mark": 1},
    )


def wiped(wipes):
    """A mark is wiped by whoever has the slot next, and a writer that doesn't find it writes what was read."""
    return (
        [
            [R("d", "data"), X("u", "slot", put(0), "sc")],
            [X("k", "slot", swap(0, 2), "sc"), IF("k", 0, W("mark", 0, wipes))],
            [R("m", "mark", "sc"), IF("m", 0, W("data", 1))],
        ],
        lambda r, f: r[0]["d"] == 1,
        {"slot": 1, "mark": 1},
    )


def wrong():
    """What has to be found wrong: so these questions can be answered so."""
    yield "a seeker looks relaxed", seek("sc", "sc", "sc", "rlx")
    yield "a giver looks relaxed", seek("sc", "rlx", "sc", "sc")
    yield "destroy doesn't take the lock", destroy(False, False)
    yield "an unlock reads the number behind the release", destroy(True, True)
    yield "the state is looked at relaxed behind a token", token("rlx")
    yield "a seat is given by a release", seek("rel", "sc", "sc", "sc")
    yield "a seat that anybody may use is given relaxed", anybodys("rlx", "sc")
    yield "an own seat is given relaxed", own("rlx", "acq")
    yield "a thread looks relaxed at its own seat", own("rel", "rlx")
    yield "a seat counts relaxed as made", made("rlx", "acq")
    yield "who claims a seat looks relaxed which ones were made", made("rel", "rlx")
    yield "a seat is made by a release", cancelled("rel", "sc")
    yield "who cancels a class looks by an acquire which seats were made", cancelled("sc", "acq")
    yield "a number is put back relaxed", given("rlx")
    yield "whoever stood in the line says relaxed that it begins", waited("rlx")
    yield "a reader marks by a release", share("rel", "sc", "sc")
    yield "a reader looks relaxed whether the mutex is free", share("sc", "rlx", "sc")
    yield "a writer looks relaxed for a mark", share("sc", "sc", "rlx")
    yield "marks are wiped relaxed", wiped("rlx")
    yield "a reader doesn't look at the word behind its bit", shared_bit("sc", False)
    yield "a reader looks at its bit by an acquire", shared_bit("acq", True)
    yield "a reader sets its bit by a release", own_bit("rel", "sc")
    yield "a writer looks for bits by an acquire", own_bit("sc", "acq")
    yield "a slot is listed by a release", new_slot("rel", "sc")
    yield "a writer looks for slots by an acquire", new_slot("sc", "acq")
    yield "a reader finds relaxed that the mutex is free again", handed("rlx")
    yield "a mark is taken back relaxed", taken_back("rlx")
    yield "a read is counted relaxed", counted("rlx", "acq")
    yield "who destroys looks relaxed for reads", counted("rel", "rlx")


def ours():
    """What the sources do, by the orders of the table. No execution may end so, nor have a race."""
    yield "a seat is given, and sought", *seek("sc", "sc", "sc", "sc")
    yield "a seat that anybody may use goes from user to user", *anybodys("sc", "sc")
    yield "a seat that anybody may use goes from user to user, over a third", [
        [W("handle", 1), W("busy", 0, "sc")],
        [X("t", "busy", put(1), "sc"), IF("t", 0, W("busy", 0, "sc"))],
        [X("t", "busy", put(2), "sc"), IF("t", 0, R("h", "handle"))],
    ], lambda r, f: r[1]["t"] == 0 and r[2]["t"] == 0 and f["busy"] == 2 and r[2].get("h") == 0, {"busy": 1}
    yield "a seat that anybody may use is claimed for whoever waits", [
        [W("handle", 1), W("busy", 0, "sc")],
        [X("t", "busy", put(1), "sc"), IF("t", 0, W("seat", 1), W("served", 1, "rel"))],
        [R("s", "served", "acq"), IF("s", 1, R("q", "seat"), R("h", "handle"))],
    ], lambda r, f: r[2].get("q") == 0 or r[2].get("h") == 0, {"busy": 1}
    yield "an own seat whose context ended elsewhere is its thread's again", *own("rel", "acq")
    yield "an own seat whose context its thread ended is that thread's again, once another one's ended", [
        [W("handle", 1), W("busy", 0, "rel")],
        [R("b", "busy", "acq"), IF("b", 0, W("handle", 2), W("busy", 1, "rlx"), W("busy", 0, "rel"), R("h", "handle"))],
    ], lambda r, f: r[1].get("h") == 1, {"busy": 1}
    yield "an own seat of a thread that ended is the next one's", [
        [W("handle", 1), W("busy", 0, "rel"), X("l", "opening", put(0), "ar")],
        [X("l", "opening", swap(0, 2), "ar"), IF("l", 0, R("b", "busy", "acq"), IF("b", 0, W("busy", 1, "rlx"), R("h", "handle")))],
    ], lambda r, f: r[1].get("b") == 1 or r[1].get("h") == 0, {"busy": 1, "opening": 1}
    yield "a class is freed once its seats aren't busy", [
        [W("handle", 1), W("busy", 0, "rel")],
        [X("t", "other", put(0), "ar"), W("there", 2)],
        [R("b", "busy", "acq"), R("o", "other", "acq"), IF("b", 0, IF("o", 0, R("h", "handle"), W("handle", 9)))],
    ], lambda r, f: r[2].get("h") == 0, {"busy": 1, "other": 1}
    yield "a seat is made, and another thread claims it", *made("rel", "acq")
    yield "a seat is made while the class is cancelled", *cancelled("sc", "sc")
    yield "a class is freed once all numbers are put back", *given("rel")
    yield "a class isn't freed while who stood in the line begins", *waited("rel")
    yield "a seat of a world goes from user to user", [
        [W("handle", 1), X("p", "taken", put(0), "rel")],
        [X("t", "taken", put(1), "acq"), IF("t", 0, R("h", "handle"))],
    ], lambda r, f: r[1].get("h") == 0, {"taken": 1}
    yield "a class is opened by another thread", [
        [W("id", 5, "rlx"), W("pool", 1, "rel")],
        [R("p", "pool", "acq"), IF("p", 1, R("i", "id"))],
    ], lambda r, f: r[1].get("i") == 0
    yield "a seat by which a mutex is held has another user now", [
        [W("user", 1, "rlx"), W("busy", 0, "rel"), R("m", "alone", "acq"), IF("m", 1, R("u", "user", "rlx"))],
        [R("b", "busy", "acq"), IF("b", 0, W("user", 2, "rlx"), W("alone", 1, "rel"))],
    ], lambda r, f: r[0].get("u") == 1, {"busy": 1}
    yield "a mutex gets its number at its first lock, by another thread", [
        [W("number", 5), W("pool", 1, "rel"), X("l", "lock", swap(0, 2), "sc")],
        [R("p", "pool", "acq"), IF("p", 1, R("n", "number"), X("l", "lock", swap(0, 2), "sc"))],
    ], lambda r, f: r[1].get("n") == 0
    yield "whoever gives a mutex its number locks it, and another comes to give it one", [
        [X("o", "opening", swap(0, 1), "ar"),
         IF("o", 0, W("pool", 1, "rel"), X("u", "opening", put(0), "ar"), X("l", "lock", swap(0, 2), "sc"), W("class", 3, "rlx"))],
        [X("o", "opening", swap(0, 1), "ar"), IF("o", 0, R("p", "pool", "acq"), IF("p", 0, R("c", "class")), X("u", "opening", put(0), "ar"))],
    ], lambda r, f: r[1].get("c") == 3, {"class": 7}
    yield "a class is freed, and opened anew, behind its last context", [
        [R("i", "id"), W("busy", 0, "sc"), X("l", "queue", put(1), "ar"), R("j", "id", "rlx")],
        [R("b", "busy", "acq"), IF("b", 0, W("id", 0, "rlx"), X("l", "queue", put(2), "ar"), W("id", 6, "rlx"))],
    ], lambda r, f: r[0]["i"] != 5 or (r[0]["l"] == 2 and r[0]["j"] == 5), {"busy": 1, "id": 5}
    yield "a mutex is destroyed, and its memory is another's", *destroy(True, False)
    yield "destroy sees a waiter that got it", [
        [W("ctx", 1, "rlx"), X("i", "waiters", add(-1), "sc")],
        [R("w", "waiters", "sc"), R("c", "ctx", "rlx")],
    ], lambda r, f: r[1]["w"] == 0 and r[1]["c"] == 0, {"waiters": 1}
    yield "ctx goes from holder to holder", [
        [W("ctx", 0, "rlx"), X("l", "lock", put(0), "sc")],
        [X("l", "lock", swap(0, 2), "sc"), IF("l", 0, W("ctx", 2, "rlx"))],
    ], lambda r, f: r[1]["l"] == 0 and f["ctx"] == 0, {"ctx": 1, "lock": 1}
    yield "ctx goes to a waiter that only reads that the lock is its own", [
        [W("data", 1), W("ctx", 0, "rlx"), X("l", "lock", put(2), "sc")],
        [R("l", "lock", "sc"), IF("l", 2, W("ctx", 2, "rlx"), R("d", "data"))],
    ], lambda r, f: r[1]["l"] == 2 and (f["ctx"] == 0 or r[1]["d"] == 0), {"ctx": 1, "lock": 1}
    yield "a token", *token("sc")
    yield "a waker that is called is that of the poll which waits", [
        [W("waker", 1, "rlx"), X("a", "token", swap(0, 3), "sc"), X("d", "token", swap(3, 0), "sc"),
         IF("d", 3, W("waker", 2, "rlx"), X("b", "token", swap(0, 4), "sc"))],
        [R("t", "token", "sc"), IF("t", 3, R("w", "waker", "rlx"), X("x", "token", swap(3, 1), "sc"))],
    ], lambda r, f: r[1].get("x") == 3 and r[1].get("w") != 1
    yield "tasks that were woken are taken with what was written before", [
        [W("held", 1), X("f", "first", swap(0, 1), "rel")],
        [X("g", "first", swap(1, 2), "rel")],
        [X("t", "first", put(0), "acq"), IF("t", 2, R("h", "held"))],
    ], lambda r, f: r[2].get("h") == 0
    yield "a cancel, against the context's end", [
        [W("own", 0, "rlx"), W("cancelled", 0, "rlx")],
        [R("o", "own", "rlx"), IF("o", 5, X("c", "cancelled", put(1), "sc"), X("t", "token", put(1), "sc"))],
    ], lambda r, f: False, {"own": 5}
    yield "a reader, and a writer", *share("sc", "sc", "sc")
    yield "a mark is wiped", *wiped("rel")
    yield "a reader whose bit another one sets", *shared_bit("sc", True)
    yield "a reader that sets its bit", *own_bit("sc", "sc")
    yield "a reader by a new slot, of which the bit was set before", *new_slot("sc", "sc")
    yield "a reader that comes after a write", *handed("sc")
    yield "a mark is wiped, and another one taken back", *taken_back("rel")
    yield "a read, and whoever destroys the mutex", *counted("rel", "acq")
    yield "a reader of which the bit is cleared meanwhile, and the next writer", [
        [X("m", "mark", put(1), "sc"), R("l", "lock", "sc"),
         IF("l", 0, R("b", "bit", "sc"), IF("b", 1, R("d", "data"))), IF("l", 2, R("b", "bit", "sc"), IF("b", 1, R("d", "data")))],
        [X("l", "lock", swap(0, 1), "sc"), IF("l", 0, R("m", "mark", "sc"), IF("m", 0, X("b", "bit", put(0), "sc"), X("u", "lock", put(2), "sc")))],
        [X("l", "lock", swap(2, 3), "sc"), IF("l", 2, R("b", "bit", "sc"), IF("b", 0, W("data", 1)))],
    ], lambda r, f: r[0].get("b") == 1 and f["data"] == 1 and r[0].get("d") is not None, {"bit": 1}
    yield "a cancel, against the wait", [
        [X("c", "cancelled", put(1), "sc"), X("t", "token", put(1), "sc")],
        [W("token", 0, "sc"), R("c", "cancelled", "sc")],
    ], lambda r, f: f["token"] == 0 and r[1]["c"] == 0


def main():
    folder = sys.argv[1] if len(sys.argv) > 1 else os.path.join(os.path.dirname(os.path.abspath(__file__)), "..")
    failed = [*differences(folder), *unseen(folder), *uncovered(folder), *unlooked(folder), *untold(folder), *unshaken(folder)]
    failed += [f"{name}: another answer than is known" for name, due, *words in known() if asks(*words) != due]
    failed += [f"{name}: this isn't found wrong" for name, words in wrong() if asks(*words) == RIGHT]
    count = 0
    for name, *words in ours():
        count += 1
        for model, is_so in zip(("C", "C, a race", "AArch64", "AArch64 with LSE"), asks(*words)):
            if is_so:
                failed.append(f"{name}: may go wrong by {model}")
    if failed:
        sys.exit("memory_order: " + "\nmemory_order: ".join(failed))
    print(f"memory_order: {count} programs, and {len(TABLE)} fields and {len(PLAIN)} plain ones as the tables say")


if __name__ == "__main__":
    main()
