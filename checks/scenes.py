"""The core of the locks with its sleepers, as crates/ww_laws/specs/Scene.antt has it, above the core of tools/core.py.

So this is a second reading of these steps, of a few seats and locks. A part of them can be left out.
"""
import collections
import enum
import functools
import os
import pickle
import sys

sys.path.append(os.path.join(os.path.dirname(os.path.dirname(os.path.abspath(__file__))), "tools"))
from core import Core, Impossible

ACTING, GOING_TO_SLEEP, ASLEEP = "acting", "going to sleep", "asleep"

Scene = collections.namedtuple("Scene", "state phase token owes found_no_sign found_no_cancel heeds")


class Part(enum.Enum):
    """A part of the steps, by what they are without it."""

    GIVER = "a giver wakes nobody"
    FREE = "a giver wakes the first waiter only if it hands it the lock"
    FIRST = "a giver wakes the last waiter in place of the first"
    SIGNER = "a signer wakes nobody"
    CANCELLER = "who cancels wakes nobody"
    TOLD = "a seat falls asleep that isn't going to sleep"
    ROSE = "a seat that is going to sleep acts before it has risen"
    PAID = "a seat falls asleep before it has woken all"
    EARLY = "a wake leaves no token where the seat doesn't sleep yet"
    TOKEN = "a seat that falls asleep loses its token"
    SIGN = "who can be wounded goes to sleep without a look at its sign"
    LATE_SIGN = "an older look at the own sign will do"
    CANCEL = "who heeds cancels goes to sleep without a look at its cancel"
    LATE_CANCEL = "an older look at the own cancel will do"
    OWN_CANCEL = "who cancels itself need not look again"


class Scenes:
    """The scenes of one kind, with so many locks and seats, their steps by these events, and without one part of them.
    With `begun`, each seat has a context at the start, seat 0 the oldest."""

    def __init__(self, kind, locks, seats, names, without=None, begun=False):
        self.without, self.names, self.seats = without, names.split(), range(seats)
        numbers = {"begin": [()], "clear": [()], "end": [()]}
        numbers |= {name: [(v,) for v in self.seats] for name in ("sign", "cancel")}
        at_locks = [(n,) for n in range(locks)]
        every = [(name, s) for name in self.names for s in self.seats]
        self.events = [(name, s, *more) for name, s in every for more in numbers.get(name, at_locks)]
        core = Core(kind, locks, seats)
        for s in self.seats if begun else ():
            core.step(("begin", s))
        none = frozenset()
        self.start = Scene(pickle.dumps(core), (ACTING,) * seats, none, none, none, none, none)

    @functools.cache
    def possible(self, state):
        """The possible events, each with the state after it. So many contexts begin at most as there are seats."""
        found = []
        for event in self.events:
            core = pickle.loads(state)
            try:
                core.step(event)
            except Impossible:
                continue
            if core.drawn <= len(self.seats):
                found.append((event, pickle.dumps(core)))
        return found

    # -- what each step makes of the scene

    def woken_by(self, core, event):
        name, s, other = (*event, None)[:3]
        if name == "sign" and other != s and self.without is not Part.SIGNER:
            return {other}
        if name == "cancel" and other != s and self.without is not Part.CANCELLER:
            return {other}
        if name == "give" and core.waiters[other] and self.without is not Part.GIVER:
            if core.handoff[other] or self.without is not Part.FREE:
                return {core.waiters[other][-1 if self.without is Part.FIRST else 0]}
        return set()

    def performed(self, w, event, state):
        s = event[1]
        keeps_sign = self.without is Part.LATE_SIGN
        keeps_cancel = event[0] != "cancel" or self.without is Part.OWN_CANCEL
        return w._replace(
            state=state,
            owes=w.owes | {(s, v) for v in self.woken_by(core_of(w.state), event)},
            found_no_sign=w.found_no_sign if keeps_sign else w.found_no_sign - {s},
            found_no_cancel=w.found_no_cancel if keeps_cancel else w.found_no_cancel - {s},
        )

    def may_go_to_sleep(self, w, s, heeds):
        core = core_of(w.state)
        can_be_wounded = not core.is_wait_die and core.is_holding(s) and self.without is not Part.SIGN
        has_to_look = heeds and self.without is not Part.CANCEL
        return (s in w.found_no_sign or not can_be_wounded) and (s in w.found_no_cancel or not has_to_look)

    def gone_to_sleep(self, w, s, state, heeds):
        w = w._replace(state=state, heeds=w.heeds | {s} if heeds else w.heeds - {s})
        return with_phase(w, s, GOING_TO_SLEEP)

    def may_fall_asleep(self, w, s):
        may = w.phase[s] == GOING_TO_SLEEP or self.without is Part.TOLD and w.phase[s] == ACTING
        return may and (self.without is Part.PAID or all(t != s for t, _ in w.owes))

    def may_act(self, w, s):
        return w.phase[s] == ACTING or self.without is Part.ROSE and w.phase[s] == GOING_TO_SLEEP

    def fallen_asleep(self, w, s):
        return with_phase(w._replace(token=w.token - {s}) if self.without is Part.TOKEN else w, s, ASLEEP)

    def risen(self, w, s):
        w = w._replace(
            token=w.token - {s},
            found_no_sign=w.found_no_sign if self.without is Part.LATE_SIGN else w.found_no_sign - {s},
            found_no_cancel=w.found_no_cancel if self.without is Part.LATE_CANCEL else w.found_no_cancel - {s},
        )
        return with_phase(w, s, ACTING)

    def woken(self, w, s, v):
        is_lost = self.without is Part.EARLY and w.phase[v] != ASLEEP
        return w._replace(token=w.token if is_lost else w.token | {v}, owes=w.owes - {(s, v)})

    # -- the steps that may be made, but wakes that nobody owes, and looks that nobody needs

    def events_of(self, w):
        core = core_of(w.state)
        for event, state in self.possible(w.state):
            name, s, *more = event
            if not self.may_act(w, s):
                continue
            yield event, self.performed(w, event, state)
            if name == "unguard" and s in core.waiters[more[0]]:
                for heeds in (False, True) if "cancel" in self.names else (False,):
                    if self.may_go_to_sleep(w, s, heeds):
                        yield ("leaves to sleep", s, *more), self.gone_to_sleep(w, s, state, heeds)

    def waits_inside(self, core, s):
        return s in core.inside and s in core.waiters[core.inside.index(s)]

    def others_of(self, w):
        core = core_of(w.state)
        for s in self.seats:
            if w.phase[s] != ACTING:
                yield ("rises", s), self.risen(w, s)
            elif not core.is_wait_die and not core.sign[s] and self.waits_inside(core, s):
                yield ("finds no sign", s), w._replace(found_no_sign=w.found_no_sign | {s})
            if w.phase[s] == ACTING and core.cancelled_by[s] is None and "cancel" in self.names:
                yield ("finds no cancel", s), w._replace(found_no_cancel=w.found_no_cancel | {s})
            if self.may_fall_asleep(w, s):
                yield ("falls asleep", s), self.fallen_asleep(w, s)
        for s, v in w.owes:
            if w.phase[s] != ASLEEP:
                yield ("wakes", s, v), self.woken(w, s, v)

    def steps_of(self, w):
        yield from self.events_of(w)
        yield from self.others_of(w)


@functools.cache
def core_of(state):
    return pickle.loads(state)


def with_phase(w, s, phase):
    return w._replace(phase=w.phase[:s] + (phase,) + w.phase[s + 1 :])


def told(step):
    return " ".join(map(str, step))
