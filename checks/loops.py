"""What crates/ww_loops asks of retry loops, of a few seats and locks: without each premise some run keeps the others, and some
loop never ends; and where all are kept each loop ends. The same of the oldest context's loop in Wound-Wait, of which less is asked.

So this is a second reading of specs/Loops.antt, by scenes: it knows no calls, and each seat stands in one phase of its loop. Each
seat has a context from the start, seat 0 the oldest, and its loop has just begun.
"""
import collections

from endless import EVENTS, Asked, Followed, Law, Runs, firsts_ask, has_taken, heard, leaves, looks, made, settled, sleeps, waits
from scenes import ACTING, Scene, core_of

WOUND_WAIT, WAIT_DIE = "wound-wait", "wait-die"
WANTS, GIVES = ("fast", "join", "take"), ("fast-give", "give")

# Where the loop of a seat stands, with the lock that it owes, or at which its context died, and what its body has asked for.
Loop = collections.namedtuple("Loop", "phase lock asked")
EASE, OWES, TOLD, FIRST, OUTSIDE = "ease", "owes", "told", "first", "outside"
BEGUN = Loop(EASE, None, frozenset())

# A scene, with the loop of each seat, and the seats that stood in the list when they last went inside a guard.
LoopScene = collections.namedtuple("LoopScene", (*Scene._fields, "loops"))
Node = collections.namedtuple("Node", "scene looks_again")


def in_round(w, s):
    return w.loops[s].phase in (EASE, OWES, FIRST)


def is_at_hand(w, s):
    """Between two calls: the seat acts, is inside no guard and waits for nothing."""
    return w.phase[s] == ACTING and s not in core_of(w.state).inside and not waits(w, s)


# ---- the premises


def asks(s, n, seats):
    """In a part that a run stays in, whoever asks for one more again and again asks endlessly."""
    is_over = lambda step, w: step[1] == s and step[0] in ("die", "ends loop", "asks again")
    yield Asked(lambda w: in_round(w, s) and not waits(w, s), is_over)


def backs_off(s, n, seats):
    yield Asked(lambda w: w.loops[s].phase == TOLD, lambda step, w: step == ("backs off", s))


def releases(s, n, seats):
    yield Asked(lambda w: w.loops[s].phase == OUTSIDE and has_taken(w, s, n), lambda step, w: not has_taken(w, s, n))


def finite(node, step):
    return step[0] != "asks again"


def told_wants_none(node, step):
    return step[0] not in WANTS or node.scene.loops[step[1]].phase != TOLD


def first_takes_contended(node, step):
    loop = node.scene.loops[step[1]]
    return step[0] not in WANTS or loop.phase != FIRST or loop.lock == step[2]


def few_loops(node, step):
    """A context begins finitely many loops, so none any more where a run stays. Then it rests once it has released all: that is over."""
    return step[0] != "loops again"


OF_STEPS = (finite, told_wants_none, first_takes_contended, few_loops)
ROUNDS_GO_ON = (made, heard, settled, looks, leaves, finite, told_wants_none, first_takes_contended, asks, backs_off, releases)


def of_loops(name, asked, seats):
    return Law(name, asked, lambda w, s: w.loops[s].phase != OUTSIDE, lambda w, step, s: step == ("ends loop", s), seats)


LOOPS_END = of_loops("loops_end", (*ROUNDS_GO_ON, few_loops), (0, 1))


def loop_of(seat):
    """What is proved of the oldest's loop in Wound-Wait, of this seat's. That it waits forever for its first lock is an end as the law
    tells it."""

    def waits_owning(s, n, seats):
        if s == seat:
            yield Asked(lambda w: True, lambda step, w: not waits(w, seat) or bool(core_of(w.state).owned(seat)))

    return of_loops("oldest_loop_ends", (*ROUNDS_GO_ON, waits_owning), (seat,))


OLDEST_LOOP_ENDS = loop_of(0)


# ---- the runs


class LoopRuns(Runs):
    """Runs in which each seat locks in a loop, with these conditions of what its loop does."""

    OF_STEPS = OF_STEPS

    def start(self):
        return Node(LoopScene(*self.scenes.start, (BEGUN,) * len(self.scenes.seats)), frozenset())

    def steps_of(self, node):
        for step, w in self.scenes.steps_of(node.scene):
            if self.may(node, step):
                yield step, Node(self.after_step(w, step), self.looks_again(node, step))
        for step, loop in self.silent(node.scene):
            if all(may(node, step) for may in self.conditions):
                loops = node.scene.loops
                yield step, node._replace(scene=node.scene._replace(loops=(*loops[: step[1]], loop, *loops[step[1] + 1 :])))
        for s in self.scenes.seats:
            if node.scene.phase[s] == ACTING:
                yield ("finds no cancel", s), node
                return

    def may(self, node, step):
        """Threads of desks sleep as waiters, and ask as the first; a loop keeps its conditions, and releases only then."""
        name, s, w = *step[:2], node.scene
        if not sleeps(node, step) or not firsts_ask(node, step) or not all(may(node, step) for may in self.conditions):
            return False
        if name in WANTS:
            return w.loops[s].phase != OUTSIDE
        if name in GIVES:
            return w.loops[s].phase in (TOLD, OUTSIDE)
        return name != "guard" or step[2] in core_of(w.state).lists(s) or self.may_enter(node, s, step[2])

    def may_enter(self, node, s, n):
        if has_taken(node.scene, s, n):
            return node.scene.loops[s].phase in (TOLD, OUTSIDE)
        return node.scene.loops[s].phase != OUTSIDE and all(may(node, ("join", s, n)) for may in self.conditions)

    def looks_again(self, node, step):
        if step[0] != "guard":
            return node.looks_again
        one = frozenset(step[1:2])
        return node.looks_again | one if step[2] in core_of(node.scene.state).lists(step[1]) else node.looks_again - one

    def after_step(self, w, step):
        name, s = step[:2]
        loop = w.loops[s] if name in ("fast", "take", "die") else None
        if name == "die":
            loop = Loop(TOLD, step[2], frozenset())
        elif loop and loop.phase == FIRST and loop.lock == step[2]:
            loop = Loop(OWES, step[2], frozenset())
        elif loop and loop.phase == FIRST:
            loop = Loop(EASE, None, frozenset(step[2:]))
        elif loop and loop.phase in (EASE, OWES):
            loop = loop._replace(asked=loop.asked | {step[2]})
        return w._replace(loops=(*w.loops[:s], loop, *w.loops[s + 1 :])) if loop else w

    def silent(self, w):
        """What a loop does between two calls, which is no step of the scene."""
        for s in self.scenes.seats:
            loop = w.loops[s]
            if not is_at_hand(w, s):
                continue
            owns = core_of(w.state).owned(s)
            if loop.phase in (EASE, OWES):
                yield ("ends loop", s), Loop(OUTSIDE, None, frozenset())
            if loop.phase == EASE and loop.asked:
                yield ("asks again", s), loop
            if loop.phase == OWES:
                yield ("asks what it owes", s), Loop(EASE, None, loop.asked | {loop.lock})
            if loop.phase == TOLD and not owns:
                yield ("backs off", s), loop._replace(phase=FIRST)
            if loop.phase == OUTSIDE and not owns:
                yield ("loops again", s), BEGUN


# For each search: the law, kind, locks and seats, which premises are left out, one at a time, and which are kept besides, so that the
# search is that of the law above.
SEARCHES = [
    (LOOPS_END, WAIT_DIE, 1, 2, EVENTS, (made, heard, settled, looks, leaves, finite, asks, releases), ()),
    (LOOPS_END, WAIT_DIE, 2, 2, EVENTS, (backs_off,), ()),
    (LOOPS_END, WOUND_WAIT, 1, 2, EVENTS, (made, heard, settled, looks, leaves, finite, asks, releases), ()),
    (OLDEST_LOOP_ENDS, WOUND_WAIT, 1, 2, EVENTS, (finite,), ()),
    (LOOPS_END, WOUND_WAIT, 2, 2, EVENTS, (backs_off,), ()),
    (OLDEST_LOOP_ENDS, WOUND_WAIT, 2, 2, EVENTS, (made, heard, settled, looks, leaves, asks, backs_off, releases), (few_loops,)),
]


# In Wound-Wait the loop of the oldest, seat 0, waits for its first lock, and so wounds nobody. Seat 3 has that, and waits for lock 1,
# for which 1 and 2, both older than it, loop again and again. In Wait-Die the loop of the oldest has a lock, and waits for one of
# seat 2, which waits for lock 1: 1 and 3 loop for it again and again. Whenever seat 2 would have to die there it looks too late.
# Without the wait for the contended lock 1 and 3 die again and again at lock 0, having taken lock 1 first. The first two runs also
# show why the law of the oldest's loop is one of the oldest, and of Wound-Wait.
FOLLOWED = [
    (
        ((LOOPS_END, few_loops), (loop_of(3), None)),
        WOUND_WAIT,
        2,
        4,
        "fast 3 0; fast 1 1; guard 3 1; join 3 1; finds no sign 3; leaves to sleep 3 1; falls asleep 3; guard 0 0; "
        "join 0 0; leaves to sleep 0 0; falls asleep 0",
        "guard 2 1; join 2 1; leaves to sleep 2 1; falls asleep 2; ends loop 1; guard 1 1; give 1 1; unguard 1 1; wakes 1 2; "
        "loops again 1; rises 2; guard 2 1; take 2 1; unguard 2 1; guard 1 1; join 1 1; leaves to sleep 1 1; falls asleep 1; "
        "ends loop 2; guard 2 1; give 2 1; unguard 2 1; wakes 2 1; loops again 2; rises 1; guard 1 1; take 1 1; unguard 1 1",
    ),
    (
        ((LOOPS_END, few_loops), (OLDEST_LOOP_ENDS, None)),
        WAIT_DIE,
        3,
        4,
        "fast 0 2; fast 2 0; fast 3 1; guard 2 1; join 2 1; leaves to sleep 2 1; falls asleep 2; guard 0 0; join 0 0; "
        "leaves to sleep 0 0; falls asleep 0",
        "guard 1 1; join 1 1; sign 1 2; leaves to sleep 1 1; wakes 1 2; falls asleep 1; ends loop 3; guard 3 1; give 3 1; "
        "unguard 3 1; wakes 3 1; loops again 3; rises 1; guard 1 1; take 1 1; unguard 1 1; ends loop 1; guard 1 1; give 1 1; "
        "unguard 1 1; loops again 1; guard 3 1; take 3 1; unguard 3 1; wakes 1 2; rises 2; guard 2 1; clear 2; ask 2 1; "
        "leaves to sleep 2 1; falls asleep 2",
    ),
    (
        ((LOOPS_END, first_takes_contended),),
        WAIT_DIE,
        3,
        4,
        "fast 0 2; fast 2 0; fast 3 1; guard 2 1; join 2 1; leaves to sleep 2 1; falls asleep 2; guard 0 0; join 0 0; "
        "leaves to sleep 0 0; falls asleep 0",
        "guard 1 1; join 1 1; sign 1 2; leaves to sleep 1 1; wakes 1 2; falls asleep 1; guard 3 0; join 3 0; die 3 0; unguard 3 0; "
        "guard 3 1; give 3 1; unguard 3 1; wakes 3 1; backs off 3; rises 1; guard 1 1; take 1 1; unguard 1 1; guard 1 0; join 1 0; "
        "die 1 0; unguard 1 0; guard 1 1; give 1 1; unguard 1 1; wakes 1 2; backs off 1; guard 3 1; take 3 1; unguard 3 1; "
        "guard 3 0; join 3 0; die 3 0; unguard 3 0; guard 3 1; give 3 1; unguard 3 1; wakes 3 2; backs off 3; guard 3 1; take 3 1; "
        "unguard 3 1; rises 2; guard 2 1; clear 2; ask 2 1; leaves to sleep 2 1; falls asleep 2",
    ),
]


class FollowedLoops(LoopRuns):
    """The nodes of one run that goes round in the end, and in the end only."""

    __init__, after = Followed.__init__, Followed.after
