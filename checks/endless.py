"""What crates/ww_laws asks of endless runs, of a few seats and locks: without each premise some run keeps the others
and breaks a law, and where all are kept none does.

A run through finitely many scenes comes to stay in some of them, each of which leads to each. So a search looks for
such a part, in which the law's conclusion never comes, and each premise that asks for something there finds it there.
Each seat has a context from the start, seat 0 the oldest. The runs at the end are too long to be searched for, and are
followed step by step.
"""
import collections
import functools

from scenes import ACTING, ASLEEP, GOING_TO_SLEEP, Impossible, Scenes, core_of, told

WOUND_WAIT, WAIT_DIE = KINDS = ("wound-wait", "wait-die")
ENDS_OF_WAITS = ("take", "die", "leave")
EVENTS = "clear fast fast-give guard join sign take ask give die unguard"
CANCELS = " cancel heed leave"

# A scene, with the seats that stood in the list when they last went inside a guard, those that have owned a lock ever
# since they died, and those that died in this context at a lock that they haven't taken since, each with the lock.
Node = collections.namedtuple("Node", "scene looks_again has_died contended")


def has_taken(w, s, n):
    return core_of(w.state).has_taken(s, n)


def stands(w, s, n):
    return s in core_of(w.state).waiters[n]


def waits(w, s):
    return bool(core_of(w.state).lists(s))


def is_in_use(w, s):
    """The context of the seat owns a lock and waits for none. One that neither owns nor waits may rest for ever."""
    core = core_of(w.state)
    return core.stamp[s] > 0 and not waits(w, s) and bool(core.owned(s))


def is_inside(w, s, n):
    return core_of(w.state).inside[n] == s


# ---- the premises, as specs/Premises.antt has them

# Whenever the one holds of a scene, the other comes in the end: a step, or the scene after it.
Asked = collections.namedtuple("Asked", "whenever then")


def made(s, n, seats):
    for t in seats:
        yield Asked(lambda w, t=t: (t, s) in w.owes, lambda step, w, t=t: step == ("wakes", t, s))


def heard(s, n, seats):
    yield Asked(lambda w: s in w.token and w.phase[s] == ASLEEP, lambda step, w: step == ("rises", s))


def settled(s, n, seats):
    yield Asked(lambda w: w.phase[s] == GOING_TO_SLEEP, lambda step, w: w.phase[s] != GOING_TO_SLEEP)


def looks(s, n, seats):
    yield Asked(lambda w: stands(w, s, n) and w.phase[s] == ACTING, lambda step, w: is_inside(w, s, n))


def leaves(s, n, seats):
    waits_inside = lambda w: stands(w, s, n) and is_inside(w, s, n)
    yield Asked(waits_inside, lambda step, w: not waits_inside(w))


def holders_go_on(s, n, seats):
    holds = lambda w: has_taken(w, s, n) and not waits(w, s)
    yield Asked(holds, lambda step, w: not holds(w))


def holders_release(s, n, seats):
    """In a part of scenes that a run stays in, whoever isn't always in the list of one lock is at some time in none."""
    yield Asked(lambda w: has_taken(w, s, n) and not waits(w, s), lambda step, w: not has_taken(w, s, n))


def contexts_end_or_die(s, n, seats):
    yield Asked(lambda w: is_in_use(w, s), lambda step, w: step[0] in ("end", "die") and step[1] == s)


def contexts_end(s, n, seats):
    """The law asks it of the oldest alone."""
    if s == 0:
        yield Asked(lambda w: is_in_use(w, s), lambda step, w: step[0] in ("end", "die", "leave") and step[1] == s)


def older_are_over(s, n, seats):
    """The law asks it of whatever is older than the context of seat 1: that of seat 0 has ended, or rests on."""
    if s == 0:
        yield Asked(lambda w: core_of(w.state).stamp[0] > 0 and (waits(w, 0) or is_in_use(w, 0)), lambda step, w: False)


def dies_again(s, n, seats):
    """No premise, but the contrary of what the law says: the context of seat 1 dies again and again."""
    if s == 1:
        yield Asked(lambda w: True, lambda step, w: step[:2] == ("die", 1))


def younger_rests_not(s, n, seats):
    """Nor does the context of seat 1, for a law of every context."""
    if s == 1:
        yield Asked(lambda w: True, lambda step, w: is_in_use(w, 1) or waits(w, 1))


def rests_not(s, n, seats):
    """The oldest doesn't rest for ever, which is an end of it as the law tells it."""
    if s == 0:
        yield Asked(lambda w: True, lambda step, w: is_in_use(w, 0) or waits(w, 0))


# What is asked of each step, at the scene before it.


def sleeps(node, step):
    return step[0] != "unguard" or not stands(node.scene, *step[1:])


def firsts_ask(node, step):
    if step[0] != "leaves to sleep" or step[1] not in node.looks_again:
        return True
    core, (_, s, n) = core_of(node.scene.state), step
    return core.waiters[n][0] != s or core.handoff[n] or core.is_handed[n]


def backs_off(node, step):
    return step[0] not in ("fast", "join", "take") or step[1] not in node.has_died


def takes_contended_first(node, step):
    return step[0] not in ("fast", "join", "take") or all(n == step[2] for s, n in node.contended if s == step[1])


def waits_owning(node, step):
    """The law asks it of the oldest alone."""
    return not waits(node.scene, 0) or bool(core_of(node.scene.state).owned(0))


OF_STEPS = (sleeps, firsts_ask, backs_off, takes_contended_first, waits_owning)
WAITERS_GO_ON = (made, heard, settled, looks, leaves, sleeps)

# ---- the laws, as specs/Theorem.antt has them


class Law:
    """Of which scenes a law says that something comes, and by which steps; a law of a waiter is tried of each seat."""

    def __init__(self, name, asked, concerns, comes, seats=(None,)):
        self.name, self.asked, self.concerns, self.comes, self.seats = name, asked, concerns, comes, seats


def deadlocked(w):
    """The waiters without those that wait for nobody among them, again and again."""
    core = core_of(w.state)
    members = {s for waiters in core.waiters for s in waiters}
    while True:
        fewer = {s for s in members if any(core.has_taken(t, n) for n in core.lists(s) for t in members)}
        if fewer == members:
            return members
        members = fewer


def somebody_waits(w, s):
    return any(core_of(w.state).waiters)


NO_DEADLOCK_LASTS = Law(
    "no_deadlock_lasts",
    WAITERS_GO_ON,
    lambda w, s: bool(deadlocked(w)),
    lambda w, step, s: step[0] in ("die", "leave") and step[1] in deadlocked(w),
)
SOMEBODY_GOES_ON = Law(
    "somebody_goes_on",
    (*WAITERS_GO_ON, holders_go_on),
    somebody_waits,
    lambda w, step, s: step[0] in ENDS_OF_WAITS,
)
WAITS_END = Law(
    "waits_end",
    (*WAITERS_GO_ON, holders_go_on, firsts_ask),
    somebody_waits,
    lambda w, step, s: step[0] in ENDS_OF_WAITS and stands(w, *step[1:]),
)
NO_LIVELOCK = Law(
    "no_livelock",
    (*WAITERS_GO_ON, holders_go_on, backs_off),
    waits,
    lambda w, step, s: step[0] in ("fast", "take", "leave") or step[:2] == ("die", s),
    seats=(0, 1),
)


def served(seat, owning=True):
    """What is proved of the oldest in Wound-Wait, if it owns a lock, of this seat."""

    def concerns(w, s):
        core = core_of(w.state)
        return waits(w, seat) and not core.sign[seat] and (bool(core.owned(seat)) or not owning)

    comes = lambda w, step, s: step[0] in ("take", "leave") and step[1] == seat
    return Law("oldest_is_served", (*WAITERS_GO_ON, holders_release, firsts_ask), concerns, comes)


OLDEST_IS_SERVED = served(0)
OLDEST_ENDS = Law(
    "oldest_ends",
    (*WAITERS_GO_ON, holders_release, firsts_ask, contexts_end, waits_owning, rests_not),
    lambda w, s: core_of(w.state).stamp[0] > 0,
    lambda w, step, s: step[0] in ("end", "leave") and step[1] == 0,
)

CONTEXTS_ARE_SERVED = Law(
    "contexts_are_served",
    (*WAITERS_GO_ON, holders_release, contexts_end_or_die, firsts_ask, backs_off, takes_contended_first),
    lambda w, s: core_of(w.state).stamp[0] > 0 and waits(w, 0),
    lambda w, step, s: step[0] in ENDS_OF_WAITS and step[1] == 0,
)
BACKING_OFF_ENDS = Law(
    "backing_off_ends",
    (older_are_over, backs_off, dies_again),
    lambda w, s: core_of(w.state).stamp[1] > 0,
    lambda w, step, s: False,
)
CONTEXTS_ARE_OVER = Law(
    "contexts_are_over",
    (*WAITERS_GO_ON, holders_release, contexts_end_or_die, firsts_ask, backs_off, takes_contended_first, younger_rests_not),
    lambda w, s: core_of(w.state).stamp[1] > 0,
    lambda w, step, s: step[:2] == ("end", 1),
)

# What is kept in the place of a premise that is left out, since it says less.
WEAKER = {(OLDEST_IS_SERVED, holders_release): holders_go_on}

# For each law: the kind, locks, seats and events with which a run that breaks it is searched for, and which premises
# are left out, one at a time.
SEARCHES = [
    (NO_DEADLOCK_LASTS, WOUND_WAIT, 2, 2, EVENTS, WAITERS_GO_ON),
    (NO_DEADLOCK_LASTS, WAIT_DIE, 2, 2, EVENTS, (leaves,)),
    (SOMEBODY_GOES_ON, WOUND_WAIT, 1, 2, EVENTS, (made, heard, settled, looks, leaves, holders_go_on)),
    (SOMEBODY_GOES_ON, WAIT_DIE, 1, 2, EVENTS, (made, heard, settled, looks, leaves, holders_go_on)),
    (WAITS_END, WOUND_WAIT, 1, 2, EVENTS, (sleeps, firsts_ask)),
    (WAITS_END, WAIT_DIE, 1, 2, EVENTS, (sleeps, firsts_ask)),
    (NO_LIVELOCK, WOUND_WAIT, 2, 2, EVENTS, (backs_off,)),
    (NO_LIVELOCK, WAIT_DIE, 2, 2, EVENTS, (backs_off,)),
    (OLDEST_IS_SERVED, WOUND_WAIT, 2, 2, EVENTS, (made, heard, settled, looks, leaves, holders_release, firsts_ask)),
    (OLDEST_ENDS, WOUND_WAIT, 1, 2, EVENTS + " end", (contexts_end,)),
    (BACKING_OFF_ENDS, WOUND_WAIT, 2, 2, EVENTS, (older_are_over,)),
    (BACKING_OFF_ENDS, WAIT_DIE, 2, 2, EVENTS, (older_are_over,)),
    (
        CONTEXTS_ARE_OVER,
        WAIT_DIE,
        1,
        2,
        EVENTS + " end",
        (made, heard, settled, looks, leaves, holders_release, contexts_end_or_die),
    ),
]


# ---- the search


def components(nodes, steps):
    """The parts of these nodes of which each leads to each, by Tarjan's algorithm."""
    number, low, waiting, is_waiting = {}, {}, [], set()
    for root in nodes:
        if root in number:
            continue
        work, enter = [], root
        while enter is not None or work:
            if enter is not None:
                number[enter] = low[enter] = len(number)
                waiting.append(enter)
                is_waiting.add(enter)
                work.append((enter, iter(steps[enter])))
            (node, left), enter = work[-1], None
            for _, after in left:
                if after in nodes and after not in number:
                    enter = after
                    break
                if after in is_waiting:
                    low[node] = min(low[node], number[after])
            if enter is not None:
                continue
            work.pop()
            if work:
                low[work[-1][0]] = min(low[work[-1][0]], low[node])
            if low[node] == number[node]:
                part = set()
                while node not in part:
                    part.add(waiting.pop())
                is_waiting -= part
                yield part


class Runs:
    """The nodes to which steps lead that keep those of these premises that are asked of each step, by number, and the steps from each."""

    OF_STEPS = OF_STEPS

    def __init__(self, kind, locks, seats, names, premises):
        self.begin(kind, locks, seats, names, premises)
        self.nodes, self.steps, self.before = [self.start()], [], [None]
        numbers = {self.nodes[0]: 0}
        while len(self.steps) < len(self.nodes):
            at, found = len(self.steps), []
            for step, after in self.steps_of(self.nodes[at]):
                if after not in numbers:
                    numbers[after] = len(self.nodes)
                    self.nodes.append(after)
                    self.before.append((at, step))
                found.append((step, numbers[after]))
            self.steps.append(found)

    def begin(self, kind, locks, seats, names, premises):
        self.scenes, self.locks = Scenes(kind, locks, seats, names, begun=True), range(locks)
        self.conditions = tuple(it for it in self.OF_STEPS if it in premises)

    def start(self):
        return Node(self.scenes.start, frozenset(), frozenset(), frozenset())

    def steps_of(self, node):
        """A look at the own cancel is one of them, which finds none and changes nothing here."""
        for step, w in self.scenes.steps_of(node.scene):
            if all(may(node, step) for may in self.conditions):
                yield step, Node(w, *self.memory(node, step, w))
        for s in self.scenes.seats:
            if node.scene.phase[s] == ACTING:
                yield ("finds no cancel", s), node
                return

    def memory(self, node, step, w):
        """What the conditions have to know of the steps before."""
        name, s, again, died, contended = *step[:2], *node[1:]
        if name == "guard" and firsts_ask in self.conditions:
            again = again | {s} if stands(node.scene, *step[1:]) else again - {s}
        if backs_off in self.conditions:
            died = died | {s} if (name == "die" or s in died) and core_of(w.state).owned(s) else died - {s}
        if takes_contended_first in self.conditions:
            its = {it for it in contended if it[0] == s}
            contended = contended | {step[1:]} if name == "die" else contended
            contended = contended - (its if name == "end" else {step[1:]} if name in ("fast", "take") else set())
        return again, died, contended

    def scene(self, number):
        return self.nodes[number].scene

    def asked(self, premises):
        """What these ask, of each seat and lock."""
        every = [(s, n, self.scenes.seats) for s in self.scenes.seats for n in self.locks]
        return [it for premise in premises if premise not in self.OF_STEPS for of in every for it in premise(*of)]

    def part_to_stay_in(self, nodes, steps, asked):
        """A part in which a run can stay, and whatever is asked there comes there; or None."""
        ahead = [nodes]
        while ahead:
            for part in components(ahead.pop(), steps):
                inner = [(step, after) for node in part for step, after in steps[node] if after in part]
                if not inner:
                    continue
                missed = [it for it in asked if not any(it.then(step, self.scene(after)) for step, after in inner)]
                left = {node for node in part if not any(it.whenever(self.scene(node)) for it in missed)}
                if left == part:
                    return part
                if left:
                    ahead.append(left)
        return None

    def way(self, start, goal, part, steps):
        """The steps of a shortest way within the part by a step that is such, and where it ends."""
        before, ahead = {start: None}, collections.deque([start])
        while True:
            at = ahead.popleft()
            for step, after in steps[at]:
                if after in part and goal(step, after):
                    said = [step]
                    while before[at]:
                        at, step = before[at]
                        said.append(step)
                    return said[::-1], after
                if after in part and after not in before:
                    before[after] = (at, step)
                    ahead.append(after)

    def run_in(self, part, steps, asked):
        """The steps to the part, and a round there in which all that is asked comes."""
        first, to, again = min(part), [], []
        node = at = first
        while self.before[node]:
            node, step = self.before[node]
            to.append(step)
        for it in asked:
            if any(it.whenever(self.scene(node)) for node in part):
                more, at = self.way(at, lambda step, after, it=it: it.then(step, self.scene(after)), part, steps)
                again += more
        if at != first or not again:
            again += self.way(at, lambda step, after: after == first, part, steps)[0]
        return to[::-1], again

    def run_that_breaks(self, law, premises):
        """Its steps to where it goes round and those of the round, or None; and of how many scenes the law speaks."""
        asked, spoken_of = self.asked(premises), 0
        for s in law.seats:
            nodes = {number for number, node in enumerate(self.nodes) if law.concerns(node.scene, s)}
            steps = {it: [go for go in self.steps[it] if not law.comes(self.scene(it), go[0], s)] for it in nodes}
            spoken_of += len(nodes)
            part = self.part_to_stay_in(nodes, steps, asked)
            if part:
                return self.run_in(part, steps, asked), spoken_of
        return None, spoken_of


def texts(steps):
    return "; ".join(map(told, steps))


# ---- the runs that are followed

# In Wound-Wait the oldest, seat 0, waits for its first lock. Seat 3 has that, and waits for lock 1, which 1 and 2, both
# older than it, pass to and fro. In Wait-Die the oldest has a lock and waits for one of seat 2, which waits for lock 1.
# Whenever it would have to die there, since seat 1 is ahead of it, it looks too late: 3 has taken the lock past the
# list. Nobody dies in the one run; in the other 1 and 3 do so again and again, at the lock where 0 waits.
#
# And one that dies keeps its sign as long as it owns a lock: so without backing off it dies again and again, though the
# older context rests that signed it, whose wait was cancelled.
#
# Nor is what holds of the oldest that owns a lock in Wound-Wait true of others, or of one that owns none, or in Wait-Die.
FOLLOWED = [
    (
        ((BACKING_OFF_ENDS, backs_off),),
        WOUND_WAIT,
        2,
        3,
        "fast 0 0; fast 1 1; guard 0 1; join 0 1; sign 0 1; cancel 2 0; heed 0 1; leave 0 1; unguard 0 1; wakes 0 1; "
        "fast-give 0 0; fast 2 0; guard 1 0; join 1 0; die 1 0; unguard 1 0",
        "guard 1 0; join 1 0; die 1 0; unguard 1 0",
    ),
    (
        ((OLDEST_ENDS, waits_owning), (served(0, owning=False), None), (served(3), None)),
        WOUND_WAIT,
        2,
        4,
        "fast 3 0; fast 1 1; guard 3 1; join 3 1; finds no sign 3; leaves to sleep 3 1; falls asleep 3; guard 0 0; "
        "join 0 0; leaves to sleep 0 0; falls asleep 0",
        "guard 2 1; join 2 1; leaves to sleep 2 1; falls asleep 2; guard 1 1; give 1 1; unguard 1 1; wakes 1 2; "
        "rises 2; guard 2 1; take 2 1; unguard 2 1; guard 1 1; join 1 1; leaves to sleep 1 1; falls asleep 1; "
        "guard 2 1; give 2 1; unguard 2 1; wakes 2 1; rises 1; guard 1 1; take 1 1; unguard 1 1",
    ),
    (
        ((CONTEXTS_ARE_SERVED, contexts_end_or_die), (OLDEST_IS_SERVED, None)),
        WAIT_DIE,
        3,
        4,
        "fast 0 2; fast 2 0; fast 3 1; guard 2 1; join 2 1; leaves to sleep 2 1; falls asleep 2; guard 0 0; join 0 0; "
        "leaves to sleep 0 0; falls asleep 0",
        "guard 1 1; join 1 1; sign 1 2; leaves to sleep 1 1; wakes 1 2; falls asleep 1; guard 3 1; give 3 1; "
        "unguard 3 1; wakes 3 1; rises 1; guard 1 1; take 1 1; unguard 1 1; guard 1 1; give 1 1; unguard 1 1; "
        "guard 3 1; take 3 1; unguard 3 1; wakes 1 2; rises 2; guard 2 1; clear 2; ask 2 1; leaves to sleep 2 1; "
        "falls asleep 2",
    ),
    (
        ((CONTEXTS_ARE_SERVED, takes_contended_first),),
        WAIT_DIE,
        3,
        4,
        "fast 0 2; fast 2 0; fast 3 1; guard 2 1; join 2 1; leaves to sleep 2 1; falls asleep 2; guard 0 0; join 0 0; "
        "leaves to sleep 0 0; falls asleep 0",
        "guard 1 1; join 1 1; sign 1 2; leaves to sleep 1 1; wakes 1 2; falls asleep 1; guard 3 1; give 3 1; "
        "unguard 3 1; wakes 3 1; rises 1; guard 1 1; take 1 1; unguard 1 1; guard 1 0; join 1 0; die 1 0; unguard 1 0; "
        "guard 1 1; give 1 1; unguard 1 1; wakes 1 2; guard 3 1; take 3 1; unguard 3 1; guard 3 0; join 3 0; die 3 0; "
        "unguard 3 0; guard 3 1; give 3 1; unguard 3 1; wakes 3 2; guard 3 1; take 3 1; unguard 3 1; rises 2; "
        "guard 2 1; clear 2; ask 2 1; leaves to sleep 2 1; falls asleep 2",
    ),
]


class Followed(Runs):
    """The nodes of one run that goes round in the end, and in the end only."""

    def __init__(self, kind, locks, seats, premises, to, again):
        self.begin(kind, locks, seats, EVENTS + CANCELS, premises)
        self.nodes, self.steps = [self.start()], []
        # Once round before the round that counts, so that what the conditions remember is what it is ever after.
        for words in "; ".join((to, again)).split("; "):
            self.nodes = [self.after(self.nodes[-1], words)[1]]
        for words in again.split("; "):
            step, after = self.after(self.nodes[-1], words)
            self.steps.append([(step, len(self.nodes))])
            self.nodes.append(after)
        self.closes = self.nodes.pop() == self.nodes[0]
        self.steps[-1] = [(step, 0)]

    def after(self, node, words):
        for step, after in self.steps_of(node):
            if told(step) == words:
                return step, after
        raise Impossible(words)


def breaks(law, premises, follow, *run):
    """Whether that is a run which keeps these premises, and the law's conclusion never comes in it."""
    try:
        runs = follow(*run[:3], premises, *run[3:])
    except Impossible:
        return False
    made, s = [(runs.scene(it), go[0][0]) for it, go in enumerate(runs.steps)], law.seats[0]
    is_silent = all(law.concerns(w, s) and not law.comes(w, step, s) for w, step in made)
    nodes = set(range(len(runs.nodes)))
    return runs.closes and is_silent and runs.part_to_stay_in(nodes, runs.steps, runs.asked(premises)) == nodes


def all_but(premise, law, besides=()):
    kept = [WEAKER.get((law, it)) if it is premise else it for it in (*law.asked, *besides)]
    return tuple(it for it in kept if it)


def premises_matter(searches, followed, of=Runs, follow=Followed):
    """Whether without each premise a run breaks a law, and with all of them none does."""
    failed, runs_of = False, functools.lru_cache(maxsize=1)(of)
    for law, kind, locks, seats, names, left_out, *besides in searches:
        for premise in (None, *left_out):
            kept = all_but(premise, law, *besides)
            of_steps = tuple(it for it in of.OF_STEPS if it in kept)
            found, spoken_of = runs_of(kind, locks, seats, names, of_steps).run_that_breaks(law, kept)
            said = "no run breaks it" if not found else "{}; and then for ever: {}".format(*map(texts, found))
            without = f" without {premise.__name__}" if premise else ""
            print(f"{kind}, {locks} locks, {seats} seats, {law.name}{without}: {said} ({spoken_of} scenes)")
            failed |= (found is None) != (premise is None) or not spoken_of
    for laws, *run in followed:
        kind, locks, seats, to, again = run
        for law, premise in laws:
            is_broken = breaks(law, all_but(premise, law), follow, *run) and not (premise and breaks(law, law.asked, follow, *run))
            said = f"{to}; and then for ever: {again}" if is_broken else "THE RUN DOESN'T BREAK IT"
            of_law = f"{law.name} without {premise.__name__}" if premise else f"{law.name} where it isn't said to hold"
            print(f"{kind}, {locks} locks, {seats} seats, {of_law}: {said}")
            failed |= not is_broken
    return not failed
