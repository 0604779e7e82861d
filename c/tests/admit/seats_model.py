#!/usr/bin/env python3
"""All that tasks may do by the tables at the heads of seat.c and queue.c, where they wait for contexts.

A model of return_otherwise, ww_queue_up, ww_poll_seat, ww_leave_queue, ww_poll_take_back and ww_class_cancel, of few tasks, threads and
seats: each access of a seat's `busy`, of `seekers`, `called`, `open` or `ends_waits` is a step, and what changes under the lock `queue`
alone is one with the step that it belongs to.  From the beginning it makes each step that any of them may make, in every order, so also
polls that come late or never, and asks of each state that it reaches:
- a seat has one user at most, and one task at most is CALLED for it, just where `called` says so;
- if nobody is amid a call: none of the seats that may be claimed is free while a thread waits, or while a task waits that isn't CALLED,
  unless another one is CALLED for that seat;
- whoever is the first in the queue is passed by few that begin, since a seat is lent to others once before it is handed over;
- a seat that may not be claimed any more gets no new user;
- who is CALLED is awake: its waker was called, or it took that back and is to poll;
- once the class's waits were ended nobody sleeps in a queue.
Then it leaves out one rule after another, and has to find a state that isn't so: else the model would say nothing.
"""
import sys

IDLE, LOOKS, SEEKS, SCANS, USES, GIVES, SERVES, CALLS, QUEUED, WIDENS = range(10)  # what one does
GOES_ON, ENDS, ENDED = range(3)  # whether the class's waits are to end
WAITS = -1  # a task that is QUEUED, and isn't CALLED, which is the number of its seat
NOBODY = None
WIDTHS = (1, 2)  # how many seats may be claimed, by turns, if there are so many

RULES = {
    "seeks": "whoever comes to wait counts itself before it looks at the seats",
    "asks": "a user that is through looks whether somebody waits",
    "hands": "a seat that was lent to others is handed to the first in the queue",
    "stays": "a seat that is handed over isn't set free",
    "clears": "who was called says that it isn't any more before it looks",
    "all": "then it looks at all seats",
    "its": "and first at that for which it was called",
    "leaves": "who was called and leaves passes the call on",
    "late": "who waits again, as it hasn't come for a lease, passes the call on",
    "limit": "a claim heeds how many seats may be claimed",
    "serves": "who waits is called for seats that may be claimed from now on",
    "threads": "nobody else begins while a thread waits",
    "passes": "who was called and is handed a seat passes the call on",
    "wakes": "who is called wakes, or is awake",
    "ends": "a cancel of the class ends each wait, also that of a task that took its waker back",
    "stays out": "who comes to wait after that doesn't wait",
    "polls": "nor does who polls",
}


class Wrong(Exception):
    pass


def put(them, k, it):
    return them[:k] + (it,) + them[k + 1:]


class State:
    """
    Of each seat its user and whether it was lent since it was handed over; how many may be claimed; the queue of tasks: who, WAITS or
    CALLED, how many have passed it since it was first, and whether its waker is there; for which seats `called` says that somebody is;
    the queue of threads, and how many have passed its first; who holds the lock; whether waits end; and what each does.
    """

    __slots__ = ("seats", "width", "queue", "called", "threads", "passed", "lock", "ends", "them")

    def __init__(self, *all_):
        for name, value in zip(self.__slots__, all_):
            setattr(self, name, value)

    def key(self):
        return tuple(getattr(self, name) for name in self.__slots__)

    def but(self, **changed):
        return State(*(changed.get(name, getattr(self, name)) for name in self.__slots__))

    def does(self, t, what, s=0):
        return self.but(them=put(self.them, t, (what, s)))


class Model:
    """So many seats; tasks, and behind them threads, which may use all of them; whether the width changes; and whether the class may be
    cancelled, and tasks take their wakers back."""

    def __init__(self, seats, tasks, threads, changes, cancels, without=None):
        self.count, self.tasks, self.changes, self.cancels = seats, tasks, changes, cancels
        self.keeps_turns = not (changes or threads)  # else seats are set free for what has come to an end since
        self.has = {rule: rule != without for rule in RULES}
        width = 1 if changes else seats
        self.begin = State(((NOBODY, False),) * seats, width, (), (False,) * seats, (), 0, NOBODY, GOES_ON, ((IDLE, 0),) * (tasks + threads))

    def is_task(self, t):
        return t < self.tasks

    def is_open(self, state, t, s):
        return not self.is_task(t) or s < state.width or not self.has["limit"]

    def is_free(self, state, t, s):
        return state.seats[s][0] is NOBODY and self.is_open(state, t, s)

    def is_barred(self, state, t):
        return bool(state.threads) and self.has["threads"] and t not in state.threads

    def uses(self, state, t, s):
        """It gets the seat."""
        if state.seats[s][0] is not NOBODY:
            raise Wrong(f"two use one seat: {state.key()}")
        if self.is_task(t) and s >= state.width:
            raise Wrong(f"a task gets a seat that may not be claimed: {state.key()}")
        return state.but(seats=put(state.seats, s, (t, state.seats[s][1]))).does(t, USES, s)

    def call(self, state, s):
        """
        The first in the queue that isn't, if there is one, is called for the seat: its waker, or it has taken that back, and is awake.
        Those that were called stand behind all that wait, in the order of their calls.
        """
        for k, (who, is_, passed, sleeps) in enumerate(state.queue):
            if is_ == WAITS:
                called = (who, s, passed, sleeps and not self.has["wakes"])
                return state.but(queue=state.queue[:k] + state.queue[k + 1:] + (called,), called=put(state.called, s, True))
        return state

    @staticmethod
    def first(state):
        """The first that was called, or else the first that waits; or nobody."""
        return next((it[0] for it in state.queue if it[1] != WAITS), state.queue[0][0] if state.queue else NOBODY)

    def out(self, state, t, passes):
        """It isn't in its queue any more; if it was called, the next one is."""
        if not self.is_task(t):
            return state.but(threads=tuple(it for it in state.threads if it != t), passed=0)
        k = [it[0] for it in state.queue].index(t)
        was_for = state.queue[k][1]
        state = state.but(queue=state.queue[:k] + state.queue[k + 1:])
        if was_for == WAITS:
            return state
        state = state.but(called=put(state.called, was_for, False))
        return self.call(state, was_for) if self.has[passes] else state

    def pass_on(self, state):
        """The first that was called hasn't come for a lease, and another one waits: so that is called, and it waits behind all."""
        late = next((it for it in state.queue if it[1] != WAITS), None)
        if late and any(it[1] == WAITS for it in state.queue):
            state = self.out(state, late[0], "late")
            waiting, called = ([it for it in state.queue if (it[1] == WAITS) == is_] for is_ in (True, False))
            yield state.but(queue=(*waiting, (late[0], WAITS, 0, late[3]), *called))

    def hand(self, state, t, s):
        return self.uses(self.out(state, t, "passes"), t, s)

    def passed(self, state, t):
        """One that isn't in the queue begins: few do before the first in it, or before a thread that waits."""
        if state.threads and state.passed == len(state.them):
            raise Wrong(f"a thread is passed again and again: {state.key()}")
        if state.threads:
            state = state.but(passed=state.passed + 1)
        if not (state.queue and self.is_task(t) and self.keeps_turns):
            return state
        who, is_, passed, sleeps = state.queue[0]
        if passed >= 2 * self.count:
            raise Wrong(f"somebody is passed again and again: {state.key()}")
        return state.but(queue=put(state.queue, 0, (who, is_, passed + 1, sleeps)))

    def moves(self, state):
        if self.cancels and state.ends == GOES_ON:
            yield state.but(ends=ENDS)
        elif state.ends == ENDS and state.lock is NOBODY:
            yield self.ends_one(state)
        for t, (what, s) in enumerate(state.them):
            if what == IDLE:
                if not self.is_barred(state, t):
                    yield state.does(t, LOOKS)
                if state.lock is NOBODY:
                    yield self.seeks(state, t)
            elif what == LOOKS:
                yield from self.begins(state, t)
            elif what in (SEEKS, SCANS) and state.lock == t:
                yield from self.scans(state, t, what, *s)
            elif what == USES:
                yield from self.gives(state, t, s)
            elif what == GIVES:
                yield self.asks(state, t, s)
            elif what == SERVES and state.lock is NOBODY:
                yield self.serves(state, t, s)
            elif what == CALLS and state.lock is NOBODY:
                done = state.does(t, IDLE)
                is_for = not state.threads and s < state.width and not state.called[s]
                yield self.call(done, s) if is_for else done
            elif what == WIDENS and state.lock is NOBODY:
                yield self.widened(state, t, s)
            elif what == QUEUED and state.lock is NOBODY:
                yield from self.polls(state, t)
                yield self.out(state, t, "leaves").does(t, IDLE)

    def ends_one(self, state):
        """The first of those that wait and weren't called, who look by themselves; at last there is none."""
        if state.threads:
            return self.out(state, state.threads[0], "leaves").does(state.threads[0], IDLE)
        for t, is_, _, sleeps in state.queue:
            if is_ == WAITS:
                state = self.out(state, t, "leaves").does(t, IDLE)
                return state if sleeps or self.has["ends"] else state.but(ends=ENDED)
        return state.but(ends=ENDED)

    def seeks(self, state, t):
        return (self.stands(state, t) if self.has["seeks"] else state).but(lock=t).does(t, SEEKS, (0, 0))

    def stands(self, state, t):
        if t in state.threads or any(it[0] == t for it in state.queue):
            return state
        if self.is_task(t):
            return state.but(queue=state.queue + ((t, WAITS, 0, True),))
        return state.but(threads=state.threads + (t,))

    def begins(self, state, t):
        """By a seat that is free; or it finds none, and stands in the queue."""
        free = [s for s in range(self.count) if self.is_free(state, t, s)]
        for s in free:
            yield self.uses(self.passed(state, t), t, s)
        if not free and state.lock is NOBODY:
            yield self.seeks(state, t)

    def is_first(self, state, t):
        """None of those that were there before waits, and isn't called."""
        return not any(it[0] != t and it[1] == WAITS for it in state.queue) if self.is_task(t) else state.threads[:1] in ((), (t,))

    def place_of(self, state, t):
        return next((k for k, it in enumerate(state.queue) if it[0] == t), None)

    def scans(self, state, t, what, first, k):
        """It looks at one seat after another: as it comes to wait as the first, or having dropped its call."""
        may = (what == SCANS or self.is_first(state, t)) and not self.is_barred(state, t)
        s = (first + k) % self.count
        if k < self.count and may and self.is_free(state, t, s):
            state = self.stands(state, t)
            yield self.hand(state, t, s).but(lock=NOBODY)
        elif k < self.count and may and (what == SEEKS or self.has["all"]):
            yield state.does(t, what, (first, k + 1))
        else:
            state = self.stands(state, t)
            if what == SCANS:  # it leaves a waker
                k, called = self.place_of(state, t), state.called if self.has["clears"] else put(state.called, first, False)
                state = state.but(called=called, queue=put(state.queue, k, (t, WAITS, state.queue[k][2], True)))
            state = state.but(lock=NOBODY)
            ends = state.ends != GOES_ON and self.has["polls" if what == SCANS else "stays out"]
            yield self.out(state, t, "leaves").does(t, IDLE) if ends else state.does(t, QUEUED)

    def gives(self, state, t, s):
        """It is through: it may come to look at the limiter first."""
        if state.seats[s][0] != t:
            raise Wrong(f"two use one seat: {state.key()}")
        lent = state.seats[s][1]
        if state.lock is NOBODY:
            yield from self.pass_on(state)
        if self.changes and state.queue and state.lock is NOBODY:
            width = WIDTHS[state.width == WIDTHS[0]]
            yield state.but(width=width).does(t, WIDENS, s)
        if state.queue and not state.threads and lent and self.has["hands"] and state.lock is NOBODY:
            who = self.first(state)
            if s < state.width and who is not NOBODY:
                if not self.has["stays"]:
                    yield self.out(state, who, "leaves").but(seats=put(state.seats, s, (NOBODY, False))).does(who, USES, s).does(t, IDLE)
                    return
                state = state.but(seats=put(state.seats, s, (NOBODY, False))).does(t, IDLE)
                yield self.hand(state, who, s)
                return
        elif state.queue and not state.threads and lent and self.has["hands"]:
            return  # it waits for the lock
        yield state.but(seats=put(state.seats, s, (NOBODY, bool(state.queue)))).does(t, GIVES, s)

    def asks(self, state, t, s):
        if not self.has["asks"]:
            return state.does(t, IDLE)
        if state.threads:
            return state.does(t, SERVES, s)
        return self.calls(state, t, s)

    def calls(self, state, t, s):
        return state.does(t, CALLS, s) if state.queue and not state.called[s] else state.does(t, IDLE)

    def serves(self, state, t, s):
        """A thread that waits gets the seat, if it is free; then it looks for tasks."""
        done = self.calls(state, t, s)
        return self.hand(done, state.threads[0], s) if state.threads and state.seats[s][0] is NOBODY else done

    def widened(self, state, t, s):
        """Who waits is called for those that may be claimed from now on; and then it gives its own."""
        state = state.does(t, USES, s)
        for free in range(state.width):
            if self.has["serves"] and not state.threads and state.seats[free][0] is NOBODY and not state.called[free]:
                state = self.call(state, free)
        return state

    def polls(self, state, t):
        """
        Who was called waits before all others, and looks at all seats.  Who waits passes a late call on, takes its waker back, and leaves one,
        or doesn't wait any more.
        """
        k = self.place_of(state, t)
        if k is None:
            return
        who, is_, passed, sleeps = state.queue[k]
        if is_ == WAITS and sleeps and self.cancels:
            yield state.but(queue=put(state.queue, k, (who, is_, passed, False)))
        if is_ == WAITS and not sleeps:
            ends = state.ends != GOES_ON and self.has["polls"]
            yield self.out(state, t, "leaves").does(t, IDLE) if ends else state.but(queue=put(state.queue, k, (who, is_, passed, True)))
        if is_ == WAITS:
            yield from self.pass_on(state)
        if is_ == WAITS or sleeps:
            return
        called = put(state.called, is_, False) if self.has["clears"] else state.called
        state = state.but(called=called, queue=((t, WAITS, passed, False),) + state.queue[:k] + state.queue[k + 1:])
        yield state.but(lock=t).does(t, SCANS, (is_ if self.has["its"] else is_ + 1, 0))

    def look(self, state):
        """What is so in each state; of what it waits for, only where nobody is amid a call."""
        calls = [it[1] for it in state.queue if it[1] != WAITS]
        if len(calls) > len(set(calls)):
            raise Wrong(f"two are called for one seat: {state.key()}")
        if [it for it in state.queue if it[1] != WAITS and it[3]]:
            raise Wrong(f"one is called that sleeps on: {state.key()}")
        if any(what in (LOOKS, SEEKS, SCANS, GIVES, SERVES, CALLS, WIDENS) for what, _ in state.them):
            return
        if state.ends == ENDED and (state.threads or any(it[3] for it in state.queue)):
            raise Wrong(f"a wait goes on though all are to end: {state.key()}")
        if state.called != tuple(s in calls for s in range(self.count)):
            raise Wrong(f"it says that somebody is called, or one is and it doesn't say so: {state.key()}")
        if state.threads and any(user is NOBODY for user, _ in state.seats):
            raise Wrong(f"a seat is free, and a thread waits: {state.key()}")
        waits = any(it[1] == WAITS for it in state.queue)
        if waits and any(state.seats[s][0] is NOBODY and not state.called[s] for s in range(state.width)):
            raise Wrong(f"a seat is free, somebody waits, and nobody was called for it: {state.key()}")

    def search(self):
        """How many states it reaches, each of which is right; or Wrong."""
        seen, new = {self.begin.key()}, [self.begin]
        while new:
            state = new.pop()
            self.look(state)
            for it in self.moves(state):
                if it.key() not in seen:
                    seen.add(it.key())
                    new.append(it)
        return len(seen)


def main():
    sizes = [(1, 3, 0, False, False), (2, 3, 0, False, False), (2, 2, 0, True, False), (2, 2, 1, False, False)]
    sizes += [(1, 2, 1, False, True), (1, 3, 0, False, True)]
    try:
        states = sum(Model(*size).search() for size in sizes)
    except Wrong as why:
        sys.exit(f"seats: {why}")
    for rule in RULES:
        try:
            for size in sizes + [(2, 4, 0, False, False)]:
                Model(*size, rule).search()
        except Wrong:
            continue
        sys.exit(f"seats: nothing is wrong without this: {RULES[rule]}")
    print(f"seats: {states} states, and each of {len(RULES)} rules matters")


if __name__ == "__main__":
    main()
