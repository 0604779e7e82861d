"""The core of the locks, as docs/RULES.md has it: written from that page, and not from the program.

Names here are the words of the page. What it says of an event that isn't possible has those of users: a seat is a thread, a lock a
mutex, a stamp a timestamp, and a sign a wound.
"""
STAMPS = 2**56


class Impossible(Exception):
    """An event isn't possible."""


def must(condition, why):
    if not condition:
        raise Impossible(why)


class Core:
    """What all seats and locks are at, and the table of events of docs/RULES.md, row by row."""

    def __init__(self, kind, locks, seats):
        self.is_wait_die = kind == "wait-die"
        self.drawn = 0
        self.commits = 0
        self.stamp = [0] * seats
        self.sign = [0] * seats
        # Whose cancel of a seat is pending, and whose it has heeded.
        self.cancelled_by = [None] * seats
        self.heeded = [None] * seats
        self.owner = [None] * locks
        self.is_handed = [False] * locks
        self.handoff = [False] * locks
        self.waiters = [[] for _ in range(locks)]
        self.inside = [None] * locks

    # -- words of the page

    def has_taken(self, s, n):
        return self.owner[n] == s and not self.is_handed[n]

    def owned(self, s):
        return [n for n in range(len(self.owner)) if self.has_taken(s, n)]

    def guarded(self, s):
        """The lock in whose guard s is."""
        return self.inside.index(s) if s in self.inside else None

    def lists(self, s):
        return [n for n, waiters in enumerate(self.waiters) if s in waiters]

    def older(self, one, other):
        """Both have contexts, and that of seat one is older."""
        return 0 < self.stamp[one] < self.stamp[other]

    def is_holding(self, s):
        return self.stamp[s] > 0 and bool(self.owned(s))

    def has_other(self, s, n):
        return self.owner[n] not in (None, s)

    def dies_of(self, s, n):
        """The stamp of which s must die at n, or None."""
        if s not in self.waiters[n] or not self.is_holding(s):
            return None
        if not self.is_wait_die:
            return self.sign[s] or None
        if self.has_other(s, n) and self.older(self.owner[n], s):
            return self.stamp[self.owner[n]]
        first = next((it for it in self.waiters[n] if self.stamp[it] > 0), s)
        ahead = self.waiters[n].index(first) < self.waiters[n].index(s)
        return self.stamp[first] if ahead else None

    def owed(self, s, n):
        """The signs that s owes inside the guard of n: for each seat the stamp."""
        if self.is_wait_die:
            return {it: self.dies_of(it, n) for it in self.waiters[n] if it != s and self.dies_of(it, n)}
        owner = self.owner[n]
        if owner is None or self.is_handed[n]:
            return {}
        holding = [it for it in self.waiters[n] if self.is_holding(it) and self.older(it, owner)]
        return {owner: min(self.stamp[it] for it in holding)} if holding else {}

    def still_owed(self, s, n):
        return {it: stamp for it, stamp in self.owed(s, n).items() if not self.sign[it]}

    def tell(self, n):
        """The owner of n, in words."""
        if self.owner[n] is None:
            return f"mutex {n} is free"
        return f"thread {self.owner[n]} {'was handed' if self.is_handed[n] else 'has taken'} mutex {n}"

    # -- conditions that several rows have

    def must_be_away(self, s):
        must(self.guarded(s) is None, f"thread {s} isn't away: it is inside the guard of mutex {self.guarded(s)}")
        for n in self.lists(s):
            raise Impossible(f"thread {s} isn't away: it stands in the list of mutex {n}")

    def must_be_inside(self, s, n):
        where = self.guarded(s)
        inside = "no guard" if where is None else f"that of mutex {where}"
        must(where == n, f"thread {s} isn't inside the guard of mutex {n}: it is inside {inside}")

    def must_have_context(self, s):
        must(self.stamp[s] > 0, f"thread {s} has no context")

    def must_own_none(self, s):
        for n in self.owned(s):
            raise Impossible(f"thread {s} owns mutex {n}")

    def must_want(self, s):
        owned = self.owned(s)
        must(self.stamp[s] or not owned, f"thread {s} may want no mutex: it has no context, and owns a mutex")
        must(not self.sign[s] or owned, f"thread {s} may want no mutex: it has the wound {self.sign[s]}, and owns none")

    def must_have_other(self, s, n):
        must(self.has_other(s, n), f"mutex {n} has no other owner: {self.tell(n)}")

    def must_wait(self, s, n):
        self.must_be_inside(s, n)
        must(s in self.waiters[n], f"thread {s} doesn't stand in the list of mutex {n}")

    def must_have_heeded_none(self, s):
        must(self.heeded[s] is None, f"thread {s} has heeded a cancel, of thread {self.heeded[s]}: it has to leave")

    def leave_list(self, s, n):
        """HANDOFF goes with the last waiter."""
        self.waiters[n].remove(s)
        self.handoff[n] = self.handoff[n] and bool(self.waiters[n])

    # -- the rows: what must hold, the effect, the answer

    def begin(self, s):
        self.must_be_away(s)
        must(not self.stamp[s], f"thread {s} has a context, with timestamp {self.stamp[s]}")
        self.must_own_none(s)
        must(self.drawn < STAMPS - 1, "no timestamp is left")
        self.drawn += 1
        self.stamp[s] = self.drawn
        return f"stamp {self.drawn}"

    def clear(self, s):
        self.must_have_context(s)
        where = self.guarded(s)
        if self.is_wait_die and where is not None:
            dies = self.dies_of(s, where)
            must(not dies, f"thread {s} must die at mutex {where}, of timestamp {dies}")
        else:
            self.must_be_away(s)
            self.must_own_none(s)
        self.sign[s] = 0
        return "ok"

    def fast(self, s, n):
        self.must_be_away(s)
        self.must_want(s)
        must(self.owner[n] is None, f"the word of mutex {n} isn't 0: {self.tell(n)}")
        must(not self.waiters[n], f"the word of mutex {n} isn't 0: its list isn't empty")
        self.owner[n] = s
        return "locked"

    def fast_give(self, s, n):
        self.must_be_away(s)
        must(self.has_taken(s, n), f"thread {s} doesn't own mutex {n}: {self.tell(n)}")
        must(not self.waiters[n], f"the word of mutex {n} has a flag: its list isn't empty")
        self.owner[n] = None
        return "ok"

    def guard(self, s, n):
        where, lists = self.guarded(s), self.lists(s)
        must(where is None, f"thread {s} is inside the guard of mutex {where}")
        must(self.inside[n] is None, f"thread {self.inside[n]} is inside the guard of mutex {n}")
        if lists != [n]:
            must(not lists, f"thread {s} stands in the list of another mutex, {lists[0] if lists else ''}")
            if not self.has_taken(s, n):
                self.must_want(s)
        self.inside[n] = s
        return "ok"

    def join(self, s, n):
        self.must_be_inside(s, n)
        must(s not in self.waiters[n], f"thread {s} stands in the list of mutex {n}")
        self.must_want(s)
        self.must_have_other(s, n)
        younger = [at for at, it in enumerate(self.waiters[n]) if self.older(s, it)]
        self.waiters[n].insert(younger[0] if younger else len(self.waiters[n]), s)
        return "ok"

    def sign_of(self, s, v):
        where = self.guarded(s)
        must(where is not None, f"thread {s} is inside no guard")
        must(v in self.owed(s, where), f"no wound is due to thread {v} at mutex {where}")
        must(not self.sign[v], f"thread {v} is wounded, by timestamp {self.sign[v]}")
        self.sign[v] = self.owed(s, where)[v]
        return f"met {self.sign[v]}"

    def take(self, s, n):
        self.must_be_inside(s, n)
        self.must_want(s)
        is_his = self.owner[n] is None or (self.owner[n] == s and self.is_handed[n])
        must(is_his, f"mutex {n} is neither free nor handed to thread {s}: {self.tell(n)}")
        if s in self.waiters[n]:
            self.leave_list(s, n)
        self.owner[n], self.is_handed[n], self.handoff[n] = s, False, False
        return "locked"

    def ask(self, s, n):
        self.must_be_inside(s, n)
        must(self.waiters[n][:1] == [s], f"thread {s} isn't first in the list of mutex {n}")
        has_taken = self.has_other(s, n) and not self.is_handed[n]
        must(has_taken, f"no other thread has taken mutex {n}: {self.tell(n)}")
        must(not self.handoff[n], f"HANDOFF of mutex {n} is on")
        self.handoff[n] = True
        return "ok"

    def give(self, s, n):
        self.must_be_inside(s, n)
        must(self.has_taken(s, n), f"thread {s} doesn't own mutex {n}: {self.tell(n)}")
        self.owner[n], self.is_handed[n] = (self.waiters[n][0], True) if self.handoff[n] else (None, False)
        self.handoff[n] = False
        return f"handed {self.owner[n]}" if self.is_handed[n] else "free"

    def die(self, s, n):
        self.must_wait(s, n)
        self.must_have_other(s, n)
        self.must_have_heeded_none(s)
        dies = self.dies_of(s, n)
        must(dies, f"thread {s} need not die at mutex {n}")
        self.leave_list(s, n)
        return f"deadlk {dies}"

    def unguard(self, s, n):
        self.must_be_inside(s, n)
        for v, stamp in self.still_owed(s, n).items():
            raise Impossible(f"a wound is still due to thread {v}, of timestamp {stamp}")
        self.must_have_heeded_none(s)
        if s in self.waiters[n]:
            self.must_have_other(s, n)
        if self.is_wait_die:
            must(not self.dies_of(s, n), f"thread {s} must die at mutex {n}, of timestamp {self.dies_of(s, n)}")
            must(not self.sign[s], f"thread {s} is wounded, by timestamp {self.sign[s]}")
        self.inside[n] = None
        return "ok"

    def commit(self, s):
        self.must_be_away(s)
        must(self.owned(s), f"thread {s} owns no mutex")
        self.commits += 1
        return f"place {self.commits - 1}"

    def end(self, s):
        self.must_be_away(s)
        self.must_have_context(s)
        self.must_own_none(s)
        must(not self.sign[s], f"thread {s} is wounded, by timestamp {self.sign[s]}")
        self.stamp[s] = 0
        return "ok"

    def cancel(self, s, v):
        self.must_be_away(s)
        must(self.cancelled_by[v] is None, f"a cancel of thread {v} is pending, of thread {self.cancelled_by[v]}")
        self.cancelled_by[v] = s
        return "ok"

    def heed(self, s, n):
        self.must_wait(s, n)
        self.must_have_other(s, n)
        must(self.cancelled_by[s] is not None, f"no cancel of thread {s} is pending")
        self.must_have_heeded_none(s)
        self.heeded[s], self.cancelled_by[s] = self.cancelled_by[s], None
        return "ok"

    def leave(self, s, n):
        self.must_wait(s, n)
        by = self.heeded[s]
        must(by is not None, f"thread {s} has heeded no cancel")
        self.leave_list(s, n)
        self.heeded[s] = None
        return f"interrupted {by}"

    def step(self, event):
        """The answer of an event, or why it isn't possible: then nothing has changed."""
        name, *numbers = event
        rows = {"fast-give": self.fast_give, "sign": self.sign_of}
        return (rows.get(name) or getattr(self, name))(*numbers)


def replayed(core, events):
    """The answers of the events up to the first that isn't possible, and why that one isn't, if there is one."""
    answers = []
    for event in events:
        try:
            answers.append(core.step(event))
        except Impossible as error:
            return answers, str(error)
    return answers, None
