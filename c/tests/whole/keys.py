"""Lock tables and suspended contexts of Python (ww/tables.py, ww.Suspended): what each call returns or raises, and a storm.

keys.py libww.so"""
import errno
import gc
import os
import queue
import random
import sys
import threading
import time

sys.path.insert(0, os.path.join(os.path.dirname(os.path.abspath(__file__)), "../../python"))
import ww


def made(kind=ww.WAIT_DIE, **limits):
    return ww.Class(kind, library=sys.argv[1], **limits)


def raised(kind, call, *words, **named):
    """The error that this call raises, which is of this kind."""
    try:
        call(*words, **named)
    except kind as error:
        return error
    raise AssertionError(f"{call} raises nothing")


def in_thread(work):
    """What this returns in a thread of its own."""
    told = []
    thread = threading.Thread(target=lambda: told.append(work()))
    thread.start()
    thread.join()
    return told[0]


def modes():
    table = ww.Table(made())
    rows = ("read", "read", True, False), ("read", "lock", False, True), ("lock", "read", False, True), ("lock", "lock", False, True)
    for has, asks, gets, raises in rows:
        with table.transaction(1) as a, table.transaction(2) as b:
            getattr(a, has)("k", b"k")  # one key; what it has it may ask for again
            assert getattr(b, f"try_{asks}")(b"k") == gets
            if not gets:
                raised(TimeoutError, getattr(b, asks), "k", timeout=0)
            assert a.try_lock("k") == raises and a.mark() == 1
            assert b.try_lock(b"") and b.try_lock("\0") and b.try_lock(b"\0\0") and b.try_read("x" * 100)
            b.unlock("\0")
            assert raised(OSError, b.unlock, "\0").errno == errno.EINVAL
    assert not table.users()
    assert table._class.stats().contexts == 0


def marks():
    table = ww.Table(made(), keys=3)
    with table.transaction(1) as a, table.transaction(2) as b:
        a.lock("1")
        mark = a.mark()
        a.read("2", "3")
        a.lock("2")
        assert raised(OSError, b.lock, "4").errno == errno.ENOSPC
        a.unlock_to(mark)
        assert a.mark() == mark and [b.try_lock(it) for it in "123"] == [False, True, True]
        # A call that fails keeps nothing that it locked.
        b.unlock_all()
        raised(TimeoutError, b.lock, "2", "1", timeout=0)
        assert not b.mark() and not table.users("2")
        a.unlock_all()
        assert b.try_lock("1")


def users():
    table = ww.Table(made())
    with table.transaction(2**64 - 1) as a, table.transaction() as b:
        a.read("k")
        b.read("k")
        seen = [ww.KeyUser(b"k", 0, False, False), ww.KeyUser(b"k", 2**64 - 1, False, False)]
        assert table.users("k") == in_thread(lambda: table.users(b"k")) == table.users() == seen and not table.users("none")


def ages():
    """In Wait-Die a younger one would wait for an older one; it goes on with its age, in another thread."""
    rows = made()
    table = ww.Table(rows)
    with table.transaction(1) as a:
        with table.transaction(2) as b:
            a.lock("1")
            b.lock("2")
            raised(ww.Deadlock, b.lock, "1")
            raised(ww.Deadlock, b.try_read, "3")
            age = b.suspend()
            assert age and raised(OSError, b.lock, "2").errno == raised(OSError, b.suspend).errno == errno.EINVAL
        assert rows.stats().contexts == 2 and not table.users("2")

        def goes_on():
            raised(TimeoutError, table.transaction(3, 0.001, age).__enter__)
            age.at_once()
            with table.transaction(3, resumes=age) as again, table.transaction(4) as fresh:
                assert not age
                again.lock("2")
                fresh.lock("4")
                raised(ww.Deadlock, fresh.lock, "2")
                raised(TimeoutError, again.lock, "4", timeout=0.001)
                again.unlock_all()
                return again.suspend()

        age = in_thread(goes_on)
        assert age and rows.stats().contexts == 2
        del age
        gc.collect()
        assert rows.stats().contexts == 1


def contexts():
    """Contexts of mutexes keep theirs likewise, and say what was in the way."""
    rows = made()
    a, b = ww.Mutex(rows), ww.Mutex(rows)
    with rows.context() as older:
        older.label(5)
        older.lock(a)
        with rows.context(resumes=ww.Suspended(rows)) as younger:
            younger.lock(b)
            raised(ww.Deadlock, younger.lock, a)
            at = younger.why().at
            assert at.is_at(a) and not at.is_at(b) and at[1:] == (5, "holds")
            age = younger.suspend()
            assert age and not b.locked() and raised(OSError, younger.lock, b).errno == errno.EINVAL
        raised(TimeoutError, rows.context(0.001, age).__enter__)
        assert age
    with rows.context(resumes=age) as again, rows.context() as fresh:
        assert not age
        fresh.lock(a)
        again.lock(b)
        raised(TimeoutError, again.lock, a, timeout=0)
        assert again.why().at.is_at(a) and again.why().wanted is None
        fresh.lock(ww.Mutex(rows))
        raised(ww.Deadlock, fresh.lock, b)


def bounds():
    """Half of a class's contexts may be suspended; then an age is lost, and says so."""
    rows = made(contexts=4)

    def suspended():
        with rows.context() as context:
            return context.suspend()

    def of_table():
        with table.transaction() as it:
            return it.suspend()

    table = ww.Table(rows)
    kept = [suspended(), of_table()]
    assert all(kept) and not suspended() and not of_table() and rows.stats().contexts == 2
    del kept
    gc.collect()
    assert rows.stats().contexts == 0


def closes():
    """A table is closed once nothing refers to it: else it keeps mutexes of its class."""
    rows = made(mutexes=64, contexts=4)
    for _ in range(20):
        with ww.Table(rows).transaction() as it:
            it.lock(*map(str, range(60)))
        del it


def misuses():
    rows, others = made(), made()
    table = ww.Table(rows)
    raised(TypeError, ww.Table, 3)
    raised(TypeError, ww.Suspended, table)
    raised(ValueError, ww.Table, rows, keys=-1)
    raised(ValueError, ww.Table, rows, keys=2**32)
    raised(ValueError, table.transaction, -1)
    raised(ValueError, table.transaction, 2**64)
    assert raised(OSError, table.transaction, resumes=ww.Suspended(others)).errno == errno.EINVAL
    assert raised(OSError, rows.context, resumes=ww.Suspended(others)).errno == errno.EINVAL
    it = table.transaction()
    assert raised(OSError, it.lock, "k").errno == errno.EINVAL  # it hasn't begun
    with it:
        for call in it.lock, it.try_read, it.unlock, table.users:
            raised(TypeError, call, 5)
        raised(ValueError, it.unlock_to, -1)
        assert in_thread(lambda: raised(OSError, it.lock, "k").errno) == errno.EINVAL
        assert raised(OSError, it.__enter__).errno == errno.EINVAL
    assert raised(OSError, it.lock, "k").errno == raised(OSError, it.__enter__).errno == errno.EINVAL
    # What is dropped within its block releases all.
    it = table.transaction().__enter__()
    it.lock("k")
    it.itself = it
    del it
    gc.collect()
    assert not table.users() and rows.stats().contexts == 0


def cancelled():
    rows = made()
    table = ww.Table(rows)

    def waits():
        with table.transaction(2) as it:
            return raised(InterruptedError, it.lock, "k")

    told = []
    with table.transaction(1) as holder:
        holder.lock("k")
        thread = threading.Thread(target=lambda: told.append(waits()))
        thread.start()
        while not any(it.waits for it in table.users("k")):
            time.sleep(0.001)
        rows.cancel()
        thread.join()
    assert len(told) == 1


def runs(kind):
    """Bodies that run again, and jobs that any thread retries."""
    rows = made(kind)
    table, values, jobs = ww.Table(rows), [0] * 8, queue.SimpleQueue()
    name = [f"a key that may be long: {k * k * 'x'}" for k in range(8)]

    def moves(it, source, target):
        it.read(name[(source + target) % 8])
        it.lock(name[source])
        it.lock(name[target])
        values[source] -= 1
        values[target] += 1

    def retries():
        while True:
            try:
                source, target, age = jobs.get_nowait()
            except queue.Empty:
                return
            with table.transaction(source, resumes=age) as it:
                try:
                    moves(it, source, target)
                except ww.Deadlock:
                    jobs.put((source, target, it.suspend()))

    def by_run(seed):
        draw = random.Random(seed)
        for _ in range(200):
            source, target = draw.randrange(8), draw.randrange(8)
            table.run(lambda it: moves(it, source, target), owner=seed)

    for k in range(600):
        jobs.put((k % 8, k // 8 % 8, None))
    threads = [threading.Thread(target=by_run, args=(seed,)) for seed in range(3)] + [threading.Thread(target=retries) for _ in range(3)]
    for thread in threads:
        thread.start()
    for thread in threads:
        thread.join()
    assert jobs.empty() and not sum(values) and any(values) and not table.users() and rows.stats().contexts == 0


def returns_after_deadlock(kind):
    """A body that catches Deadlock and returns is called again: each of two threads has what the other one wants."""
    table, both, told = ww.Table(made(kind)), threading.Barrier(2), []

    def works(mine, others):
        met = []

        def body(it):
            try:
                it.lock(mine)
                if not met:
                    met.append(both.wait())
                it.lock(others)
                return it.mark()
            except ww.Deadlock:
                return "it isn't called again"

        told.append(table.run(body))

    threads = [threading.Thread(target=works, args=names) for names in (("1", "2"), ("2", "1"))]
    for thread in threads:
        thread.start()
    for thread in threads:
        thread.join()
    assert told == [2, 2] and not table.users(), told


def own(kind):
    """A transaction within another one of its thread, which has the key: it would wait for itself."""
    table = ww.Table(made(kind))

    def outer(transaction):
        transaction.lock("k")
        for body in lambda it: it.lock("k"), lambda it: it.read("k"), lambda it: it.lock("j") or it.lock("k"):
            raised(ww.Already, table.run, body)
        raised(TimeoutError, table.run, lambda it: it.lock("k", timeout=0.01))
        assert table.run(lambda it: it.lock("j") or it.mark()) == 1 and transaction.mark() == 1
        transaction.unlock("k")
        transaction.read("k")
        assert table.run(lambda it: it.read("k") or it.mark()) == 1
        raised(ww.Already, table.run, lambda it: it.lock("k"))
        return transaction.mark()

    assert table.run(outer) == 1 and not table.users()


def main():
    for test in modes, marks, users, ages, contexts, bounds, closes, misuses, cancelled:
        test()
    for kind in ww.WOUND_WAIT, ww.WAIT_DIE:
        runs(kind)
        returns_after_deadlock(kind)
        own(kind)
    print("keys: each call returned what it should, and each sum is exact")


main()
