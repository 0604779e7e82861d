"""A signal whose handler raises, at each place where Python looks for signals: when the exception has left a block nothing is locked,
no context is in use, and no exception is lost in a finalizer.

interrupts.py libww.so"""
import collections
import contextlib
import ctypes
import functools
import gc
import os
import random
import signal
import sys

sys.path.insert(0, os.path.join(os.path.dirname(os.path.abspath(__file__)), "../../python"))
import ww

its = ww.Class(contexts=3, library=sys.argv[1])
a, b = ww.Mutex(its), ww.SharedMutex(its)
table = ww.Table(its)
RAISES = ctypes.PYFUNCTYPE(ctypes.c_int, ctypes.c_int)(("raise", ctypes.CDLL(None)))  # marks the signal, and handles nothing
# What is called at the end of a block or of an object, in which no line of Python is run.
ENDS = ("ww_acquire_end", "ww_table_unlock_to", "ww_retry_drop")
lost = []


class Interrupt(KeyboardInterrupt):
    pass


def interrupts(*_):
    raise Interrupt


def by_context():
    with its.context() as context:
        context.lock(a)
        context.read(b)


def by_context_twice():
    with its.context() as one, its.context() as other:
        one.lock(b)
        other.lock(a)
        one.unlock(b)


def by_run():
    its.run(lambda context: context.lock(a, b))


def by_mutex():
    with a, b:
        pass


def by_table():
    with table.transaction() as transaction:
        transaction.lock("1")
        transaction.read("2")
        transaction.unlock("1")


def by_ages():
    with table.transaction() as transaction:
        transaction.lock("1")
        age = transaction.suspend()
    with its.context(resumes=age) as context:
        context.lock(a)
        age = context.suspend()


def by_stack():
    with contextlib.ExitStack() as stack:
        stack.enter_context(a)
        stack.enter_context(its.context()).lock(b)


def has_keys():
    """Whether some transaction has a key."""
    with table.transaction() as transaction:
        return not (transaction.try_lock("1") and transaction.try_lock("2"))


def is_interrupted(work, ages=0):
    """Whether it was, and then left nothing, while somebody keeps the exception with all that its frames refer to: that may be an age."""
    try:
        work()
        kept = None
    except Interrupt as error:
        kept = error
    assert not a.locked() and not b.locked() and not has_keys(), work.__name__
    assert its.stats().contexts <= ages, (work.__name__, its.stats().contexts)
    assert not lost, lost
    return kept is not None


def behind_each_call(work, ages=0):
    """The signal comes during a call of C that a function of the package makes, and is handled as soon as that returns."""
    library = its._library
    calls = {name: call for name, call in vars(library).items() if name.startswith("ww_") and name not in ENDS}
    left = count = 0

    def hooked(call):
        def calls_it(*words):
            nonlocal left
            result = call(*words)
            left -= 1
            if left == 0:
                RAISES(signal.SIGALRM)
            return result

        return calls_it

    def is_hit(at):
        nonlocal left
        left = at
        for name, call in calls.items():
            setattr(library, name, hooked(call))
        try:
            work()
        finally:
            left = 0
            for name, call in calls.items():
                setattr(library, name, call)

    while is_interrupted(lambda: is_hit(count + 1), ages):
        count += 1
    return count


def amid_each_end(work, ages=0):
    """The signal comes while the block's end is looked up, in which no line of Python is run; the end is made all the same."""
    made = collections.defaultdict(functools.partial(RAISES, signal.SIGALRM))
    kinds = its._library.context, ww.mutexes._Call
    looked_up = [(kind, name, it) for kind in kinds for name, it in vars(kind).items() if isinstance(it, property)]
    for kind, name, it in looked_up:
        setattr(kind, f"real_{name}", it)
        # Once; numbers are written without a look for signals.
        setattr(kind, name, property(functools.partial(f"{{0[0]}}{{1.real_{name}}}".format, made)))
    try:
        assert is_interrupted(work, ages), work
    finally:
        for kind, name, it in looked_up:
            setattr(kind, name, it)
            delattr(kind, f"real_{name}")


def at_random(work, times, ages=0):
    """A timer at random moments, as a user's Ctrl-C comes."""
    count = 0

    def works():
        try:
            signal.setitimer(signal.ITIMER_REAL, random.random() * 0.0003 + 1e-6)
            for _ in range(1000):
                work()
        finally:
            signal.setitimer(signal.ITIMER_REAL, 0)

    while count < times:
        count += is_interrupted(works, ages)


def main():
    signal.signal(signal.SIGALRM, interrupts)
    sys.unraisablehook = lost.append
    for work in (by_context, by_context_twice, by_run, by_mutex, by_stack, by_table, by_ages):
        ages = work is by_ages
        assert behind_each_call(work, ages) >= 5, work
        amid_each_end(work, ages)
        # Python 3.9 itself may raise between a block and its end; and an ExitStack before it ends one.
        if sys.version_info >= (3, 10) and work != by_stack:
            at_random(work, 300, ages)
    gc.collect()
    assert its.stats().contexts == 0
    print("interrupts: each exception left a block in which nothing was held any more")


main()
