"""What Python's objects refuse, and how their waits end: by Deadlock, a time, a cancel, an interrupt.

mutexes.py libww.so"""
import contextlib
import copy
import ctypes
import errno
import functools
import gc
import inspect
import os
import pickle
import signal
import subprocess
import sys
import threading
import time
import typing

sys.path.insert(0, os.path.join(os.path.dirname(os.path.abspath(__file__)), "../../python"))
import ww

KINDS = (ww.WOUND_WAIT, ww.WAIT_DIE)


def made(kind=ww.WOUND_WAIT, mutexes=8, contexts=4):
    return ww.Class(kind, mutexes, contexts, sys.argv[1])


def fault_of(call, *words, **named):
    """The errno of a call that fails, or 0."""
    try:
        call(*words, **named)
    except OSError as error:
        return error.errno
    return 0


def is_raised(kind, call, *words, **named):
    try:
        call(*words, **named)
    except kind:
        return True
    return False


def begins(of, timeout=None):
    with of.context(timeout):
        pass


def beside(call):
    """What the call returns in another thread."""
    answers = []
    thread = threading.Thread(target=lambda: answers.append(call()))
    thread.start()
    thread.join()
    return answers[0]


def wait_for(thread, name, ended=threading.Event()):
    """Until the thread is in the function of this name, and most likely asleep there, or has ended what it was to do."""
    is_there = False
    while not is_there and not ended.is_set():
        time.sleep(0.01)
        frame = sys._current_frames().get(thread)
        while frame and frame.f_code.co_name != name:
            frame = frame.f_back
        is_there = frame is not None
    time.sleep(0.1)


def says_why():
    """What a message says, and what things are called."""
    def why_of(call, *words, **named):
        try:
            call(*words, **named)
        except OSError as error:
            return error.strerror
        return ""

    its = ww.Class(mutexes=1, contexts=4, library=sys.argv[1], name="accounts")
    a = ww.Mutex(its)
    assert "16,773,121" in why_of(made, mutexes=16_773_122)
    assert why_of(ww.Mutex, its) == f"all mutexes of the class are in use: 65,536, or as many as Class(mutexes=..) says: {its!r}"
    assert repr(its) == "<ww.Class 'accounts'>" and repr(a).startswith("<unlocked ww.Mutex object of 'accounts' at 0x")
    with its.context() as one:
        one.lock(a)
        assert "with 1 mutex>" in repr(one) and repr(a).startswith("<locked ")
        assert why_of(one.lock, a) == f"the context holds this mutex already: {a!r}"
        assert why_of(a.__enter__) == f"this thread holds it already: {a!r}" and why_of(one.downgrade, a) == f"the context doesn't write it: {a!r}"
        assert beside(lambda: why_of(one.lock, a)) == f"it belongs to another thread, and each thread begins its own: {one!r}"
        with its.context() as two:
            assert why_of(two.lock, a, timeout=0) == f"the time limit came first: {a!r}"
            assert why_of(two.unlock, a) == f"the context doesn't hold it: {a!r}"
        one.cancel()
        assert why_of(one.cancel) == f"a cancel is pending already: {one!r}"
        one.done()
        assert why_of(one.done) == f"done was called before: {one!r}"
    for it in (one, its.context()):
        for call in (lambda: it.lock(a), it.cancel):
            assert why_of(call) == f"it hasn't begun, or has ended, and is used in its block, `with .. as it`: {it!r}"
    assert why_of(a.release) == f"it isn't locked by acquire or by its own block: {a!r}"
    assert why_of(made, "wound-wait") == "a class is ww.WOUND_WAIT or ww.WAIT_DIE, not 'wound-wait'"
    assert its.stats() == ww.Counts(0, 1, 0, 0, 0, 0, 4) and ww.__version__.count(".") == 2


def is_a_lock():
    """As threading.Lock: with a time limit, or only if it is free; several are held, in any order. locks.py has CPython's own tests."""
    its = made()
    a, b = ww.Mutex(its), ww.Mutex(its)
    assert a.acquire() and b.acquire(blocking=False) and a.locked() and not beside(lambda: a.acquire(False))
    assert not beside(lambda: a.acquire(timeout=0.01)) and is_raised(ww.Already, a.acquire) and is_raised(ValueError, b.acquire, False, 1)
    a.release()
    b.release()
    assert beside(lambda: a.acquire(timeout=60) and not a.release()) and fault_of(a.release) == errno.EINVAL
    with a:
        assert not beside(lambda: a.acquire(timeout=0)) and not a.acquire(False) and not a.acquire(timeout=0.01)
        assert beside(lambda: not a.release()) and a.acquire(False)
    with its.context() as context:
        context.lock(a)
        assert not a.acquire(False) and is_raised(ww.Already, a.acquire) and fault_of(a.release) == errno.EINVAL and a in context
    assert not a.locked()


def costs_so_much():
    """A block, beside that of a threading.Lock; by time of the processor, of several rounds the least."""
    its, count = made(), 1000
    a, b, one, other = ww.Mutex(its), ww.Mutex(its), threading.Lock(), threading.Lock()

    def by_locks():
        for _ in range(count):
            with one, other:
                pass

    def by_mutexes():
        for _ in range(count):
            with a, b:
                pass

    def by_contexts():
        for _ in range(count):
            with its.context() as context:
                context.lock(a, b)

    def took(block):
        began = time.thread_time()
        block()
        return time.thread_time() - began

    least = {it: min(took(it) for _ in range(10)) for it in (by_locks, by_mutexes, by_contexts)}
    assert least[by_mutexes] < 200 * least[by_locks] and least[by_contexts] < 200 * least[by_locks], least


def ends_all_waits():
    """A cancel of the class ends each wait, by a context and for one, and those that begin later."""
    its, faults = made(contexts=2), []
    a = ww.Mutex(its)

    def waits():
        faults.append(fault_of(a.acquire))

    with its.context() as one:
        one.lock(a)
        threads = [threading.Thread(target=waits) for _ in range(2)]
        for thread in threads:
            thread.start()
        while its.stats().lock_waits < 1 or its.stats().context_waits < 1:
            time.sleep(0.001)
        its.cancel()
        for thread in threads:
            thread.join()
        assert beside(lambda: fault_of(a.acquire)) == errno.EINTR
    assert faults == [errno.EINTR] * 2
    with a:
        pass


def debugs():
    """With WW_DEBUG the reports name the lines of the program."""
    program = "import sys, ww\nits = ww.Class(library=sys.argv[1], name='its')\nwith its.context() as one:\n    with its.context() as two:\n        pass\n"
    words = [sys.executable, "-c", program, sys.argv[1]]
    environment = {**os.environ, "WW_DEBUG": "1", "PYTHONPATH": os.path.dirname(os.path.dirname(ww.__file__))}
    told = subprocess.run(words, env=environment, stderr=subprocess.PIPE, text=True, check=True).stderr
    assert '<string>:4: ww_acquire_init: class "its": two contexts' in told and "began at <string>:3" in told and "-DWW_DEBUG" not in told
    assert told.count("\n") == 1, told  # no backtrace of the interpreter's calls
    # What couldn't be made, or hasn't begun, has no end that is reported.
    program = """import sys, ww
few = ww.Class(mutexes=2, contexts=1, library=sys.argv[1])
held = [ww.Mutex(few), ww.SharedMutex(few)]
for call in (lambda: ww.Mutex(few), lambda: ww.SharedMutex(few), lambda: few.context().lock(held[0]), few.context().cancel, held[0].release):
    try:
        call()
    except OSError as error:
        print(error.errno)
"""
    it = subprocess.run([sys.executable, "-c", program, sys.argv[1]], env=environment, capture_output=True, text=True, check=False)
    assert not it.returncode and not it.stderr and it.stdout.split() == ["28", "28", "22", "22", "22"], it


def is_typed():
    """Each public call says the types of its words and of what it returns; and the package says so."""
    names = {**vars(ww.mutexes), "TaskContext": ww.TaskContext}
    calls = [call for it in (ww.Class, ww.Mutex, ww.SharedMutex, ww.Context, ww.TaskContext) for name, call in inspect.getmembers(it, callable)
             if not name.startswith("_")]
    for it in calls:
        assert {*typing.get_type_hints(it, names)} == {*inspect.signature(it).parameters, "return"} - {"self"}, it
    assert len(calls) > 25 and os.path.exists(os.path.join(os.path.dirname(ww.__file__), "py.typed"))


def reports_to():
    """A message that ends the program comes to a function of its own."""
    child = os.fork()
    if child == 0:
        library = ww.opened(sys.argv[1])
        ww.report_to(print, sys.argv[1])
        ww.report_to(lambda it: os._exit("the context holds a mutex, or has ended" not in it), sys.argv[1])
        library.ww_tries_begin_(ctypes.byref(library.context()))
    assert os.waitpid(child, 0)[1] == 0


def refuses_classes():
    for words in ((2, 8, 4), (-1, 8, 4), (ww.WAIT_DIE, 2**24 + 1, 4), (ww.WAIT_DIE, -1, 4), (ww.WAIT_DIE, 8, 4095), (ww.WAIT_DIE, 8, 2**32)):
        assert fault_of(made, *words) == errno.EINVAL
    assert is_raised(TypeError, ww.Mutex, None)


def says_what_came():
    """In one sentence: what was expected, and what came instead, which isn't called, and changes nothing."""
    buffers, others = made(), made()
    a, b, table = ww.Mutex(buffers), ww.Mutex(others), ww.Table(buffers)

    async def asynchronous(_):
        pass

    async def yields_by_turns(_):
        yield

    def yields(_):
        yield

    def fails(_):
        raise TypeError("its own")

    def returns_one(context):
        return yields(context)

    def why_of(kind, call, *words, **named):
        try:
            call(*words, **named)
        except kind as error:
            assert error.__cause__ is None and error.__suppress_context__ == (error.__context__ is not None)
            return str(error)
        raise AssertionError(f"{call} raises no {kind}")

    for run in buffers.run, table.run:
        for body, its_kind in ((3, ""), (None, ""), (asynchronous, ", which is an async function"), (yields, ", which is a generator"),
                               (yields_by_turns, ", which is an async generator"), (functools.partial(yields), ", which is a generator")):
            assert why_of(TypeError, run, body) == f"a plain function of the context is expected, not {body!r}{its_kind}"
        for seen in (fails, lambda _: len(3)):
            assert is_raised(TypeError, run, seen)
        assert list(run(returns_one)) == [None] and run(lambda _: 8) == 8
        assert why_of(TypeError, run, len, timeout="1") == "a number of seconds is expected, not '1'"
    with buffers.context() as context:
        for call in (context.lock, context.try_lock, context.unlock, context.read, context.downgrade):
            for wrong in ((a, a), [a], ww.Mutex, ww.Mutex.lock if hasattr(ww.Mutex, "lock") else len, 5, None):
                hint = ": unpack it by *" if isinstance(wrong, (tuple, list)) else ": a time limit is timeout=5" if wrong == 5 else ""
                assert why_of(TypeError, call, wrong) == f"a ww.Mutex is expected, not {wrong!r}{hint}"
            assert f"another class than the context's, '': {b!r}" in why_of(OSError, call, b)
        assert "of another class" in why_of(OSError, context.lock, a, b) and a not in context
        assert why_of(TypeError, context.read, a) == f"a ww.SharedMutex is expected, not {a!r}"
        assert why_of(TypeError, context.label, "1") == "a label is expected, not '1'" and is_raised(ValueError, context.label, -1)
        assert why_of(TypeError, context.lock, a, timeout="1") == "a number of seconds is expected, not '1'" and a not in context
        context.lock(a)
        assert why_of(TypeError, ww.Place(0, 0, "holds").is_at, (a,)).startswith("a ww.Mutex is expected")
    for call in (ww.Mutex, ww.SharedMutex, ww.Table, ww.Suspended):
        assert why_of(TypeError, call, ww.Class) == f"a ww.Class is expected, not {ww.Class!r}"
    assert why_of(TypeError, a.acquire, timeout="1") == "a number of seconds is expected, not '1'"
    assert why_of(TypeError, ww.Class, library=sys.argv[1], name=3) == "a name that is a str is expected, not 3"
    for named in ({"mutexes": "3"}, {"contexts": "3"}):
        assert why_of(TypeError, ww.Class, library=sys.argv[1], **named) == "a whole number is expected, not '3'"
    for call in (buffers.context, table.transaction):
        assert why_of(TypeError, call, resumes=context) == f"a ww.Suspended is expected, not {context!r}"
    assert why_of(TypeError, ww.Table, buffers, "8") == "a number of keys is expected, not '8'"
    assert why_of(TypeError, table.transaction, "me") == "an owner is expected, not 'me'"
    with table.transaction() as transaction:
        assert why_of(TypeError, transaction.lock, ("k", "l")) == "a key of bytes, or a str is expected, not ('k', 'l'): unpack it by *"
        assert why_of(TypeError, transaction.unlock_to, None) == "a mark is expected, not None"
    assert not a.locked() and buffers.stats().contexts == 0 and not table.users()


def refuses_mutexes(kind):
    """Of another class, not held, held twice, held by another; what is no mutex; `done` twice."""
    buffers, others = made(kind), made(kind)
    a, b, strange = ww.Mutex(buffers), ww.Mutex(buffers), ww.Mutex(others)
    with buffers.context() as one, buffers.context() as two:
        for call in (one.lock, one.try_lock, one.unlock):
            assert fault_of(call, strange) == errno.EINVAL and is_raised(TypeError, call, None)
        assert fault_of(one.lock, a, b, a) == errno.EALREADY and a not in one and not a.locked() and not b.locked()
        one.lock(a)
        assert fault_of(one.lock, b, a) == errno.EALREADY and a in one and b not in one and not b.locked()
        assert not two.try_lock(a) and fault_of(two.unlock, a) == errno.EINVAL and a in one and a.locked()
        assert is_raised(ValueError, one.lock, b, timeout=float("nan")) and fault_of(b.__exit__) == errno.EINVAL
        one.done()
        assert fault_of(one.done) == errno.EINVAL
        one.unlock(a)
        assert two.try_lock(a) and fault_of(one.unlock, a) == errno.EINVAL and a in two


def refuses_again(kind):
    """What this thread holds already, by whichever way, and a second cancel."""
    buffers = made(kind)
    a, b = ww.Mutex(buffers), ww.Mutex(buffers)
    with buffers.context() as context, b:
        context.lock(a)
        for call in (lambda: context.lock(a), a.__enter__, b.__enter__):
            assert is_raised(ww.Already, call)
        assert beside(lambda: a.locked() and is_raised(TimeoutError, buffers.run, lambda other: other.lock(a, timeout=0)))
        context.cancel()
        assert is_raised(ww.Already, context.cancel)
    with a, b:
        assert a.locked() and b.locked()


def refuses_itself(kind):
    """A wait without a limit for another context of the thread, also for what that reads, and first for what is contended; but a read
    beside that, and an upgrade while another thread reads, are none."""
    buffers, long = made(kind), ww.mutexes._LONG
    a, b, other = ww.Mutex(buffers), ww.SharedMutex(buffers), ww.Mutex(buffers)
    ww.mutexes._LONG = ww.mutexes._SLICE

    def locks(mutex, call="lock"):
        return buffers.run(lambda context: getattr(context, call)(mutex))

    def waits_for_itself():
        with a:
            assert is_raised(ww.Already, locks, a) and is_raised(ww.Already, buffers.run, lambda it: it.lock(other) or it.lock(a))
        with buffers.context() as context:
            context.read(b)
            assert not locks(b, "read") and is_raised(ww.Already, locks, b)
            context.lock(b)
            return is_raised(ww.Already, locks, b, "read")

    assert waits_for_itself() and beside(waits_for_itself)
    has_read, goes_on = threading.Event(), threading.Event()

    def reads_for_long():
        with buffers.context() as context:
            context.read(b)
            has_read.set()
            goes_on.wait()

    thread = threading.Thread(target=reads_for_long)
    with buffers.context(), buffers.context() as context:
        context.read(b)
        thread.start()
        has_read.wait()
        threading.Timer(0.3, goes_on.set).start()
        context.lock(b)
        assert goes_on.is_set() and b in context
    thread.join()
    ww.mutexes._LONG = long
    assert not buffers.stats().contexts


def refuses_others():
    """A context is its thread's, and only as long as its block."""
    buffers = made()
    a = ww.Mutex(buffers)
    with buffers.context() as context:
        context.lock(a)
        calls = (lambda: context.lock(a), lambda: context.try_lock(a), lambda: context.unlock(a), context.unlock_all, context.done)
        for call in calls:
            assert beside(lambda: fault_of(call)) == errno.EINVAL
        assert a in context and a.locked()
    assert a not in context and not a.locked()
    for call in (*calls, context.cancel):
        assert fault_of(call) == errno.EINVAL


def is_neither_copied_nor_pickled():
    """A copy would put the number back that the mutex has."""
    buffers = made()
    table = ww.Table(buffers)
    for it in (buffers, ww.Mutex(buffers), ww.SharedMutex(buffers), buffers.context(), ww.Suspended(buffers), table, table.transaction()):
        for call in (copy.copy, copy.deepcopy, pickle.dumps):
            try:
                call(it)
                assert False, it
            except TypeError as error:
                assert str(error) == f"a ww.{type(it).__name__} can't be copied or pickled"


def begins_once():
    """By one of two threads that come at once; and not again where its time came before it began, so nothing stays in use."""
    buffers = made(contexts=2)
    a, inside = ww.Mutex(buffers), []
    for count in range(1, 201):
        context, met = buffers.context(), threading.Barrier(2)

        def enters():
            met.wait()
            with context:
                context.lock(a)
                inside.append(a.locked() and a in context)

        threads = [threading.Thread(target=fault_of, args=(enters,)) for _ in range(2)]
        for it in threads:
            it.start()
        for it in threads:
            it.join()
        assert inside == [True] * count
    late = buffers.context(timeout=0.01)
    with buffers.context() as one, buffers.context() as other:
        assert fault_of(late.__enter__) == errno.ETIMEDOUT and one is not other
    assert fault_of(late.__enter__) == errno.EINVAL and not buffers.stats().contexts


def gives_numbers_back():
    """Of a mutex that goes the number stays in use as long as a context holds it; then its class has room for another, also while a
    context has yet to wait for that number."""
    buffers = made(ww.WAIT_DIE, mutexes=2)
    a, b = ww.Mutex(buffers), ww.Mutex(buffers)
    with buffers.context() as older, buffers.context() as younger:
        older.lock(a)
        younger.lock(b)
        assert is_raised(ww.Deadlock, younger.lock, a) and not younger.try_lock(a)
        del a
        gc.collect()
        assert fault_of(ww.Mutex, buffers) == errno.ENOSPC
        older.unlock_all()
        another = ww.Mutex(buffers)
        younger.unlock_all()
        younger.lock(b)
        assert another not in younger and fault_of(ww.Mutex, buffers) == errno.ENOSPC
        del another
    with buffers.context() as context, buffers.context() as other:
        for is_told, tries in enumerate((context.try_lock, lambda it: is_raised(TimeoutError, context.lock, it, timeout=0))):
            mutex = ww.Mutex(buffers)
            other.lock(mutex)
            assert tries(mutex) == is_told
            other.unlock(mutex)
            del mutex
        for release in (context.unlock, lambda _: context.unlock_all(), lambda _: None):
            mutex = ww.Mutex(buffers)
            context.lock(mutex)
            release(mutex)
            del mutex
    with ww.Mutex(buffers) as mutex:
        assert mutex.locked()


def waits_for_nothing_that_is_gone():
    """A mutex at which a context got Deadlock goes, and its number may be that by which this or another one reads."""
    for own in (True, False):
        buffers = made(ww.WAIT_DIE)
        gone, a, shared = ww.Mutex(buffers), ww.Mutex(buffers), ww.SharedMutex(buffers)
        with buffers.context() as older, buffers.context() as younger:
            older.lock(gone)
            younger.lock(a)
            assert is_raised(ww.Deadlock, younger.lock, gone)
            older.unlock_all()
            del gone
            gc.collect()
            younger.unlock_all()
            if not own:
                older.read(shared)
                older.unlock(shared)
            younger.lock(a)
            (younger if own else older).read(shared)
            assert shared in (younger if own else older)


def loses_no_number():
    """A SharedMutex that goes while a context that has read it reads something: its number comes again once the reads have ended, and
    in the end the class is freed."""
    buffers, told = made(mutexes=8), []
    library, keep = buffers._library, ww.SharedMutex(buffers)
    free = library.ww_class_free
    for unlocks in (True, False) * 4:
        with buffers.context() as context:
            context.read(keep)
            for _ in range(4):
                once = ww.SharedMutex(buffers)
                context.read(once)
                if unlocks:
                    context.unlock(once)
                del once
                gc.collect()
    all_at_once = [ww.Mutex(buffers) for _ in range(7)]
    assert fault_of(ww.Mutex, buffers) == errno.ENOSPC
    library.ww_class_free = lambda at: told.append(free(at))
    freed = ww.Class(library=sys.argv[1])
    with freed.context() as context:
        context.read(keep := ww.SharedMutex(freed))
        del keep
    del freed, context
    gc.collect()
    library.ww_class_free = free
    assert told == [0] and all_at_once


def holds_what_it_asked_for(kind):
    """A mutex for which a context waited first, and hasn't asked: it doesn't hold that, nor downgrades it. And after a Deadlock that
    was caught a lock is refused for that reason."""
    if kind == ww.WOUND_WAIT:
        return
    buffers = made(kind)
    a, held, other = ww.SharedMutex(buffers), ww.SharedMutex(buffers), ww.Mutex(buffers)
    with buffers.context() as older, buffers.context() as younger:
        older.lock(a)
        younger.lock(held)
        assert is_raised(ww.Deadlock, younger.lock, a)
        try:
            younger.lock(other)
            assert False
        except OSError as error:
            assert error.errno == errno.EINVAL and "got Deadlock" in error.strerror
        younger.unlock_all()
        older.unlock(a)
        younger.lock(other)
        assert a not in younger and other in younger and not older.try_lock(a)
        assert fault_of(younger.downgrade, a) == fault_of(younger.unlock, a) == errno.EINVAL
        assert younger.try_lock(a) and a in younger
        younger.downgrade(a)
        assert a.locked() and not held.locked()
        assert older.try_lock(held) and fault_of(older.lock, a, timeout=0) == errno.ETIMEDOUT


def frees_cycles():
    """A class that refers to its mutexes, and to a context that holds them."""

    def mapped():
        gc.collect()
        with open("/proc/self/statm") as pages:
            return int(pages.read().split()[0])

    def drops():
        buffers = ww.Class(library=sys.argv[1])
        buffers.all = [ww.Mutex(buffers) for _ in range(3)]
        buffers.block = buffers.context()
        buffers.block.__enter__().lock(*buffers.all)

    for count in (1, 20):
        before = mapped()
        for _ in range(count):
            drops()
            gc.collect()
    assert mapped() - before < 20 * 128


def collects_blocks():
    """A block that the garbage collector ends, as that of a generator in a cycle: its last lines are under its locks too."""
    buffers = made()
    a, told = ww.Mutex(buffers), []

    def walk(context):
        myself = yield
        with context:
            context.lock(a)
            try:
                yield myself
            finally:
                told.append(a.locked() and a in context)

    for _ in range(3):
        context = buffers.context()
        assert a not in context
        it = walk(context)
        del context
        next(it)
        it.send(it)
        assert a.locked()
        del it
        gc.collect()
        assert not a.locked()
    assert told == [True] * 3


def loses_nothing():
    """An exception at the beginning of any function, as a signal's handler raises it."""
    buffers = made(contexts=2)
    a = ww.Mutex(buffers)

    class Hit(Exception):
        pass

    def works():
        with a:
            pass
        with buffers.context() as context:
            context.lock(a)
        dropped = ww.Context(buffers)
        dropped._begin()
        dropped.lock(a)
        del dropped

    def is_hit(at):
        left = at

        def counts(frame, event, _):
            nonlocal left
            if event == "call":
                left -= 1
                if left == 0:
                    raise Hit

        try:
            sys.setprofile(counts)
            works()
        except Hit:
            pass
        sys.setprofile(None)
        return left <= 0

    at = 1
    while is_hit(at):
        gc.collect()
        assert not a.locked(), at
        with buffers.context(timeout=0), buffers.context(timeout=0):
            at += 1
    assert at > 10


def ends_each_block():
    """An exception before any instruction of the functions that `with` comes to, as a signal's handler may raise it there:
    the block's end releases all, though the context has a name that lives on."""
    buffers = made(contexts=2)
    a = ww.Mutex(buffers)
    named = [None]
    files = {ww.Context.lock.__code__.co_filename, contextlib.__file__}

    class Hit(Exception):
        pass

    def works():
        with buffers.context() as named[0]:
            named[0].lock(a)

    def is_hit(at):
        left = at

        def counts(frame, event, _):
            nonlocal left
            if frame.f_code.co_filename not in files:
                return None
            frame.f_trace_opcodes = True
            left -= event == "opcode"
            if left == 0:
                raise Hit
            return counts

        try:
            sys.settrace(counts)
            works()
        except Hit:
            pass
        finally:
            sys.settrace(None)
        return left <= 0

    is_hit(-1)  # Never; early versions of Python 3.12 tell of instructions only once they were asked for that before.
    at = 1
    while is_hit(at):
        assert not a.locked(), at
        with buffers.context(timeout=0), buffers.context(timeout=0):
            at += 1
    assert at > 100


def ends_in_time(kind):
    """What was held still is, and nothing else; a mutex that is free is acquired at any time."""
    buffers = made(kind)
    a, b, c = (ww.Mutex(buffers) for _ in range(3))

    def tries():
        with buffers.context() as older, buffers.context() as younger:
            younger.lock(a)
            older.lock(b, timeout=-1)
            began = time.monotonic()
            is_late = is_raised(TimeoutError, older.lock, c, a, timeout=0.25) and time.monotonic() - began >= 0.25
            return is_late and is_raised(TimeoutError, older.lock, a, timeout=-1) and b in older and not c.locked()

    def begins_late():
        began = time.monotonic()
        return is_raised(TimeoutError, begins, buffers, timeout=0.25) and time.monotonic() - began >= 0.25

    assert tries() and beside(tries)
    with contextlib.ExitStack() as stack:
        for _ in range(4):
            stack.enter_context(buffers.context(timeout=-1))
        assert begins_late() and beside(begins_late) and is_raised(TimeoutError, buffers.run, bool, timeout=0)
    begins(buffers)


def is_called_off(kind):
    """Before the wait, while it goes on, and by the handler of a signal."""
    buffers = made(kind)
    a, b = ww.Mutex(buffers), ww.Mutex(buffers)
    told = []

    def waits(context):
        told.append(is_raised(InterruptedError, context.lock, a))

    def works():
        with buffers.context() as context:
            context.lock(b)
            context.unlock(b)
            context.cancel()
            assert fault_of(context.cancel) == errno.EALREADY
            waits(context)
            waiting.append(context)
            waits(context)

    with buffers.context() as holder:
        holder.lock(a)
        waiting = []
        thread = threading.Thread(target=works)
        thread.start()
        while not waiting:
            time.sleep(0.01)
        wait_for(thread.ident, "_answer")
        waiting[0].cancel()
        thread.join()
        with buffers.context() as mine:
            signal.signal(signal.SIGUSR1, lambda *_: mine.cancel())
            interrupts(signal.SIGUSR1, "_answer", lambda: waits(mine))
    assert told == [True, True, True]


def ends_beside_a_cancel():
    """A block that ends while another thread cancels its context: that comes in time, or is told that the context has ended. One that
    hasn't begun isn't cancelled."""
    buffers, told = made(contexts=2), []
    context = buffers.context()
    assert fault_of(context.cancel) == errno.EINVAL
    for _ in range(200):
        context, met = buffers.context(), threading.Barrier(2)

        def cancels():
            met.wait()
            told.append(fault_of(context.cancel))

        thread = threading.Thread(target=cancels)
        thread.start()
        with context:
            met.wait()
        thread.join()
        assert fault_of(context.cancel) == errno.EINVAL
        begins(buffers)
    assert {*told} <= {0, errno.EINVAL}


def interrupts(number, name, call):
    """Calls it in the main thread, which has this signal once it waits in the function of this name."""
    main = threading.get_ident()
    thread = threading.Thread(target=lambda: (wait_for(main, name), os.kill(os.getpid(), number)))
    thread.start()
    try:
        call()
    finally:
        thread.join()


def hears_interrupts(kind):
    """While it waits for a mutex, which then isn't held, or for a context, which is free once the holder ends."""
    buffers = made(kind, contexts=2)
    a = ww.Mutex(buffers)
    heard = []

    def waits_in_context():
        with buffers.context() as context:
            context.lock(a)

    def holds(contexts):
        with contextlib.ExitStack() as stack:
            for _ in range(contexts):
                context = stack.enter_context(buffers.context())
            context.lock(a)
            has.set()
            goes.wait()

    for contexts, name, call in ((1, "_answer", waits_in_context), (1, "_answer", a.__enter__), (2, "_begin_in_turn", a.__enter__)):
        has, goes = threading.Event(), threading.Event()
        holder = threading.Thread(target=holds, args=(contexts,))
        holder.start()
        has.wait()
        try:
            interrupts(signal.SIGINT, name, call)
        except KeyboardInterrupt as error:
            heard.append(error)  # As an interactive session keeps it, with all that its frames refer to.
        goes.set()
        holder.join()
        assert not a.locked()
        with a, buffers.context():
            assert a.locked()
        assert not a.locked()
    assert len(heard) == 3


def waits_in_turn():
    """More threads than contexts."""
    buffers = made(contexts=2)
    a = ww.Mutex(buffers)
    count = [0]

    def counts():
        for _ in range(50):
            with a:
                count[0] += 1

    threads = [threading.Thread(target=counts) for _ in range(8)]
    for thread in threads:
        thread.start()
    counts()
    for thread in threads:
        thread.join()
    assert count == [450]


def resolves(kind):
    """Two threads that hold what the other wants: the younger one backs off, once; by itself, also if its body returns, and by hand."""
    buffers = made(kind)
    a, b = ww.Mutex(buffers), ww.Mutex(buffers)
    for way in ("raises", "returns", "by hand"):
        told, older_began, both_hold = [], threading.Event(), threading.Barrier(2)

        def takes(context, mine, others, name):
            told.append(name)
            context.lock(mine)
            if told.count(name) == 1:
                older_began.set()
                both_hold.wait()
            context.lock(others)
            return name if mine in context and others in context else None

        def body(context):
            try:
                return takes(context, b, a, "younger")
            except ww.Deadlock:
                if way == "raises":
                    raise
                return "the body isn't called again"

        def younger():
            older_began.wait()
            if way != "by hand":
                return buffers.run(body)
            with buffers.context() as context:
                assert is_raised(ww.Deadlock, takes, context, b, a, "younger")
                assert fault_of(context.lock, a) == errno.EINVAL
                context.unlock_all()
                return takes(context, a, b, "younger")

        answers = []
        thread = threading.Thread(target=lambda: answers.append(younger()))
        thread.start()
        answers.append(buffers.run(lambda context: takes(context, a, b, "older")))
        thread.join()
        assert sorted(answers) == ["older", "younger"] and sorted(told) == ["older", "younger", "younger"]
        assert not a.locked() and not b.locked()


def backs_off_by_itself(kind):
    """One call for several mutexes of a context that held nothing."""
    buffers = made(kind)
    a, b = ww.Mutex(buffers), ww.Mutex(buffers)
    answers = []

    def younger():
        with buffers.context() as context:
            context.lock(b, a)
            answers.append(a in context and b in context)

    with buffers.context() as context:
        context.lock(a)
        thread = threading.Thread(target=younger)
        thread.start()
        wait_for(thread.ident, "_answer")
        context.lock(b)
        assert not answers
    thread.join()
    assert answers == [True]


def keeps_nothing(kind):
    """Where its time comes at the second mutex, after a back-off for which it waited for the first."""
    buffers = made(kind)
    a, b = ww.Mutex(buffers), ww.Mutex(buffers)
    answers, ended, goes = [], threading.Event(), threading.Event()

    def younger():
        with buffers.context() as context:
            answers.append(is_raised(TimeoutError, context.lock, b, a, timeout=1))
            ended.set()
            goes.wait()

    with buffers.context() as context:
        context.lock(a)
        thread = threading.Thread(target=younger)
        thread.start()
        wait_for(thread.ident, "_answer", ended)
        context.lock(b)
        context.unlock(a)
        ended.wait()
        answers.append(a.locked())
        goes.set()
    thread.join()
    assert answers == [True, False]


def reads(kind):
    """Readers beside each other, or one writer; what ends reads; upgrades of two at once, of which one backs off."""
    c = made(kind, 8, 4)
    one, other = ww.SharedMutex(c), ww.SharedMutex(c)

    def can(call, *words):
        def tries():
            with c.context() as context:
                return fault_of(getattr(context, call), *words, timeout=0) == 0

        return beside(tries)

    with c.context() as context:
        context.read(one, other)
        assert one in context and can("read", one) and not can("lock", one)
        context.read(one)
        context.lock(one)
        assert not can("read", one) and fault_of(context.lock, one) == errno.EALREADY
        context.unlock(other)
        assert one in context and other not in context and not can("read", one)
        context.downgrade(one)
        assert can("read", one) and not can("lock", one) and fault_of(context.downgrade, one) == errno.EINVAL
        context.unlock(one)
        assert can("lock", one) and can("lock", other) and fault_of(context.unlock, one) == errno.EINVAL
        context.lock(one)
        assert not can("read", one)
        context.downgrade(one)
        context.unlock_all()
        assert can("lock", one) and is_raised(TypeError, context.read, ww.Mutex(c))
        context.read(one)
        assert beside(lambda: is_raised(TimeoutError, begins_writing, c, one, other)) and not can("lock", one) and can("lock", other)
    with one:
        assert not can("read", one)
    counts, both = [0, 0], threading.Barrier(2)

    def adds():
        def body(context):
            context.read(one)
            before = counts[0]
            if not first.is_set():
                both.wait()
                first.set()
            context.lock(one)
            assert counts[0] == before
            counts[0] += 1

        first = threading.Event()
        for _ in range(50):
            c.run(body)
        counts[1] += 1

    threads = [threading.Thread(target=adds) for _ in range(2)]
    for it in threads:
        it.start()
    for it in threads:
        it.join()
    assert counts == [100, 2]


def begins_writing(c, one, other):
    """What it reads stays so where it can't write it."""
    with c.context() as context:
        context.read(one)
        try:
            context.lock(other, one, timeout=0)
        finally:
            assert one in context and other not in context


def forks():
    """A child goes on with a class, but has none of one that was in use, and makes its own."""
    buffers = made()
    a = ww.Mutex(buffers)
    with a:
        assert a.locked()
    child = os.fork()
    if child == 0:
        with a, ww.Mutex(buffers) as mutex:
            os._exit(not (a.locked() and mutex.locked()))
    assert os.waitpid(child, 0)[1] == 0 and not a.locked()
    with a:
        child = os.fork()
        if child == 0:
            refused = fault_of(begins, buffers) == fault_of(ww.Mutex, buffers) == errno.EINVAL
            mine = made()
            with ww.Mutex(mine) as mutex:
                os._exit(not (refused and mutex.locked()))
        assert os.waitpid(child, 0)[1] == 0 and a.locked()


signal.signal(signal.SIGINT, signal.default_int_handler)
refuses_classes()
says_what_came()
says_why()
reports_to()
is_a_lock()
costs_so_much()
ends_all_waits()
debugs()
is_typed()
refuses_others()
is_neither_copied_nor_pickled()
begins_once()
gives_numbers_back()
waits_for_nothing_that_is_gone()
loses_no_number()
frees_cycles()
collects_blocks()
loses_nothing()
ends_each_block()
waits_in_turn()
ends_beside_a_cancel()
forks()
for each in KINDS:
    for test in (refuses_mutexes, refuses_again, refuses_itself, ends_in_time, is_called_off, hears_interrupts, resolves, backs_off_by_itself, keeps_nothing, reads, holds_what_it_asked_for):
        test(each)
print("mutexes in Python: each refusal is told, and each wait ends as it should")
