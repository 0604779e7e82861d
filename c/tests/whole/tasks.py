"""Tasks of asyncio that wait without their thread: what they refuse, and how their waits end.

And sums by tasks of several loops beside threads: tasks.py libww.so"""
import asyncio
import contextlib
import contextvars
import ctypes
import errno
import functools
import gc
import os
import random
import subprocess
import sys
import tempfile
import threading
import time

sys.path.insert(0, os.path.join(os.path.dirname(os.path.abspath(__file__)), "../../python"))
import ww
import ww.tasks

KINDS = (ww.WOUND_WAIT, ww.WAIT_DIE)
# Seconds in which all has ended that doesn't hang, on a busy machine too.
LIMIT = 3600


def made(kind=ww.WOUND_WAIT, mutexes=8, contexts=4):
    return ww.Class(kind, mutexes, contexts, sys.argv[1])


async def fault_of(awaited):
    """The errno of a call that fails, or 0."""
    try:
        await awaited
    except OSError as error:
        return error.errno
    return 0


async def refuses(kind):
    buffers, others = made(kind), made(kind)
    a, b, strange = ww.Mutex(buffers), ww.Mutex(buffers), ww.Mutex(others)
    async with buffers.context() as one, buffers.context() as two:
        assert await fault_of(one.lock(strange)) == errno.EINVAL
        assert await fault_of(one.lock(a, b, a)) == errno.EALREADY and not a.locked() and not b.locked()
        await one.lock(a)
        assert await fault_of(one.lock(b, a)) == errno.EALREADY and a in one and b not in one and not b.locked()
        assert not one.try_lock(a) and not two.try_lock(a) and two.try_lock(b) and b in two
        one.unlock(a)
        one.unlock_all()
    assert not a.locked() and not b.locked()
    assert await fault_of(one.lock(a)) == errno.EINVAL


async def has_a_time(kind):
    """Each wait, for a context or a mutex, also for one that is read; what needn't wait is done however late it is."""
    buffers = made(kind, contexts=2)
    a, b, shared = ww.Mutex(buffers), ww.Mutex(buffers), ww.SharedMutex(buffers)
    async with buffers.context() as one:
        await one.lock(a, shared)
        async with buffers.context(timeout=0) as two:
            assert await fault_of(begins(buffers, timeout=0.02)) == errno.ETIMEDOUT
            assert await fault_of(two.lock(a, timeout=0.02)) == errno.ETIMEDOUT and a not in two
            await two.lock(b, timeout=-1)
            assert await fault_of(two.lock(a, timeout=0)) in (errno.ETIMEDOUT, errno.EDEADLK) and b in two
            two.unlock_all()
            assert await fault_of(two.lock(b, a, timeout=0.02)) == errno.ETIMEDOUT and not b.locked() and a not in two
            assert await fault_of(two.read(shared, timeout=0.02)) == errno.ETIMEDOUT and shared not in two
            task = asyncio.create_task(two.lock(a, timeout=LIMIT))
            await asyncio.sleep(0)
            one.unlock_all()
            await asyncio.wait_for(task, LIMIT)
            assert a in two
            try:
                await two.lock(b, timeout=float("nan"))
                assert False
            except ValueError:
                pass
        assert await buffers.run_async(lambda context: context.lock(b, timeout=0), timeout=0) is None and not b.locked()
    await begin_all(buffers, 2)


def raised(kind, call, *words, **named):
    try:
        call(*words, **named)
    except kind as error:
        return error
    return None


def raises(kind, call, *words, **named):
    return raised(kind, call, *words, **named) is not None


async def awaits(lock, mutex):
    await lock(mutex)


async def why(awaited):
    """The TypeError that it raises."""
    try:
        await awaited
    except TypeError as it:
        return it


async def stops_no_loop():
    """A thread's call that would have to wait raises where a loop runs, since it may wait for a task of that; others are made."""
    buffers = made(contexts=2)
    a, b, table = ww.Mutex(buffers), ww.SharedMutex(buffers), ww.Table(buffers)
    async with buffers.context() as one:
        await one.lock(a, b)
        assert raises(RuntimeError, a.acquire) and raises(RuntimeError, a.acquire, timeout=LIMIT) and not a.acquire(False)
        with buffers.context() as two:
            assert raises(RuntimeError, two.lock, a) and raises(RuntimeError, two.read, b, timeout=LIMIT)
            assert raises(TimeoutError, two.lock, a, timeout=0) and raises(TimeoutError, buffers.context(0).__enter__)
            assert raises(RuntimeError, buffers.context().__enter__) and raises(RuntimeError, buffers.context(LIMIT).__enter__)
            one.unlock(a)
            two.lock(a)
            two.unlock(a)
            assert "begin it by `async with`" in str(await why(awaits(two.lock, a))) and a in two
    with a, b:
        assert a.locked()
    with table.transaction() as one, table.transaction() as two:
        one.lock("k")
        assert "asyncio.to_thread(table.run, body)" in str(raised(RuntimeError, two.lock, "k"))
    await begin_all(buffers, 2)


def tells_who_begins_anew():
    """The debug library, once for the line, in which each new context is the youngest."""
    program = """import asyncio, sys, ww
its = ww.Class(ww.WAIT_DIE, library=sys.argv[1], name="its")
a, b = ww.Mutex(its), ww.Mutex(its)

async def begins_anew():
    async with its.context() as older:
        await older.lock(a)
        for _ in range(8):
            try:
                async with its.context() as context:
                    await context.lock(b)
                    await context.lock(a)
            except ww.Deadlock:
                pass

asyncio.run(begins_anew())
"""
    environment = {**os.environ, "WW_DEBUG": "1", "PYTHONPATH": os.path.dirname(os.path.dirname(ww.__file__))}
    told = subprocess.run([sys.executable, "-c", program, sys.argv[1]], env=environment, stderr=subprocess.PIPE, text=True, check=True).stderr
    (line,) = told.splitlines()
    assert line.startswith('<string>:12: ww_acquire_fini: class "its": the context loses its age: '), told


async def refuses_other_tasks(kind):
    """By a context by which a task waits; and the end of its block ends that wait, too."""
    buffers = made(kind)
    a, b = ww.Mutex(buffers), ww.Mutex(buffers)
    async with buffers.context() as older, buffers.context() as two:
        await older.lock(a)
        task = asyncio.create_task(two.lock(a))
        await asyncio.sleep(0)
        for mutex in (a, b):
            assert await fault_of(asyncio.wait_for(two.lock(mutex), LIMIT)) == errno.EBUSY
        for call in (lambda: two.try_lock(b), lambda: two.unlock(a), two.unlock_all):
            assert fault_of_call(call) == errno.EBUSY
        older.unlock(a)
        await asyncio.wait_for(task, LIMIT)
        assert a in two and not b.locked()
    older, two = buffers.context(), buffers.context()
    async with older as one:
        await one.lock(a)
        async with two as other:
            task = asyncio.create_task(other.lock(a))
            await asyncio.sleep(0)
        assert await fault_of(asyncio.wait_for(task, LIMIT)) == errno.EINVAL and a in one
        async with buffers.context() as other:
            task = asyncio.create_task(other.lock(b, a))
            await asyncio.sleep(0)
            one.unlock(a)  # it is woken, and its context ends before it runs
        assert await fault_of(asyncio.wait_for(task, LIMIT)) == errno.EINVAL
    assert not a.locked() and not b.locked()
    for it in (older, two):
        assert await fault_of(it.__aenter__()) == errno.EINVAL and fault_of_call(it.__enter__) == errno.EINVAL
    await begin_all(buffers, 4)


async def reads(kind):
    """Tasks that read beside each other, or one that writes; what ends a wait; and an upgrade."""
    buffers = made(kind)
    a, b, plain = ww.SharedMutex(buffers), ww.SharedMutex(buffers), ww.Mutex(buffers)
    async with buffers.context() as older, buffers.context() as two:
        await two.read(a, b)
        await older.read(a)
        assert a in older and a in two and b not in older and not older.try_lock(a) and not older.try_lock(b)
        task = asyncio.create_task(older.lock(a, plain))  # it comes to write what both read
        await asyncio.sleep(0)
        assert not task.done() and await fault_of(asyncio.wait_for(older.read(b), LIMIT)) == errno.EBUSY
        two.unlock(a)
        assert not task.done() and b in two and a not in two  # reads end together
        two.unlock(b)
        await asyncio.wait_for(task, LIMIT)
        assert plain in older and await fault_of(older.lock(a)) == errno.EALREADY and not two.try_lock(a)
        await older.read(a)
        older.unlock_all()
        assert two.try_lock(a) and plain not in older
        for call in (older.read, older.lock):
            task = asyncio.create_task(call(a))
            await asyncio.sleep(0)
            assert not task.done()
            task.cancel()
            assert isinstance((await asyncio.gather(task, return_exceptions=True))[0], asyncio.CancelledError) and a not in older
        two.unlock(a)
        await two.read(b)
        assert await fault_of(cancelled_soon(older, b)) == errno.ETIMEDOUT and older.try_lock(a)  # which kept no part of b
        two.unlock_all()
        assert older.try_lock(b) and not two.try_lock(b)
        try:
            await two.read(plain)
            assert False
        except TypeError:
            pass
    assert not plain.locked()


async def says_what_came():
    """In one sentence: what was expected, and what came instead."""
    buffers = made(ww.WOUND_WAIT)

    def plain(_):
        pass

    async def yields(_):
        yield

    async def fails(_):
        raise TypeError("its own")

    for body, came in ((3, ""), (plain, ", which returned None"), (yields, ", which returned <async_generator"), (lambda _: [3], ", which returned [3]")):
        try:
            await buffers.run_async(body)
            assert False
        except TypeError as error:
            assert str(error).startswith(f"an async function of the context is expected, not {body!r}{came}"), error
    for body, why in ((fails, "its own"), (lambda: None, "takes 0 positional arguments")):
        try:
            await buffers.run_async(body)
            assert False
        except TypeError as error:
            assert why in str(error)
    assert buffers.stats().contexts == 0


async def holds_one(kind):
    """`async with mutex`, as asyncio.Lock: no count is lost, a cancel leaves it as it was, and a task that holds it already is told."""
    buffers = made(kind)
    a, b, counts = ww.Mutex(buffers), ww.SharedMutex(buffers), [0]

    async def adds():
        for _ in range(50):
            async with a:
                before = counts[0]
                await asyncio.sleep(0)
                counts[0] = before + 1

    async def nests():
        async with a, b:
            for mutex in (a, b):
                assert await fault_of(mutex.__aenter__()) == errno.EALREADY and mutex.locked()
                assert await fault_of(buffers.run_async(lambda it: it.lock(mutex))) == errno.EALREADY and mutex.locked()
            assert await fault_of(buffers.run_async(lambda it: it.read(b))) == errno.EALREADY
        async with buffers.context() as reads:
            await reads.read(b)
            assert await buffers.run_async(lambda it: it.read(b)) is None
            assert await fault_of(buffers.run_async(lambda it: it.lock(b))) == errno.EALREADY and b in reads
            raise KeyError

    await asyncio.wait_for(asyncio.gather(*(adds() for _ in range(3))), LIMIT)
    assert counts == [150] and isinstance((await asyncio.gather(nests(), return_exceptions=True))[0], KeyError)
    async with a:
        task = asyncio.create_task(adds())
        await asyncio.sleep(0)
        task.cancel()
        assert isinstance((await asyncio.gather(task, return_exceptions=True))[0], asyncio.CancelledError) and a.locked()
    assert not a.locked() and not b.locked() and not buffers.stats().contexts


async def cancelled_soon(context, mutex):
    """What it reads it goes on reading where it can't write it."""
    await context.read(mutex)
    try:
        await asyncio.wait_for(context.lock(mutex), 0.02)
    except asyncio.TimeoutError:
        assert mutex in context
        context.unlock(mutex)
        raise OSError(errno.ETIMEDOUT, "as it should") from None


async def returns_after_deadlock(kind):
    """A body that catches Deadlock and returns is awaited again: each of two tasks has what the other one wants."""
    buffers = made(kind)
    a, b, one, other = ww.Mutex(buffers), ww.Mutex(buffers), asyncio.Event(), asyncio.Event()

    async def takes(context, mine, others, has, waits):
        try:
            await context.lock(mine)
            has.set()
            await waits.wait()
            await context.lock(others)
            return mine in context and others in context
        except ww.Deadlock:
            return "it isn't awaited again"

    works = (functools.partial(takes, mine=a, others=b, has=one, waits=other), functools.partial(takes, mine=b, others=a, has=other, waits=one))
    told = await asyncio.wait_for(asyncio.gather(*map(buffers.run_async, works)), LIMIT)
    assert told == [True, True] and buffers.stats().back_offs, told


async def upgrades(kind):
    """Of two at a time one backs off by itself; and no count is lost."""
    buffers = made(kind)
    one, counts = ww.SharedMutex(buffers), [0]

    async def adds():
        for _ in range(50):
            async with buffers.context() as context:
                try:
                    await context.read(one)
                    before = counts[0]
                    await asyncio.sleep(0)
                    await context.lock(one)
                except ww.Deadlock:
                    context.unlock_all()
                    await context.lock(one)
                    before = counts[0]
                assert counts[0] == before
                counts[0] += 1

    await asyncio.wait_for(asyncio.gather(*(adds() for _ in range(3))), LIMIT)
    assert counts == [150]
    async with buffers.context() as context:
        assert context.try_lock(one)


def fault_of_call(call):
    try:
        call()
    except OSError as error:
        return error.errno
    return 0


async def begins(of, timeout=None, resumes=None):
    async with of.context(timeout, resumes):
        pass


async def waits_in_turn():
    """For a context: who is cancelled goes, and who has got it and is cancelled hands it on."""
    buffers = made(contexts=1)
    order = []

    async def begin(name):
        async with buffers.context():
            order.append(name)

    async with buffers.context():
        tasks = [asyncio.create_task(begin(k)) for k in range(4)]
        await asyncio.sleep(0)
        tasks[1].cancel()
        await asyncio.sleep(0)
    tasks[0].cancel()  # it has the context by now, and doesn't know yet
    told = await asyncio.gather(*tasks, return_exceptions=True)
    assert order == [2, 3] and [isinstance(it, asyncio.CancelledError) for it in told] == [True, True, False, False]
    await asyncio.wait_for(begins(buffers), LIMIT)


async def goes_on_with_its_age():
    """A task goes on with what a thread suspended, once what that collided with is free. If its wait ends before, that is still suspended."""
    buffers = made(ww.WAIT_DIE)
    one, other = ww.Mutex(buffers), ww.Mutex(buffers)

    def is_refused():
        with buffers.context() as young:
            young.lock(other)
            try:
                young.lock(one)
            except ww.Deadlock:
                return young.suspend()
        return None

    async with buffers.context() as old:
        await old.lock(one)
        age = await asyncio.to_thread(is_refused)
        assert age
        try:
            async with buffers.context(timeout=0.01, resumes=age):
                raise AssertionError("it waited for nothing")
        except TimeoutError:
            assert age
        waits = asyncio.create_task(begins(buffers, resumes=age))
        await asyncio.sleep(0.01)
        waits.cancel()
        assert isinstance((await asyncio.gather(waits, return_exceptions=True))[0], asyncio.CancelledError) and age
        waits = asyncio.create_task(locks(buffers, other, age))
        await asyncio.sleep(0.01)
        assert not waits.done() and not age
    await asyncio.wait_for(waits, LIMIT)


async def locks(of, mutex, age):
    """It is older than a context that begins now: by Wait-Die that one gets Deadlock, in place of a wait."""
    async with of.context(resumes=age) as context, of.context() as younger:
        await context.lock(mutex)
        await younger.lock(ww.Mutex(of))
        assert await fault_of(younger.lock(mutex)) == errno.EDEADLK


async def begins_within():
    """A task that has a context gets another one, however few tasks may have one at first; so does a task that it makes. One that
    comes from elsewhere waits; but more may run by then, for a while, where these take long: so one round in which it waits is enough."""
    few = min(2 * os.cpu_count(), 800)

    async def waits():
        buffers = made(mutexes=0, contexts=0)
        async with contextlib.AsyncExitStack() as all_of_it:
            for _ in range(few + 1):
                await all_of_it.enter_async_context(buffers.context())
            stranger = elsewhere.run(asyncio.create_task, begins(buffers))
            for _ in range(2):
                await begins(buffers)
                await asyncio.create_task(begins(buffers))
            has_waited = not stranger.done()
        await stranger
        return has_waited

    elsewhere = contextvars.copy_context()
    for _ in range(20):
        if await asyncio.wait_for(waits(), LIMIT):
            return
    assert False


async def is_cancelled(kind):
    """Amid a wait for a mutex: it leaves that as it was, and keeps what it held before."""
    buffers = made(kind)
    a, b = ww.Mutex(buffers), ww.Mutex(buffers)
    async with buffers.context() as one:
        await one.lock(a)

        async def other():
            async with buffers.context() as two:
                await two.lock(b)
                try:
                    await asyncio.wait_for(two.lock(a), 0.05)
                except (asyncio.TimeoutError, ww.Deadlock):
                    assert b in two and a not in two
                    two.unlock_all()
                    return True

        assert await other() and not b.locked() and a.locked()
        task = asyncio.create_task(other())
        await asyncio.sleep(0.01)
        one.unlock(a)  # it wakes the other one, which is cancelled before it knows
        task.cancel()
        try:
            await task
        except asyncio.CancelledError:
            pass
    assert not a.locked() and not b.locked()


def loses_nothing():
    """A KeyboardInterrupt before any line of the package, while two tasks lock and read, and wait for each other, and for a context:
    it ends the loop, and then nothing is locked, and no context is in use."""
    folder = os.path.dirname(ww.tasks.__file__)
    buffers = made(contexts=1), made(contexts=3)
    a, b = ww.Mutex(buffers[1]), ww.SharedMutex(buffers[1])

    class Hit(KeyboardInterrupt):
        pass

    async def work(steps):
        async with buffers[0].context():
            await steps()
        async with buffers[1].context() as context:
            await context.lock(a)
            await context.read(b)
            await steps()
            context.unlock(a)
            context.unlock_all()
            await context.lock(b, a)
            await steps()
        await buffers[1].run_async(lambda context: context.lock(a))

    async def works():
        await asyncio.gather(*(work(lambda: asyncio.sleep(0)) for _ in range(2)))

    async def ends(all_tasks):
        for it in all_tasks:
            it.cancel()
        await asyncio.gather(*all_tasks, return_exceptions=True)

    def is_hit(at):
        left = at

        def counts(frame, event, _):
            nonlocal left
            if os.path.dirname(frame.f_code.co_filename) != folder:
                return None
            left -= event == "line"
            if left == 0:
                raise Hit
            return counts

        loop = asyncio.new_event_loop()
        loop.set_exception_handler(lambda *_: None)
        try:
            sys.settrace(counts)
            loop.run_until_complete(works())
        except Hit:
            pass
        finally:
            sys.settrace(None)
        loop.run_until_complete(ends(asyncio.all_tasks(loop)))
        loop.close()
        return left <= 0

    at = 1
    while is_hit(at):
        for _ in range(3):
            gc.collect()
        assert not a.locked() and not b.locked(), at
        for it, count in zip(buffers, (1, 3)):
            assert it.stats().contexts == 0, at
        with buffers[1].context() as context:
            context.lock(a, b, timeout=0)
        at += 1
    assert at > 100
    return at


async def releases_once():
    """What an interrupt left just behind the release isn't released again, since another context may hold it."""
    buffers = made()
    library, a = buffers._library, ww.Mutex(buffers)
    unlock = library.ww_number_unlock

    def is_interrupted(*words):
        unlock(*words)
        raise KeyboardInterrupt

    async with buffers.context() as one, buffers.context() as two:
        await one.lock(a)
        library.ww_number_unlock = is_interrupted
        try:
            one.unlock(a)
        except KeyboardInterrupt:
            library.ww_number_unlock = unlock
        assert two.try_lock(a)
        one.unlock_all()
        assert a.locked() and a in two and a not in one


async def a_thread_wakes_it():
    """One that holds the mutex by `with`; the loop goes on meanwhile."""
    buffers = made()
    mutex = ww.Mutex(buffers)
    is_held, goes = threading.Event(), threading.Event()

    def hold():
        with mutex:
            is_held.set()
            goes.wait()

    thread = threading.Thread(target=hold)
    thread.start()
    is_held.wait()
    rounds = 0

    async def go_round():
        nonlocal rounds
        while rounds < 20:
            rounds += 1
            await asyncio.sleep(0.001)
        goes.set()

    async def lock():
        async with buffers.context() as context:
            await context.lock(mutex)
            return rounds

    told = await asyncio.gather(lock(), go_round())
    thread.join()
    assert told[0] >= 20


class Account:
    def __init__(self, of):
        self.mutex, self.money = ww.Mutex(of), 0


async def move(of, accounts, draws, cancels):
    """Between two accounts, found one by one or at once; its waits may be cancelled."""
    source, target = draws.sample(accounts, 2)

    async def by_body(context):
        await context.lock(source.mutex)
        await asyncio.sleep(0)
        await context.lock(target.mutex)
        source.money -= 1
        target.money += 1

    async def at_once():
        async with of.context() as context:
            await context.lock(source.mutex, target.mutex)
            source.money -= 1
            await asyncio.sleep(0)
            target.money += 1 if source is not target else 0

    work = of.run_async(by_body)
    if draws.random() < 0.5:
        work.close()
        work = at_once() if not cancels else of.run_async(by_body)
        if cancels:
            try:
                return await asyncio.wait_for(work, draws.random() / 500)
            except asyncio.TimeoutError:
                return None
    return await work


def storm(kind, loops, tasks, times, contexts, cancels):
    of = made(kind, 16, contexts)
    accounts = [Account(of) for _ in range(5)]
    faults = []

    async def work(seed):
        draws = random.Random(seed)
        for _ in range(times):
            await move(of, accounts, draws, cancels)

    async def all_of(first):
        await asyncio.gather(*(work(first + k) for k in range(tasks)))

    def run(first):
        try:
            asyncio.run(all_of(first))
        except BaseException as error:
            faults.append(error)

    def block():
        draws = random.Random(7)
        for _ in range(tasks * times // 4):
            source, target = draws.sample(accounts, 2)
            with of.context() as context:
                context.lock(source.mutex, target.mutex)
                source.money -= 1
                target.money += 1

    threads = [threading.Thread(target=run, args=(1000 * k,)) for k in range(loops)] + [threading.Thread(target=block)]
    for it in threads:
        it.start()
    for it in threads:
        it.join()
    assert not faults, faults
    assert sum(it.money for it in accounts) == 0 and not any(it.mutex.locked() for it in accounts)
    asyncio.run(begin_all(of, contexts))


async def begin_all(of, count):
    """None of its contexts is in use."""
    all_at_once = [of.context() for _ in range(count)]
    for it in all_at_once:
        await asyncio.wait_for(it.__aenter__(), LIMIT)
    for it in all_at_once:
        await it.__aexit__(None, None, None)


class SlowWaker:
    """In place of ww_event_wake, which it does step by step, in the thread that ends a wait: for a while it stands before one
    of the two steps."""

    def __init__(self, library, before_write):
        self.library, self.whole = library, library.ww_event_wake
        self.before_write, self.stands = before_write, threading.Event()
        library.ww_event_wake = self.called = ctypes.CFUNCTYPE(None, ctypes.c_void_p, ctypes.c_void_p)(self.wake)

    def stand(self):
        self.stands.set()
        time.sleep(0.3)

    def wake(self, event_at, woken_at):
        event, woken = ww.tasks._Event.from_address(event_at), ww.tasks._Woken.from_address(woken_at)
        descriptor = event.descriptor
        if not self.before_write:
            self.stand()
        woken.next, event.first = event.first, woken_at
        if self.before_write:
            self.stand()
        os.write(descriptor, (1).to_bytes(8, sys.byteorder))

    def end(self):
        self.library.ww_event_wake = self.whole


def descriptors():
    return len(os.listdir("/proc/self/fd"))


def a_waker_is_slow(before_write):
    """A loop is left with a task that another thread is about to wake: nothing that this thread uses is gone by then, neither
    the descriptor, whose number another file would get, nor the memory."""
    buffers = made()
    mutex = ww.Mutex(buffers)
    is_held, goes = threading.Event(), threading.Event()
    slow = SlowWaker(buffers._library, before_write)
    open_before = descriptors()

    def hold():
        with mutex:
            is_held.set()
            goes.wait()

    async def lock():
        async with buffers.context() as context:
            await context.lock(mutex)

    async def leave():
        task = asyncio.create_task(lock())
        await asyncio.sleep(0)
        goes.set()
        slow.stands.wait()
        task.cancel()
        await asyncio.gather(task, return_exceptions=True)

    thread = threading.Thread(target=hold)
    thread.start()
    is_held.wait()
    asyncio.run(leave())
    gc.collect()
    files = [tempfile.TemporaryFile() for _ in range(20)]
    thread.join()
    assert [os.fstat(it.fileno()).st_size for it in files] == [0] * 20
    for it in files:
        it.close()
    slow.end()
    assert descriptors() == open_before and not ww.tasks._events and not mutex.locked()


async def a_child_leaves_it():
    """What wakes a loop isn't taken from it by a child of a fork, which has its memory and its descriptor."""
    buffers = made()
    mutex = ww.Mutex(buffers)
    async with buffers.context() as one:
        await one.lock(mutex)
        task = asyncio.create_task(lock_once(buffers, mutex))
        await asyncio.sleep(0)
        wakes = ww.tasks._Wakes.of(buffers._library)
        one.unlock(mutex)
    child = os.fork()
    if child == 0:
        wakes.take()
        wakes.__del__()
        os._exit(bool(ww.tasks._events))
    assert os.waitpid(child, 0)[1] == 0
    await asyncio.wait_for(task, LIMIT)


async def lock_once(of, mutex):
    async with of.context() as context:
        await context.lock(mutex)


async def tries_after_deadlock(kind):
    """With nothing held: what it tried needs no wait for what it collided with, and nor does what comes after that."""
    if kind == ww.WOUND_WAIT:
        return
    buffers = made(kind)
    mutex, other, shared = ww.Mutex(buffers), ww.Mutex(buffers), ww.SharedMutex(buffers)
    async with buffers.context() as one, buffers.context() as two:
        await one.lock(mutex)
        await two.lock(other)
        assert await fault_of(two.lock(mutex)) == errno.EDEADLK
        two.unlock_all()
        one.unlock_all()
        assert two.try_lock(other)
        await two.read(shared)
        two.unlock_all()
        await two.lock(mutex)
        assert mutex in two and other not in two and shared not in two


async def locks_again(kind):
    """A mutex that it holds, and for which it had to wait; also once mutexes that it held meanwhile are gone."""
    buffers = made(kind)
    mutex, other = ww.Mutex(buffers), ww.Mutex(buffers)

    async def waits():
        async with buffers.context() as two:
            await two.lock(mutex)
            assert not two.try_lock(mutex) and await fault_of(two.lock(mutex)) == errno.EALREADY
            assert await fault_of(two.lock(other, mutex)) == errno.EALREADY and not other.locked()
            two.unlock(mutex)
            assert not mutex.locked()
            return True

    async def waits_and_locks_others():
        async with buffers.context() as two:
            await two.lock(mutex)
            for _ in range(20):
                once = ww.Mutex(buffers)
                await two.lock(once)
                two.unlock(once)
                del once
                gc.collect()
            assert await fault_of(two.lock(mutex)) == errno.EALREADY and mutex in two
            return True

    for wait in (waits, waits_and_locks_others):
        async with buffers.context() as one:
            await one.lock(mutex)
            task = asyncio.create_task(wait())
            await asyncio.sleep(0)
        assert await task and not mutex.locked()


def a_loop_is_left():
    """With a task amid its wait, and with one that holds something."""
    buffers = made()
    a, b = ww.Mutex(buffers), ww.Mutex(buffers)

    async def hold():
        async with buffers.context() as context:
            await context.lock(a)
            await asyncio.sleep(1000)

    async def wait():
        async with buffers.context() as context:
            await context.lock(b)
            await context.lock(a)

    loop = asyncio.new_event_loop()
    tasks = [loop.create_task(hold()), loop.create_task(wait())]
    loop.run_until_complete(asyncio.sleep(0.02))
    assert a.locked() and b.locked()
    for it in tasks:
        it._log_destroy_pending = False
    (event,) = ww.tasks._events.values()
    event.leave()
    assert ww.tasks._events  # its wait goes on
    loop.close()
    del tasks, loop, it
    for _ in range(3):
        gc.collect()
    assert not a.locked() and not b.locked() and not ww.tasks._events
    asyncio.run(begin_all(buffers, 4))


def collects_blocks():
    """A block that the garbage collector ends, with its loop: its last lines are under its locks too."""
    buffers = made()
    a, b, told = ww.Mutex(buffers), ww.Mutex(buffers), []

    async def last_lines(context):
        await context.lock(a)
        try:
            await context.lock(b)
        finally:
            told.append(a.locked() and a in context)

    async def leave(begins_first):
        if begins_first:
            task = asyncio.create_task(last_lines(await buffers.context().__aenter__()))
        else:
            task = asyncio.create_task(buffers.run_async(last_lines))
        task._log_destroy_pending = False
        await asyncio.sleep(0.01)

    for begins_first in (True, False) * 3:
        loop = asyncio.new_event_loop()
        with b:
            loop.run_until_complete(leave(begins_first))
            loop.close()
            del loop
            gc.collect()
    assert told == [True] * 6 and not a.locked()


def frees_cycles():
    """A class that refers to its mutexes, to a context that holds them, and to a task that waits for one."""
    library, told = made()._library, []
    free = library.ww_class_free

    async def make(waits):
        buffers = made()
        buffers.all = [ww.Mutex(buffers) for _ in range(3)]
        buffers.one = await buffers.context().__aenter__()
        await buffers.one.lock(*buffers.all)
        if waits:
            buffers.two = await buffers.context().__aenter__()
            buffers.wait = buffers.two.lock(*buffers.all, timeout=LIMIT)  # without a limit it would get Already
            buffers.wait.send(None)

    library.ww_class_free = lambda at: told.append(free(at))
    for waits in (False, True):
        asyncio.run(make(waits))
        for _ in range(3):
            gc.collect()
    library.ww_class_free = free
    assert told == [0, 0] and not ww.tasks._events


async def one_is_dropped():
    """Without its block's end: it releases all, and ends."""
    buffers = made(contexts=1)
    mutex = ww.Mutex(buffers)
    context = await buffers.context().__aenter__()
    await context.lock(mutex)
    del context
    gc.collect()
    assert not mutex.locked()
    await asyncio.wait_for(begins(buffers), LIMIT)


def main():
    ww.tasks._PATIENCE = LIMIT
    for kind in KINDS:
        asyncio.run(refuses(kind))
        asyncio.run(has_a_time(kind))
        asyncio.run(refuses_other_tasks(kind))
        asyncio.run(is_cancelled(kind))
        asyncio.run(holds_one(kind))
        asyncio.run(reads(kind))
        asyncio.run(upgrades(kind))
        asyncio.run(returns_after_deadlock(kind))
        asyncio.run(locks_again(kind))
        asyncio.run(tries_after_deadlock(kind))
        storm(kind, 2, 30, 20, 4, False)
        storm(kind, 2, 30, 20, 3, True)
    asyncio.run(stops_no_loop())
    tells_who_begins_anew()
    asyncio.run(waits_in_turn())
    asyncio.run(goes_on_with_its_age())
    asyncio.run(begins_within())
    asyncio.run(says_what_came())
    asyncio.run(releases_once())
    asyncio.run(a_thread_wakes_it())
    asyncio.run(one_is_dropped())
    asyncio.run(a_child_leaves_it())
    a_loop_is_left()
    collects_blocks()
    frees_cycles()
    for before_write in (True, False):
        a_waker_is_slow(before_write)
    gc.collect()
    assert not ww.tasks._events
    ww.tasks._PATIENCE = 0.02  # Where what wakes the tasks is interrupted, no loop takes what was woken.
    loses_nothing()
    print("tasks: each wait ended as it should")


if __name__ == "__main__":
    if hasattr(os, "eventfd"):
        main()
    else:
        print("passed over: tasks, since os.eventfd of Python 3.10 isn't here")
        sys.exit(os.environ.get("CI") == "true")
