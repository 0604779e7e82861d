"""The mutexes of ww_mutex.h: a Class of them, a Mutex in each object, and a Context, which acquires what one change needs.

Their structures are opaque here: the library says how large each is. Each object keeps its structure alive, so nothing has
to be closed: when a mutex is garbage-collected its number is put back, and then its class's memory is freed.
"""
from __future__ import annotations

import ctypes
import errno
import functools
import gc
import sys
import threading
import time
import types
import weakref
from typing import TYPE_CHECKING, Any, Awaitable, Callable, Dict, Iterable, List, NamedTuple, Optional, Set, TypeVar

from .library import UNRUN, WAIT_DIE, WOUND_WAIT, Already, Counted, Counts, Deadlock, Library, Reasons, Retry, Single, Time
from .library import at_caller, check_body, opened, told, unexpected, whole

if TYPE_CHECKING:
    from .tasks import TaskContext

_T = TypeVar("_T")
# Python runs the handler of a signal in the main thread, between two calls of C, so never while that thread is in one. So
# a wait there is made of calls that end after so many nanoseconds; other threads wait by one call. Waiters with a context
# are in the order of their timestamps, so this loses no place in the order.
_SLICE = 100_000_000
_LONG = 10 * _SLICE  # After so many a wait is asked whether it is for the thread itself: by then Deadlock would have come.
_NEVER = 2**62  # A time of the clock, in nanoseconds too.
_NONE = 2**32 - 1  # The number of no mutex.
# By its address, the call that ends each structure of the library. They are made until the program's last moment.
_ends: Dict[int, Any] = {}
ctypes.pythonapi.Py_IncRef(ctypes.py_object(_ends))


class _End(int):
    """The address of a call that is made once nothing refers to this. What that call keeps is reached from `_ends`: so it is
    freed after the call, whatever cycle of references their owners were in. No line of Python is run, which a signal could
    interrupt."""

    __slots__ = ()
    __del__ = property(_ends.pop)


def _ending(end: Any, *kept: object) -> _End:
    """An end by this call, which keeps what may only be freed after it.  From Python 3.11 on the garbage collector would finalize it
    in any order: before a generator or a coroutine of the same cycle ends a block, which then were under no lock any more."""
    end.kept = kept
    _ends[id(end)] = end
    it = _End(id(end))
    if gc.is_tracked(it):
        ctypes.pythonapi.PyObject_GC_UnTrack(ctypes.py_object(it))
    return it


class _Exit:
    """An `__exit__`: `with` fetches it before its block begins, and what `with` calls at the end of the block is no function of
    Python, but the format of a text that looks up what ends the context: see library._memory_of. Its result is empty, so that
    exceptions pass. Others, such as contextlib.ExitStack, fetch it from the class."""

    def __init__(self, looked_up: str) -> None:
        self._format = f"{{0.{looked_up}!s:.0}}".format

    def __get__(self, it: Any, _: Any = None) -> Callable[..., Any]:
        if it is None:
            return self
        return functools.partial(self._format, it)

    def __call__(self, it: Any, *_: object) -> None:
        self._format(it)


class _Call(functools.partial):  # type: ignore[type-arg]
    """A call that is made when it is looked up, by C alone, as _Exit does."""

    made = property(functools.partial.__call__)


def _memory(size: int) -> Any:
    """So many bytes, all 0, and aligned for words."""
    return (ctypes.c_uint64 * -(-size // 8))()


def _until(timeout: Optional[float]) -> Optional[int]:
    """The time of the monotonic clock so many seconds from now, in nanoseconds."""
    if timeout is None:
        return None
    if timeout != timeout:
        raise ValueError("a timeout is a number of seconds")
    try:
        return max(0, time.monotonic_ns() + int(max(-1, min(timeout, threading.TIMEOUT_MAX)) * 10**9))
    except TypeError:
        raise unexpected("a number of seconds", timeout) from None


class _Thread(threading.local):
    """Contexts that a thread began. It uses no callbacks, since what a signal raises in one is lost."""

    contexts: List[weakref.ref[Context]] = []

    def _go_on(self) -> List[Context]:
        return [it for ref in self.contexts if (it := ref()) and not it._is_over]

    def begins(self, context: Context) -> None:
        self.contexts = [weakref.ref(it) for it in (*self._go_on(), context)]

    def holds(self, mutex: Mutex) -> bool:
        return any(mutex in it for it in self._go_on())

    def check_wait(self, context: Context, mutex: Mutex, reads: bool) -> None:
        """Already, where this context waits for another one of the thread, at this mutex or first at what is contended; a read waits for
        who writes."""
        library, place, at = context._library, context.why().at, mutex._at
        if place and not place.is_at(mutex):
            at, reads = library.ww_number_at(place.number, context._class._at), True  # It may be no more than a read.
        for it in self._go_on():
            if it is not context and it._class is context._class:
                if library.ww_shared_mutex_is_written_by(at, it._at) or not reads and library.ww_shared_mutex_is_read_by(at, it._at):
                    raise Already(errno.EALREADY, f"another context of this thread holds it, or what is contended: {mutex!r}")


_mine = _Thread()


# Why a call of a context or of a transaction is refused here and now.
_UNBEGUN = "it hasn't begun, or has ended, and is used in its block, `with .. as it`"
_ANOTHERS = "it belongs to another thread, and each thread begins its own"


def _wrong(why: str, at: object = None) -> OSError:
    return OSError(errno.EINVAL, why if at is None else f"{why}: {at!r}")


@functools.lru_cache(maxsize=None)
def _tasks() -> Any:
    """asyncio is loaded for those who use it."""
    from . import tasks

    return tasks


def _is_main() -> bool:
    return threading.get_ident() == threading.main_thread().ident


def _runs_loop() -> bool:
    """Whether this thread is running a loop of asyncio."""
    events = sys.modules.get("asyncio.events")
    return events is not None and events._get_running_loop() is not None


def _may_wait(until: Optional[int]) -> None:
    """Raises where a wait would stop a loop: what it waits for may be held by one of the loop's tasks."""
    if _runs_loop() and (until is None or time.monotonic_ns() < until):
        how = "begin the context by `async with`, and await its lock; or asyncio.to_thread(table.run, body)"
        raise RuntimeError(f"this would stop the running event loop: {how}")


class _Acquired:
    """What a thread's lock returns where a loop runs: an await of it says what is wrong."""

    def __await__(self) -> Any:
        raise TypeError("a context that begins by `with` locks at once, for a thread: begin it by `async with` to await its lock")


def _acquired() -> None:
    return _Acquired() if _runs_loop() else None  # type: ignore[return-value]


def _in_slices(call: Callable[[Optional[Time]], int], until: Optional[int]) -> int:
    """What a call that waits until this time returns in the end."""
    if _runs_loop():
        code = call(Time(0, 0))
        if code == -errno.ETIMEDOUT:
            _may_wait(until)
        return code
    while until is not None or _is_main():
        end = time.monotonic_ns() + _SLICE if until is None or _is_main() else until
        end = end if until is None else min(end, until)
        code = call(Time(*divmod(end, 10**9)))
        if code != -errno.ETIMEDOUT or end == until:
            return code
    return call(None)


class Class(Single):
    """A class of mutexes, among which deadlocks are detected. It has at most this many mutexes and contexts at a time (0:
    65,536, and 1,024 besides one for each thread), and allocates memory for as many. In a forked child it goes on, unless a
    mutex was locked or a context in use at the fork: then what is new there is EINVAL. `library` is the path of another libww.so
    than the installed one; messages have the name."""

    def __init__(self, kind: int = WOUND_WAIT, mutexes: int = 0, contexts: int = 0, library: Optional[str] = None, name: str = "") -> None:
        if kind not in (WOUND_WAIT, WAIT_DIE):
            raise _wrong(f"a class is ww.WOUND_WAIT or ww.WAIT_DIE, not {kind!r}")
        if not isinstance(name, str):
            raise unexpected("a name that is a str", name)
        for it in mutexes, contexts:
            if not hasattr(it, "__index__"):
                raise unexpected("a whole number", it)
        self.name = name
        self._library, c_name = opened(library), ctypes.c_char_p(name.encode())
        self._at = _memory(self._library.ww_class_size())
        self._its_end = _ending(functools.partial(self._library.ww_class_free, self._at), c_name)
        self._library.ww_class_init(self._at, kind, c_name)
        told(self._library.ww_class_limit(self._at, mutexes, contexts), "a class has at most 16,773,121 mutexes and 4,094 contexts")
        self._nobody: Any = types.SimpleNamespace(_at=self._library.context())  # a context that never begins

    def __repr__(self) -> str:
        return f"<ww.Class {self.name!r}>"

    def stats(self) -> Counts:
        """How often contexts backed off and waited since its first use, and how many there are now, as ww_class_stats
        tells it: a ww.Counts."""
        counted = Counted()
        self._library.ww_class_stats(self._at, ctypes.byref(counted))
        return Counts(*(getattr(counted, it) for it in Counts._fields))

    def cancel(self) -> None:
        """Ends all waits of its contexts and mutexes (InterruptedError), those of tasks too, and each later one immediately: the
        class stays cancelled. It stops nothing else, so a loop that needn't wait goes on: ask whether the program ends there."""
        told(self._library.ww_class_cancel(self._at))

    def context(self, timeout: Optional[float] = None, resumes: Optional[Suspended] = None) -> Context:
        """A context. `with` begins it, or in a task `async with`, and ends it when its block ends in whatever way: then it releases
        everything that it holds. If all contexts are in use it waits for one, at most for `timeout` seconds (TimeoutError). `resumes`
        is what Context.suspend returned: it has that age, and first waits for the mutex at which that got Deadlock."""
        return Context(self, timeout, resumes)

    async def run_async(self, body: Callable[[TaskContext], Awaitable[_T]], timeout: Optional[float] = None) -> _T:
        """As run, for a task: returns what `await body(context)` returns, with a context of `async with`."""
        called: Any = ...
        context = _tasks().TaskContext(self, timeout)
        try:
            await context.begin()
            while True:
                try:
                    called = body(context)
                    result: _T = await called
                    if not context._is_contended():
                        return result
                except Deadlock:
                    if not context._is_contended():
                        raise
                except TypeError:
                    check_body(body, called, True)
                    raise
                context.unlock_all()
        finally:
            context.end()

    def _check(self, *mutexes: Mutex) -> None:
        for mutex in mutexes:
            if not isinstance(mutex, Mutex):
                raise unexpected("a ww.Mutex", mutex)
            if mutex._class is not self:
                raise _wrong(f"the mutex is of another class than the context's, {self.name!r}", mutex)

    def run(self, body: Callable[[Context], _T], timeout: Optional[float] = None) -> _T:
        """Returns what body(context) returns. If body gets Deadlock, everything is released, and it is called again: so
        before its last lock call it should change nothing that it doesn't set again. It may catch other errors, but after
        Deadlock it must return or raise. `timeout` is that of context()."""
        with self.context(timeout) as context:
            while True:
                try:
                    result = body(context)
                    if result.__class__ in UNRUN:
                        check_body(body, result)
                    if not context._is_contended():
                        return result
                except Deadlock:
                    if not context._is_contended():
                        raise
                except TypeError:
                    check_body(body, ...)
                    raise
                context.unlock_all()


class Suspended(Single):
    """The age of a context that was suspended, by which another one goes on, in whichever thread: a new one would be the youngest. It is
    true if it has an age. One without an age begins a new context; and so does what was resumed before, or whose class had half of its
    contexts suspended."""

    def __init__(self, of: Class) -> None:
        if not isinstance(of, Class):
            raise unexpected("a ww.Class", of)
        self._class, self._library, self._retry = of, of._library, Retry()
        self._its_end = _ending(functools.partial(self._library.ww_retry_drop, self._retry), of._its_end)

    def __bool__(self) -> bool:
        return bool(self._retry.ticket)

    def __repr__(self) -> str:
        return f"<ww.Suspended of {self._class.name!r} {'with an' if self else 'without'} age>"

    def at_once(self) -> None:
        """What resumes it doesn't wait first: after a TimeoutError, to lock others first."""
        self._retry.awaits = 0

    def _check(self, of: Class) -> None:
        """Raises unless it is one of this class."""
        if not isinstance(self, Suspended):
            raise unexpected("a ww.Suspended", self)
        if self._class is not of:
            raise _wrong(f"it is of another class than {of!r}", self)

    def _suspend(self, context: Any) -> bool:
        """Whether it has the age of this context, which then has ended."""
        code = self._library.ww_acquire_suspend(context, self._retry)
        if code != -errno.EAGAIN:
            told(code)
        return bool(not code)

    def _resume(self, context: Any, until: Optional[int]) -> int:
        return _in_slices(functools.partial(self._library.ww_acquire_resume, context, self._class._at, self._retry), until)

    def _poll(self, context: Any, seek: Any) -> Callable[[Any], int]:
        """The same for a task, by a waker or None."""
        return functools.partial(self._library.ww_acquire_resume_poll, context, self._class._at, self._retry, seek)


class Place(NamedTuple):
    """A mutex, and one that has it or waits for it: its label (Context.label; 0: none)."""

    number: int
    label: int
    part: str  # "nobody", "holds", "reads" or "waits"

    def is_at(self, mutex: Mutex) -> bool:
        """Whether it is this mutex, of the same class."""
        if not isinstance(mutex, Mutex):
            raise unexpected("a ww.Mutex", mutex)
        return bool(mutex._number.value == self.number)


class Why(NamedTuple):
    """What a context collided with: the mutex at which its last lock call ended that waited or failed, and who has that now; and a mutex
    that it still has, with one that waits for it."""

    at: Optional[Place]
    wanted: Optional[Place]


def _place(it: Any) -> Optional[Place]:
    return Place(it.number, it.by.label, ("nobody", "holds", "reads", "waits")[it.by.part]) if it.mutex else None


class Mutex(Single):
    """A mutex of a class. `with mutex:` holds only this one, in a context of its own, and in a task `async with mutex:` does.
    acquire, release and locked are those of threading.Lock, so threading.Condition takes a Mutex. One thing differs: a thread that
    would wait for itself without a limit gets Already. A block always releases, also where the handler of a signal raises in it or
    at its end (except in Python 3.9, which itself may raise between the block and its end)."""

    _calls = "ww_mutex_"

    def __init__(self, of: Class) -> None:
        if not isinstance(of, Class):
            raise unexpected("a ww.Class", of)
        self._class, self._library = of, of._library
        # That by which it is held, or was held last; at first one that never begins.
        self._alone: Any = of._nobody  # a Context or a TaskContext
        # A number of the class, and where the library's mutex of this number is: it keeps no address of ours.
        self._number = number = ctypes.c_uint32(_NONE)
        self._its_end = _ending(functools.partial(self._library.ww_number_leave, number, of._at), of._its_end)
        code = self._library.ww_number_take(ctypes.byref(number), of._at)
        if code:
            _ends[self._its_end] = bool  # It has no number to put back.
        told(code, None, of)
        self._at = self._library.ww_number_at(number, of._at)

    def _call(self, name: str) -> Any:
        """The library's call of this name for such a mutex."""
        return getattr(self._library, self._calls + name)

    def __repr__(self) -> str:
        state = "locked" if self.locked() else "unlocked"
        return f"<{state} ww.{type(self).__name__} object of {self._class.name!r} at {id(self):#x}>"

    def __enter__(self, timeout: Optional[float] = None) -> Mutex:
        if timeout is None and _mine.holds(self):
            raise Already(errno.EALREADY, f"this thread holds it already: {self!r}")
        context, until = Context(self._class), _until(timeout)
        try:
            context._begin(until)
            context._lock_until((self,), until)
        except BaseException:
            context._leave()
            raise
        self._alone = context  # After the last call no signal is handled before the block.
        return self

    __exit__ = _Exit("_alone._at.release")

    async def __aenter__(self) -> Mutex:
        self._alone = await _tasks().TaskContext.holding(self)
        return self

    async def __aexit__(self, *_: object) -> None:
        self._alone.end()

    def acquire(self, blocking: bool = True, timeout: float = -1) -> bool:
        """Acquires it, at most for `timeout` seconds, or with blocking=False only if it is free; returns whether it did."""
        if not blocking and timeout != -1:
            raise ValueError("a call that doesn't block has no timeout")
        if timeout != -1:
            _until(timeout)
        if not blocking and _mine.holds(self):
            return False
        if timeout < 0 and timeout != -1:
            raise ValueError("a timeout is a number of seconds, or -1")
        if timeout > threading.TIMEOUT_MAX:
            raise OverflowError("a timeout is at most threading.TIMEOUT_MAX")
        try:
            self.__enter__((None if timeout == -1 else timeout) if blocking else 0)
        except TimeoutError:
            return False
        return True

    def release(self) -> None:
        """Releases it, in whichever thread. EINVAL: it isn't locked by acquire or a block."""
        try:
            self.__exit__()
        except OSError as error:
            raise _wrong(error.strerror, self) from None

    def locked(self) -> bool:
        """Whether somebody holds or reads it: that may be out of date when it returns."""
        return bool(self._call("is_locked")(self._at))


class SharedMutex(Mutex):
    """A mutex for what is read much more often than written: contexts read it beside each other (Context.read), or one holds it.
    Reads end together, with all that the context holds or when it unlocks the last of them. Each context that reads takes one of
    the class's mutexes, too."""

    _calls = "ww_shared_mutex_"


class Holder(Single):
    """What the contexts of threads and of tasks have in common. The library knows what they hold. But there all reads end together:
    so `_reads` has the numbers of what the program hasn't unlocked, and the last unlock ends the reads. Where an exception comes
    between two lines it may have one too many, and then the reads last until the block ends."""

    def __init__(self, of: Class, timeout: Optional[float]) -> None:
        self._class, self._library, self._timeout = of, of._library, timeout
        self._at = self._library.context()
        self._reads: Set[int] = set()

    def _check(self, *mutexes: Mutex) -> None:
        """Raises if a call here and now would be misuse."""
        raise NotImplementedError

    def _is_contended(self) -> bool:
        """Whether it got Deadlock, and hasn't backed off since."""
        raise NotImplementedError

    def _has(self, mutex: Mutex) -> bool:
        """Whether it was asked for, and is held: the library's mutexes with a number are all shared ones."""
        return bool(self._library.ww_shared_mutex_is_written_by(mutex._at, self._at))

    def _told(self, code: int, mutex: Mutex) -> None:
        """As told, of a lock call."""
        is_misuse = code == -errno.EINVAL and self._is_contended()
        told(code, "the context got Deadlock and still holds a mutex: release all, or let the body return" if is_misuse else None, mutex)

    def __contains__(self, mutex: object) -> bool:
        """Whether it holds this mutex."""
        if not isinstance(mutex, Mutex) or mutex._class is not self._class:
            return False
        reads = mutex._number.value in self._reads and self._library.ww_shared_mutex_is_read_by(mutex._at, self._at)
        return reads or self._has(mutex)

    def try_lock(self, mutex: Mutex) -> bool:
        """Acquires it if nobody has it or waits for it; returns whether it did."""
        self._check(mutex)
        return bool(mutex._call("trylock")(mutex._at, self._at) == 1)

    def unlock(self, mutex: Mutex) -> None:
        """Releases it; of a SharedMutex ends its read, too."""
        self._check(mutex)
        if mutex not in self:
            raise _wrong("the context doesn't hold it", mutex)
        if self._has(mutex):
            told(self._library.ww_number_unlock(mutex._number, self._at))
        self._end_reads({mutex._number.value})

    def _end_reads(self, numbers: Set[int]) -> None:
        if self._reads & numbers:
            self._reads -= numbers
            if not self._reads:
                self._library.ww_acquire_end_reads(self._at)


class Context(Holder):
    """A context, for one thread: `with Class.context() as context`. A task of asyncio gets a TaskContext by `async with`, whose
    lock is awaited. In other threads, and outside the block, its calls are EINVAL, except cancel. Where it would have to wait in a
    thread that runs a loop of asyncio, it raises RuntimeError."""

    def __init__(self, of: Class, timeout: Optional[float] = None, resumes: Optional[Suspended] = None) -> None:
        super().__init__(of, timeout)
        if resumes is not None:
            Suspended._check(resumes, of)
        self._resumes = resumes
        self._thread: Optional[int] = None
        self._of_task: Optional[TaskContext] = None
        # Who comes first says what is done after an exception: the thread by which it has begun, or whoever leaves it before.
        self._came_first = {"": "begun"}
        self._its_end = _ending(functools.partial(self._library.ww_acquire_end, self._at), of._its_end)

    __exit__ = _Exit("_at.end")

    @property
    def _is_over(self) -> bool:
        """Whether it has ended, or hasn't begun: no wait of a poll goes on by a thread's context."""
        return bool(self._library.ww_acquire_end_wait(self._at))

    def _begins_once(self) -> None:
        """Whichever thread or task comes first, and whatever becomes of that; Python makes the call in one step."""
        if self.__dict__.setdefault("_is_taken", mine := object()) is not mine:
            raise _wrong("a context begins once")

    def __enter__(self) -> Context:
        self._begins_once()
        try:
            self._begin(_until(self._timeout))
        except BaseException:
            self._leave()
            raise
        return self  # After the last call no signal is handled before the block.

    async def __aenter__(self) -> TaskContext:
        self._begins_once()
        context: TaskContext = _tasks().TaskContext(self._class, self._timeout, self._resumes)
        self._of_task = context
        await context.begin()
        return context

    async def __aexit__(self, *_: object) -> None:
        assert self._of_task
        self._of_task.end()

    def __repr__(self) -> str:
        count = self._library.ww_acquire_mark(self._at)
        return f"<ww.Context of {self._class.name!r} with {count} mutex{'es' * (count != 1)}>"

    def _begin(self, until: Optional[int] = None) -> None:
        if self._library.is_debug:
            at_caller(self._library)
        if self._resumes:
            told(self._resumes._resume(self._at, until))
        else:
            code = self._library.ww_acquire_init_checked(self._at, self._class._at)
            told(self._begin_in_turn(until) if code == -errno.EAGAIN else code)
        # All of it is a loop of ww_until_all_locked.
        self._library.ww_tries_begin_(self._at)
        self._thread = threading.get_ident()
        _mine.begins(self)

    def _begin_in_turn(self, until: Optional[int]) -> int:
        """Waits until one of the class's contexts is free. With calls of a slice each the main thread would lose its place
        in that queue each time, so another thread waits for it. If the main thread stops waiting, the context ends as soon
        as it has begun."""
        _may_wait(until)
        codes: List[int] = []
        begun, end = threading.Event(), Time(*divmod(_NEVER if until is None else until, 10**9))
        came_first: Dict[str, str] = {}

        def begin() -> None:
            codes.append(self._library.ww_acquire_init_until(self._at, self._class._at, end))
            if came_first.setdefault("", "begun") == "left":
                self._library.ww_acquire_end(self._at)
            begun.set()

        if _is_main():
            self._came_first = came_first
            threading.Thread(target=begin, daemon=True).start()
            begun.wait()
        else:
            begin()
        return codes[0]

    def _leave(self) -> None:
        """After an exception: ends it, or leaves that to the thread by which it begins."""
        if self._came_first.setdefault("", "left") == "begun":
            self._library.ww_acquire_end(self._at)

    def _check(self, *mutexes: Mutex) -> None:
        """Raises if a call of this thread would be misuse."""
        if self._thread != threading.get_ident() or self._is_over:
            raise _wrong(_UNBEGUN if self._is_over else _ANOTHERS, self)
        self._class._check(*mutexes)

    def _is_contended(self) -> bool:
        return bool(self._library.ww_is_contended(self._at))

    def _answer(self, mutex: Mutex, until: Optional[int], name: str) -> int:
        """What this lock call returns in the end."""
        call = functools.partial(mutex._call(name), mutex._at, self._at)
        if until is None and len(_mine.contexts) > 1:
            code = _in_slices(call, time.monotonic_ns() + _LONG)
            if code != -errno.ETIMEDOUT:
                return code
            _mine.check_wait(self, mutex, name == "lock_shared_until")
        return _in_slices(call, until)

    def lock(self, *mutexes: Mutex, timeout: Optional[float] = None) -> None:
        """Acquires all of them, and waits for them; at most for `timeout` seconds (TimeoutError), or until it is cancelled
        (InterruptedError). One that is free is acquired, however late it is. A context that held nothing before backs
        off by itself; any other one may raise Deadlock: then release everything and lock again, best by Class.run. A new context
        would be the youngest, and give way again. Already: it holds one of them, or another context of its thread does, and there is no
        limit. If it fails, it has released what it acquired here."""
        self._check(*mutexes)
        self._lock_until(mutexes, _until(timeout))
        return _acquired()

    def read(self, *mutexes: SharedMutex, timeout: Optional[float] = None) -> None:
        """As lock, for each a SharedMutex, which it reads from now on, beside other contexts that do; what it holds already it may
        read. A later lock of what it reads waits for the others: nobody writes it in between."""
        self._check(*mutexes)
        if not all(isinstance(it, SharedMutex) for it in mutexes):
            raise unexpected("a ww.SharedMutex", next(it for it in mutexes if not isinstance(it, SharedMutex)))
        self._lock_until([it for it in mutexes if it not in self], _until(timeout), "lock_shared_until")
        return _acquired()

    def _lock_until(self, mutexes: Iterable[Mutex], until: Optional[int], name: str = "lock_until") -> None:
        if self._library.is_debug:
            at_caller(self._library)
        mark = self._library.ww_acquire_mark(self._at)
        while True:
            read: Set[int] = set()
            try:
                for mutex in mutexes:
                    if name == "lock_shared_until":
                        read.add(mutex._number.value)
                        self._reads |= read  # Before it is read: so it is for as long as that goes on.
                    self._told(self._answer(mutex, until, name), mutex)
                return
            except BaseException as error:
                if mark:
                    self._end_reads(read)
                    self._library.ww_acquire_unlock_to(self._at, mark)
                else:
                    self._unlock_all()
                if mark or not isinstance(error, Deadlock):
                    raise

    def downgrade(self, mutex: SharedMutex) -> None:
        """Of a SharedMutex that it holds: from now on it reads it, and others may; nobody writes it in between."""
        self._check(mutex)
        if not (isinstance(mutex, SharedMutex) and self._has(mutex)):
            raise _wrong("the context doesn't write it", mutex)
        self._reads.add(mutex._number.value)
        if self._library.ww_shared_mutex_is_read_by(mutex._at, self._at):
            told(self._library.ww_number_unlock(mutex._number, self._at))
        else:
            self._library.ww_shared_mutex_downgrade(mutex._at, self._at)

    def unlock_all(self) -> None:
        """Releases everything. After Deadlock the next lock call first waits for the contended mutex."""
        self._check()
        self._unlock_all()

    def _unlock_all(self) -> None:
        self._reads.clear()
        if self._is_contended():
            self._library.ww_back_off_(self._at)
        else:
            self._library.ww_acquire_unlock_all(self._at)

    def suspend(self) -> Suspended:
        """Releases everything, and ends the context, whose age goes on in the result: for a retry that is another's. If half of the
        class's contexts are suspended, that has none, and what resumes it is the youngest."""
        self._check()
        age = Suspended(self._class)
        self._unlock_all()
        if not age._suspend(self._at):
            self._library.ww_acquire_end(self._at)
        return age

    def label(self, number: int) -> None:
        """Others find the context by this number of 64 bits (Context.why), until it ends."""
        self._check()
        told(self._library.ww_acquire_label(self._at, whole("a label", number, 2**64)))

    def why(self) -> Why:
        """What it collided with: to be asked after a lock call failed, before anything else is released."""
        self._check()
        reasons = Reasons()
        told(self._library.ww_acquire_why(self._at, ctypes.byref(reasons)))
        return Why(_place(reasons.at), _place(reasons.wanted))

    def __contains__(self, mutex: object) -> bool:
        """Whether it holds this mutex."""
        if self._thread not in (None, threading.get_ident()) and not self._is_over:
            self._check()
        return super().__contains__(mutex)

    def done(self) -> None:
        """Says that it has all its mutexes. EINVAL: this was said before."""
        self._check()
        told(self._library.ww_acquire_done_checked(self._at), "done was called before", self)

    def cancel(self) -> None:
        """Ends its wait, the current one or the next; any thread may call it. Already: a cancel is pending; EINVAL: the
        context hasn't begun, or has ended."""
        code = self._library.ww_acquire_cancel(self._at)
        told(code, "a cancel is pending already" if code == -errno.EALREADY else _UNBEGUN, self)
