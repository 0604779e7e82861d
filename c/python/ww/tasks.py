"""Contexts of asyncio's tasks, which wait without their thread: `async with Class.context() as context`, over ww_poll.h.
Python 3.10, which has eventfd."""
from __future__ import annotations

import asyncio
import collections
import contextvars
import ctypes
import errno
import functools
import os
import select
import threading
import time
import weakref
from typing import Any, Callable, Dict, Iterable, List, Optional, Set, Tuple

from .library import Already, Deadlock, Library, at_caller, told, unexpected
from .mutexes import Class, Holder, Mutex, SharedMutex, Suspended, _ending, _until


_os: Any = os  # Older type checkers don't know its eventfd.


class _Waker(ctypes.Structure):
    """struct ww_waker."""

    _fields_ = [("wake", ctypes.c_void_p), ("loop", ctypes.c_void_p), ("task", ctypes.c_void_p)]


class _Seek(ctypes.Structure):
    """struct ww_seek."""

    _fields_ = [("next", ctypes.c_void_p), ("of", ctypes.c_void_p), ("seat", ctypes.c_void_p), ("waker", _Waker), ("served", ctypes.c_uint32)]
    _fields_ += [("heeds", ctypes.c_uint16), ("is_within", ctypes.c_uint16)]


class _Woken(ctypes.Structure):
    """struct ww_woken."""

    _fields_ = [("next", ctypes.c_void_p)]


# The events whose descriptors are open: threads that go on while the interpreter ends may still use them, so they are there
# until the program's last moment. And in a forked child those of its parent: a mutex that is released there may use one.
_events: Dict[int, _Event] = {}
_inherited: List[_Event] = []
for _kept in _events, _inherited:
    ctypes.pythonapi.Py_IncRef(ctypes.py_object(_kept))
# For how many seconds the end of a loop waits at most for threads that are in the middle of a call.
_PATIENCE = 10


class _Event(ctypes.Structure):
    """struct ww_event: the thread that ends a wait puts the wait's entry into a list and, if that was empty, then writes to a
    descriptor, without Python's lock. So the list is taken only after a read that succeeded: then the one write that belongs to
    it is over. An event without waits has an empty list, so nobody is about to write, and its descriptor may be closed."""

    _fields_ = [("first", ctypes.c_void_p), ("descriptor", ctypes.c_int)]
    first: Optional[int]
    descriptor: int

    def __init__(self, library: Library) -> None:
        super().__init__(None, _os.eventfd(0, _os.EFD_NONBLOCK | _os.EFD_CLOEXEC))
        self.waits: Dict[int, Tuple[Any, ...]] = {}  # By the address of its entry, the memory of a wait which other threads may use.
        self.called: Set[int] = set()  # Entries of waits that have ended, but whose waker was called, or is about to be.
        self.is_left = self.is_inherited = False
        self.lock = threading.RLock()  # Several threads may take and close what their loop has left.
        read, take = functools.partial(_os.eventfd_read, self.descriptor), functools.partial(library.ww_event_take, ctypes.addressof(self))
        # No line of Python is run between the two, which a signal could interrupt.
        self.read_and_take: Callable[[], Iterable[Any]] = functools.partial(map, functools.partial.__call__, (read, take))
        _events[ctypes.addressof(self)] = self

    def take(self) -> List[int]:
        """The entries that are in the list; none, if the thread that has filled it is still to write."""
        if self.is_inherited:
            return []
        with self.lock:
            taken: List[int] = []
            at: Optional[int] = None
            try:
                if self.descriptor >= 0:
                    _, at = self.read_and_take()
            except BlockingIOError:
                pass
            while at:
                taken.append(at)
                at = self.waits[at][0].next
            self.called.difference_update(taken)
            for at in taken:
                del self.waits[at]
            self.close_if_unused()
            return taken

    def removes(self, at: int, is_called: bool) -> None:
        """Its wait has ended. If its waker was called, or is about to be, the entry is in the list, or comes there."""
        if self.is_inherited:
            return
        with self.lock:
            if not is_called:
                del self.waits[at]
            elif at in self.waits:
                self.called.add(at)
        if self.is_left:
            self.leave()

    def leave(self) -> None:
        """Its loop takes nothing any more. What other threads have begun to do with it is over in a moment, which this awaits;
        if it isn't, the event stays. A wait that goes on closes the descriptor when it ends."""
        self.is_left = True
        until = time.monotonic() + _PATIENCE
        # Another thread may take the rest, and close the descriptor.
        while (descriptor := self.descriptor) >= 0 and (self.first or self.called) and time.monotonic() < until:
            ready = select.poll()
            ready.register(descriptor, select.POLLIN)
            ready.poll(100)
            self.take()
        self.take()

    def close_if_unused(self) -> None:
        if self.is_left and not self.waits and _events.pop(ctypes.addressof(self), None) is self:
            descriptor, self.descriptor = self.descriptor, -1
            os.close(descriptor)


class _Wakes:
    """What wakes the tasks of a loop. Only the loop refers to it, and to the futures of its waits, so that the rest of a closed
    loop can be freed."""

    of_loops: weakref.WeakKeyDictionary[Any, weakref.WeakValueDictionary[Library, _Wakes]] = weakref.WeakKeyDictionary()
    event: Any = None  # an _Event, once it is made

    def __init__(self, loop: asyncio.AbstractEventLoop, library: Library) -> None:
        self.futures: Dict[int, asyncio.Future[None]] = {}  # By the addresses of their waits' entries.
        self.event = _Event(library)
        self.wake = ctypes.cast(library.ww_event_wake, ctypes.c_void_p).value
        loop.add_reader(self.event.descriptor, self.take)

    @classmethod
    def of(cls, library: Library) -> _Wakes:
        loop = asyncio.get_running_loop()
        of_libraries = cls.of_loops.get(loop)
        if of_libraries is None:
            of_libraries = cls.of_loops.setdefault(loop, weakref.WeakValueDictionary())
        wakes = of_libraries.get(library)
        if wakes is None:
            wakes = of_libraries[library] = cls(loop, library)
        return wakes

    def begin(self, *kept: object) -> Tuple[_Waker, int, asyncio.Future[Any]]:
        """A wait: its waker, the address of its entry, and the future of its wake-up."""
        woken, future = _Woken(), asyncio.get_running_loop().create_future()
        at = ctypes.addressof(woken)
        self.event.waits[at] = woken, *kept
        self.futures[at] = future
        return _Waker(self.wake, ctypes.addressof(self.event), at), at, future

    def end(self, at: int, is_called: bool) -> None:
        """Ends a wait that wasn't woken yet."""
        del self.futures[at]
        self.event.removes(at, is_called)

    def take(self) -> None:
        for at in self.event.take():
            future = self.futures.pop(at, None)
            if future and not future.done():
                future.set_result(None)

    def __del__(self) -> None:
        if self.event:
            self.event.leave()


def _inherit() -> None:
    """In a forked child. Nobody is there who writes, and what is read there is lost to the parent, whose descriptor it is."""
    for event in _events.values():
        event.is_inherited = True
        os.close(event.descriptor)
        event.descriptor = -1
    _inherited.extend(_events.values())
    _events.clear()
    _Wakes.of_loops.clear()


os.register_at_fork(after_in_child=_inherit)


_Around = Optional[Tuple["weakref.ref[TaskContext]", Any]]
# Of a task, and of each that it makes: the context that it began last, and those around that.
_around: contextvars.ContextVar[_Around] = contextvars.ContextVar("_around", default=None)


def _within() -> _Around:
    """Those that go on, the innermost first."""
    around = _around.get()
    while around and ((it := around[0]()) is None or it._is_over):
        around = around[1]
    return around


def _ended() -> OSError:
    return OSError(errno.EINVAL, "the context is of no `async with` block that goes on")


def _is_late(future: asyncio.Future[Any]) -> None:
    if not future.done():
        future.set_result(-errno.ETIMEDOUT)


class TaskContext(Holder):
    """A context of a task: `async with Class.context() as context`. Other tasks may not use it. A task that is cancelled
    during a wait holds what it held before: so asyncio.timeout, of Python 3.11, may end waits as well as `timeout` does. But
    asyncio.wait_for of 3.11 may lose a cancel that comes with the end of the wait."""

    def __init__(self, of: Class, timeout: Optional[float] = None, resumes: Optional[Suspended] = None) -> None:
        super().__init__(of, timeout)
        self._resumes = resumes
        self._says: Optional[Callable[[], object]] = None  # What says to the debug library where its last call was made.
        self._task = id(asyncio.current_task())
        self._seek = _Seek()
        self._future: Optional[asyncio.Future[Any]] = None  # Those of the wait that is under way.
        self._event: Optional[_Event] = None
        self._is_back = False  # Its waker was taken back.
        self._got_deadlock = False  # It has yet to wait for what it collided with, once it has released all.
        self._collided: Optional[Tuple[int, bool]] = None  # The number of that, and whether it was to be read.
        self._is_over = False
        calls = functools.partial(self._library.ww_seek_end, ctypes.byref(self._seek)), functools.partial(self._library.ww_acquire_end, self._at)
        # It makes each of them once, in this order: no line of Python is run, which a signal could interrupt.
        self._end = functools.partial(collections.deque, map(functools.partial.__call__, calls), 0)
        self._its_end = _ending(self._end, of._its_end)

    @classmethod
    async def holding(cls, mutex: Mutex) -> TaskContext:
        """A context that holds this one, for `async with mutex`."""
        context = cls(mutex._class)
        context._check_wait(mutex._number.value, False)
        try:
            await context.begin()
            await context.lock(mutex)
        except BaseException:
            context.end()
            raise
        return context

    def _check_wait(self, number: int, reads: bool) -> None:
        """Already, where another context of this task, around this one, holds the mutex; a read waits for who writes."""
        around, task, library = _within(), id(asyncio.current_task()), self._library
        at = library.ww_number_at(number, self._class._at)
        while around:
            it = around[0]()
            if it and it is not self and it._task == task and it._class is self._class:
                if library.ww_shared_mutex_is_written_by(at, it._at) or not reads and library.ww_shared_mutex_is_read_by(at, it._at):
                    raise Already(errno.EALREADY, f"another context of this task holds the mutex: {it!r}")
            around = around[1]

    def _is_contended(self) -> bool:
        return self._got_deadlock

    def try_lock(self, mutex: Mutex) -> bool:
        is_locked = super().try_lock(mutex)
        self._got_deadlock &= not is_locked  # What it collided with needn't be awaited any more.
        return is_locked

    async def _wait(
        self, poll: Callable[[Any], int], until: Optional[int], seek: Any = None, resumes: bool = False, check: Any = None
    ) -> int:
        """What the call returns in the end; `check` raises if the wait is in vain. If this is cancelled, or the time comes, the wait has
        ended; what it resumes is suspended."""
        wakes = _Wakes.of(self._library)
        while True:
            waker, at, future = wakes.begin(self._at, self._seek)
            code, self._is_back, self._future, self._event = -errno.EINPROGRESS, False, future, wakes.event
            timer = None
            try:
                if self._says:
                    self._says()
                code = poll(ctypes.byref(waker))
                if code != -errno.EINPROGRESS:
                    return code
                if until is None and check:
                    check()
                elif until is not None:
                    late = (until - time.monotonic_ns()) / 10**9
                    timer = future.get_loop().call_later(late, _is_late, future)
                told(await future)
                if self._is_over:
                    raise _ended()
            except BaseException:
                self._take_back(seek)
                if (poll(None) if resumes else self._library.ww_acquire_end_wait(self._at)) == -errno.EDEADLK:
                    self._got_deadlock = True
                raise
            finally:
                if timer:
                    timer.cancel()
                self._future = self._event = None
                if wakes.futures.get(at) is future:  # It wasn't woken; another wait may have its address by now.
                    wakes.end(at, code == -errno.EINPROGRESS and not self._is_back)

    def _take_back(self, seek: Any = None) -> None:
        """A forked child takes nothing back: a lock that it needs for that may be one that another thread had as it was made."""
        if self._event and not self._event.is_inherited:
            self._is_back |= self._library.ww_poll_take_back(self._at, seek)

    async def begin(self) -> None:
        """Begins the context; if none is free it waits for one, in turn. Within another one it gets any that is free, since
        that one may wait for it."""
        until = _until(self._timeout)
        if self._library.is_debug:
            self._says = at_caller(self._library)
        within = _within()
        self._seek.is_within = within is not None
        seek = ctypes.byref(self._seek)
        poll: Callable[[Any], int] = functools.partial(self._library.ww_acquire_init_poll, self._at, self._class._at, seek)
        age = self._resumes or None
        if age:
            poll = age._poll(self._at, seek)
        try:
            if poll(None) != 0:
                told(await self._wait(poll, until, seek, age is not None))
            # As a thread's: so it knows all that it holds, and one call releases that.
            self._library.ww_tries_begin_(self._at)
            _around.set((weakref.ref(self), within))
        except BaseException:
            if age is not None and not self._library.ww_acquire_end_wait(self._at):  # It has come to go on.
                age._suspend(self._at)
            self._end()
            raise

    def end(self) -> None:
        """Releases everything that it holds, and ends; so does the wait of another task by it."""
        future, self._is_over = self._future, True
        self._take_back()
        self._end()
        if future and not (future.done() or future.get_loop().is_closed()):
            future.set_exception(_ended())

    def _check(self, *mutexes: Mutex) -> None:
        if self._is_over:
            raise _ended()
        if self._future:
            raise OSError(errno.EBUSY, "another task waits by this context")
        self._class._check(*mutexes)

    async def _asks(self, mutex: Mutex, shared: str, until: Optional[int]) -> None:
        """Locks it, or with "_shared" reads it."""
        if mutex._call("trylock" + shared)(mutex._at, self._at) != 1:
            asked = mutex._number.value, bool(shared)
            poll = functools.partial(mutex._call(f"lock{shared}_poll"), mutex._at, self._at)
            code = await self._wait(poll, until, check=functools.partial(self._check_wait, *asked))
            if code == -errno.EDEADLK:
                self._got_deadlock, self._collided = True, asked
            self._told(code, mutex)

    async def lock(self, *mutexes: Mutex, timeout: Optional[float] = None) -> None:
        """Acquires all of them, and waits for them; at most for `timeout` seconds (TimeoutError). One that is free is acquired,
        however late it is. A context that held nothing before backs off by itself; any other one may raise Deadlock: then
        release everything and lock again, best by Class.run_async. A new context would be the youngest, and give way again.
        Already: it holds one of them. If it fails, or its task is cancelled, it has released what it acquired here."""
        self._check(*mutexes)
        await self._lock_all(mutexes, "", _until(timeout))

    async def read(self, *mutexes: SharedMutex, timeout: Optional[float] = None) -> None:
        """As lock, for each a SharedMutex, which it reads from now on, as Context.read."""
        self._check(*mutexes)
        if not all(isinstance(it, SharedMutex) for it in mutexes):
            raise unexpected("a ww.SharedMutex", next(it for it in mutexes if not isinstance(it, SharedMutex)))
        await self._lock_all([it for it in mutexes if it not in self], "_shared", _until(timeout))

    async def _lock_all(self, mutexes: Iterable[Mutex], shared: str, until: Optional[int]) -> None:
        if self._library.is_debug:
            self._says = at_caller(self._library)
        held_nothing = not self._library.ww_acquire_mark(self._at)
        while True:
            acquired: List[Mutex] = []
            try:
                if held_nothing and self._got_deadlock:
                    first = functools.partial(self._library.ww_shared_mutex_await_poll, self._at)
                    told(await self._wait(first, until, check=self._collided and functools.partial(self._check_wait, *self._collided)))
                    self._got_deadlock = False
                for mutex in mutexes:
                    if shared:
                        self._reads.add(mutex._number.value)  # Before it is read: so it is for as long as that goes on.
                    acquired.append(mutex)
                    await self._asks(mutex, shared, until)
                return
            except BaseException as error:
                if self._is_over:
                    raise
                if held_nothing:
                    self._unlock_all()
                elif shared:
                    self._end_reads({it._number.value for it in acquired})
                else:
                    for mutex in acquired[:-1]:
                        self._library.ww_number_unlock(mutex._number, self._at)
                if not (held_nothing and isinstance(error, Deadlock)):
                    raise

    def unlock_all(self) -> None:
        """Releases all. After a Deadlock the next lock call first waits for what it collided with."""
        self._check()
        self._unlock_all()

    def _unlock_all(self) -> None:
        self._reads.clear()
        self._library.ww_acquire_unlock_all(self._at)
