"""Locks by keys of any bytes (ww_table.h), for transactions of threads."""
from __future__ import annotations

import collections
import ctypes
import errno
import functools
import threading
import time
import weakref
from typing import Any, Callable, Dict, List, NamedTuple, Optional, TypeVar, Union

from .library import UNRUN, Already, Deadlock, Library, Single, Time, at_caller, check_body, told, unexpected, whole
from .mutexes import _ANOTHERS, _LONG, _UNBEGUN, Class, Suspended, _Call, _ending, _Exit, _in_slices, _is_main, _until, _wrong

_T = TypeVar("_T")
Key = Union[bytes, str]
_SHARED, _EXCLUSIVE, _TRIES = 0, 1, 1


class KeyUser(NamedTuple):
    """One that has a key, or waits for it; its owner is what Table.transaction said."""

    key: bytes
    owner: int
    is_exclusive: bool
    waits: bool


class _How(ctypes.Structure):
    """struct ww_table_how."""

    _fields_ = [("owner", ctypes.c_uint64), ("by", ctypes.c_int), ("until", ctypes.POINTER(Time)), ("waker", ctypes.c_void_p)]
    _fields_ += [(it, ctypes.c_void_p) for it in ("meets", "waits", "data")]


class _User(ctypes.Structure):
    """struct ww_table_user."""

    _fields_ = [
        ("key", ctypes.c_void_p),
        ("length", ctypes.c_size_t),
        ("owner", ctypes.c_uint64),
        ("mode", ctypes.c_int),
        ("waits", ctypes.c_bool),
    ]


_SEES = ctypes.CFUNCTYPE(None, ctypes.c_void_p, ctypes.POINTER(_User))
_AT, _SIZE = ctypes.c_void_p, ctypes.c_size_t
_CALLS: Dict[str, Any] = {
    "open": (ctypes.c_int, ctypes.POINTER(_AT), _AT, ctypes.c_uint32),
    "close": (ctypes.c_int, _AT),
    "lock": (ctypes.c_int, _AT, _AT, ctypes.c_char_p, _SIZE, ctypes.c_int, ctypes.POINTER(_How)),
    "unlock": (ctypes.c_int, _AT, _AT, ctypes.c_char_p, _SIZE),
    "mark": (_SIZE, _AT, _AT),
    "unlock_to": (None, _AT, _AT, _SIZE),
    "see": (_SIZE, _AT, ctypes.c_char_p, _SIZE, _SEES, _AT),
}
_FULL = "as many keys are in use as the table may have, or no mutex of the class is left: lock a coarser key"


@functools.lru_cache(maxsize=None)
def _with_calls(library: Library) -> Library:
    """The library, with the types of these calls."""
    for name, (result, *words) in _CALLS.items():
        call = getattr(library, f"ww_table_{name}")
        call.restype, call.argtypes = result, words
    return library


def _bytes(key: Key) -> bytes:
    if isinstance(key, str):
        return key.encode()
    if not isinstance(key, bytes):
        raise unexpected("a key of bytes, or a str", key)
    return key


class _Thread(threading.local):
    """Transactions that a thread began."""

    transactions: List[weakref.ref[Transaction]] = []

    def others(self, than: Optional[Transaction]) -> List[Transaction]:
        """Those that go on."""
        return [it for ref in self.transactions if (it := ref()) and it is not than and it._goes_on()]

    def begins(self, transaction: Transaction) -> None:
        self.transactions = [weakref.ref(it) for it in (*self.others(None), transaction)]

    def check_wait(self, transaction: Transaction, key: bytes, mode: int) -> None:
        """Raises Already if this transaction would wait for another one of its thread, or would get Deadlock there again and again."""
        if any(it._table is transaction._table and it._excludes(key, mode) for it in self.others(transaction)):
            raise Already(errno.EALREADY, f"another transaction of this thread has it: {key!r}")


_mine = _Thread()


class Table(Single):
    """A table of locks, by keys of any bytes; a str is its UTF-8. At most `keys` keys are locked or waited for at a time, and kept; 0:
    as many as the class has mutexes. In a forked child it isn't used."""

    def __init__(self, of: Class, keys: int = 0) -> None:
        if not isinstance(of, Class):
            raise unexpected("a ww.Class", of)
        keys = whole("a number of keys", keys, 2**32)
        self._class, self._library, self._at = of, _with_calls(of._library), _AT()
        told(self._library.ww_table_open(ctypes.byref(self._at), of._at, keys))
        self._its_end = _ending(functools.partial(self._library.ww_table_close, self._at), of._its_end)

    def transaction(self, owner: int = 0, timeout: Optional[float] = None, resumes: Optional[Suspended] = None) -> Transaction:
        """A transaction, whose keys others see with this owner. `with` begins it, and ends it when its block ends in whatever way:
        then it releases all its keys. `resumes` is what Transaction.suspend returned: it has that age, and first waits for the key at
        which that got Deadlock. It waits at most for `timeout` seconds to begin (TimeoutError)."""
        return Transaction(self, owner, timeout, resumes)

    def run(self, body: Callable[[Transaction], _T], owner: int = 0, timeout: Optional[float] = None) -> _T:
        """Returns what body(transaction) returns. If body gets Deadlock, all keys are released, and it is called again: so before its
        last lock call it should change nothing that it doesn't set again."""
        with self.transaction(owner, timeout) as transaction:
            while True:
                try:
                    result = body(transaction)
                    if result.__class__ in UNRUN:
                        check_body(body, result)
                    if not transaction._got_deadlock:
                        return result
                except Deadlock:
                    if not transaction._got_deadlock:
                        raise
                except TypeError:
                    check_body(body, ...)
                    raise
                _mine.check_wait(transaction, *transaction._met)
                transaction.unlock_all()

    def users(self, key: Optional[Key] = None) -> List[KeyUser]:
        """Who has the key and who waits for it, the newest first, or of all keys: that may be out of date when it returns."""
        found: List[KeyUser] = []
        words = None if key is None else _bytes(key)

        def sees(_: object, user: Any) -> None:
            it = user[0]
            found.append(KeyUser(ctypes.string_at(it.key, it.length), it.owner, it.mode == _EXCLUSIVE, it.waits))

        def see() -> None:
            self._library.ww_table_see(self._at, words, 0 if words is None else len(words), _SEES(sees), None)

        if _is_main():  # What a signal raises in a callback is lost; in other threads no signal is handled.
            thread = threading.Thread(target=see, daemon=True)
            thread.start()
            thread.join()
        else:
            see()
        return found


class Transaction(Single):
    """What has keys of a table: `with Table.transaction() as transaction`, for one thread. Where it would have to wait in a thread that
    runs a loop of asyncio, it raises RuntimeError."""

    def __init__(self, table: Table, owner: int, timeout: Optional[float], resumes: Optional[Suspended]) -> None:
        if resumes is not None:
            Suspended._check(resumes, table._class)
        self.owner = owner if owner.__class__ is int and 0 <= owner < 2**64 else whole("an owner", owner, 2**64)
        self._table, self._library, self._timeout = table, table._library, timeout
        self._resumes = Suspended(table._class) if resumes is None else resumes
        self._at = self._library.context()
        self._thread: Optional[int] = None
        self._got_deadlock = False  # It got Deadlock, and hasn't released all since.
        self._met = b"", _SHARED  # For what it asked then.
        # What ends it: each of these calls once, in this order, of which no line of Python is run, which a signal could interrupt.
        self._calls: List[Any] = []
        self._end = _Call(collections.deque, map(functools.partial.__call__, self._calls), 0)
        self._its_end = _ending(self._end, table._its_end)

    __exit__ = _Exit("_end.made")

    def __enter__(self) -> Transaction:
        if self.__dict__.setdefault("_is_taken", mine := object()) is not mine:
            raise _wrong("a transaction begins once")
        unlocks = functools.partial(self._library.ww_table_unlock_to, self._table._at, self._at, 0)
        self._calls += [unlocks, functools.partial(self._library.ww_acquire_end, self._at)]
        try:
            self._begin(_until(self._timeout))
        except BaseException:
            self._end()
            raise
        return self  # After the last call no signal is handled before the block.

    def _begin(self, until: Optional[int]) -> None:
        if self._library.is_debug:
            at_caller(self._library)
        code = self._resumes._resume(self._at, until)
        if code:
            self._calls.clear()
        told(code)
        self._thread = threading.get_ident()
        _mine.begins(self)

    def _goes_on(self) -> bool:
        return not self._library.ww_acquire_end_wait(self._at)

    def _excludes(self, key: bytes, mode: int) -> bool:
        """Whether this transaction has the key in such a way that no other one can have it in this mode."""
        how = _How(self.owner, _TRIES)
        code = self._library.ww_table_lock(self._table._at, self._at, key, len(key), _SHARED, ctypes.byref(how))
        if not code:
            self._library.ww_table_unlock(self._table._at, self._at, key, len(key))
        has = code == -errno.EALREADY
        return has and (mode == _EXCLUSIVE or any(it.is_exclusive and not it.waits for it in self._table.users(key)))

    def __repr__(self) -> str:
        return f"<ww.Transaction of {self.owner} with {self.mark()} keys>"

    def _check(self) -> None:
        """Raises if a call of this thread would be misuse."""
        is_over = self._library.ww_acquire_end_wait(self._at)
        if self._thread != threading.get_ident() or is_over:
            raise _wrong(_UNBEGUN if is_over else _ANOTHERS, self)

    def _ask(self, key: bytes, mode: int, by: int, until: Optional[int]) -> int:
        """What this lock call returns in the end."""

        def call(time: Optional[Time]) -> int:
            how = _How(self.owner, by, ctypes.pointer(time) if time else None)
            code: int = self._library.ww_table_lock(self._table._at, self._at, key, len(key), mode, ctypes.byref(how))
            return code

        if by == _TRIES:
            code = call(None)
        elif until is None and len(_mine.transactions) > 1:
            code = _in_slices(call, time.monotonic_ns() + _LONG)
            if code == -errno.ETIMEDOUT:
                _mine.check_wait(self, key, mode)
                code = _in_slices(call, until)
        else:
            code = _in_slices(call, until)
        if code == -errno.EDEADLK:
            self._met = self._met if self._got_deadlock else (key, mode)
            self._got_deadlock = True
        return 0 if code == -errno.EALREADY else code

    def _lock(self, keys: List[bytes], mode: int, until: Optional[int]) -> None:
        self._check()
        if self._library.is_debug:
            at_caller(self._library)
        mark = self.mark()
        while True:
            try:
                for key in keys:
                    code = self._ask(key, mode, 0, until)
                    told(code, _FULL if code == -errno.ENOSPC else None, key)
                return
            except BaseException as error:
                self.unlock_to(mark)
                if mark or not isinstance(error, Deadlock):
                    raise
                _mine.check_wait(self, *self._met)

    def lock(self, *keys: Key, timeout: Optional[float] = None) -> None:
        """Locks all of them exclusively, or raises what it shares, and waits for them; at most for `timeout` seconds (TimeoutError), or
        until it is cancelled (InterruptedError). One that held nothing before backs off by itself; any other one may get Deadlock: then
        release all keys and lock again, best by Table.run. Already: another transaction of its thread has one of them, and there is no
        time limit. ENOSPC: lock a coarser key. If it fails, it has released what it locked
        here; what it has raised stays so."""
        self._lock([_bytes(it) for it in keys], _EXCLUSIVE, _until(timeout))

    def read(self, *keys: Key, timeout: Optional[float] = None) -> None:
        """As lock, but it shares them with others that do."""
        self._lock([_bytes(it) for it in keys], _SHARED, _until(timeout))

    def _try(self, key: Key, mode: int) -> bool:
        self._check()
        code = self._ask(_bytes(key), mode, _TRIES, None)
        if code != -errno.EBUSY:
            told(code, _FULL if code == -errno.ENOSPC else None, key)
        return not code

    def try_lock(self, key: Key) -> bool:
        """Locks the key exclusively if nobody else has it or waits for it; returns whether it has it so."""
        return self._try(key, _EXCLUSIVE)

    def try_read(self, key: Key) -> bool:
        """As try_lock, but it shares the key."""
        return self._try(key, _SHARED)

    def unlock(self, key: Key) -> None:
        """Releases the key. EINVAL: the transaction doesn't have it."""
        self._check()
        words = _bytes(key)
        told(self._library.ww_table_unlock(self._table._at, self._at, words, len(words)), "the transaction doesn't have the key", key)
        self._got_deadlock &= bool(self.mark())

    def mark(self) -> int:
        """How many keys it has, for unlock_to: for a savepoint."""
        return int(self._library.ww_table_mark(self._table._at, self._at))

    def unlock_to(self, mark: int) -> None:
        """Releases all keys but the oldest, so that it has as many as at the mark."""
        self._check()
        if mark.__class__ is not int or mark < 0:
            mark = whole("a mark", mark, 2**32)
        self._library.ww_table_unlock_to(self._table._at, self._at, mark)
        self._got_deadlock &= bool(mark)

    def unlock_all(self) -> None:
        """Releases all keys. After Deadlock the next lock call first waits for what was contended; in the main thread, where a signal may
        come, for a tenth of a second."""
        self.unlock_to(0)

    def suspend(self) -> Suspended:
        """Releases all keys, and ends the transaction, whose age goes on in the result, in any thread. If half of the class's contexts
        are suspended, that has none, and what resumes it is the youngest."""
        self.unlock_all()
        age = Suspended(self._table._class)
        if age._suspend(self._at):
            self._calls.clear()
        else:
            self._end()
        return age
