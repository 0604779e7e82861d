"""libww.so by ctypes: where it is, the types of its calls, and which error each return value raises."""
from __future__ import annotations

import ctypes
import errno
import functools
import operator
import os
import sys
import types
from typing import Any, Callable, Dict, NamedTuple, Optional, Tuple

WOUND_WAIT, WAIT_DIE = 0, 1
_VERSION = 7
_LARGEST = 2**32 - 1
# Not empty: the debug library takes the place of the other one.
_DEBUGS = os.environ.get("WW_DEBUG", "") not in ("", "0")


def unexpected(what: str, it: object) -> TypeError:
    """The error of a value that is of another kind than this."""
    is_time = isinstance(it, (int, float)) and what in ("a ww.Mutex", "a ww.SharedMutex")
    hint = ": unpack it by *" if isinstance(it, (tuple, list, set)) else f": a time limit is timeout={it}" if is_time else ""
    return TypeError(f"{what} is expected, not {it!r}{hint}")


def whole(what: str, it: Any, end: int) -> int:
    """It, which is to be a number from 0 on and below that end."""
    try:
        it = operator.index(it)
    except TypeError:
        raise unexpected(what, it) from None
    if not 0 <= it < end:
        raise ValueError(f"{what} is from 0 to {end - 1:,}")
    return int(it)


# What a call returns that has run no line of its function yet.
UNRUN = frozenset((types.GeneratorType, types.CoroutineType, types.AsyncGeneratorType))


def check_body(body: Any, result: Any, is_async: bool = False) -> None:
    """Raises if it isn't a function whose lines are run by a call (or if `is_async` by an await), of which this is the result; `...` is
    none. It is asked once there is a reason to."""
    import inspect

    what = f"{'an async' if is_async else 'a plain'} function of the context"
    kinds = {"an async function": inspect.iscoroutinefunction, "a generator": inspect.isgeneratorfunction, "an async generator": inspect.isasyncgenfunction}
    is_of = next((f", which is {it}" for it, is_one in kinds.items() if is_one(body)), "")
    if is_async:
        is_of = f", which returned {result!r}" if result is not ... and not inspect.isawaitable(result) else ""
    if is_of or not callable(body):
        getattr(result, "close", bool)()
        raise TypeError(f"{unexpected(what, body)}{is_of}") from None


class Single:
    """What stands for something of the library, which would have two ends if it were copied."""

    def __reduce__(self) -> Any:
        raise TypeError(f"a ww.{type(self).__name__} can't be copied or pickled")


class Deadlock(OSError):
    """EDEADLK: an older context goes first, so this one must release everything that it holds."""


class Already(OSError):
    """EALREADY: the context holds this mutex already; or a cancel is pending already."""


class Time(ctypes.Structure):
    """struct timespec, on processors of 64 bits."""

    _fields_ = [("seconds", ctypes.c_int64), ("nanoseconds", ctypes.c_int64)]


class Counts(NamedTuple):
    """What ww_class_stats tells: how often, since the class was opened; and of the last three how many there are now."""

    back_offs: int
    lock_waits: int
    context_waits: int
    permit_waits: int
    contexts: int
    context_waiters: int
    task_contexts: int


class Counted(ctypes.Structure):
    """struct ww_class_counts."""

    _fields_ = [(it, ctypes.c_uint64) for it in Counts._fields]


class Retry(ctypes.Structure):
    """struct ww_retry."""

    _fields_ = [("ticket", ctypes.c_uint64), ("seat", ctypes.c_uint32), ("awaits", ctypes.c_uint32)]


class _User(ctypes.Structure):
    """struct ww_user."""

    _fields_ = [("label", ctypes.c_uint64), ("place", ctypes.c_uint32), ("part", ctypes.c_int)]


class _Place(ctypes.Structure):
    """struct ww_place."""

    _fields_ = [("mutex", ctypes.c_void_p), ("number", ctypes.c_uint32), ("by", _User)]


class Reasons(ctypes.Structure):
    """struct ww_why."""

    _fields_ = [("at", _Place), ("wanted", _Place)]


class _Number:
    """A number of 32 bits. Any other number becomes the largest one, which no class may have."""

    @classmethod
    def from_param(cls, number: Any) -> ctypes.c_uint32:
        number = operator.index(number)
        return ctypes.c_uint32(number if 0 <= number <= _LARGEST else _LARGEST)


_AT = ctypes.c_void_p
_CALLS: Dict[str, Tuple[Any, ...]] = {
    "ww_version": (ctypes.c_uint32,),
    "ww_class_init": (None, _AT, ctypes.c_int, ctypes.c_char_p),
    "ww_class_limit": (ctypes.c_int, _AT, _Number, _Number),
    "ww_class_stats": (None, _AT, ctypes.POINTER(Counted)),
    "ww_is_contended": (ctypes.c_bool, _AT),
    "ww_mutex_lock_until": (ctypes.c_int, _AT, _AT, ctypes.POINTER(Time)),
    "ww_acquire_init_until": (ctypes.c_int, _AT, _AT, ctypes.POINTER(Time)),
}
_NUMBER = ctypes.c_uint32
_CALLS |= {
    "ww_number_take": (ctypes.c_int, ctypes.POINTER(_NUMBER), _AT),
    "ww_number_at": (_AT, _NUMBER, _AT),
    "ww_number_leave": (None, _NUMBER, _AT),
    "ww_number_unlock": (ctypes.c_int, _NUMBER, _AT),
    "ww_acquire_mark": (ctypes.c_size_t, _AT),
    "ww_acquire_unlock_to": (None, _AT, ctypes.c_size_t),
    "ww_acquire_end_wait": (ctypes.c_int, _AT),
    "ww_seek_end": (None, _AT),
}
_CALLS |= {
    "ww_acquire_suspend": (ctypes.c_int, _AT, ctypes.POINTER(Retry)),
    "ww_acquire_resume": (ctypes.c_int, _AT, _AT, ctypes.POINTER(Retry), ctypes.POINTER(Time)),
    "ww_acquire_resume_poll": (ctypes.c_int, _AT, _AT, ctypes.POINTER(Retry), _AT, _AT),
    "ww_retry_drop": (ctypes.c_int, ctypes.POINTER(Retry)),
    "ww_acquire_label": (ctypes.c_int, _AT, ctypes.c_uint64),
    "ww_acquire_why": (ctypes.c_int, _AT, ctypes.POINTER(Reasons)),
}
_CALLS |= {
    "ww_acquire_init_poll": (ctypes.c_int, _AT, _AT, _AT, _AT),
    "ww_mutex_lock_poll": (ctypes.c_int, _AT, _AT, _AT),
    "ww_poll_take_back": (ctypes.c_bool, _AT, _AT),
    "ww_event_take": (_AT, _AT),
}
_REPORTS = ctypes.CFUNCTYPE(None, _AT, ctypes.c_char_p)
_CALLS["ww_report_to"] = (None, _REPORTS, _AT)
_CALLS |= {f"ww_{it}_size": (ctypes.c_size_t,) for it in ("class", "acquire")}
_ALONE = ("class_free", "class_cancel", "acquire_done_checked", "acquire_cancel", "acquire_end")
_CALLS |= {f"ww_{it}": (ctypes.c_int, _AT) for it in _ALONE}
_PAIRS = ("acquire_init_checked", "mutex_trylock", "shared_mutex_trylock", "shared_mutex_trylock_shared")
_CALLS |= {f"ww_{it}": (ctypes.c_int, _AT, _AT) for it in _PAIRS}
_CALLS |= {f"ww_shared_mutex_{it}": _CALLS["ww_mutex_lock_until"] for it in ("lock_until", "lock_shared_until")}
_CALLS |= {f"ww_shared_mutex_is_{it}_by": (ctypes.c_bool, _AT, _AT) for it in ("read", "written")}
_CALLS |= {f"ww_{it}mutex_is_locked": (ctypes.c_bool, _AT) for it in ("", "shared_")}
_CALLS |= {"ww_shared_mutex_downgrade": (None, _AT, _AT)}
_CALLS |= {f"ww_shared_mutex_{it}": _CALLS["ww_mutex_lock_poll"] for it in ("lock_poll", "lock_shared_poll")}
_CALLS |= {"ww_shared_mutex_await_poll": (ctypes.c_int, _AT, _AT)}
_CALLS |= {f"ww_{it}": (None, _AT) for it in ("tries_begin_", "back_off_", "acquire_unlock_all", "acquire_end_reads")}
# During these, which wait for nothing, Python keeps its lock, if it has one.
_SHORT = ("ww_acquire_cancel", "ww_acquire_end", "ww_acquire_end_wait")


class Library(ctypes.CDLL):
    """libww.so, and what is made of it once."""

    is_debug: bool
    context: Any  # the type of a context's memory: see _memory_of


def _short(library: Library, name: str) -> Any:
    return ctypes.PYFUNCTYPE(*_CALLS[name])((name, library))


def _was_locked(code: int, *_: object) -> int:
    told(code, "it isn't locked by acquire or by its own block")
    return code


def _memory_of(library: Library) -> Any:
    """The type of a context's memory. Who looks up its `end` ends the context, if it hasn't ended; who looks up its `release` gets an
    error if it has. Both are calls of C: so str.format ends a context by such a look-up without a line of Python, which a signal
    could interrupt."""
    releases = _short(library, "ww_acquire_end")
    releases.errcheck = _was_locked
    words = ctypes.c_uint64 * -(-library.ww_acquire_size() // 8)
    return type("Memory", (words,), {"end": property(library.ww_acquire_end), "release": property(releases)})


def _found() -> str:
    """Where libww.so is: beside this module, below the prefix that both were installed in, where make puts it, or where the
    loader looks."""
    name = f"libww{'_debug' * _DEBUGS}.so.{_VERSION}"
    here = os.path.dirname(os.path.realpath(__file__))
    near = [os.path.join(here, up, name) for up in ("", "../../..", "../../out")]
    return next((path for path in near if os.path.exists(path)), name)


@functools.lru_cache(maxsize=None)
def opened(path: Optional[str]) -> Library:
    """The library at this path, or the installed one (None), with the types of its calls. With WW_DEBUG it is the debug library,
    which lies beside the one at that path."""
    folder, name = os.path.split(path or "")
    path = os.path.join(folder, name.replace("libww.so", "libww_debug.so")) if path and _DEBUGS else path or _found()
    library = Library(path)
    library.is_debug = hasattr(library, "ww_debug_at_")
    for name, (result, *words) in _CALLS.items():
        call = getattr(library, name)
        call.restype, call.argtypes = result, words
    for name in _SHORT:
        setattr(library, name, _short(library, name))
    library.context = _memory_of(library)
    if library.ww_version() // 10000 != _VERSION:
        raise OSError(errno.ELIBACC, f"{path} has another interface")
    return library


_told: Dict[Optional[str], Any] = {}  # By libraries: as the function is called.


def _passes(function: Callable[[str], object], _: object, message: bytes) -> None:
    function(message.decode(errors="replace"))


def report_to(function: Optional[Callable[[str], object]], library: Optional[str] = None) -> None:
    """From now on this function gets each message with which the library ends the program, and each of the debug library's,
    instead of standard error, to which None returns. Any thread calls it. Call this before threads use the package; `library`
    is as of Class."""
    calls = _REPORTS(functools.partial(_passes, function)) if function else _REPORTS(0)
    opened(library).ww_report_to(calls, None)
    _told[library] = calls


# What the errors are of.
_WHY = {
    errno.EDEADLK: "an older context goes first: release all mutexes, and lock again by the same context, as Class.run does",
    errno.EALREADY: "the context holds this mutex already",
    errno.ENOSPC: "all mutexes of the class are in use: 65,536, or as many as Class(mutexes=..) says",
    errno.ENOMEM: "there is no memory to open the class",
    errno.EINVAL: "the class was in use at a fork, of which this is the child",
    errno.EINTR: "the wait was cancelled",
    errno.ETIMEDOUT: "the time limit came first",
}


def told(code: int, why: Optional[str] = None, at: object = None) -> None:
    """Raises the error that a call returned, if that isn't 0, with the usual reason or this one, and what it came at."""
    if code:
        kinds: Dict[int, Any] = {-errno.EALREADY: Already, -errno.EDEADLK: Deadlock}
        kind = kinds.get(code, OSError)
        why = why or _WHY.get(-code) or os.strerror(-code)
        raise kind(-code, why if at is None or kind is Deadlock else f"{why}: {at!r}")


_files: Dict[str, ctypes.c_char_p] = {}  # As the debug library keeps their names.


def at_caller(library: Library) -> Callable[[], object]:
    """Says to the debug library at which line of the program a call of this package was made. Returns what says it again."""
    frame = sys._getframe(1)
    while frame.f_back and frame.f_globals.get("__package__") == __package__:
        frame = frame.f_back
    name = frame.f_code.co_filename
    says = functools.partial(library.ww_debug_line_, _files.setdefault(name, ctypes.c_char_p(os.fsencode(name))), frame.f_lineno)
    says()
    return says
