"""Wound/wait mutexes over libww.so.

    buffers = ww.Class()
    one, other = ww.Mutex(buffers), ww.Mutex(buffers)
    with buffers.context() as context:
        context.lock(one, other)

Class, Mutex and Context are those of ww_mutex.h, SharedMutex is that of ww_shared.h, Table that of ww_table.h, and Suspended an age of
ww_retry.h. Errors are raised as OSError with their errno: Deadlock for EDEADLK,
Already for EALREADY, TimeoutError if a time limit came, and InterruptedError if the wait was cancelled.

In a task of asyncio a context is a TaskContext: `async with buffers.context() as context`, or best `await buffers.run_async(body)`.

With WW_DEBUG=1 in the environment it is libww_debug.so: standard error has each misuse, long waits, and deadlocks that no class
detects, with the lines of the program, and some lock calls raise Deadlock without need.
"""
from typing import TYPE_CHECKING

from .library import WAIT_DIE, WOUND_WAIT, Already, Counts, Deadlock, opened, report_to
from .mutexes import Class, Context, Mutex, Place, SharedMutex, Suspended, Why
from .tables import KeyUser, Table, Transaction

if TYPE_CHECKING:
    from .tasks import TaskContext
__all__ = ["WOUND_WAIT", "WAIT_DIE", "Class", "Mutex", "SharedMutex", "Context", "TaskContext", "Already", "Deadlock", "Counts", "report_to"]
__all__ += ["Suspended", "Table", "Transaction", "KeyUser", "Why", "Place"]
__version__: str


if not TYPE_CHECKING:

    def __getattr__(name: str) -> object:
        """`__version__` is that of the library; and asyncio is loaded for those who use it. A type checker knows both by name, so
        that it finds any other name that isn't there."""
        if name == "TaskContext":
            from .tasks import TaskContext

            return TaskContext
        if name != "__version__":
            raise AttributeError(f"module {__name__!r} has no attribute {name!r}")
        version = opened(None).ww_version()
        return f"{version // 10000}.{version // 100 % 100}.{version % 100}"
