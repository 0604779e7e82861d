"""CPython's own tests of threading.Lock and threading.Condition, over ww.Mutex: locks.py libww.so

Left out is what a ww.Mutex hasn't, as its docstring says: waits of a thread for itself; and the interpreter's own reset of locks in
a forked child, and what a Condition can only with an RLock. A Python that comes without its tests passes this over; with CI=true
that fails."""
import os
import sys
import threading
import unittest

sys.path.insert(0, os.path.join(os.path.dirname(os.path.abspath(__file__)), "../../python"))
import ww

try:
    from test import lock_tests, support
except ImportError:
    print("passed over: CPython's tests of locks, since this Python comes without the package test")
    sys.exit(os.environ.get("CI") == "true")

its = ww.Class(library=sys.argv[1])
# A busy machine may take a processor away for long: so what has to end has an hour, and no time may be too long.
support.SHORT_TIMEOUT = 3600
lock_tests.BaseTestCase.assertLess = lambda *_: None


class LockTests(lock_tests.LockTests):
    locktype = staticmethod(lambda: ww.Mutex(its))
    test_at_fork_reinit = None

    def test_reacquire(self):
        """In place of a wait that another thread ends."""
        lock = self.locktype()
        self.assertTrue(lock.acquire())
        self.assertRaises(ww.Already, lock.acquire)
        self.assertFalse(lock.acquire(False))
        thread = threading.Thread(target=lock.release)
        thread.start()
        thread.join()
        self.assertTrue(lock.acquire(False))


class ConditionTests(lock_tests.ConditionTests):
    condtype = staticmethod(lambda: threading.Condition(ww.Mutex(its)))

    def test_acquire(self):
        lock = ww.Mutex(its)
        condition = threading.Condition(lock)
        condition.acquire()
        self.assertFalse(lock.acquire(False))
        condition.release()
        self.assertTrue(lock.acquire(False))
        self.assertFalse(condition.acquire(False))
        lock.release()
        with condition:
            self.assertFalse(lock.acquire(False))


if __name__ == "__main__":
    told = unittest.main(argv=sys.argv[:1], exit=False, verbosity=0).result
    assert told.testsRun >= 23 and not told.skipped, told
    sys.exit(not told.wasSuccessful())
