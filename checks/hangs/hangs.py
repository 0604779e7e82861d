"""Two threads in a ring, a third behind them: hangs.py LIBRARY. It prints a line once all sleep."""
import sys
import threading
import time

import ww

forks = ww.Class(ww.WOUND_WAIT, library=sys.argv[1])
one, two = ww.Mutex(forks), ww.Mutex(forks)
both = threading.Barrier(2)


def eats(first, second):
    with first:
        both.wait()
        with second:
            pass


def guest():
    with forks.context() as context:
        context.lock(one)


def until(waits):
    while forks.stats().lock_waits < waits:
        time.sleep(0.01)


for first, second in ((one, two), (two, one)):
    threading.Thread(target=eats, args=(first, second), daemon=True).start()
until(2)
threading.Thread(target=guest, daemon=True).start()
until(3)
time.sleep(0.2)
print("it hangs", flush=True)
time.sleep(100000)
