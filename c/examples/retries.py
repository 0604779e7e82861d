"""Jobs that move money between rows, which are locked by keys: a job that has to back off goes to the end of a queue with its age, and
any thread retries it. retries.py [libww.so]"""
from __future__ import annotations

import os
import queue
import sys
import threading
from typing import List, Optional, Tuple

sys.path.append(os.path.join(os.path.dirname(os.path.abspath(__file__)), "../python"))  # where it isn't installed
import ww

LIBRARY = sys.argv[1] if sys.argv[1:] else None  # the installed one
rows = ww.Class(ww.WOUND_WAIT, library=LIBRARY)
table = ww.Table(rows)
money = [0] * 16
Job = Tuple[int, int, Optional[ww.Suspended]]
jobs: queue.SimpleQueue[Job] = queue.SimpleQueue()


def transfer(source: int, target: int, age: Optional[ww.Suspended]) -> Optional[ww.Suspended]:
    """One try: None, or the age of what has to be tried again."""
    with table.transaction(owner=source, resumes=age) as transaction:
        try:
            transaction.lock(f"row/{source}")
            transaction.lock(f"row/{target}")
        except ww.Deadlock:
            return transaction.suspend()
        money[source] -= 1
        money[target] += 1
    return None


def work(done: List[int]) -> None:
    while True:
        try:
            source, target, age = jobs.get_nowait()
        except queue.Empty:
            return
        age = transfer(source, target, age)
        if age is None:
            done.append(source)
        else:
            jobs.put((source, target, age))


def main() -> None:
    done: List[int] = []
    for k in range(1000):
        jobs.put((k % 16, (k // 3 + 1) % 16, None))
    threads = [threading.Thread(target=work, args=(done,)) for _ in range(4)]
    for thread in threads:
        thread.start()
    for thread in threads:
        thread.join()
    print(f"retries in Python: {len(done)} jobs are done, and the sum is {sum(money)}")
    assert len(done) == 1000 and not sum(money) and not table.users()


main()
