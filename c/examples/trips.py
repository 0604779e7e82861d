"""Tasks of asyncio book trips of three legs each. Which leg comes next is known only under the mutex of the one before: so each
leg is locked as it is found, in whatever order, which would deadlock with plain locks. trips.py [libww.so]"""
from __future__ import annotations

import asyncio
import os
import random
import sys
from typing import List

sys.path.append(os.path.join(os.path.dirname(os.path.abspath(__file__)), "../python"))  # where it isn't installed
import ww

LIBRARY = sys.argv[1] if sys.argv[1:] else None  # the installed one
legs = ww.Class(ww.WOUND_WAIT, library=LIBRARY)


class Leg:
    def __init__(self) -> None:
        self.mutex = ww.Mutex(legs)
        self.free, self.next = 2000, self  # under the mutex


async def book(first: Leg) -> bool:
    """Takes a seat in each leg of the trip that begins there; returns whether each had one."""

    async def body(context: ww.TaskContext) -> bool:
        trip = [first]
        await context.lock(first.mutex)
        while len(trip) < 3:
            trip.append(trip[-1].next)
            await context.lock(trip[-1].mutex)  # after ww.Deadlock all is released, and this is called again
        await asyncio.sleep(0)  # asks a bank, say
        if not all(leg.free for leg in trip):
            return False
        for leg in trip:
            leg.free -= 1
        return True

    return await legs.run_async(body)


async def work(seed: int) -> List[bool]:
    draw = random.Random(seed)
    return [await book(draw.choice(ring)) for _ in range(100)]


async def main() -> None:
    booked = sum(sum(it) for it in await asyncio.gather(*(work(seed) for seed in range(20))))
    print("trips in Python:", booked)
    assert booked == 2000 and sum(2000 - leg.free for leg in ring) == 3 * booked


ring = [Leg() for _ in range(6)]
for before, leg in zip(ring, ring[1:] + ring[:1]):
    before.next = leg
if hasattr(os, "eventfd"):
    asyncio.run(main())
else:
    print("trips in Python: os.eventfd, of Python 3.10, is not here, so none was booked")
