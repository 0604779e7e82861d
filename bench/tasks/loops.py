#!/usr/bin/env python3
"""bench/tasks/loops.py LIBWW TASKS LOCKS OBJECTS MILLISECONDS SECONDS: tasks of asyncio that sleep under some of many locks: by
Class.run_async, by `async with`, and by sorted asyncio.Locks. Prints transactions a second, and the processor's time of one."""
import asyncio
import os
import random
import sys
import time

sys.path.insert(0, os.path.join(os.path.dirname(os.path.realpath(__file__)), "../../c/python"))
import ww  # noqa: E402


def by_run(of, count):
    mutexes = [ww.Mutex(of) for _ in range(count)]

    async def transaction(places, sleep):
        async def body(context):
            for at in places:
                await context.lock(mutexes[at])
            await sleep()

        await of.run_async(body)

    return transaction


def by_block(of, count):
    mutexes = [ww.Mutex(of) for _ in range(count)]

    async def transaction(places, sleep):
        async with of.context() as context:
            await context.lock(*(mutexes[at] for at in places))
            await sleep()

    return transaction


def by_sorted(_, count):
    locks = [asyncio.Lock() for _ in range(count)]

    async def transaction(places, sleep):
        held = []
        try:
            for at in sorted(places):
                await locks[at].acquire()
                held.append(locks[at])
            await sleep()
        finally:
            for lock in held:
                lock.release()

    return transaction


async def measured(make, library, tasks, locks, objects, pause, seconds):
    transaction, done = make(ww.Class(library=library), objects), [0] * tasks

    async def run(me):
        draws = random.Random(me)
        while True:
            await transaction(draws.sample(range(objects), locks), lambda: asyncio.sleep(pause))
            done[me] += 1

    every = [asyncio.create_task(run(me)) for me in range(tasks)]
    begun, used = time.perf_counter(), time.process_time()
    await asyncio.sleep(seconds)
    made, took, used = sum(done), time.perf_counter() - begun, time.process_time() - used
    for task in every:
        task.cancel()
    await asyncio.gather(*every, return_exceptions=True)
    print(f"{make.__name__}: {made / took:.0f} a second, {1e6 * used / max(made, 1):.0f} us each, the fewest of a task {min(done)} of {made / tasks:.1f}")


def main():
    if len(sys.argv) != 7:
        sys.exit(__doc__)
    tasks, locks, objects = map(int, sys.argv[2:5])
    pause, seconds = float(sys.argv[5]) / 1000, float(sys.argv[6])
    for make in (by_run, by_block, by_sorted):
        asyncio.run(measured(make, sys.argv[1], tasks, locks, objects, pause, seconds))


main()
