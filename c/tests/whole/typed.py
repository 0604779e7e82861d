"""mypy --strict is content with the package and its examples, and finds each mistake in the use of it: typed.py libww.so

Where mypy isn't here nothing is tried; with CI=true that fails."""
import os
import re
import subprocess
import sys
import tempfile

C = os.path.dirname(os.path.dirname(os.path.dirname(os.path.abspath(__file__))))
RIGHT = """import asyncio
import threading
import ww
accounts = ww.Class(name="accounts")
one, other, shared = ww.Mutex(accounts), ww.Mutex(accounts), ww.SharedMutex(accounts)
def body(context: ww.Context) -> int:
    context.lock(one, other, timeout=1)
    context.read(shared)
    return 3
total: int = accounts.run(body)
with accounts.context(timeout=1) as context:
    context.lock(one)
    held: bool = one in context
with one as mutex:
    name: ww.Mutex = mutex
condition = threading.Condition(other)  # type: ignore[arg-type]
count: int = accounts.stats().back_offs
ww.report_to(lambda message: print(message))
ww.report_to(None)
async def task() -> int:
    async def body(context: ww.TaskContext) -> int:
        await context.lock(one, other)
        return 1
    async with accounts.context() as context:
        await context.lock(one)
    async with one:
        pass
    return await accounts.run_async(body)
asyncio.run(task())
version: str = ww.__version__
table = ww.Table(accounts, keys=100)
def moves(it: ww.Transaction) -> bool:
    it.read(b"1", timeout=1)
    it.lock("1", "2")
    mark: int = it.mark()
    it.unlock_to(mark)
    return it.try_lock("3")
moved: bool = table.run(moves, owner=7)
with table.transaction(owner=7) as transaction:
    age: ww.Suspended = transaction.suspend()
with accounts.context(resumes=age) as context:
    place = context.why().at
    label: int = place.label if place and place.is_at(one) else 0
owners = [user.owner for user in table.users("1")]
"""
# Each is one line, and wrong.
WRONG = """context.lokc(one)
ww.Mutx(accounts)
ww.SharedMutex("accounts")
accounts.stats().backoffs
accounts.run(lambda c: c.lock(3))
context.read(one)
ww.WOUNDWAIT
ww.report_to(3)
context.cancel(1)
one.aquire()
accounts.conext()
table.transaction(resumes=context)
transaction.lock(5)
transaction.lock(one)
context.why().at.label
table.users("1")[0].who
age.age
"""


def mypy(folder, *files):
    """The lines of its errors."""
    environment = {**os.environ, "MYPYPATH": f"{C}/python", "MYPY_CACHE_DIR": folder}
    words = ["mypy", "--strict", "--python-version", "3.11", "--no-error-summary", "--hide-error-context", *files]
    return subprocess.run(words, env=environment, stdout=subprocess.PIPE, stderr=subprocess.STDOUT, text=True, check=False).stdout.splitlines()


def main():
    with tempfile.TemporaryDirectory() as folder:
        right, wrong = os.path.join(folder, "right.py"), os.path.join(folder, "wrong.py")
        with open(right, "w", encoding="utf-8") as file:
            file.write(RIGHT)
        with open(wrong, "w", encoding="utf-8") as file:
            file.write(RIGHT + WRONG)
        told = mypy(folder, "-p", "ww")
        assert not told, told
        for it in (f"{C}/examples/objects.py", f"{C}/examples/trips.py", f"{C}/examples/retries.py", right):
            told = mypy(folder, it)
            assert not told, told
        told = mypy(folder, wrong)
        found = {int(re.match(r".*wrong\.py:(\d+): error: ", it)[1]) for it in told if ": error: " in it}
        first = RIGHT.count("\n") + 1
        assert found == set(range(first, first + WRONG.count("\n"))), told
    print(f"typed: mypy is content with the package, and finds {len(found)} mistakes")


try:
    subprocess.run(["mypy", "--version"], stdout=subprocess.PIPE, check=True)
except (OSError, subprocess.CalledProcessError):
    print("passed over: the types of the package, since mypy isn't here")
    sys.exit(os.environ.get("CI") == "true")
main()
