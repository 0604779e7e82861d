"""Threads move money between accounts, each an object with a mutex of its own: between two of them, and by calls that
find on the way who pays. objects.py [libww.so]"""
from __future__ import annotations

import os
import random
import sys
import threading
from typing import List, Optional

sys.path.append(os.path.join(os.path.dirname(os.path.abspath(__file__)), "../python"))  # where it isn't installed
import ww

LIBRARY = sys.argv[1] if sys.argv[1:] else None  # the installed one
accounts = ww.Class(ww.WOUND_WAIT, library=LIBRARY)


class Account:
    def __init__(self, backer: Optional[Account] = None) -> None:
        self.mutex = ww.Mutex(accounts)
        self.money, self.backer = 100, backer  # under the mutex


def transfer(source: Account, target: Account, money: int) -> None:
    with accounts.context() as context:
        context.lock(source.mutex, target.mutex)
        source.money -= money
        target.money += money


def pay(account: Account, target: Account, money: int) -> bool:
    """By the first of the account and its backers that has so much; whether one had."""

    def body(context: ww.Context) -> bool:
        payer: Optional[Account] = account
        context.lock(target.mutex)
        while payer and payer is not target:
            context.lock(payer.mutex)
            if payer.money >= money:
                payer.money -= money
                target.money += money
                return True
            payer = payer.backer
        return False

    return accounts.run(body)


def work(seed: int) -> None:
    draw = random.Random(seed)
    for _ in range(1000):
        source, target = draw.sample(bank, 2)
        if draw.random() < 0.5:
            transfer(source, target, draw.randrange(20))
        else:
            pay(source, target, draw.randrange(20))


bank: List[Account] = []
for _ in range(8):
    bank.append(Account(bank[-1] if bank else None))
threads = [threading.Thread(target=work, args=(seed,)) for seed in range(4)]
for thread in threads:
    thread.start()
for thread in threads:
    thread.join()
print("objects in Python: the sum is", sum(account.money for account in bank))
assert sum(account.money for account in bank) == 800
