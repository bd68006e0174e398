#!/usr/bin/env python3
"""A chain of payments with a catchpoint, to measure with and to test.

    plain_chain.py FOLDER USERS BLOCKS PAYMENTS INTERVAL

It writes genesis.msgp, whose catchpoint interval is INTERVAL, and blocks.msgp, the blocks one after the other, into FOLDER: each has
PAYMENTS payments among USERS accounts, drawn from a fixed seed."""
import random
import sys

from chains import Ledger


def main(folder, users, blocks, payments, interval):
    draw, ledger = random.Random(7), Ledger(folder, users, 10 ** 9, interval)
    for _ in range(blocks):
        pairs = [draw.sample(ledger.users, 2) for _ in range(payments)]
        ledger.post([ledger.item(a, {'type': 'pay', 'rcv': b, 'amt': 1 + draw.randrange(1000)}) for a, b in pairs])


if __name__ == '__main__':
    main(sys.argv[1], *map(int, sys.argv[2:]))
