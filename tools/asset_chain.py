#!/usr/bin/env python3
"""Chains of assets to measure with, for `ratio.py`.

    asset_chain.py FOLDER mixed [BLOCKS]     blocks of 200 transactions among 1,000 accounts: every second one is a payment, the others
                                             create, opt in to, transfer, freeze, configure and close assets; an account asked after each
    asset_chain.py FOLDER created [ASSETS]   one block that creates so many assets (1,000), and one that configures each of them

It writes genesis.msgp and requests.http into FOLDER. Transactions are drawn from a fixed seed, so a chain is the same each time."""
import random
import sys

from chains import Assets, Ledger, params


def mixed(folder, blocks):
    draw, ledger = random.Random(7), Ledger(folder, 1000)
    assets = Assets(draw, ledger)
    for _ in range(blocks):
        payset = []
        for k in range(200):
            if k % 2:
                payset.append(assets.item())
            else:
                a, b = draw.sample(ledger.users, 2)
                payset.append(ledger.item(a, {'type': 'pay', 'rcv': b, 'amt': 1 + draw.randrange(1000)}))
        ledger.post(payset)


def created(folder, count):
    ledger = Ledger(folder, 10)
    who = ledger.users[0]
    ledger.post([ledger.item(who, {'type': 'acfg', 'apar': params(who, 1000, n)}) for n in range(count)])
    p = params(who, 0, 0)
    ledger.post([ledger.item(who, {'type': 'acfg', 'caid': n + 1, 'apar': {k: p[k] for k in 'mrfc'}}) for n in range(count)])


def main(folder, kind, count=None):
    {'mixed': mixed, 'created': created}[kind](folder, int(count) if count else {'mixed': 60, 'created': 1000}[kind])


main(*sys.argv[1:])
