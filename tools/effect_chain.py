#!/usr/bin/env python3
"""Chains of calls of applications to measure with, for `ratio.py`.

    effect_chain.py FOLDER one_box [EFFECTS]      20 blocks of one call, each with so many effects (256, the most), all of which put one box
    effect_chain.py FOLDER boxes [EFFECTS]        the same effects, each of which puts a box of its own
    effect_chain.py FOLDER boxes_back [EFFECTS]   the same, in the falling order of the boxes' names
    effect_chain.py FOLDER mixed [BLOCKS]         blocks of 200 transactions among 1,000 accounts: of 10 in a row 5 are payments, 2 on assets
                                                  and 3 calls, one on a box, one on local states and one with an inner payment

An account is asked after each block: that of the application where there is one call a block, else one of the users.

It writes genesis.msgp and requests.http into FOLDER. Transactions are drawn from a fixed seed, so a chain is the same each time."""
import random
import sys

from chains import Assets, Ledger, account_of

CALLS = 20


def creation(ledger, who):
    """A transaction that creates an application, which has the ledger's number then."""
    return ledger.item(who, {'type': 'appl'}, [{'e': 1, 'nu': 1, 'nb': 2, 'lu': 1, 'lb': 1, 'st': b'begin'}])


def call(ledger, who, app, effects):
    return ledger.item(who, {'type': 'appl', 'apid': app}, effects)


def payment(ledger, who, to, amount):
    return ledger.item(who, {'type': 'pay', 'rcv': to, 'amt': amount})


def puts(folder, effects, name_of):
    ledger = Ledger(folder, 10)
    who = ledger.users[0]
    created = creation(ledger, who)
    app = ledger.counter
    account = account_of(app)
    ledger.post([created, payment(ledger, who, account, 10 ** 9)], account)
    for n in range(CALLS):
        fx = [{'e': 7, 'n': b'box-%06d' % name_of(i), 'v': b'v' * (1 + (i + n) % 64)} for i in range(effects)]
        ledger.post([call(ledger, who, app, fx)], account)


def one_box(folder, effects):
    puts(folder, effects, lambda i: 0)


def boxes(folder, effects):
    puts(folder, effects, lambda i: i)


def boxes_back(folder, effects):
    puts(folder, effects, lambda i: effects - 1 - i)


class Apps:
    """Draws calls of applications, and the creations and the payments to their accounts that these need."""

    def __init__(self, draw, ledger):
        self.draw, self.ledger = draw, ledger
        self.all, self.unpaid = [], []  # [id, names of boxes, members]

    def begin(self):
        """An application more. It is called once its account is paid."""
        item = creation(self.ledger, self.draw.choice(self.ledger.users))
        self.unpaid.append([self.ledger.counter, [], []])
        return item

    def pay(self, who):
        app = self.unpaid.pop()
        self.all.append(app)
        return payment(self.ledger, who, account_of(app[0]), 10 ** 9)

    def item(self, effects_of):
        if not self.all or self.draw.randrange(20) == 0:
            return self.begin()
        app = self.draw.choice(self.all)
        return call(self.ledger, *effects_of(app))

    def on_box(self, app):
        ident, names, _ = app
        who, name = self.draw.choice(self.ledger.users), b'box-%06d' % self.draw.randrange(8)
        if name in names and self.draw.randrange(2):
            names.remove(name)
            return who, ident, [{'e': 8, 'n': name}]
        if name not in names:
            names.append(name)
        return who, ident, [{'e': 7, 'n': name, 'v': b'v' * (1 + self.draw.randrange(128))}]

    def on_locals(self, app):
        ident, _, members = app
        who, kind = self.draw.choice(self.ledger.users), self.draw.randrange(6)
        if who not in members and (kind < 2 or not members):
            members.append(who)
            return who, ident, [{'e': 4, 'st': b'local'}]
        member = self.draw.choice(members)
        if kind == 5:
            members.remove(member)
            return member, ident, [{'e': 6}]
        return who, ident, [{'e': 5, 'ad': member, 'st': b'set %d' % self.ledger.counter}]

    def with_payment(self, app):
        who, to = self.draw.sample(self.ledger.users, 2)
        paid = {'type': 'pay', 'rcv': to, 'amt': 1 + self.draw.randrange(1000)}
        return who, app[0], [{'e': 2, 'st': b'paid %d' % self.ledger.counter}, {'e': 9, 't': paid}]


def mixed(folder, blocks):
    draw, ledger = random.Random(7), Ledger(folder, 1000)
    assets, apps = Assets(draw, ledger), Apps(draw, ledger)

    def paid():
        a, b = draw.sample(ledger.users, 2)
        return apps.pay(a) if apps.unpaid else payment(ledger, a, b, 1 + draw.randrange(1000))

    kinds = {1: assets.item, 3: assets.item, 5: lambda: apps.item(apps.on_box), 7: lambda: apps.item(apps.on_locals),
             9: lambda: apps.item(apps.with_payment)}
    for _ in range(blocks):
        ledger.post([kinds.get(k % 10, paid)() for k in range(200)])


def main(folder, kind, count=None):
    makers = {'one_box': (one_box, 256), 'boxes': (boxes, 256), 'boxes_back': (boxes_back, 256), 'mixed': (mixed, 60)}
    maker, usual = makers[kind]
    maker(folder, int(count) if count else usual)


main(*sys.argv[1:])
