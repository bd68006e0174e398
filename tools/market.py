#!/usr/bin/env python3
"""The small chain that the answers in docs/ are shown on: an account that is online makes an asset and an application, another holds
the asset and is a member of the application, which keeps a box.

    market.py FOLDER

It writes market.msgp, the genesis, and market.http, the requests that post its two blocks, into FOLDER. They are the same each time."""
import os
import sys

from chains import account_of, digest, spelled

SINK, POOL, MAKER, MEMBER = (bytes([n]) * 32 for n in range(1, 5))
ASSET, APP = 1, 4


def genesis():
    keys = {'a': 1, 'e': b'\7' * 32, 'f': b'\10' * 32, 'h': 1, 'i': 1000, 'j': 100}
    rows = [(SINK, {'a': 2}), (POOL, {'a': 2, 'b': 100000}), (MAKER, {'b': 10000000, **keys}), (MEMBER, {'b': 3000000})]
    return spelled({'alloc': [{'addr': a, 'row': r} for a, r in rows], 'fees': SINK, 'rwd': POOL, 'id': 'market'})


def item(chain, sender, fields, effects=()):
    return {'txn': {'snd': sender, 'fee': 1000, 'fv': 1, 'lv': 1000, 'gh': chain, **fields}, 'fx': list(effects)}


def paysets(chain):
    params = {'t': 1000, 'dc': 2, 'un': 'gold', 'an': 'Gold', 'au': 'https://example.org', 'm': MAKER, 'f': MAKER}
    made = {'e': 1, 'nu': 1, 'nb': 1, 'lu': 1, 'ep': 1, 'st': b'on sale'}
    return [
        [item(chain, MAKER, {'type': 'acfg', 'apar': params}),
         item(chain, MEMBER, {'type': 'axfer', 'xaid': ASSET, 'arcv': MEMBER}),
         item(chain, MAKER, {'type': 'axfer', 'xaid': ASSET, 'aamt': 25, 'arcv': MEMBER}),
         item(chain, MAKER, {'type': 'appl'}, [made])],
        [item(chain, MEMBER, {'type': 'appl', 'apid': APP}, [{'e': 4, 'st': b'member'}]),
         item(chain, MAKER, {'type': 'pay', 'rcv': account_of(APP), 'amt': 200000}),
         item(chain, MAKER, {'type': 'appl', 'apid': APP}, [{'e': 7, 'n': b'price', 'v': b'25'}])],
    ]


def blocks(chain):
    fixed = {'gh': chain, 'fees': SINK, 'rwd': POOL}
    prev, counter = digest(b'BH', spelled({**fixed, 'rwcalr': 1})), 0
    for n, payset in enumerate(paysets(chain), 1):
        counter += len(payset)
        header = {**fixed, 'rnd': n, 'prev': prev, 'rwcalr': 500001, 'tc': counter, 'txn': digest(b'PL', spelled(payset))}
        prev = digest(b'BH', spelled(header))
        yield spelled({'b': header, 't': payset})


def main(folder):
    start = genesis()
    with open(os.path.join(folder, 'market.msgp'), 'wb') as out:
        out.write(start)
    with open(os.path.join(folder, 'market.http'), 'wb') as out:
        for body in blocks(digest(b'GE', start)):
            out.write(b'POST /v1/blocks HTTP/1.1\r\ncontent-length: %d\r\n\r\n' % len(body) + body)


main(*sys.argv[1:])
