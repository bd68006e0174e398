#!/usr/bin/env python3
"""What `generate NUMBER BLOCKS` makes, written from the rule alone: the values that al_generator_tests expects.

    generated.py NUMBER BLOCKS SHOWN    each transaction of the first SHOWN blocks, then how many all blocks have and the digest of
                                        all their spellings, then the digest and the length of the genesis record
"""
import hashlib
import sys

ZERO, SINK, POOL = b'\0' * 32, b'\1' * 32, b'\2' * 32


def digest(prefix, data):
    return hashlib.new('sha512_256', prefix + data).digest()


def user(i):
    return bytes([16 + i]) * 32


def be(n):
    return n.to_bytes(8, 'big')


# ---- the wire format: fields with zero values are left out, keys in order

class Text(str):
    pass


def head(small, limit, wide, n):
    if n < limit:
        return bytes([small + n])
    for size, code in wide:
        if n < 256 ** size:
            return bytes([code]) + n.to_bytes(size, 'big')


def spell(v):
    if isinstance(v, int):
        return head(0, 128, [(1, 0xcc), (2, 0xcd), (4, 0xce), (8, 0xcf)], v)
    if isinstance(v, str):
        return head(0xa0, 32, [(1, 0xd9)], len(v)) + v.encode()
    if isinstance(v, bytes):
        return head(0, 0, [(1, 0xc4), (2, 0xc5)], len(v)) + v
    if isinstance(v, list):
        return head(0x90, 16, [(2, 0xdc)], len(v)) + b''.join(map(spell, v))
    kept = {k: x for k, x in v.items() if x not in (0, '', b'', [], {}, ZERO, b'\0' * 64)}
    return head(0x80, 16, [(2, 0xde)], len(kept)) + b''.join(spell(k) + spell(kept[k]) for k in sorted(kept))


# ---- the generator

class Generator:
    def __init__(self, number):
        self.x, self.count, self.asset, self.app = number, 0, 0, 0

    def draw(self):
        self.x = (6364136223846793005 * self.x + 1442695040888963407) % 2 ** 64
        return self.x >> 33

    def one(self, r, s, body, effects=()):
        self.count += 1
        txn = {'snd': user(s), 'fee': 1000, 'fv': r, 'lv': r + 10, 'gh': GENESIS_HASH, 'note': be(self.count), **body}
        return {'txn': txn, 'fx': list(effects)}

    def turn(self, r):
        k, s, t, v = self.draw() % 8, self.draw() % 32, self.draw() % 32, self.draw() % 1000
        if k < 4 or k == 5 and not self.asset:
            return [self.one(r, s, {'type': 'pay', 'rcv': user(t), 'amt': 1000 + v})]
        if k == 4:
            made = self.one(r, s, {'type': 'acfg', 'apar': {'t': 1000000, 'm': user(s)}})
            self.asset = self.count
            return [made]
        if k == 5:
            return [self.one(r, s, {'type': 'axfer', 'xaid': self.asset, 'arcv': user(s)})]
        if k == 6 and v % 2 == 0:
            keys = {'votekey': b'\7' * 32, 'selkey': b'\x08' * 32, 'votekd': 1000, 'votefst': r, 'votelst': r + 1000}
            return [self.one(r, s, {'type': 'keyreg', **keys})]
        if k == 6:
            return [self.one(r, s, {'type': 'keyreg'})]
        if self.app:
            put = {'e': 7, 'n': be(v % 16), 'v': b'\x2a' * 32}
            return [self.one(r, s, {'type': 'appl', 'apid': self.app}, [put])]
        made = self.one(r, s, {'type': 'appl'}, [{'e': 1}])
        self.app = self.count
        account = digest(b'appID', be(self.app))
        return [made, self.one(r, s, {'type': 'pay', 'rcv': account, 'amt': 1000000})]

    def block(self, r):
        turns = 1 + self.draw() % 4
        return [made for _ in range(turns) for made in self.turn(r)]


def account(who, status, balance):
    return {'addr': who, 'row': {'a': status, 'b': balance}}


GENESIS = spell({
    'id': 'gen', 'intv': 100, 'cpi': 800, 'fees': SINK, 'rwd': POOL,
    'alloc': [account(SINK, 2, 10 ** 6), account(POOL, 2, 10 ** 9)] + [account(user(i), 0, 10 ** 12) for i in range(32)],
})
GENESIS_HASH = digest(b'GE', GENESIS)


def shown(item):
    txn = dict(item['txn'])
    words = [txn.pop('type'), str(int.from_bytes(txn.pop('note'), 'big')), str(txn.pop('snd')[0] - 16)]
    for name in ('apar', 'rcv', 'amt', 'xaid', 'arcv', 'votefst', 'votelst', 'apid'):
        if name in txn:
            value = txn[name]
            words.append(str(value['m'][0] if name == 'apar' else value[0] if isinstance(value, bytes) else value))
    for effect in item['fx']:
        words += [str(effect['e']), str(int.from_bytes(effect.get('n', b''), 'big'))]
    return ' '.join(words)


def main():
    number, blocks, first = map(int, sys.argv[1:])
    generator, count, spelled = Generator(number), 0, b''
    for r in range(1, blocks + 1):
        for item in generator.block(r):
            count += 1
            spelled += spell(item)
            if r <= first:
                print(r, shown(item))
    print(count, digest(b'PL', spelled).hex())
    print(len(GENESIS), GENESIS_HASH.hex())


main()
