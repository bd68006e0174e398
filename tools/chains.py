"""What chains to measure with are made of: canonical MessagePack, digests, a ledger that writes requests, transactions on assets."""
import base64
import hashlib
import os


def spelled(v):
    """The canonical MessagePack of a value; a dict leaves out what is zero."""
    if isinstance(v, bool):
        return b'\xc3' if v else b'\xc2'
    if isinstance(v, int):
        if v < 128:
            return bytes([v])
        for head, size in ((0xcc, 1), (0xcd, 2), (0xce, 4), (0xcf, 8)):
            if v < 1 << 8 * size:
                return bytes([head]) + v.to_bytes(size, 'big')
    if isinstance(v, str):
        text = v.encode()
        return (bytes([0xa0 + len(text)]) if len(text) < 32 else b'\xd9' + bytes([len(text)])) + text
    if isinstance(v, bytes):
        return (b'\xc4' + bytes([len(v)]) if len(v) < 256 else b'\xc5' + len(v).to_bytes(2, 'big')) + v
    if isinstance(v, list):
        return list_head(len(v)) + b''.join(map(spelled, v))
    kept = sorted((k.encode(), x) for k, x in v.items() if not is_zero(x))
    head = bytes([0x80 + len(kept)]) if len(kept) < 16 else b'\xde' + len(kept).to_bytes(2, 'big')
    return head + b''.join(spelled(k.decode()) + spelled(x) for k, x in kept)


def list_head(n):
    if n < 16:
        return bytes([0x90 + n])
    return b'\xdc' + n.to_bytes(2, 'big') if n < 1 << 16 else b'\xdd' + n.to_bytes(4, 'big')


def is_zero(v):
    return v in (0, '', [], {}) or isinstance(v, bytes) and not any(v)


def digest(prefix, content):
    return hashlib.new('sha512_256', prefix + content).digest()


def account_text(address):
    return base64.b32encode(address + hashlib.new('sha512_256', address).digest()[-4:]).decode().rstrip('=')


def account_of(app):
    """The address of an application's account."""
    return digest(b'appID', app.to_bytes(8, 'big'))


class Ledger:
    """Writes the genesis and, block by block, the blocks and the requests of a chain. `counter` is the number of what the last transaction
    created."""
    SINK, POOL = b'\1' * 32, b'\2' * 32

    def __init__(self, folder, accounts, balance=10 ** 12, interval=0):
        size = 2 if accounts < 1 << 16 else 4
        self.users = [i.to_bytes(size, 'big') + b'\7' * (32 - size) for i in range(1, accounts + 1)]
        rows = [(u, {'b': balance}) for u in self.users] + [(self.SINK, {'a': 2}), (self.POOL, {'a': 2, 'b': 100000})]
        alloc = [{'addr': a, 'row': r} for a, r in sorted(rows, key=lambda row: row[0])]
        genesis = spelled({'alloc': alloc, 'fees': self.SINK, 'rwd': self.POOL, 'id': 'bench', 'cpi': interval})
        self.genesis_hash = digest(b'GE', genesis)
        self.round, self.counter = 0, 0
        self.prev = digest(b'BH', spelled({'gh': self.genesis_hash, 'fees': self.SINK, 'rwd': self.POOL, 'rwcalr': 1}))
        os.makedirs(folder, exist_ok=True)
        with open(os.path.join(folder, 'genesis.msgp'), 'wb') as out:
            out.write(genesis)
        self.blocks = open(os.path.join(folder, 'blocks.msgp'), 'wb')
        self.requests = open(os.path.join(folder, 'requests.http'), 'wb')

    def item(self, sender, fields, effects=()):
        """A transaction with its effects, whose inner transactions are paid for and counted."""
        now = self.round + 1
        self.counter += 1
        inner = sum(e['e'] == 9 for e in effects)
        note = self.counter.to_bytes(8, 'big')
        self.counter += inner
        txn = {'snd': sender, 'fee': 1000 * (1 + inner), 'fv': now, 'lv': now + 10, 'gh': self.genesis_hash, 'note': note, **fields}
        return {'txn': txn, 'fx': list(effects)}

    def post(self, payset, asked=None):
        """A block, and then an account that is asked: one of the users in turn where none is named."""
        self.round += 1
        header = {'rnd': self.round, 'prev': self.prev, 'gh': self.genesis_hash, 'fees': self.SINK, 'rwd': self.POOL, 'rwcalr': 500001,
                  'tc': self.counter, 'txn': digest(b'PL', spelled(payset))}
        self.prev = digest(b'BH', spelled(header))
        body = spelled({'b': header, 't': payset})
        self.blocks.write(body)
        self.requests.write(b'POST /v1/blocks HTTP/1.1\r\ncontent-length: %d\r\n\r\n' % len(body) + body)
        asked = asked or self.users[self.round % len(self.users)]
        self.requests.write(b'GET /v1/accounts/%s HTTP/1.1\r\n\r\n' % account_text(asked).encode())


def params(who, total, n):
    return {'t': total, 'dc': n % 7, 'un': 'U%d' % (n % 90), 'an': 'asset %d' % n, 'au': 'https://example.org/%d' % n, 'm': who, 'r': who, 'f': who, 'c': who}


class Assets:
    """Draws transactions that create, opt in to, transfer, freeze, configure and close assets."""

    def __init__(self, draw, ledger):
        self.draw, self.ledger = draw, ledger
        self.all = []  # [id, creator, holders, frozen holders]

    def item(self):
        draw, ledger = self.draw, self.ledger
        who = draw.choice(ledger.users)
        kind = draw.randrange(10) if len(self.all) > 4 else 0
        if kind == 0:
            item = ledger.item(who, {'type': 'acfg', 'apar': params(who, 10 ** 9, ledger.counter)})
            self.all.append([ledger.counter, who, [], set()])
            return item
        ident, creator, holders, frozen = draw.choice(self.all)
        if kind <= 3 and who != creator and who not in holders:
            holders.append(who)
            return ledger.item(who, {'type': 'axfer', 'xaid': ident, 'arcv': who})
        free = [h for h in holders if h not in frozen]
        if kind <= 6 and free:
            return ledger.item(creator, {'type': 'axfer', 'xaid': ident, 'aamt': 1 + draw.randrange(9), 'arcv': draw.choice(free)})
        if kind == 7 and free:
            frozen.add(free[0])
            return ledger.item(creator, {'type': 'afrz', 'faid': ident, 'fadd': free[0], 'afrz': True})
        if kind == 8 and holders:
            who = holders.pop()
            frozen.discard(who)
            return ledger.item(who, {'type': 'axfer', 'xaid': ident, 'aclose': creator})
        p = params(creator, 0, 0)
        return ledger.item(creator, {'type': 'acfg', 'caid': ident, 'apar': {k: p[k] for k in 'mrfc'}})
