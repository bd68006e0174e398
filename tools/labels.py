"""Prints labels and records of files, without the product's code: labels.py

A label's digest is SHA-512/256 of `CL`, the hash of the round's block, the root of the rows and the
spelling of the totals. The totals are a MessagePack map with its keys in byte order, in which a
number of zero is left out and each other one stands in its shortest form.
"""

import base64
import hashlib


def number(n):
    """The shortest spelling of a number."""
    if n < 128:
        return bytes([n])
    for code, size in ((0xCC, 1), (0xCD, 2), (0xCE, 4), (0xCF, 8)):
        if n < 1 << 8 * size:
            return bytes([code]) + n.to_bytes(size, 'big')
    raise ValueError(n)


def totals(fields):
    """The spelling of totals."""
    there = sorted((name.encode(), value) for name, value in fields.items() if value)
    spelled = b''.join(bytes([0xA0 + len(name)]) + name + number(value) for name, value in there)
    return bytes([0x80 + len(there)]) + spelled


def label(round, block, root, fields):
    """The text of a label."""
    digest = hashlib.new('sha512_256', b'CL' + block + root + totals(fields)).digest()
    return '%d#%s' % (round, base64.b32encode(digest).decode().rstrip('='))


def text(name):
    """The spelling of a short string."""
    return bytes([0xA0 + len(name)]) + name.encode()


def octets(b):
    """The spelling of fewer than 256 bytes."""
    return bytes([0xC4, len(b)]) + b


def mapping(*fields):
    """The spelling of a map of fewer than 16 fields, those that are None left out."""
    there = [text(name) + value for name, value in fields if value is not None]
    return bytes([0x80 + len(there)]) + b''.join(there)


def chunk(k, rows):
    """The spelling of a chunk of fewer than 16 rows: a key, a spelling and a round of each."""
    spelled = [
        mapping(('k', octets(key)), ('r', octets(row)), ('u', number(changed) if changed else None))
        for key, row, changed in rows
    ]
    return mapping(
        ('k', number(k) if k else None), ('rows', bytes([0x90 + len(rows)]) + b''.join(spelled)))


def info(chunks, data_round, fields):
    """The spelling of an info file."""
    return mapping(
        ('c', number(chunks)), ('d', number(data_round)), ('t', totals(fields) if any(fields.values()) else None))


if __name__ == '__main__':
    some = {'fm': 5000000, 'fu': 5, 'l': 7, 'nm': 1 << 40, 'nu': 300, 'pm': 1 << 63, 'pu': 200}
    print(label(640, bytes([1] * 32), bytes([2] * 32), some))
    print(label(1 << 62, bytes(range(32)), bytes(32), {}))
    print(label(321, bytes(32), bytes([255] * 32), {'l': 128, 'nm': 65536}))
    print(label(400, bytes(32), bytes(32), {}))
    print(chunk(0, [(b'\x00\x01', b'\x81', 0), (b'\x02', b'\x80', 300)]).hex())
    print(chunk(3, [(b'\x07', b'\x09', 1)]).hex())
    print(info(2, 320, {'fm': 5000000, 'l': 7, 'nu': 300}).hex())
    print(info(1, 1, {}).hex())
