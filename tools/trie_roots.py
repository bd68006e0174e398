#!/usr/bin/env python3
"""Writes the roots of some sets of elements, computed from the text of the format alone, for the table of al_trie_tests."""
import hashlib


def sha(data):
    return hashlib.new('sha512_256', data).digest()


def node(elements, path):
    """The digest of the node of a path that at least two of the elements begin with."""
    out = b'TN' + bytes([len(path)]) + path
    for byte in range(256):
        below = [e for e in elements if e.startswith(path + bytes([byte]))]
        if len(below) == 1:
            rest = below[0][len(path) + 1:]
            out += bytes([0, len(rest), byte]) + rest
        elif below:
            digest = node(below, path + bytes([byte]))
            out += bytes([1, len(digest), byte]) + digest
    return sha(out)


def root(elements):
    if not elements:
        return bytes(32)
    if len(elements) == 1:
        return sha(b'TR\0' + elements[0])
    return sha(b'TR\1' + node(elements, b''))


def element(shared, tail):
    """`shared` bytes 7, then the byte `tail`, then bytes that rise from it."""
    return bytes([7] * shared + [(tail + k) % 256 for k in range(36 - shared)])


SETS = [
    [],
    [(0, 1)],
    [(0, 1), (0, 2)],
    [(1, 1), (1, 2)],
    [(5, 0), (5, 255)],
    [(35, 1), (35, 2)],
    [(35, 1), (35, 2), (35, 3), (5, 9), (1, 8), (0, 200)],
    [(0, 9), (1, 9), (2, 9), (4, 9), (5, 9), (5, 10), (34, 9), (35, 9), (35, 10), (35, 255)],
]

for members in SETS:
    print(members, root([element(*m) for m in members]).hex())
