#!/usr/bin/env python3
"""Elements of rows, worked from the format alone, for the tests of al_row_records: prints each case's name and its 36 bytes as the
tests write them.

    elements.py

An element is the low 32 bits of the round that changed the row last in 4 bytes, the row's kind in one (0 an account, 1 an asset, 2 an
application, 3 a box), and the first 31 bytes of SHA-512/256 of `RW`, the length of the key's bytes in 2 bytes, the key's bytes and the
row's spelling. Numbers stand most significant byte first. A key's bytes are 0 and the account's 32 bytes, 1 with the account and the id in
8 bytes, or 2 with the application in 8 bytes and the box's name. A spelling is a map of the fields that are not zero, in the order of their
names; here it is written by hand."""
import hashlib

ACCOUNT, ASSET, APP, BOX = range(4)
NINE = b'\x09' * 32


def account_key(who):
    return b'\0' + who


def resource_key(who, number):
    return b'\1' + who + number.to_bytes(8, 'big')


def box_key(app, name):
    return b'\2' + app.to_bytes(8, 'big') + name


def element(key, kind, spelling, changed):
    digest = hashlib.new('sha512_256', b'RW' + len(key).to_bytes(2, 'big') + key + spelling).digest()
    return (changed % 2 ** 32).to_bytes(4, 'big') + bytes([kind]) + digest[:31]


# a name, the key, the kind, the spelling, the round of the last change
CASES = [
    ('a balance of 2,500,000', account_key(NINE), ACCOUNT, b'\x81\xa1b\xce\x00&%\xa0', 0),
    ('the same, changed in round 258', account_key(NINE), ACCOUNT, b'\x81\xa1b\xce\x00&%\xa0', 258),
    ('the same, changed in round 2^32 + 1', account_key(NINE), ACCOUNT, b'\x81\xa1b\xce\x00&%\xa0', 2 ** 32 + 1),
    ('the same, changed in the last round', account_key(NINE), ACCOUNT, b'\x81\xa1b\xce\x00&%\xa0', 2 ** 64 - 1),
    ('a holding of an asset', resource_key(NINE, 258), ASSET, b'\x83\xa1a\x07\xa1h\xc3\xa1x\x01', 16909060),
    ('a local state of an application', resource_key(NINE, 258), APP, b'\x83\xa1l\xc3\xa2ot\xc4\x03own\xa1x\x02', 16909060),
    ('a box', box_key(258, b'name'), BOX, b'\x81\xa1v\xc4\x02ab', 16909060),
    ('a box with the longest name', box_key(2 ** 64 - 1, b'n' * 64), BOX, b'\x80', 1),
]

for name, key, kind, spelling, changed in CASES:
    print(name + ':', ''.join('\\x%02x' % byte for byte in element(key, kind, spelling, changed)))
