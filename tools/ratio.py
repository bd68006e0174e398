#!/usr/bin/env python3
"""Instructions and peak memory of the program, beside another program for the same work.

    ratio.py PROGRAM OTHER CHAIN..

Each CHAIN is a folder with genesis.msgp and requests.http. Both programs are run as `PROGRAM session genesis.msgp < requests.http`,
once under `valgrind --tool=callgrind` and once by themselves. Their answers have to be the same byte for byte. A peak below that of this
script, about 15 MB, shows as its own."""
import os
import re
import subprocess
import sys
import tempfile


def served(program, chain, before=()):
    """What the program writes, what the command before it says, and its peak memory in KiB."""
    with open(os.path.join(chain, 'requests.http'), 'rb') as requests, tempfile.TemporaryFile() as said:
        child = subprocess.Popen([*before, program, 'session', 'genesis.msgp'], cwd=chain, stdin=requests, stdout=subprocess.PIPE, stderr=said)
        out = child.stdout.read()
        _, status, used = os.wait4(child.pid, 0)
        said.seek(0)
        if status != 0:
            sys.exit('%s ended with %d over %s' % (program, status, chain))
        return out, said.read().decode(errors='replace'), used.ru_maxrss


def instructions(program, chain):
    with tempfile.TemporaryDirectory() as folder:
        before = ['valgrind', '--tool=callgrind', '--callgrind-out-file=%s/out' % folder]
        out, said, _ = served(program, chain, before)
        return out, int(re.search(r'Collected : (\d+)', said)[1])


def main(program, other, chains):
    program, other = os.path.abspath(program), os.path.abspath(other)
    for chain in chains:
        ours, count = instructions(program, chain)
        theirs, base = instructions(other, chain)
        if ours != theirs:
            sys.exit('the answers over %s differ' % chain)
        peak, least = served(program, chain)[2], served(other, chain)[2]
        name = os.path.basename(os.path.normpath(chain))
        print('%-8s %9.1f M for %8.1f M instructions: %.2f times; %.1f MB for %.1f MB' % (name, count / 1e6, base / 1e6, count / base, peak / 1024, least / 1024))


if len(sys.argv) < 4:
    sys.exit(__doc__)
main(sys.argv[1], sys.argv[2], sys.argv[3:])
