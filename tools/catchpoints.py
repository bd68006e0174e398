#!/usr/bin/env python3
"""The files of a catchpoint, beside another program for the same work.

    catchpoints.py PROGRAM OTHER CHAIN ROUND

CHAIN is a folder with genesis.msgp and blocks.msgp (`plain_chain.py`). Both programs are run as `PROGRAM catchpoint genesis.msgp
blocks.msgp ROUND` in a folder of their own, once under `valgrind --tool=callgrind` and five times by themselves, of which the median
counts. The labels and all files have to be the same byte for byte."""
import os
import re
import shutil
import statistics
import subprocess
import sys
import tempfile
import time


def written(program, chain, number, before=()):
    """What the program writes and its files, what the command before it says, its time, and its peak memory in KiB."""
    with tempfile.TemporaryDirectory() as folder:
        for name in ('genesis.msgp', 'blocks.msgp'):
            shutil.copy(os.path.join(chain, name), folder)
        words = [*before, program, 'catchpoint', 'genesis.msgp', 'blocks.msgp', number]
        with tempfile.TemporaryFile() as said:
            began = time.time()
            child = subprocess.Popen(words, cwd=folder, stdout=subprocess.PIPE, stderr=said)
            out = child.stdout.read()
            _, status, used = os.wait4(child.pid, 0)
            took = time.time() - began
            said.seek(0)
            text = said.read().decode(errors='replace')
        if status != 0:
            sys.exit('%s ended with %d' % (program, status))
        files = {}
        for name in os.listdir(folder):
            if name.startswith('cp-'):
                with open(os.path.join(folder, name), 'rb') as it:
                    files[name] = it.read()
        return (out, files), text, took, used.ru_maxrss


def measured(program, chain, number):
    with tempfile.TemporaryDirectory() as folder:
        before = ['valgrind', '--tool=callgrind', '--callgrind-out-file=%s/out' % folder]
        made, said, _, _ = written(program, chain, number, before)
    runs = [written(program, chain, number) for _ in range(5)]
    return made, int(re.search(r'Collected : (\d+)', said)[1]), statistics.median(run[2] for run in runs), runs[0][3]


def main(program, other, chain, number):
    ours, count, took, peak = measured(os.path.abspath(program), chain, number)
    theirs, base, least, low = measured(os.path.abspath(other), chain, number)
    if ours != theirs:
        sys.exit('the files differ')
    print('%d files, label %s' % (len(ours[1]), ours[0].decode().strip()))
    print('%.1f M for %.1f M instructions: %.2f times' % (count / 1e6, base / 1e6, count / base))
    print('%.2f s for %.2f s; %.1f MB for %.1f MB' % (took, least, peak / 1024, low / 1024))


if len(sys.argv) != 5:
    sys.exit(__doc__)
main(*sys.argv[1:])
