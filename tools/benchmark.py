#!/usr/bin/env python3
"""Look-ups through a pipe, and a chain made by rule, beside another program for the same work.

    benchmark.py PROGRAM OTHER CHAIN [LOOKUPS]

CHAIN is a folder with genesis.msgp and requests.http, which has look-ups. They are repeated behind it, LOOKUPS (200,000) of them in one
connection; the same connection without them is taken off. The chain made is that of number 7 with 1,000 blocks. Times are medians of
seven runs; instructions are counted by `valgrind --tool=callgrind`; a peak below that of this script, about 15 MB, shows as its own.
The programs have to write the same, but for the lines `floor` and `catchpoint` of a summary."""
import os
import re
import statistics
import subprocess
import sys
import tempfile
import threading
import time

RUNS = 7
MADE = ['generate', '7', '1000']


def piped(program, words, folder, sent):
    """What the program writes for what is sent to it, and how long it takes."""
    began = time.time()
    child = subprocess.Popen([program, *words], cwd=folder, stdin=subprocess.PIPE, stdout=subprocess.PIPE)

    def feed():
        child.stdin.write(sent)
        child.stdin.close()

    feeder = threading.Thread(target=feed)
    feeder.start()
    out = child.stdout.read()
    if child.wait() != 0:
        sys.exit('%s ended with %d' % (program, child.returncode))
    feeder.join()
    return out, time.time() - began


def timed(program, words, folder, sent):
    """What the program writes, and the median of some runs."""
    runs = [piped(program, words, folder, sent) for _ in range(RUNS)]
    return runs[0][0], statistics.median(t for _, t in runs)


def lookups(program, other, chain, n):
    with open(os.path.join(chain, 'requests.http'), 'rb') as it:
        front = it.read()
    asked = sorted(set(re.findall(rb'GET [^\r]*\r\n(?:[^\r]+\r\n)*\r\n', front)))
    behind = b''.join(asked[i % len(asked)] for i in range(n))
    outs, rates = [], []
    for each in (program, other):
        _, before = timed(each, ['session', 'genesis.msgp'], chain, front)
        out, after = timed(each, ['session', 'genesis.msgp'], chain, front + behind)
        outs.append(out)
        rates.append(n / (after - before))
    if outs[0] != outs[1]:
        sys.exit('the answers differ')
    print('look-ups a second: %.0f, the other program %.0f' % tuple(rates))


def made(program, folder):
    """The summary of the made chain, the instructions, the time and the peak of memory in KiB."""
    out, seconds = timed(program, MADE, folder, b'')
    before = ['valgrind', '--tool=callgrind', '--callgrind-out-file=%s/out' % folder]
    counted = subprocess.run([*before, program, *MADE], cwd=folder, capture_output=True, text=True)
    child = subprocess.Popen([program, *MADE], cwd=folder, stdout=subprocess.DEVNULL)
    _, _, used = os.wait4(child.pid, 0)
    lines = [line for line in out.split(b'\n') if not line.startswith((b'floor ', b'catchpoint '))]
    return lines, int(re.search(r'Collected : (\d+)', counted.stderr).group(1)), seconds, used.ru_maxrss


def main(program, other, chain, n=200000):
    with tempfile.TemporaryDirectory() as one, tempfile.TemporaryDirectory() as two:
        a, b = made(program, one), made(other, two)
    if a[0] != b[0]:
        sys.exit('the summaries differ')
    print('generate 7 1000: %.1f M for %.1f M instructions: %.2f times; %.3f s for %.3f s; %.1f MB for %.1f MB' % (
        a[1] / 1e6, b[1] / 1e6, a[1] / b[1], a[2], b[2], a[3] / 1e3, b[3] / 1e3))
    lookups(program, other, chain, int(n))


if __name__ == '__main__':
    main(*map(lambda word: os.path.abspath(word) if os.path.exists(word) else word, sys.argv[1:]))
