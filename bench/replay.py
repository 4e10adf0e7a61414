#!/usr/bin/env python3
"""How long `replay` takes, side by side with another program for the same scenarios.

    bench/replay.py OTHER [PROGRAM]      OTHER and PROGRAM are called as `PROGRAM replay`; ours is built where none is named

Each row but the last plays nine packets, most of them among many lines that say nothing, so that the reading is timed. The rows:

    few        nine packets of nested fields, and nothing else: 1,000 runs, which is mostly the start of a process
    comments   the same, with 60 MB of comments of 80 bytes round the packets
    texts      the same, with 60 MB of comments of 2,000 bytes
    empty      the same, with 20 million empty lines
    refused    20 million bytes of packets, of which the last line is faulty: the whole grammar is read, and nothing is written

Rounds of the two alternate, and of each the best processor time of seven rounds counts, user and system, so that other work
on the machine matters little. The ratio is ours over the other's: below 1 ours is faster. The traces have to be the same.
"""
import os
import resource
import subprocess
import sys

TOP = os.path.dirname(os.path.dirname(os.path.abspath(__file__)))
ROUNDS = 7

SETUP = [b'buffer 64 ring\n', b'producer 1 4096 14\n', b'writer 1 1 drop\n']
PACKETS = [b'p 1 8:%d 900{1:"event %d" 2:%d}\n' % (i, i, 7 * i) for i in range(9)]


def among(packets, line, size):
    """The packets, with lines that say nothing before the set-up and behind each packet."""
    lines = line * (size // len(line) // (len(packets) + 1))
    return lines + b''.join(SETUP) + b''.join(packet + lines for packet in packets)


def refused(size):
    line = b'p 1 8:1719851102 900{1:"event" 2:42}\n'
    return b''.join(SETUP) + line * (size // len(line)) + b'p 1 10:1\n'


def rows():
    yield 'few', among(PACKETS, b'\n', 0), 1000
    yield 'comments', among(PACKETS, b'#' + b' word' * 15 + b' end\n', 60_000_000), 1
    yield 'texts', among(PACKETS, b'#' + b' word' * 399 + b' end\n', 60_000_000), 1
    yield 'empty', among(PACKETS, b'\n', 20_000_000), 1
    yield 'refused', refused(20_000_000), 1


def play(program, text, times):
    """The processor time of so many runs, and what the last one wrote."""
    before = resource.getrusage(resource.RUSAGE_CHILDREN)
    for _ in range(times):
        run = subprocess.run([program, 'replay'], input=text, capture_output=True, check=False)
    after = resource.getrusage(resource.RUSAGE_CHILDREN)
    return after.ru_utime + after.ru_stime - before.ru_utime - before.ru_stime, (run.returncode, run.stdout)


def ours():
    crate = os.path.join(TOP, 'crates', 'tracesmb')
    with open(os.path.join(crate, 'stdin'), 'rb') as lines:
        subprocess.run(['rt', 'run', '--', 'replay'], cwd=crate, stdin=lines, check=True, capture_output=True)
    return os.path.join(crate, 'out', 'tracesmb')


def main():
    if len(sys.argv) not in (2, 3):
        return __doc__
    other = sys.argv[1]
    program = sys.argv[2] if len(sys.argv) == 3 else ours()
    worst = 0
    for name, text, times in rows():
        taken = {program: [], other: []}
        wrote = {}
        for _ in range(ROUNDS):
            for which in (program, other):
                seconds, wrote[which] = play(which, text, times)
                taken[which].append(seconds)
        best, peer = min(taken[program]), min(taken[other])
        same = 'the same trace' if wrote[program] == wrote[other] else 'DIFFERENT TRACES'
        worst = max(worst, best / peer)
        print(f'{name:9} ours {best:6.3f} s   other {peer:6.3f} s   ratio {best / peer:4.2f}   {same}', flush=True)
    print(f'worst ratio {worst:.2f}')
    return None


if __name__ == '__main__':
    sys.exit(main())
