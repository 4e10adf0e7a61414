#!/usr/bin/env python3
"""How many nanoseconds one writer takes for a packet, on one core.

    bench/writer.py            builds crates/writer_speed where that is needed, and times it

Each packet has a number, and a message with a text and a number. The writer drops a packet where no chunk is free, and
a collector in the same thread takes the complete chunks and lets them go, so that its time is counted too. The best of
a hundred short runs counts, by processor time, so that other work on the machine matters little; the time of a run without
packets is taken off.
"""
import os
import subprocess
import sys

from timing import best_time

TOP = os.path.dirname(os.path.dirname(os.path.abspath(__file__)))
CRATE = os.path.join(TOP, 'crates', 'writer_speed')
PROGRAM = os.path.join(CRATE, 'out', 'writer_speed')
PACKETS = 1_000_000
RUNS = 100


def main():
    with open(os.path.join(CRATE, 'stdin'), 'rb') as lines:
        subprocess.run(['rt', 'run'], cwd=CRATE, stdin=lines, check=True, capture_output=True)
    start, _ = best_time(PROGRAM, b'0\n')
    seconds, answer = best_time(PROGRAM, b'%d\n' % PACKETS, RUNS)
    print(f'{(seconds - start) / PACKETS * 1e9:.0f} ns a packet  {answer}')


if __name__ == '__main__':
    sys.exit(main())
