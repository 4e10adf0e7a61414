#!/usr/bin/env python3
"""How fast chunks arrive in a buffer, records are put into its ring, and its index answers, on one core.

    bench/buffer.py            builds crates/buffer_speed where that is needed, and times it

The buffer has 64 MB, and chunks of 284 bytes of one sequence arrive in it, each complete and with 11 fragments of 20 bytes, so that each
overwrites an unread one once the ring has wrapped. The ring alone takes records of 304 bytes, each with what it overwrites
dropped; beside it stand plain copies of as many bytes to as large a place. The index has 200,000 entries of 64 sequences; each turn finds and takes out the oldest
entry of a sequence, looks for a new one, and adds it. The best of twelve runs counts, by processor time, so that other work on
the machine matters little; the time of a run without records, or turns, is taken off. A ring's memory is first touched as it is written, so
that is counted.
"""
import os
import subprocess
import sys

from timing import best_time

TOP = os.path.dirname(os.path.dirname(os.path.abspath(__file__)))
CRATE = os.path.join(TOP, 'crates', 'buffer_speed')
PROGRAM = os.path.join(CRATE, 'out', 'buffer_speed')
COUNT = 10_000_000
RUNS = 12
RECORD = 304


def seconds(kind):
    start, _ = best_time(PROGRAM, b'%s 0\n' % kind)
    whole, _ = best_time(PROGRAM, b'%s %d\n' % (kind, COUNT), RUNS)
    return whole - start


def main():
    with open(os.path.join(CRATE, 'stdin'), 'rb') as lines:
        subprocess.run(['rt', 'run'], cwd=CRATE, stdin=lines, check=True, capture_output=True)
    buffer = seconds(b'buffer')
    print(f'buffer {buffer / COUNT * 1e9:.1f} ns an arrival')
    ring, copy, index = seconds(b'ring'), seconds(b'copy'), seconds(b'index')
    print(f'ring {ring / COUNT * 1e9:.1f} ns a record, {COUNT * RECORD / ring / 1e9:.1f} GB/s, '
          f'{copy / ring:.2f} of a plain copy ({copy / COUNT * 1e9:.1f} ns)')
    print(f'index {index / COUNT * 1e9:.1f} ns for find, remove, find and add')


if __name__ == '__main__':
    sys.exit(main())
