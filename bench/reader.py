#!/usr/bin/env python3
"""How fast a full buffer is read, on one core.

    bench/reader.py            builds crates/reader_speed where that is needed, and times it

A buffer of 64 MB is filled with packets of 30 bytes, 120 to a chunk, or of 100 KB, each over 25 chunks, and read; then it
is filled again. The sink is memory of 64 MB that is written over, and so is that of the plain copies beside it. The best
of five runs counts, by processor time, so that other work on the machine matters little; the time of filling alone
is taken off.
"""
import os
import subprocess
import sys

from timing import best_time

TOP = os.path.dirname(os.path.dirname(os.path.abspath(__file__)))
CRATE = os.path.join(TOP, 'crates', 'reader_speed')
PROGRAM = os.path.join(CRATE, 'out', 'reader_speed')
ROUNDS = 10
CHUNKS = 16_000
PAYLOAD = 4_080
SHORT = 120


def seconds(kind):
    best, _ = best_time(PROGRAM, b'%s %d\n' % (kind, ROUNDS))
    return best / ROUNDS


def main():
    with open(os.path.join(CRATE, 'stdin'), 'rb') as lines:
        subprocess.run(['rt', 'run'], cwd=CRATE, stdin=lines, check=True, capture_output=True)
    start, _ = best_time(PROGRAM, b'copy 0\n')
    copy = seconds(b'copy') - start / ROUNDS
    for kind in (b'short', b'long'):
        fill = seconds(kind + b'-fill')
        read = seconds(kind) - fill
        packets = CHUNKS * SHORT if kind == b'short' else CHUNKS // 25
        name = kind.decode()
        print(f'{name} {read / packets * 1e9:.0f} ns a packet, {CHUNKS * PAYLOAD / read / 1e9:.2f} GB/s, '
              f'{copy / read:.2f} of a plain copy ({CHUNKS * PAYLOAD / copy / 1e9:.2f} GB/s); '
              f'filling {fill / CHUNKS * 1e9:.0f} ns a chunk')


if __name__ == '__main__':
    sys.exit(main())
