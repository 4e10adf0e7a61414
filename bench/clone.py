#!/usr/bin/env python3
"""How fast a buffer is cloned, beside plain copies of as many bytes.

    bench/clone.py [PROGRAM]      a built `tracesmb`; it is built where none is named

A scenario fills a buffer of 64 MB with the chunks of one writer, each of 32 KB, and reads all of it. Then it makes four clones, or none: what the four
take is the difference, and as nothing is due in them any more, their reading takes next to no time. Beside it stand four plain copies of 64 MB.
Each copy goes to memory that wasn't touched before, and that first touching is counted for both. Runs alternate, and of each the best processor
time of twenty counts, user and system, so that other work on the machine matters little.
"""
import os
import resource
import subprocess
import sys
import time

TOP = os.path.dirname(os.path.dirname(os.path.abspath(__file__)))
BYTES = 64 << 20
CLONES = 4
RUNS = 20

FULL = (b'buffer 65536 ring\nproducer 64 32768 1\nwriter 1 1 stall\n' + b'p 1 900{1:"x"*60000}\n' * (BYTES // 60000 + 8) + b'f 1\nc 1\nr 1\n')


def played(program, text):
    """The processor time of one run."""
    before = resource.getrusage(resource.RUSAGE_CHILDREN)
    subprocess.run([program, 'clone'], input=text, capture_output=True, check=True)
    after = resource.getrusage(resource.RUSAGE_CHILDREN)
    return after.ru_utime + after.ru_stime - before.ru_utime - before.ru_stime


def copied(source):
    """The processor time of plain copies to new memory."""
    before = time.process_time()
    copies = [bytearray(source) for _ in range(CLONES)]
    took = time.process_time() - before
    del copies
    return took


def ours():
    crate = os.path.join(TOP, 'crates', 'tracesmb')
    with open(os.path.join(crate, 'stdin'), 'rb') as lines:
        subprocess.run(['rt', 'run', '--', 'replay'], cwd=crate, stdin=lines, check=True, capture_output=True)
    return os.path.join(crate, 'out', 'tracesmb')


def main():
    program = sys.argv[1] if len(sys.argv) == 2 else ours()
    source = bytearray(os.urandom(1 << 20)) * (BYTES >> 20)
    with_clones, without, plain = [], [], []
    for _ in range(RUNS):
        with_clones.append(played(program, FULL + b'k 1\n' * CLONES))
        without.append(played(program, FULL))
        plain.append(copied(source))
    clones, copies = min(with_clones) - min(without), min(plain)
    print(f'clone {CLONES * BYTES / clones / 1e9:.1f} GB/s, {clones / copies:.2f} of plain copies ({CLONES * BYTES / copies / 1e9:.1f} GB/s); '
          f'without clones {min(without):.3f} s')


if __name__ == '__main__':
    sys.exit(main())
