#!/usr/bin/env python3
"""How fast the table is that threads share: rounds of one chunk on one thread, and packets of four writers on threads.

    bench/table.py             builds crates/table_speed where that is needed, and times it

A round is the claim, begin, publish and completion of a chunk with 284 bytes of payload by its writer, and its take and
release by the service, all on one thread. Its payload takes 36 stores and 36 loads of atomic words, which are timed alone
too: by a writer that holds its chunk and publishes it again and again. Processor time counts, so that other work on the
machine matters little. What that is compared with: the same atomic steps without anything around them, written in C;
docs/SPEED.md has their time. A poll is a writer's look for flush requests where none was made: one load.

Then four writers, each on a thread of its own, write packets with a number, and a message with a text and a number, while
the service takes their chunks on a fifth thread: into chunks of their own, 56 for each writer, or all into the same 224.
A writer drops a packet where no chunk is free; what was dropped isn't counted. Here the time counts that passes, so the
machine has to be idle. What that is compared with: LTTng-UST (Debian's lttng-tools and liblttng-ust-dev), whose four
threads each write as many events of a number, a text and a number into its buffers, which its own daemon empties. The best
of five runs counts, and the time of a run without rounds, or packets, is taken off.
"""
import os
import subprocess
import sys
import time

from timing import RUNS, best_time

TOP = os.path.dirname(os.path.dirname(os.path.abspath(__file__)))
CRATE = os.path.join(TOP, 'crates', 'table_speed')
PROGRAM = os.path.join(CRATE, 'out', 'table_speed')
ROUNDS = 5_000_000
PACKETS = 2_000_000
WRITERS = 4


def nanoseconds(kind):
    """The processor time of a round."""
    start, _ = best_time(PROGRAM, b'%s 0\n' % kind)
    whole, _ = best_time(PROGRAM, b'%s %d\n' % (kind, ROUNDS))
    return (whole - start) / ROUNDS * 1e9


def passed(text):
    """The time that passes in a run on this input, and what it printed."""
    before = time.perf_counter()
    answer = subprocess.run([PROGRAM], input=text, capture_output=True, check=True).stdout
    return time.perf_counter() - before, answer.decode().split()


def packets(kind):
    """The most packets a second that were written in a run, and the share of those that were begun."""
    start = min(passed(b'%s 0\n' % kind)[0] for _ in range(RUNS))
    best = (0, 0)
    for _ in range(RUNS):
        seconds, answer = passed(b'%s %d\n' % (kind, PACKETS))
        written = int(answer[answer.index('written') + 1])
        best = max(best, (written / (seconds - start), written / (WRITERS * PACKETS)))
    return best


def main():
    with open(os.path.join(CRATE, 'stdin'), 'rb') as lines:
        subprocess.run(['rt', 'run'], cwd=CRATE, stdin=lines, check=True, capture_output=True)
    cycle, payload = nanoseconds(b'cycle'), nanoseconds(b'payload')
    print(f'{cycle:.1f} ns a round; its payload alone takes {payload:.1f} ns')
    print(f'a poll for flush requests where there is none: {nanoseconds(b"poll"):.1f} ns')
    print('compared with the same atomic steps in C, on machine B of docs/SPEED.md: 322 to 336 ns, and 58 to 75 without payload')
    for kind, chunks in ((b'own', 'of their own'), (b'shared', 'that they share')):
        rate, share = packets(kind)
        print(f'{WRITERS} writers with chunks {chunks}: {rate / 1e6:.1f} million packets a second, {share:.0%} of those that were begun')
    print('compared with LTTng-UST, on machine A of docs/SPEED.md: 19 to 23 million events a second from four threads')


if __name__ == '__main__':
    sys.exit(main())
