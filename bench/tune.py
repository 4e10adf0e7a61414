#!/usr/bin/env python3
"""How fast pages are partitioned anew: rounds of one user on one thread, and whole runs of `tune`.

    bench/tune.py              builds crates/tune_speed where that is needed, and times it
    bench/tune.py PROGRAM      times runs of `PROGRAM tune 8 10000` beside it

A claim is a load, one atomic or that wins, and the step by which its chunk is given back. A claim in vain finds none of 56
places free, each by a load alone: nearly all claims of a whole run are so. A retile is of one page, through the layouts of 1,
2, 4, 7 and 14 chunks in turn: a load and an or for each chunk of the old layout, the store of the new word, and an and for
each chunk of the new one, which is given back. A collect is a claim, a begin, a completion, and a look at each of 56 places,
with one chunk taken and given back. Processor time counts, so that other work on the machine matters little; the best of five
runs, less the time of a run without rounds. Of whole runs the time counts that passes, so the machine has to be idle.
"""
import os
import subprocess
import sys
import time

from timing import RUNS, best_time

TOP = os.path.dirname(os.path.dirname(os.path.abspath(__file__)))
CRATE = os.path.join(TOP, 'crates', 'tune_speed')
PROGRAM = os.path.join(CRATE, 'out', 'tune_speed')
# (A page can be partitioned anew 262,143 times, and there are four.)
ROUNDS = {b'claim': 5_000_000, b'vain': 1_000_000, b'retile': 1_000_000, b'collect': 200_000}
USERS, TURNS = 8, 10_000


def nanoseconds(kind):
    """The processor time of a round."""
    start, _ = best_time(PROGRAM, b'%s 0\n' % kind)
    whole, answer = best_time(PROGRAM, b'%s %d\n' % (kind, ROUNDS[kind]))
    assert answer.split()[-1] == str(ROUNDS[kind]), answer
    return (whole - start) / ROUNDS[kind] * 1e9


def passed(program):
    """The time that passes in a run of all users."""
    before = time.perf_counter()
    subprocess.run([program, 'tune', str(USERS), str(TURNS)], stdout=subprocess.DEVNULL, check=True)
    return time.perf_counter() - before


def main():
    with open(os.path.join(CRATE, 'stdin'), 'rb') as line:
        subprocess.run(['rt', 'run'], cwd=CRATE, stdin=line, check=True, capture_output=True)
    for kind, what in ((b'claim', 'a claim and its giving back'), (b'vain', 'a claim in vain of 56 places'),
                       (b'retile', 'a retile and the giving back of its chunks'),
                       (b'collect', 'a chunk claimed, begun and completed, and a collect')):
        print(f'{what}: {nanoseconds(kind):.1f} ns')
    if len(sys.argv) > 1:
        print(f'tune {USERS} {TURNS}: {min(passed(sys.argv[1]) for _ in range(RUNS)) * 1e3:.1f} ms')


if __name__ == '__main__':
    sys.exit(main())
