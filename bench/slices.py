#!/usr/bin/env python3
"""How long a slice takes from C, by the clock: with one thread and with four, of the C library, of a plain copy, and of LTTng-UST.

    bench/slices.py [LIBRARY.a]     the library of crates/tracesmb_c/out, which `rt lib` writes there, where none is named

A slice is two packets, one with a name of sixteen bytes, each with a time and a track. Beside the library's threads one collects, reads, and writes
the trace to a file; or it collects alone, and all is read once the threads have ended, as in a flight recorder. The plain copy is of as many bytes, with their times, into a buffer of the thread's own. LTTng-UST (Debian's lttng-tools and
liblttng-ust-dev; left out where they aren't there) writes the same two events into buffers of the user's, which its daemon writes to files. All run
in turn, each to its end, and the median of five series counts, so the machine has to be idle. The time is that of the threads that write, until the last
one has written; packets that were lost are in it, and their share is printed.
"""
import os
import re
import shutil
import statistics
import subprocess
import sys
import tempfile
import time
from contextlib import contextmanager

TOP = os.path.dirname(os.path.dirname(os.path.abspath(__file__)))
SOURCES = os.path.join(TOP, 'bench', 'c')
PAIRS = 200_000     # four threads' packets fit into the session's buffer
SERIES = 5
THREADS = (1, 4)
LTTNG = 'LTTng-UST'
BEHIND = 'the library, read behind the threads'


def built(folder, name, *more):
    """A program of bench/c."""
    program = os.path.join(folder, name)
    subprocess.run([os.environ.get('CC', 'cc'), '-std=gnu11', '-O2', '-Wall', '-Wextra', '-I', os.path.join(TOP, 'include'), '-I', SOURCES,
                    '-o', program, os.path.join(SOURCES, name + '.c'), *more, '-pthread'], check=True)
    return program


def programs(folder, library):
    ours = built(folder, 'slices_ours', os.path.join(TOP, 'examples', 'c', 'heap.c'), library)
    found = {'the library': ours, BEHIND: ours, 'a plain copy': built(folder, 'slices_copy')}
    if shutil.which('lttng'):
        found[LTTNG] = built(folder, 'slices_lttng', os.path.join(SOURCES, 'slices_points.c'), '-llttng-ust', '-ldl')
    return found


@contextmanager
def lttng_daemon(wanted):
    """LTTng's daemon, where it is wanted and none runs."""
    daemon = wanted and subprocess.Popen(['lttng-sessiond'], stdout=subprocess.DEVNULL, stderr=subprocess.DEVNULL)
    try:
        if daemon:
            while daemon.poll() is None and subprocess.run(['lttng', 'list'], capture_output=True).returncode:
                time.sleep(0.1)
        yield
    finally:
        if daemon:
            daemon.terminate()
            daemon.wait()


def lttng(*words):
    return subprocess.run(['lttng', *words], check=True, capture_output=True, text=True)


@contextmanager
def lttng_session(folder, lost):
    """A session of its own, whose buffers are as large as LTTng's manual advises for fast programs; behind it, how many events were lost."""
    lttng('create', 'slices', '--output', os.path.join(folder, 'lttng'))
    try:
        lttng('enable-channel', '--userspace', '--session', 'slices', '--subbuf-size', '1M', '--num-subbuf', '16', 'packets')
        lttng('enable-event', '--userspace', '--session', 'slices', '--channel', 'packets', 'slices:*')
        lttng('start', 'slices')
        yield
    finally:
        ended = lttng('destroy', 'slices')
        lost.extend(int(number) for number in re.findall(r'(\d+) events? (?:was|were) discarded', ended.stdout + ended.stderr))
        shutil.rmtree(os.path.join(folder, 'lttng'), ignore_errors=True)


def run(name, program, threads, folder):
    """The nanoseconds of a slice, and the share of the packets that was lost."""
    words = [program, str(threads), str(PAIRS), os.path.join(folder, 'trace'), *(['behind'] if name == BEHIND else [])]
    if name == LTTNG:
        more = []
        with lttng_session(folder, more):
            printed = subprocess.run(words, capture_output=True, check=True).stdout.split()
        lost = sum(more)
    else:
        printed = subprocess.run(words, capture_output=True, check=True).stdout.split()
        lost = int(printed[1])
    return float(printed[0]), lost / (2 * PAIRS * threads)


def main():
    library = os.path.abspath(sys.argv[1] if len(sys.argv) > 1 else os.path.join(TOP, 'crates', 'tracesmb_c', 'out', 'libtracesmb_c.a'))
    with tempfile.TemporaryDirectory() as folder:
        found = programs(folder, library)
        answers = {(name, threads): [] for threads in THREADS for name in found}
        with lttng_daemon(LTTNG in found):
            for _ in range(SERIES):
                for name, threads in answers:
                    answers[name, threads].append(run(name, found[name], threads, folder))
    for (name, threads), series in answers.items():
        times = sorted(time for time, _ in series)
        lost = statistics.median(share for _, share in series)
        print(f'{name}, {threads} thread{"s" if threads > 1 else ""}: {statistics.median(times):.0f} ns a slice ({times[0]:.0f} to {times[-1]:.0f}), {lost:.2%} lost')


if __name__ == '__main__':
    main()
