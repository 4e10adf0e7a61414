#!/usr/bin/env python3
"""How many bytes of a configuration text are read in a second, on one core, and in how much memory.

    bench/config.py            builds crates/config_speed where that is needed, and times it on five kinds of text

Each text has about 10 MB but the last, whose source looks for its producer among 100,000 of other names, by as many entries. The best of five runs counts, by processor time. The time is that of the whole program, which also
takes the text in; `taking in` is what a text of as many bytes takes that is refused at its first byte. The memory is the most
that a run had, the text's own 10 MB among it.
"""
import os
import resource
import subprocess
import sys

from timing import best_time

TOP = os.path.dirname(os.path.dirname(os.path.abspath(__file__)))
CRATE = os.path.join(TOP, 'crates', 'config_speed')
PROGRAM = os.path.join(CRATE, 'out', 'config_speed')
SIZE = 10_000_000

BUFFER = b'buffers { size_kb: 65536 fill_policy: RING_BUFFER }\n'
FTRACE = b'''data_sources {
  config {
    name: "linux.ftrace"
    ftrace_config {
''', b'      ftrace_events: "sched/sched_switch"  # who runs where\n      buffer_size_kb: 2048\n', b'    }\n  }\n}\n'
ENTRIES = 100_000


def repeated(front, part, behind=b''):
    return front + part * ((SIZE - len(front) - len(behind)) // len(part)) + behind


TEXTS = {
    'unknown fields': repeated(BUFFER + FTRACE[0], FTRACE[1], FTRACE[2]),
    'unknown blocks': repeated(BUFFER, b'statsd_metadata { triggering_alert_id: 1 triggering_config { uid: -7 } }\n'),
    'blocks in blocks': BUFFER + b'a{' * (SIZE // 3) + b'}' * (SIZE // 3),
    'comments': repeated(BUFFER, b'# a comment of some length, as one would write it\n'),
    'producers': BUFFER + b'data_sources {\n' + b''.join(b'producer_name_filter: "a%d"\n' % n for n in range(ENTRIES)) + b'}\n'
    + b''.join(b'producers { producer_name: "b%d" }\n' % n for n in range(ENTRIES)),
}


def most_memory():
    """The most memory of any run so far, in MB."""
    return resource.getrusage(resource.RUSAGE_CHILDREN).ru_maxrss / 1000


def main():
    with open(os.path.join(CRATE, 'stdin'), 'rb') as text:
        subprocess.run(['rt', 'run'], cwd=CRATE, stdin=text, check=True, capture_output=True)
    for name, text in TEXTS.items():
        # A process of its own for each text, since the most memory is that of all children so far.
        child = os.fork()
        if child == 0:
            seconds, answer = best_time(PROGRAM, text)
            most = most_memory()
            taking_in, _ = best_time(PROGRAM, b'}' * len(text))
            size = len(text) / 1e6
            print(f'{name:17}{size:6.1f} MB {size / seconds:6.0f} MB/s, taking in {taking_in * 1e3:4.1f} of {seconds * 1e3:5.1f} ms, {most:5.1f} MB  {answer}', flush=True)
            os._exit(0)
        _, status = os.waitpid(child, 0)
        if status:
            return 1
    return 0


if __name__ == '__main__':
    sys.exit(main())
