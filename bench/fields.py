#!/usr/bin/env python3
"""How many bytes of fields are read in a second, on one core.

    bench/fields.py            builds crates/fields_speed where that is needed, and times it on five kinds of lines

Each input has about 60 MB. The best of five runs counts, by processor time, so that other work on the machine matters
little. The first number is that of the whole program, which also takes the input in and cuts it into lines. The second is
without what as many lines of the same lengths take that are refused at their first byte. That takes off the fixed cost of
a call too, so that the speed of the reader alone lies between the two.
"""
import os
import subprocess
import sys

from timing import best_time

TOP = os.path.dirname(os.path.dirname(os.path.abspath(__file__)))
CRATE = os.path.join(TOP, 'crates', 'fields_speed')
PROGRAM = os.path.join(CRATE, 'out', 'fields_speed')
SIZE = 60_000_000

LINES = {
    'shortest': b'8:1\n',
    'events': b'8:1234567890 900{1:"scheduling" 2:42}\n',
    'numbers': b'8:1 11:300 12:18446744073709551615 1000:7\n',
    'messages': b'1{1{}}\n',
    'texts': b'900{1:"' + b'a text of some length, ' * 20 + b'" 2:x\'' + b'00ff' * 50 + b'\'}\n',
}


def main():
    with open(os.path.join(CRATE, 'stdin'), 'rb') as lines:
        subprocess.run(['rt', 'run'], cwd=CRATE, stdin=lines, check=True, capture_output=True)
    for name, line in LINES.items():
        lines = SIZE // len(line)
        seconds, answer = best_time(PROGRAM, line * lines)
        cutting, _ = best_time(PROGRAM, (b'x' * (len(line) - 1) + b'\n') * lines)
        size = lines * len(line) / 1e6
        print(f'{name:8} {size / seconds:6.0f} MB/s, without cutting {size / (seconds - cutting):6.0f} MB/s  {answer}')


if __name__ == '__main__':
    sys.exit(main())
