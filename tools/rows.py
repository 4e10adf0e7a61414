#!/usr/bin/env python3
"""Plays the worked rows of docs/FORMATS.md and examples/, and compares what comes with the bytes that are expected.

    tools/rows.py PROGRAM         on a built `tracesmb`, or a command in one word
    tools/rows.py                 on the second reading in tools/model, with rows of what the program hasn't yet

Of a row `run`, whose trace follows the order of its threads, such rows are here as write the same in any order.
"""

import os
import re
import subprocess
import sys
from dataclasses import dataclass
from shlex import split

HERE = os.path.dirname(os.path.abspath(__file__))
sys.path.insert(0, HERE)

from model.commands import TO_COME      # noqa: E402

EXAMPLES = os.path.join(os.path.dirname(HERE), 'examples')

SET = 'buffer 64 ring / producer 1 4096 14 / writer 1 1 drop'
NONE = 'rewritten 0 overwritten 0 discarded 0 unpatched 0 padding 0'


@dataclass(frozen=True)
class Row:
    name: str
    words: str
    input: bytes
    status: int = 0
    output: bytes | None = b''
    text: bytes | None = b''        # none where it isn't looked at


def text_of(lines: str) -> bytes:
    """Lines that are written with slashes between them."""
    return ''.join(f'{line}\n' for line in lines.split(' / ')).encode() if lines else b''


def octets(spelled: str) -> bytes:
    """Bytes in hexadecimal, where `78*297` stands for a byte that comes so often."""
    made = b''
    for word in spelled.split():
        byte, _, times = word.partition('*')
        made += bytes.fromhex(byte) * int(times or 1)
    return made


def played(name: str, lines: str, trace: str, report: str | None = None, words: str = 'replay') -> Row:
    return Row(name, words, text_of(lines), 0, octets(trace), None if report is None else text_of(report))


def refused(lines: str, reason: str, words: str = 'replay') -> Row:
    """A scenario that is refused on its last line."""
    number = lines.count(' / ') + 1
    return Row(f'{words}: {reason}', words, text_of(lines), 3, b'', f'line {number}: {reason}\n'.encode())


def at_offset(trace: str, offset: int, reason: str) -> Row:
    return Row(f'read: {reason}', 'read', octets(trace), 3, b'', f'offset {offset}: {reason}\n'.encode())


def numbered(first: int, last: int) -> str:
    """Packets with a number, each in a chunk of its own."""
    return ' / '.join(f'p 1 8:{i} / f 1' for i in range(first, last + 1))


def traced(first: int, last: int) -> str:
    return ' '.join(f'0A 04 40 {i:02X} 50 02' for i in range(first, last + 1))


def sequence(number: int, begun: int, **counts: int) -> str:
    words = ('delivered', 'dropped', 'overwritten', 'discarded', 'cut')
    return f'sequence {number} begun {begun} ' + ' '.join(f'{word} {counts.get(word, 0)}' for word in words)


SCRAPED = ('buffer 4 ring / producer 2 4096 1 / writer 1 1 drop / writer 1 1 drop '
           '/ p 1 8:1 / p 1 8:2 / s 1 / r 1 / p 2 8:9 / f 2 / c 1 / r 1 / f 1')
SCRAPED_TRACE = '0A 07 40 01 50 02 D0 02 01 0A 07 40 09 50 03 D0 02 01 0A 04 40 02 50 02'


def cutting_rows():
    """How packets are cut into chunks, and what of them is read."""
    yield played('one packet', SET + ' / p 1 900{1:"hi" 2:7}', '0A 11 A2 38 86 80 80 00 0A 02 68 69 10 07 50 02 D0 02 01',
                 f'buffer 1 ring bytes 65536 placed 1 {NONE} / ' + sequence(2, 1, delivered=1))
    yield played('nothing', '', '', '')
    yield played('a packet without fields', SET + ' / p 1', '0A 05 50 02 D0 02 01')
    yield played('a packet over two chunks', SET + ' / p 1 1:"x"*297', '0A B1 02 0A A9 02 78*297 50 02 D0 02 01')
    yield played('a late length', SET + ' / p 1 900{1:"x"*300} / c 1 / r 1 / f 1 / c 1 / r 1',
                 '0A BA 02 A2 38 AF 82 80 00 0A AC 02 78*300 50 02 D0 02 01')
    yield played('a length that goes to the next chunk', SET + ' / p 1 1:"x"*273 900{2:7}',
                 '0A A1 02 0A 91 02 78*273 A2 38 82 80 80 00 10 07 50 02 D0 02 01')
    yield played('a packet that is given up',
                 'buffer 64 ring / producer 1 4096 2 / writer 1 1 drop / p 1 8:1 / p 1 900{1:"x"*5000} / c 1 / p 1 8:2',
                 '0A 07 40 01 50 02 D0 02 01 0A 0A D0 02 01 40 02 50 02 D0 02 01',
                 f'buffer 1 ring bytes 65536 placed 3 {NONE} / ' + sequence(2, 3, delivered=2, dropped=1))
    yield played('a packet that is dropped at its begin',
                 'buffer 64 ring / producer 1 4096 1 / writer 1 1 drop / writer 1 1 drop '
                 '/ p 2 8:1 / f 2 / c 1 / p 1 8:5 / p 2 8:7 / f 1 / c 1 / p 2 8:6',
                 '0A 07 40 05 50 02 D0 02 01 0A 07 40 01 50 03 D0 02 01 0A 07 D0 02 01 40 06 50 03')
    late = SET + ' from 4294967295'
    yield played('a chunk behind the last id', late + ' / p 1 8:1 / f 1 / p 1 8:2', '0A 07 40 01 50 02 D0 02 01 0A 04 40 02 50 02',
                 f'buffer 1 ring bytes 65536 placed 2 {NONE} / ' + sequence(2, 2, delivered=2))
    yield played('a length that comes from behind the last id', late + ' / p 1 900{1:"x"*300}',
                 '0A BA 02 A2 38 AF 82 80 00 0A AC 02 78*300 50 02 D0 02 01')
    yield played('a part behind the last id', late + ' / p 1 8:1 / f 1 / p 1 8:2 / p 1 8:3 / s 1 / r 1',
                 '0A 07 40 01 50 02 D0 02 01 0A 04 40 02 50 02 0A 04 40 03 50 02')
    yield played('1,024 packets', 'buffer 128 ring / producer 2 65536 1 / writer 1 1 drop' + ' / p 1' * 1024,
                 '0A 05 50 02 D0 02 01' + ' 0A 02 50 02' * 1023)
    yield played('the largest packet', 'buffer 4096 ring / producer 64 65536 1 / writer 1 1 drop / p 1 1:"x"*1048572',
                 '0A 85 80 40 0A FC FF 3F 78*1048572 50 02 D0 02 01')
    stalls = 'buffer 64 ring / producer 1 4096 1 / writer 1 1 stall / writer 1 1 stall / p 1 8:1'
    yield Row('a writer that stalls', 'replay', text_of(stalls + ' / p 2 8:2'), 6, b'', b'stalled: writer 2\n')
    yield played('a writer that stalls and goes on', stalls + ' / f 1 / p 2 8:2',
                 '0A 07 40 01 50 02 D0 02 01 0A 07 40 02 50 03 D0 02 01')


def buffer_rows():
    """What a buffer does with what arrives."""
    yield played('a ring that goes round',
                 f'buffer 4 ring / producer 1 4096 14 / writer 1 1 drop / p 1 8:1 / f 1 / c 1 / r 1 / {numbered(2, 15)}',
                 f'0A 07 40 01 50 02 D0 02 01 0A 07 40 03 50 02 D0 02 01 {traced(4, 15)}',
                 'buffer 1 ring bytes 4096 placed 15 rewritten 0 overwritten 1 discarded 0 unpatched 0 padding 144 / '
                 + sequence(2, 15, delivered=14, overwritten=1))
    yield played('a buffer that discards',
                 f'buffer 4 discard / producer 1 4096 14 / writer 1 1 drop / {numbered(1, 14)} / c 1 / r 1 / p 1 8:15 / f 1',
                 f'0A 07 40 01 50 02 D0 02 01 {traced(2, 13)}',
                 'buffer 1 discard bytes 4096 placed 13 rewritten 0 overwritten 0 discarded 2 unpatched 0 padding 0 / '
                 + sequence(2, 15, delivered=13, discarded=2))
    yield played('a record as large as the ring', 'buffer 4 ring / producer 2 4096 1 / writer 1 1 drop / p 1 8:1 / f 1 / p 1 8:2',
                 '0A 07 40 02 50 02 D0 02 01')
    yield played('a part that is overwritten', SCRAPED, SCRAPED_TRACE)
    yield played('a part and its chunk', SET + ' / p 1 8:1 / p 1 8:2 / s 1', '0A 07 40 01 50 02 D0 02 01 0A 04 40 02 50 02',
                 'buffer 1 ring bytes 65536 placed 1 rewritten 1 overwritten 0 discarded 0 unpatched 0 padding 0 / '
                 + sequence(2, 2, delivered=2))
    yield played('a close before the patch', SET + ' / p 1 900{1:"x"*300} / b 1 / c 1 / x 1', '',
                 'buffer 1 ring bytes 65536 placed 1 rewritten 0 overwritten 0 discarded 0 unpatched 1 padding 0 / '
                 + sequence(2, 2, cut=2))
    yield played('a flush request', SET + ' / writer 1 1 drop / p 1 8:1 / b 2 / a 2 8:3 / q / r 1 / e 2',
                 '0A 07 40 01 50 02 D0 02 01 0A 07 40 03 50 03 D0 02 01',
                 f'buffer 1 ring bytes 65536 placed 2 {NONE} / {sequence(2, 1, delivered=1)} / {sequence(3, 1, delivered=1)} '
                 '/ flush 1 chunks 2')


# Behind the lines of SET: the examples of the table of reasons.
REFUSED = (
    ('p  1 8:1', 'bad line'), ('p 01', 'bad line'), ('f 1 ', 'bad line'), ('buffer 3 ring', 'number out of range'),
    ('r 1 0', 'number out of range'), ('p 1 / buffer 64 ring', 'late set-up'), ('c 2', 'no such producer'), ('r 2', 'no such buffer'),
    ('p 2', 'no such writer'), ('x 1 / p 1', 'producer closed'), ('b 1 / p 1', 'packet begun'), ('e 1', 'no packet'),
    ('b 1 / u 1', 'no nesting'), ('b 1 / n 1 900 / e 1', 'nesting left'), ('p 1 8:', 'bad field at column 7'),
    ('p 1 8:1 ', 'bad field at column 9'), ('p 1 10:5', 'reserved field 10'), ('p 1 ' + '1{' * 17 + '}' * 17, 'too deep'),
    ('p 1 1:"x"*1048573', 'packet too long'), ('b 1', 'packet left'),
)


def refusal_rows():
    """Each example of the table of reasons."""
    yield Row('replay: unfinished line', 'replay', text_of(SET) + b'p 1 8:1', 3, b'', b'line 4: unfinished line\n')
    for line, reason in REFUSED:
        yield refused(f'{SET} / {line}', reason)
    yield refused(' / '.join(['buffer 4 ring'] * 9), 'too many')
    yield refused('buffer 4 ring / producer 1 8192 1 / writer 1 1 drop', 'chunk larger than buffer')
    yield refused(SET + ' / p 1 1:"x"*1048572' * 257, 'too many bytes')
    yield refused(SET + ' / x 1', 'not under run', 'run')
    for words in ('replay', 'run', 'check'):
        yield refused(SET + ' / k 1', f'not under {words}', words)
    yield refused(SET + ' / k 1' * 5, 'too many', 'clone')
    yield refused(SET + ' / k 2', 'no such buffer', 'clone')


def clone_rows():
    """Clones of buffers."""
    yield played('a clone between two reads', SET + ' / p 1 8:1 / f 1 / c 1 / r 1 / p 1 8:2 / f 1 / c 1 / k 1 / p 1 8:3',
                 '0A 07 40 02 50 02 D0 02 01',
                 f'buffer 1 ring bytes 65536 placed 3 {NONE} / {sequence(2, 3, delivered=3)} / clone 1 buffer 1 delivered 1', 'clone')
    yield played('a clone of a packet whose length is to come', SET + ' / p 1 900{1:"x"*300} / c 1 / k 1', '',
                 f'buffer 1 ring bytes 65536 placed 2 {NONE} / {sequence(2, 1, delivered=1)} / clone 1 buffer 1 delivered 0', 'clone')
    yield played('clones of two buffers, in the order of their lines',
                 'buffer 4 ring / buffer 4 ring / producer 1 4096 14 / writer 1 1 drop / writer 1 2 drop '
                 '/ p 1 8:1 / p 2 8:2 / f 1 / f 2 / c 1 / k 2 / k 1',
                 '0A 07 40 02 50 03 D0 02 01 0A 07 40 01 50 02 D0 02 01', None, 'clone')
    yield played('a buffer without sequences', SET + ' / buffer 4 ring / k 2', '', None, 'clone')
    stalls = 'buffer 64 ring / producer 1 4096 1 / writer 1 1 stall / writer 1 1 stall / p 1 8:1 / k 1 / p 2 8:2'
    yield Row('a writer that stalls behind a clone', 'clone', text_of(stalls), 6, b'', b'stalled: writer 2\n')
    yield Row('examples/crash.clone', 'clone', content_of('crash.clone'), 0, content_of('crash.trace'), content_of('crash.report'))


CONFIG = 'buffers { size_kb: 4 } / data_sources { config { name: "a" } }'
COMMIT = '0E 00 00 00 01 01 00 00 00 00 01 00 01 00 00 02 40 05'     # of id 0, with the packet 40 05
CLOSE = '01 00 00 00 03'


def streamed(name: str, frames: str, trace: str, report: str, config: str = CONFIG) -> Row:
    return Row(name, 'stream', text_of(f'{config} / ==') + octets(frames), 0, octets(trace), text_of(report))


def refused_stream(frames: str, reason: str, config: str = f'{CONFIG} / ==') -> Row:
    return Row(f'stream: {reason}', 'stream', text_of(config) + octets(frames), 3, b'', f'{reason}\n'.encode())


def ringed(placed: int) -> str:
    return f'buffer 1 ring bytes 4096 placed {placed} {NONE}'


def raw_rows():
    """Chunks that lines `raw` commit."""
    yield played('chunks that a line commits', SET + " / writer 1 1 drop / raw 1 0 1 0 1 x'024005' / raw 1 0 1 0 1 x'024006' / raw 1 2000 1 0 1 x'024006' "
                 "/ raw 1 1 1 0 1 x'025005' / p 2 8:7", '0A 07 40 05 50 02 D0 02 01 0A 07 40 07 50 03 D0 02 01',
                 f'buffer 1 ring bytes 65536 placed 3 {NONE} / ' + sequence(2, 2, delivered=1, cut=1) + ' / ' + sequence(3, 1, delivered=1)
                 + ' / raw 5 kept / raw 6 duplicate / raw 7 too far / raw 8 kept')
    yield played('a chunk that cannot be read', SET + " / raw 1 0 1 0 1 x'80848000'", '',
                 f'buffer 1 ring bytes 65536 placed 0 {NONE} / ' + sequence(2, 0) + ' / raw 4 bad chunk 0')
    yield played('a chunk for another buffer', "buffer 64 ring / buffer 64 ring / producer 1 4096 14 / writer 1 1 drop / raw 1 0 1 0 2 x'024005'", '',
                 f'buffer 1 ring bytes 65536 placed 0 {NONE} / buffer 2 ring bytes 65536 placed 0 {NONE} / ' + sequence(2, 0) + ' / raw 5 wrong target 1')
    yield played('a patch that comes with its chunk', SET + " / raw 1 0 1 4 1 x'06400540014002' 0 3 x'40034004' last",
                 '0A 0B 40 05 40 03 40 04 50 02 D0 02 01')
    yield refused(SET + " / raw 1 0 1 0 1 x'0'", 'bad line')
    yield refused(SET + " / raw 1 0 1 64 1 x'00'", 'number out of range')
    yield refused(SET + " / raw 2 0 1 0 9 x'00'", 'no such buffer')
    yield refused(SET + " / raw 1 0 1 0 1 x'" + '00' * 285 + "'", 'raw too long')
    yield refused(SET + " / x 1 / raw 1 0 1 0 1 x'" + '00' * 285 + "'", 'producer closed')
    yield refused(SET + " / raw 1 0 1 0 1 x'00'", 'not under run', 'run')


def stream_rows():
    """Sessions from a configuration and a stream of commits."""
    one = ('0A 07 40 05 50 02 D0 02 01', f'{ringed(1)} / {sequence(2, 1, delivered=1)} / stream commits 1 refused 0')
    second = COMMIT.replace('02 40 05', '02 40 06').replace('01 01 00', '01 01 01')
    yield streamed('a commit', f'{COMMIT} {CLOSE}', *one)
    yield streamed('commits in falling order', f'{second} {COMMIT} {CLOSE}', '0A 07 40 05 50 02 D0 02 01 0A 04 40 06 50 02',
                   f'{ringed(2)} / {sequence(2, 2, delivered=2)} / stream commits 2 refused 0')
    yield refused_stream(f'{COMMIT} 01 00 00 00 09', 'offset 18: bad frame')
    yield refused_stream(f'{COMMIT} {CLOSE}', 'line 1: out of range', f'{CONFIG.replace("4", "3")} / ==')
    yield streamed('fields that are skipped', f'{COMMIT} {CLOSE}', *one,
                   'buffers { size_kb: 4 } / duration_ms: 10000 / data_sources { config { name: "a" ftrace_config { ftrace_events: "sched_switch" } } }')
    yield refused_stream('', 'line 3: no stream', CONFIG)
    yield refused_stream('', 'offset 0: no end')
    yield refused_stream(f'{CLOSE} 00', 'offset 5: bad frame')
    yield refused_stream('00 00 00 00', 'offset 0: bad frame')
    yield refused_stream('71 11 01 00', 'offset 0: bad frame')
    yield refused_stream('70 11 01 00 09', 'offset 5: no end')
    yield refused_stream(COMMIT.replace('01 00 01', '02 00 01') + CLOSE, 'offset 0: bad frame')
    yield streamed('a read between', f'{COMMIT} 02 00 00 00 02 01 {second} {CLOSE}', '0A 07 40 05 50 02 D0 02 01 0A 04 40 06 50 02',
                   f'{ringed(2)} / {sequence(2, 2, delivered=2)} / stream commits 2 refused 0')
    yield streamed('a commit that came before', f'{COMMIT} {COMMIT} {CLOSE}', one[0],
                   f'{ringed(1)} / {sequence(2, 1, delivered=1)} / stream commits 2 refused 1')
    yield streamed('a packet with a field of the service', COMMIT.replace('40 05', '50 05') + CLOSE, '',
                   f'{ringed(1)} / {sequence(2, 1, cut=1)} / stream commits 1 refused 0')
    yield streamed('a commit for another buffer', COMMIT.replace('01 01 00', '01 02 00') + CLOSE, '',
                   f'{ringed(0)} / buffer 2 ring bytes 4096 placed 0 {NONE} / {sequence(2, 0)} / stream commits 1 refused 1',
                   f'{CONFIG} / buffers {{ size_kb: 4 }}')
    front = '11 00 00 00 01 01 00 00 00 00 01 00 01 18 00 05 0A 80 80 80 00'
    rest = '1C 00 00 00 01 01 01 00 00 00 01 00 01 04 01 00 00 00 00 02 00 00 00 83 80 80 00 01 03 61 62 63'
    yield streamed('a length that comes late', f'{front} {rest} {CLOSE}', '0A 0D 0A 83 80 80 00 61 62 63 50 02 D0 02 01',
                   f'{ringed(2)} / {sequence(2, 1, delivered=1)} / stream commits 2 refused 0')
    yield Row('examples/out_of_order.stream', 'stream', content_of('out_of_order.stream'), 0, content_of('out_of_order.trace'),
              content_of('out_of_order.report'))


def command_rows():
    """The other commands."""
    yield at_offset('0B', 0, 'group')
    yield at_offset('0A 03 40 02 50 02', 4, 'bad record')
    yield at_offset('0A 07 40', 0, 'cut short')
    yield at_offset('0A 04 40 02 50 02 0A 07 40', 6, 'cut short')
    yield Row('read', 'read', octets(SCRAPED_TRACE), 0,
              text_of('sequence 2 packets 2 marked 1 bytes 11 / sequence 3 packets 1 marked 1 bytes 7 / packets 3 bytes 18'))
    both = text_of(SCRAPED) + b'==\n' + octets(SCRAPED_TRACE)
    yield Row('check: agrees', 'check', both, 0, b'agrees 3\n')
    yield Row('check: differs', 'check', both[:-6] + octets('0A 07 40 02 50 02 D0 02 01'), 0, b'differs packet 3 sequence 2\n')
    yield Row('check: no trace', 'check', text_of(SET), 3, b'', b'line 4: no trace\n')
    yield Row('gen', 'gen 0 1 1', b'', 0,
              text_of('buffer 65536 ring / producer 16 4096 14 / writer 1 1 stall / p 1 8:7 900{1:"n"*24 2:1}'))
    for words in ('play', '', 'gen 0 0 1', 'gen 00 1 1', 'gen 0 65 1', 'gen 0 1 100001', 'gen 18446744073709551616 1 1', 'replay replay',
                  '--help'):
        yield Row(f'usage: {words}', words, b'', 2, b'', None)
    yield Row('input too long', 'replay', b'\n' * 67_108_865, 7, b'', b'input too long\n')
    yield Row('the longest input', 'replay', b'\n' * 67_108_864)


def example_rows():
    """Each scenario of examples/ beside its trace."""
    for file in sorted(os.listdir(EXAMPLES)):
        if not file.endswith('.scenario'):
            continue
        name = file.removesuffix('.scenario')
        text, trace = (content_of(f'{name}.{kind}') for kind in ('scenario', 'trace'))
        report = content_of(f'{name}.report') if os.path.exists(os.path.join(EXAMPLES, f'{name}.report')) else None
        yield Row(f'examples/{file}', 'replay', text, 0, trace, report)
        yield Row(f'check of examples/{file}', 'check', text + b'==\n' + trace, 0, None)
        if not re.search(rb'^[qx]|^writer.*\n(.*\n)*writer', text, re.MULTILINE):
            yield Row(f'run of examples/{file}', 'run', text, 0, trace, report)


def content_of(file: str) -> bytes:
    with open(os.path.join(EXAMPLES, file), 'rb') as content:
        return content.read()


def rows():
    for some in (cutting_rows, buffer_rows, refusal_rows, clone_rows, raw_rows, stream_rows, command_rows, example_rows):
        yield from some()


def is_to_come(row: Row) -> bool:
    return row.words.split()[:1] in [[word] for word in TO_COME]


def faults_of(row: Row, program: list[str]) -> list[str]:
    done = subprocess.run([*program, *row.words.split()], input=row.input, capture_output=True, check=False)
    faults = []
    if done.returncode != row.status:
        faults.append(f'status {done.returncode} in place of {row.status}')
    if row.output is not None and done.stdout != row.output:
        faults.append(f'output {done.stdout[:60].hex(" ")} in place of {row.output[:60].hex(" ")}')
    if row.text is not None and done.stderr != row.text:
        faults.append(f'text {done.stderr[:200]} in place of {row.text[:200]}')
    return faults


WORKLOAD = ['gen', '7', '8', '20000']
NONE_LOST = b''.join(b'sequence %d begun 20000 delivered 20000 dropped 0 overwritten 0 discarded 0 cut 0\n' % number for number in range(2, 10))


def workload_faults(program: list[str], first_id: bytes) -> list[str]:
    """Of a workload of eight writers on threads nothing is lost, whatever the threads do and wherever the ids of chunks begin."""
    workload = subprocess.run([*program, *WORKLOAD], capture_output=True, check=False).stdout.replace(b' stall\n', b' stall' + first_id + b'\n')
    faults = []
    for command in 'run', 'replay':
        played = subprocess.run([*program, command], input=workload, capture_output=True, check=False)
        told = b''.join(line for line in played.stderr.splitlines(keepends=True) if line.startswith(b'sequence'))
        verdict = subprocess.run([*program, 'check'], input=workload + b'==\n' + played.stdout, capture_output=True, check=False).stdout
        if (played.returncode, told, verdict) != (0, NONE_LOST, b'agrees 160000\n'):
            faults.append(f'{command}: status {played.returncode}, text {played.stderr[:200]}, {verdict}')
    return faults


def main() -> int:
    program = split(sys.argv[1]) if len(sys.argv) > 1 else [sys.executable, os.path.join(HERE, 'model')]
    passed, failed = 0, 0
    for row in rows():
        if is_to_come(row) and len(sys.argv) > 1:
            continue
        faults = faults_of(row, program)
        for fault in faults:
            print(f'{row.name}: {fault}')
        passed, failed = passed + (not faults), failed + bool(faults)
    for first_id in (b'', b' from 4294967290') if len(sys.argv) > 1 else ():
        faults = workload_faults(program, first_id)
        for fault in faults:
            print(f'workload{first_id.decode()}: {fault}')
        passed, failed = passed + (not faults), failed + bool(faults)
    print(f'{passed} rows passed, {failed} failed')
    return 1 if failed else 0


if __name__ == '__main__':
    sys.exit(main())
