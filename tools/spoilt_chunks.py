#!/usr/bin/env python3
"""Compares a program with the second reading on chunks that are committed by lines `raw`: valid ones that are spoilt, and random ones.

    tools/spoilt_chunks.py PROGRAM                    each byte of valid chunks changed in turn, each cut at each length, and each flag and count
    tools/spoilt_chunks.py PROGRAM --random 100000    and so many chunks of random bytes

PROGRAM is the path of a built `tracesmb`, or a command in one word. Chunks stand in scenarios of many lines, so that one run tries as many.
What is compared is the status, standard output and standard error, byte for byte.
"""

import argparse
import io
import os
import random
import shlex
import subprocess
import sys
from collections.abc import Iterator
from dataclasses import replace

HERE = os.path.dirname(os.path.abspath(__file__))
sys.path.insert(0, HERE)

from model.chunks import Chunk, Claims, Patch   # noqa: E402
from model.commands import answer_to            # noqa: E402
from model.fields import read_fields            # noqa: E402
from model.scenario import Writer as Spec       # noqa: E402
from model.writers import Writer                # noqa: E402
from random_inputs import raw_line              # noqa: E402

SET_UP = ['buffer 1024 ring', 'buffer 64 discard', 'producer 1 4096 14', 'producer 1 4096 2', 'writer 1 1 drop', 'writer 2 2 drop']
PAYLOAD = 284               # of a chunk of the first producer
LINES = 1_000               # of a scenario: so many positions may be ahead
BYTES = (0, 1, 2, 127, 128, 255)
FIELDS = ('8:5', '1:"abc" 900{1:"hi" 2:7}', '2047:18446744073709551615 3000:x\'00ff\' 8:1', '900{1{2:"x"}} 1:""')


def valid_chunks() -> list[Chunk]:
    """What a writer completes of packets, without the zeros behind them; the last one runs on over two chunks."""
    writer = Writer(1, Spec(1, 1, 'drop', None), PAYLOAD, Claims(40), lambda: False)
    for fields in (*FIELDS, '1:"x"*300 8:7', '900{1:"y"*290}'):
        writer.begin()
        for part in read_fields(fields.encode()):
            writer.write(part)
        writer.finish()
        writer.flush()
    return [replace(chunk, payload=bytearray(bytes(chunk.payload).rstrip(b'\0'))) for _, chunk in writer.complete]


def spoilt(chunk: Chunk) -> Iterator[Chunk]:
    """The chunk with each byte changed in turn, cut at each length, and with other flags and counts."""
    for place in range(min(len(chunk.payload), 60)):
        for byte in {*BYTES, chunk.payload[place] ^ 1, chunk.payload[place] ^ 128} - {chunk.payload[place]}:
            payload = bytearray(chunk.payload)
            payload[place] = byte
            yield replace(chunk, payload=payload)
    for length in range(min(len(chunk.payload), 60)):
        yield replace(chunk, payload=chunk.payload[:length])
    for flags in range(8):
        for count in (0, 1, 2, 3, 1023):
            yield replace(chunk, flags=flags, count=count)


def patched(chunk: Chunk) -> Iterator[Chunk]:
    """The chunk, awaiting a patch, with a patch at each place, also in a size field and outside."""
    for offset in [*range(min(len(chunk.payload), 30)), PAYLOAD - 4, PAYLOAD - 3, PAYLOAD, 2 ** 32 - 1]:
        for last in (False, True):
            patch = Patch(chunk.chunk_id, offset, b'\x81\x80\x80\x00', last)
            yield replace(chunk, flags=chunk.flags | 4, patches=[patch])


def random_chunk(chooser: random.Random) -> Chunk:
    size = chooser.choice([0, 1, 2, 3, 5, 8, 20, 60])
    payload = bytearray(chooser.choices([0, 1, 2, 3, 4, 5, 8, 10, 16, 18, 64, 80, 127, 128, 130, 208, 255], k=size))
    patches = [Patch(chooser.randrange(8), chooser.choice([0, 1, 2, 4, 10, PAYLOAD - 4, 2 ** 32 - 1]), chooser.randbytes(4), chooser.random() < .5)]
    return Chunk(0, chooser.choice([0, 1, 1, 1, 2, 2, 3, 5, 1023]), chooser.choice([0, 0, 0, 1, 2, 3, 4, 5, 6, 7, 32, 63]), payload,
                 patches if chooser.random() < .3 else [])


def scenarios(chunks: Iterator[Chunk], chooser: random.Random | None) -> Iterator[bytes]:
    """Scenarios with the chunks in their order, each at a position of its own, or at one that is drawn."""
    lines = list(SET_UP)
    for number, chunk in enumerate(chunks):
        place = number % LINES
        if chooser and chooser.random() < .3:
            place = chooser.randrange(LINES + 100)
        writer = 1 if not chooser or chooser.random() < .9 else 2
        target = writer if not chooser or chooser.random() < .98 else 3 - writer
        patches = [replace(patch, chunk_id=place if patch.chunk_id == chunk.chunk_id else patch.chunk_id) for patch in chunk.patches]
        lines.append(raw_line(writer, target, replace(chunk, chunk_id=place, patches=patches)))
        if chooser and chooser.random() < .01:
            lines.append('r 1 7')
        if number % LINES == LINES - 1:
            yield '\n'.join([*lines, '']).encode()
            lines = list(SET_UP)
    yield '\n'.join([*lines, '']).encode()


def faults_of(program: list[str], text: bytes) -> list[str]:
    done = subprocess.run([*program, 'replay'], input=text, capture_output=True, check=False)
    model = answer_to(['replay'], io.BytesIO(text))
    same = (done.returncode, done.stdout, done.stderr) == (model.status, model.output, model.text)
    return [] if same else [f'differs: {text[:200]!r}']


def main() -> int:
    parser = argparse.ArgumentParser()
    parser.add_argument('program')
    parser.add_argument('--random', type=int, default=0)
    given = parser.parse_args()
    program = shlex.split(given.program)
    chooser = random.Random('spoilt chunks')
    kinds = [('spoilt', (one for chunk in valid_chunks() for one in spoilt(chunk)), None),
             ('patched', (one for chunk in valid_chunks() for one in patched(chunk)), None),
             ('random', (random_chunk(chooser) for _ in range(given.random)), chooser)]
    failed = 0
    for name, chunks, order in kinds:
        count = 0
        for text in scenarios(chunks, order):
            faults = faults_of(program, text)
            count, failed = count + text.count(b'\nraw '), failed + len(faults)
            for fault in faults:
                print(name, fault)
        print(f'{name}: {count} chunks')
    print(f'{failed} differ')
    return 1 if failed else 0


if __name__ == '__main__':
    sys.exit(main())
