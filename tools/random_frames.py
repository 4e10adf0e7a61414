#!/usr/bin/env python3
"""Compares a program with the second reading in tools/model, on random frames of commit streams.

    tools/random_frames.py PROGRAM                              100,000 frames
    tools/random_frames.py PROGRAM --frames 1000 --seed 7 --keep FOLDER

PROGRAM is the path of a built `tracesmb`, or a command in one word. The fields of each frame are drawn from the ends of their ranges and from
between them, alone and not as a writer leaves them. Some streams have a hundred frames of their form; others have few, of which the last one is
changed in a byte, cut short, made longer, or has another length. What is compared is the status, standard output and standard error, byte for
byte. A stream that differs is kept in FOLDER, if one is named.
"""

import argparse
import io
import os
import random
import shlex
import sys
from collections import Counter

HERE = os.path.dirname(os.path.abspath(__file__))
sys.path.insert(0, HERE)

from compare import answer_of, keep     # noqa: E402
from model.commands import answer_to    # noqa: E402

LARGEST = 70_000

# Each text with its number of buffers, and the payload sizes of its sources.
TEXTS = [
    (b'buffers { size_kb: 4 }\ndata_sources { }\n', 1, [284]),
    (b'buffers { size_kb: 8 }\nbuffers { size_kb: 64 fill_policy: DISCARD }\nproducers { producer_name: "p" page_size_kb: 64 shm_size_kb: 64 }\n'
     b'producers { producer_name: "q" page_size_kb: 8 shm_size_kb: 8 }\ndata_sources { config { target_buffer: 1 } }\n'
     b'data_sources { producer_name_filter: "q" }\ndata_sources { producer_name_filter: "q" config { target_buffer: 1 } }\n', 2, [4668, 576, 576]),
]
CLOSE = b'\x01\0\0\0\x03'


class FrameMaker:
    """Random frames for one of the texts."""

    def __init__(self, seed: object):
        self.random = random.Random(f'frames {seed}')
        self.text, self.buffers, self.sizes = self.random.choice(TEXTS)

    def chance(self, of: float) -> bool:
        return self.random.random() < of

    def number(self, most: int) -> int:
        """A number up to this one, often at an end."""
        return self.random.choice([0, 1, 2, most, most - 1, self.random.randrange(most + 1), self.random.randrange(min(most, 8) + 1)]) % (most + 1)

    def payload(self, size: int, count: int) -> bytes:
        """Fragments with bytes of packets, or any bytes; often as long as the chunk."""
        data = bytearray()
        for _ in range(count if self.chance(.7) else 0):
            packet = bytes([self.random.choice([0x40, 0x48, 0x50, 0x42])]) + bytes(self.random.randrange(128) for _ in range(self.random.randrange(4)))
            data += bytes([len(packet)]) + packet
        if self.chance(.3):
            data += bytes(self.random.choice(b'\0\0\1\x40\x80\xff') for _ in range(self.number(size)))
        return bytes(data[:size])

    def patch(self) -> bytes:
        place = self.number(2 ** 32 - 1) if self.chance(.3) else self.random.randrange(40)
        return (self.number(40 if self.chance(.8) else 2 ** 32 - 1).to_bytes(4, 'little') + place.to_bytes(4, 'little')
                + bytes(self.random.choice(b'\0\x7f\x80\x81') for _ in range(4)) + bytes([self.random.randrange(2)]))

    def commit(self) -> bytes:
        source = self.random.randrange(len(self.sizes))
        count = self.number(1023 if self.chance(.1) else 5)
        head = count | self.number(63 if self.chance(.2) else 7) << 10
        patches = self.number(16) if self.chance(.3) else 0
        chunk = self.number(2 ** 32 - 1) if self.chance(.1) else self.random.randrange(40)
        return (bytes([1, self.random.randrange(self.buffers) + 1]) + chunk.to_bytes(4, 'little') + (source + 1).to_bytes(2, 'little')
                + head.to_bytes(2, 'little') + bytes([patches]) + b''.join(self.patch() for _ in range(patches)) + self.payload(self.sizes[source], count))

    def frame(self) -> bytes:
        """The bytes behind a frame's length."""
        return self.commit() if self.chance(.95) else bytes([2, self.random.randrange(self.buffers) + 1])

    def changed(self, frame: bytes) -> bytes:
        """A frame with its length, of which something is changed."""
        data = bytearray(frame)
        kind = self.random.randrange(6)
        if kind == 0:
            data[self.random.randrange(len(data))] = self.number(255)
        elif kind == 1:
            data = data[:self.random.randrange(len(data))]
        elif kind == 2:
            data += bytes(self.random.choice([1, 2, 300, 5000, LARGEST - len(data)]))
        elif kind == 3 and len(data) > 11:
            data[self.random.choice([1, 6, 7, 8, 9, 10])] = self.number(255)
        elif kind == 4 and len(data) > 11:
            data[10] = self.random.choice([15, 16, 17, 255])
            data[11:] = b''.join(self.patch() for _ in range(self.random.choice([data[10] % 32, 15, 16, 17]))) + bytes(data[11:])
        size = len(data)
        if kind == 5:
            size = self.random.choice([0, 1, size - 1, size + 1, LARGEST, LARGEST + 1, 2 ** 32 - 1])
        return size.to_bytes(4, 'little') + bytes(data)


def with_length(frame: bytes) -> bytes:
    return len(frame).to_bytes(4, 'little') + frame


def stream(seed: object) -> tuple[bytes, int]:
    """A text with its stream, and how many frames this has."""
    maker = FrameMaker(seed)
    if maker.chance(.1):
        frames = [with_length(maker.frame()) for _ in range(100)]
    else:
        frames = [*(with_length(maker.frame()) for _ in range(maker.random.randrange(3))), maker.changed(maker.frame())]
    return maker.text + b'==\n' + b''.join(frames) + CLOSE, len(frames) + 1


def main() -> int:
    parser = argparse.ArgumentParser(description=__doc__, formatter_class=argparse.RawDescriptionHelpFormatter)
    parser.add_argument('program')
    parser.add_argument('--frames', type=int, default=100_000, help='at least so many (100,000)')
    parser.add_argument('--seed', type=int, default=0, help='of the first stream (0)')
    parser.add_argument('--keep', metavar='FOLDER', help='where what differs is kept')
    options = parser.parse_args()
    program, seed, frames, differing, statuses, lines = shlex.split(options.program), options.seed, 0, 0, Counter(), Counter()
    while frames < options.frames:
        data, count = stream(seed)
        found, model = answer_of(program, ['stream'], data), answer_to(['stream'], io.BytesIO(data))
        statuses[model.status] += 1
        lines[model.text.partition(b': ')[2].decode().strip() if model.status else 'played'] += 1
        if found != model:
            differing += 1
            print(f'stream {seed} differs', flush=True)
            if options.keep:
                keep(os.path.join(options.keep, f'frames-{seed}'), ['stream'], data, found, model, ['the answers differ'])
        frames, seed = frames + count, seed + 1
    of_lines = ', '.join(f'{count} {line}' for line, count in sorted(lines.items()))
    print(f'{frames} frames in {sum(statuses.values())} streams: {of_lines}')
    print(f'{differing} differ')
    return 1 if differing else 0


if __name__ == '__main__':
    sys.exit(main())
