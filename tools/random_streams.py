"""Random streams: configuration texts, and frames with chunks of writers of their sources, in some order, and others. Each follows from a seed."""

import random

from model.chunks import Chunk, Claims
from model.config import CHUNKS_OF_PAGE
from model.fields import read_fields
from model.geometry import payload_size
from model.scenario import Writer as Spec
from model.writers import Writer
from random_inputs import ScenarioMaker, edited, odd_chunk

GAPS = [' ', ' ', ' ', ' ', '\n', '\t', '\r\n', '  ', ' # a note\n', '\n# of "quotes" { and } braces\n']
PROGRAMS = ['a', 'b', 'traced_probes', 'linux.ftrace', 'x y z', '']
OTHER_FIELDS = ['duration_ms: 10000', 'write_into_file: true;', 'ftrace_config { ftrace_events: "sched_switch" }', 'period_ms: -5,', 'a{b{c:1}d:{}}',
                'statsd_metadata: { triggering_alert_id: +1.5e3 ; }', 'buffer { size_kb: 0 }', 'name: "data_sources { }"']
TEXT_ODDS = [('size_kb: 4', 'size_kb: 3'), ('size_kb: 4', 'size_kb: 04'), ('size_kb: 4', 'size_kb: 65537'), ('size_kb: 4', 'size_kb: "4"'),
             ('size_kb: 4', 'size_kb {}'), ('size_kb: 4', 'size_kb: 99999999999999999999999'), ('size_kb', 'size_mb'), ('RING_BUFFER', 'RING'),
             ('DISCARD', '"DISCARD"'), ('target_buffer: 0', 'target_buffer: 9'), ('page_size_kb: 4', 'page_size_kb: 6'), ('"a"', 'a'),
             ('page_size_kb: 4', 'page_size_kb: 64'), ('config {', 'config: 1 {'), ('config {', 'config: "x" buffers {'), (' {', ': {'), ('{', ''),
             ('}', '}}'), (':', ''), (';', ';;'), ('"', "'"), ('buffers', 'producers'), ('producers', 'data_sources'), ('\n', '\n#\x7f\n'), (' ', ' \x80 ')]
TEXT_ENDS = ['buffers { size_kb: 4 } ' * 8, 'producers { } ' * 17, 'data_sources { config { } } ' * 65, 'producers: 1', '# no line feed', '{', 'x', 'x:', '"']


class StreamMaker:
    """A random configuration text, and frames with chunks of writers of its sources, in some order, and others."""

    def __init__(self, seed: object):
        self.random = random.Random(f'stream {seed}')
        self.buffers = [self.pick(4, 4, 4, 5, 8, 64) for _ in range(self.pick(0, 1, 1, 1, 2, 3))]
        self.producers = [self.pick(4, 4, 4, 8, 16, 64) for _ in range(self.pick(0, 0, 1, 2, 3))]
        self.names = self.random.sample(PROGRAMS, len(self.producers))
        self.sources = [self.source() for _ in range(self.pick(0, 1, 1, 2, 3, 5) if self.buffers else 0)]

    def pick(self, *choices):
        return self.random.choice(choices)

    def chance(self, of: float) -> bool:
        return self.random.random() < of

    def source(self) -> tuple[int, int, list[str]]:
        """The place of its buffer, the size of its producer's pages, and its filter."""
        names = [self.random.choice(PROGRAMS) for _ in range(self.pick(0, 0, 1, 2))]
        own = [size for name, size in zip(self.names, self.producers) if name and name in names]
        return self.random.randrange(len(self.buffers)), (own or self.producers or [4])[0], names

    def payload_of(self, source: int) -> int:
        return payload_size(self.sources[source][1] * 1024, CHUNKS_OF_PAGE)

    # The text

    def gap(self) -> str:
        return ''.join(self.random.choices(GAPS, k=self.pick(1, 1, 1, 2)))

    def field(self, name: str, value: object) -> str:
        return f'{name}{self.pick("", "", " ")}:{self.pick("", " ", " ", self.gap())}{value}{self.pick("", "", ";", " ,")}'

    def block(self, name: str, fields: list[str]) -> str:
        fields = fields + ([self.random.choice(OTHER_FIELDS)] if self.chance(.3) else [])
        self.random.shuffle(fields)
        inside = ''.join(self.gap() + one for one in fields)
        return f'{name}{self.pick(" ", "", ": ", self.gap())}{{{inside}{self.pick(" ", "", self.gap())}}}{self.pick("", "", "", ";", ",")}'

    def text(self) -> str:
        blocks = []
        for kb in self.buffers:
            policy = [self.field('fill_policy', self.pick('RING_BUFFER', 'DISCARD'))] if self.chance(.5) else []
            blocks.append(self.block('buffers', [self.field('size_kb', kb), *policy]))
        for name, page in zip(self.names, self.producers):
            sizes = [self.field('page_size_kb', page), self.field('shm_size_kb', page * self.pick(1, 2, 64))]
            if page == 4 and self.chance(.5):
                sizes = []
            blocks.append(self.block('producers', sizes + ([self.field('producer_name', f'"{name}"')] if name else [])))
        for target, _, names in self.sources:
            fields = [self.field('producer_name_filter', f'"{name}"') for name in names]
            own = [self.field('target_buffer', target)] if target or self.chance(.5) else []
            own += [self.field('name', f'"{self.random.choice(PROGRAMS)}"')] if self.chance(.7) else []
            fields.append(self.block('config', own)) if own or self.chance(.5) else None
            blocks.append(self.block('data_sources', fields))
        blocks += [self.random.choice(OTHER_FIELDS)] if self.chance(.3) else []
        if self.chance(.3) and len(self.buffers) < 2 and len(self.producers) < 2:
            self.random.shuffle(blocks)
        return self.pick('', self.gap()) + self.gap().join(blocks) + '\n'

    def odd_text(self) -> bytes:
        """The text with something wrong, mostly."""
        text = self.text()
        for _ in range(self.pick(1, 1, 2)):
            old, new = self.random.choice([pair for pair in TEXT_ODDS if pair[0] in text] or TEXT_ODDS)
            text = text.replace(old, new, 1)
        text += self.random.choice(TEXT_ENDS) if self.chance(.25) else ''
        data = text.encode('latin-1')
        return data[:self.random.randrange(len(data) + 1)] if self.chance(.1) else data

    # The frames

    def written(self, source: int) -> list[Chunk]:
        """What a writer of this source completes."""
        size = self.payload_of(source)
        words = ScenarioMaker(f'of a stream {self.random.random()}')
        words.depth = min(words.depth, 4)
        writer = Writer(source + 1, Spec(1, 1, 'drop', None), size, Claims(self.pick(2, 5, 40)), lambda: False)
        for _ in range(self.random.randrange(12)):
            writer.begin()
            for part in read_fields(words.fields(size, 0).encode()):
                writer.write(part)
            writer.finish()
            if self.chance(.4):
                writer.flush()
        writer.flush()
        return [chunk for _, chunk in writer.complete]

    def commit(self, source: int, chunk: Chunk) -> bytes:
        target = self.sources[source][0] + 1
        if self.chance(.03):
            target = self.random.randrange(len(self.buffers)) + 1
        payload = bytes(chunk.payload)
        payload = payload.rstrip(b'\0') if self.chance(.5) else payload
        head = chunk.count | chunk.flags << 10
        patches = b''.join(one.chunk_id.to_bytes(4, 'little') + one.offset.to_bytes(4, 'little') + one.bytes + bytes([one.last])
                           for one in chunk.patches)
        return (bytes([1, target]) + chunk.chunk_id.to_bytes(4, 'little') + (source + 1).to_bytes(2, 'little')
                + head.to_bytes(2, 'little') + bytes([len(chunk.patches)]) + patches + payload)

    def frames(self) -> list[bytes]:
        made = []
        for source in range(len(self.sources)):
            chunks = self.written(source) if self.chance(.8) else []
            chunks += [odd_chunk(self.random, self.payload_of(source)) for _ in range(self.pick(0, 0, 1, 4, 10))]
            made += [self.commit(source, chunk) for chunk in chunks]
        window = self.pick(1, 2, 5, 100)
        for at in range(0, len(made), window):
            some = made[at:at + window]
            self.random.shuffle(some)
            made[at:at + window] = some
        for _ in range(self.pick(0, 0, 1, 3) if self.buffers else 0):
            made.insert(self.random.randrange(len(made) + 1), bytes([2, self.random.randrange(len(self.buffers)) + 1]))
        return [*made, b'\x03']

    def odd_frames(self) -> list[bytes]:
        """Frames of which one isn't of its form, mostly."""
        frames = self.frames()
        at = self.random.randrange(len(frames))
        frames[at] = self.random.choice([b'', b'\x00', b'\x04', b'\x03\x00', b'\x03', b'\x02', b'\x02\x00', b'\x02\x09', b'\x02\x01\x01', b'\x01',
                                         frames[at] + bytes(self.pick(1, 400, 70000)), frames[at][:-1], edited(frames[at], self.random, b'\0\1\2\x11\xff')])
        return frames

    def make(self) -> bytes:
        text = self.odd_text() if self.chance(.3) else self.text().encode()
        frames = self.odd_frames() if self.chance(.2) else self.frames()
        stream = b''.join(len(frame).to_bytes(4, 'little') + frame for frame in frames)
        if self.chance(.1):
            stream = self.pick(stream[:self.random.randrange(len(stream))], edited(stream, self.random, bytes(range(256))), stream + b'\0')
        divider = b'==\n' if not text or text.endswith(b'\n') else b'\n==\n'
        return text + self.pick(*[divider] * 60, b'==', b'') + stream


def stream(seed: object) -> bytes:
    return StreamMaker(seed).make()
