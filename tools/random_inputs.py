"""Random inputs: scenarios, broken ones, traces of any fields, damaged ones, checks of both, and chunks that no writer made. Each follows from a seed."""

import random

from model.chunks import Chunk, Patch, id_of
from model.geometry import payload_size, record_size
from model.limits import MOST_NUMBER
from model.wire import DROP_MARK, MARK, four_bytes, number_field, record, tag, varint

PAGES = [(1, 4096, 1), (1, 4096, 1), (2, 4096, 1), (3, 4096, 1), (1, 4096, 2), (2, 4096, 2), (1, 4096, 4), (1, 4096, 7), (1, 4096, 14),
         (1, 4096, 14), (2, 4096, 14), (1, 8192, 14), (1, 8192, 7), (1, 12288, 4), (1, 65536, 14), (2, 65536, 1), (64, 4096, 14)]
KILOBYTES = [4, 4, 4, 5, 6, 8, 8, 9, 16, 64, 128]
FIELDS = [1, 1, 2, 8, 15, 16, 900, 2047, 2048, 536870911]
NUMBERS = [0, 1, 127, 128, 300, 16383, 16384, 2 ** 32, 2 ** 63, MOST_NUMBER]
ODD_LINES = [
    b'', b'# a comment', b'#\xff\x00', b' ', b'p', b'p ', b'p 1 ', b'p  1', b'a 1', b'a 1 ', b'b 1', b'e 1', b'u 1', b'f 1', b'f 1 ',
    b'n 1 0', b'n 1 01', b'n 1 10', b'n 1 536870912', b'n 1 99999999999999999999999', b'n 1 900', b'q', b'q ', b'x 1', b'x 2', b'c 1',
    b'c 0', b'c 17', b's 1', b'r 1', b'r 1 0', b'r 1 1', b'r 1 18446744073709551615', b'r 1 18446744073709551616', b'r 99 1', b'r 9',
    b'buffer 4 ring', b'buffer 3 ring', b'buffer 65536 discard', b'buffer 65537 ring', b'buffer 4 Ring', b'buffer 04 ring',
    b'producer 1 4096 3', b'producer 65 4096 1', b'producer 1 4097 1', b'producer 0 4096 1', b'producer 1 69632 14',
    b'producer 1 65536 1', b'writer 1 1 drop', b'writer 1 1 drop ', b'writer 1 1 stall', b'writer 2 1 drop', b'writer 1 9 drop',
    b'writer 18446744073709551616 1 drop', b'writer 1 1 keep', b'writer 0 0 drop', b'writer 1 1 drop from 0', b'writer 1 1 stall:2 from 4294967295', b'writer 1 1 drop from 4294967296',
    b'writer 1 1 drop from', b'writer 1 1 drop from 01', b'writer 1 1 from 1', b'writer 1 1 drop from 1 1', b'p 0', b'p 65', b'p 18446744073709551616', b'p 1 8:',
    b'p 1 8:1 ', b'p 1 8:1  9:1', b'p 1 8:01', b'p 1 0:1', b'p 1 536870912:1', b'p 1 8:18446744073709551616',
    b'p 1 8:18446744073709551615', b'p 1 10:5', b'p 1 1{10:5}', b'p 1 3{1:1}', b'p 1 79:"x"', b'p 1 1:"', b'p 1 1:"\x7f"', b'p 1 1:"\\"',
    b'p 1 1:"a"*0', b'p 1 1:"a"*1048577', b'p 1 1:"a"*', b'p 1 1:"a"*01', b"p 1 1:x'", b"p 1 1:x'0'", b"p 1 1:x'0G'", b"p 1 1:x'00FF'",
    b"p 1 1:x''", b'p 1 1{', b'p 1 1{}', b'p 1 1{ }', b'p 1 1{1:1 }', b'p 1 1{}}', b'p 1 1{}{}', b'p 1 ' + b'1{' * 16 + b'}' * 16,
    b'p 1 ' + b'1{' * 17 + b'}' * 17, b'p 1 ' + b'1{' * 40, b'a 1 ' + b'1{' * 9 + b'}' * 9, b'p 1 1:"x"*1048572', b'p 1 1:"x"*1048573',
    b'p 1 1:""*1048576', b'p 1 8:1\r', b'\xef\xbb\xbfp 1', b'p\t1', b'P 1', b'==', b'k 1', b'k 1', b'k 2', b'k 0', b'k 9',
    b'k 18446744073709551616', b'k 1 1', b'k', b'raw 1 1', b"raw 1 0 1 0 1 x''", b"raw 1 0 1 0 1 x'024005'", b"raw 1 0 1 0 1 x'0'",
    b"raw 1 0 1 0 1 x'02400A'", b"raw 1 0 1 0 1 x'024005", b"raw 1 0 1 0 1 '024005'", b"raw  1 0 1 0 1 x'00'", b"raw 1 0 1 0 1 x'00' ", b"raw 1 0 1 0 1 x'00' 0 0 x'00000000' more",
    b"raw 1 0 1 0 1 x'00' 0 0 x'00000000' last", b"raw 1 0 1 0 1 x'00' 0 0 x'000000' last", b"raw 1 0 1 0 1 x'00' 0 0 x'0000000000' last", b"raw 1 0 1 0 1 x'00' 0 0 x'00000000'",
    b"raw 1 0 1 0 1 x'00' 0 0 x'00000000' Last", b"raw 1 0 1 0 1 x'00' 4294967296 0 x'00000000' last", b"raw 1 4294967296 1 0 1 x'00'", b"raw 1 4294967295 1 0 1 x'00'", b"raw 1 0 1024 0 1 x'00'",
    b"raw 1 0 1023 63 1 x'00'", b"raw 1 0 1 64 1 x'00'", b"raw 0 0 1 0 1 x'00'", b"raw 65 0 1 0 9 x'00'", b"raw 1 0 1 0 9 x'00'", b"raw 1 0 1 0 300 x'00'", b"raw 1 00 1 0 1 x'00'",
    b"raw 1 0 1 0 18446744073709551616 x'00'", b"raw 1 0 1 0 1 x'" + b'00' * 5000 + b"'", b'raw', b'p -1', b'p +1', b'p 1 8:-1',
]
ODD_BYTES = b'\x00\n\r\t "#\'*+-0159:=ABZ\\abcnpqrswx{}\x7f\x80\xff'


class ScenarioMaker:
    """A random scenario, line by line."""

    def __init__(self, seed: object, tries: bool = True, kinds: str = 'csrxq'):
        self.random = random.Random(f'scenario {seed}')
        self.tries, self.kinds = tries, kinds
        self.lines: list[str] = []
        self.writers: list[tuple[int, int]] = []        # producer and payload
        self.open: dict[int, int] = {}                  # how many messages are open in the packet of a writer
        self.closed: set[int] = set()
        self.depth = self.random.choice([2, 2, 3, 15])   # of nested messages in FIELDS

    def pick(self, *choices):
        return self.random.choice(choices)

    def chance(self, of: float) -> bool:
        return self.random.random() < of

    def set_up(self) -> None:
        pick, is_wide = self.random.choice, self.chance(.03)
        self.buffers = [pick(KILOBYTES) for _ in range(8 if is_wide else self.pick(1, 1, 1, 2, 3))]
        self.producers = [pick(PAGES) for _ in range(16 if is_wide else self.pick(1, 1, 2, 3))]
        for kb in self.buffers:
            self.lines.append(f'buffer {kb} {self.pick("ring", "ring", "discard")}')
        for producer in self.producers:
            self.lines.append('producer {} {} {}'.format(*producer))
        for _ in range(64 if is_wide else self.pick(1, 1, 2, 2, 3, 5)):
            producer, buffer = self.random.randrange(len(self.producers)), self.random.randrange(len(self.buffers))
            self.add_writer(producer, buffer, self.policy())

    def add_writer(self, producer: int, buffer: int, policy: str) -> bool:
        _, page_size, chunks = self.producers[producer]
        payload = payload_size(page_size, chunks)
        if record_size(payload) > self.buffers[buffer] * 1024:
            return False
        self.lines.append(f'writer {producer + 1} {buffer + 1} {policy}{self.first_id()}')
        self.writers.append((producer + 1, payload))
        return True

    def policy(self) -> str:
        if self.tries and self.chance(.2):
            return f'stall:{self.pick(1, 1, 2, 3, 1000000)}'
        return self.pick('drop', 'drop', 'stall')

    def first_id(self) -> str:
        """Now and then an id, most often one that few chunks bring to the last one."""
        if not self.chance(.3):
            return ''
        return f' from {self.pick(0, 1, 2 ** 31, 2 ** 32 - 5, 2 ** 32 - 2, 2 ** 32 - 1, self.random.randrange(2 ** 32))}'

    # Fields

    def number(self) -> int:
        return self.random.choice(NUMBERS) if self.chance(.7) else self.random.randrange(2 ** self.pick(7, 14, 32, 64))

    def text(self, payload: int) -> str:
        """A text, often of a length with which chunks end near."""
        near = payload * self.pick(0, 0, 1, 1, 2, 3, 5) + self.random.randrange(-40, 40)
        length = max(0, near) if self.chance(.4) else self.random.randrange(self.pick(1, 4, 20, 300))
        if self.chance(.15):
            return "x'" + self.random.randbytes(length % 40).hex() + "'"
        if length > 30 or self.chance(.1):
            return f'"{self.pick("x", "x", "ab", "a b c")}"*{max(1, length)}'
        return '"' + ''.join(self.random.choices('abc XYZ#{}:~', k=length)) + '"'

    def fields(self, payload: int, depth: int) -> str:
        made = []
        for _ in range(self.pick(1, 1, 1, 2, 3)):
            field, roll = self.random.choice(FIELDS), self.random.random()
            if roll < .4:
                made.append(f'{field}:{self.number()}')
            elif roll < .75 or depth >= self.depth:
                made.append(f'{field}:{self.text(payload)}')
            else:
                made.append(f'{field}{{{self.fields(payload, depth + 1) if self.chance(.9) else ""}}}')
        return ' '.join(made)

    # Lines

    def line_of_service(self) -> None:
        kind = self.random.choices('csrxq', (8, 6, 6, .6, 3))[0]
        if kind not in self.kinds:
            return
        if kind == 'r':
            limit = f' {self.pick(1, 1, 2, 3, 10, MOST_NUMBER)}' if self.chance(.5) else ''
            self.lines.append(f'r {self.random.randrange(len(self.buffers)) + 1}{limit}')
        elif kind == 'q':
            self.lines.append('q')
        else:
            producer = self.random.randrange(len(self.producers)) + 1
            if producer in self.closed:
                return
            self.lines.append(f'{kind} {producer}')
            if kind == 'x':
                self.closed.add(producer)

    def line_of_writer(self) -> None:
        number = self.random.randrange(len(self.writers)) + 1
        producer, payload = self.writers[number - 1]
        if producer in self.closed:
            return
        if number not in self.open:
            self.outside(number, payload)
        else:
            self.inside(number, payload)

    def outside(self, number: int, payload: int) -> None:
        roll = self.random.random()
        if roll < .2:
            self.lines.append(f'f {number}')
        elif roll < .7:
            self.lines.append(f'p {number} {self.fields(payload, 0)}' if self.chance(.95) else f'p {number}')
        else:
            self.lines.append(f'b {number}')
            self.open[number] = 0

    def inside(self, number: int, payload: int) -> None:
        depth, roll = self.open[number], self.random.random()
        if roll < .35:
            self.lines.append(f'a {number} {self.fields(payload, depth)}')
        elif roll < .65 and depth < 16:
            self.lines.append(f'n {number} {self.random.choice(FIELDS)}')
            self.open[number] += 1
        elif depth:
            self.lines.append(f'u {number}')
            self.open[number] -= 1
        else:
            self.lines.append(f'e {number}')
            del self.open[number]

    def end(self) -> None:
        """Packets that are begun are ended, mostly."""
        for number, depth in self.open.items():
            if self.writers[number - 1][0] not in self.closed and self.chance(.99):
                self.lines += [f'u {number}'] * depth + [f'e {number}']

    def make(self, most: int = 80) -> bytes:
        self.set_up()
        for _ in range(self.random.randrange(most)):
            if self.chance(.03):
                self.lines.append(self.pick('', '# says nothing'))
            if self.chance(.22) or not self.writers:
                self.line_of_service()
            else:
                self.line_of_writer()
        self.end()
        return ''.join(f'{line}\n' for line in self.lines).encode()


def scenario(seed: object, tries: bool = True, kinds: str = 'csrxq') -> bytes:
    return ScenarioMaker(seed, tries, kinds).make()


class CloneMaker(ScenarioMaker):
    """A scenario whose lines make clones of its buffers, now and then one too many."""

    def __init__(self, seed: object, tries: bool = True):
        super().__init__(f'clones {seed}', tries)
        self.clones = self.pick(1, 1, 2, 3, 4, 4) if self.chance(.98) else 5

    def line_of_service(self) -> None:
        if self.clones and self.chance(.3):
            self.clones -= 1
            self.lines.append(f'k {self.random.randrange(len(self.buffers)) + 1}')
        else:
            super().line_of_service()


def with_clones(seed: object, tries: bool = True) -> bytes:
    return CloneMaker(seed, tries).make()


class SettledMaker(ScenarioMaker):
    """A scenario whose outcome under `run` no thread decides: each producer has one writer, nothing is taken before the end but by a
    writer's own asks, and such a writer has its buffer for itself."""

    def __init__(self, seed: object, tries: bool = True):
        super().__init__(f'settled {seed}', tries, 'r')

    def set_up(self) -> None:
        count = self.pick(1, 1, 2, 3, 4)
        self.buffers = [self.random.choice(KILOBYTES) for _ in range(count + 1)]
        self.producers = [self.random.choice(PAGES) for _ in range(count)]
        for kb in self.buffers:
            self.lines.append(f'buffer {kb} {self.pick("ring", "ring", "discard")}')
        for producer in self.producers:
            self.lines.append('producer {} {} {}'.format(*producer))
        for producer in range(count):
            policy = self.policy()
            # (the last buffer is shared by those that never ask)
            self.add_writer(producer, count if policy == 'drop' and self.chance(.5) else producer, policy)

    def line_of_service(self) -> None:
        """Reads of the buffer into which nothing comes before the end."""
        self.lines.append(f'r {len(self.buffers)}' + (' 1' if self.chance(.5) else ''))


def settled(seed: object, tries: bool = True) -> bytes:
    return SettledMaker(seed, tries).make()


CONTENTS = [b'', b'\x40\x05', b'\x08\x80\x01', b'\x50\x05', b'\x0b', b'\x40', MARK, MARK + b'\x40\x07', b'\x0a\x03abc', b'\x0a\x09abc', b'\x92\x03\x00']


def odd_chunk(chooser: random.Random, size: int, first_id: int = 0) -> Chunk:
    """A chunk for payloads of this size that no writer made so."""
    chunk_id = chooser.choice([0, 0, 1, 1, 2, 3, 4, chooser.randrange(12), 1023, 1024, 2 ** 32 - 1])
    contents = chooser.choices(CONTENTS, k=chooser.choice([1, 1, 1, 2, 3]))
    payload = b''.join(chooser.choice((four_bytes, varint))(len(content)) + content for content in contents)
    count = len(contents)
    if chooser.random() < .15:
        payload, count = payload + DROP_MARK, count + 1
    count += chooser.choice([0, 0, 0, 0, 1, -1, 1023 - count])
    patches = [Patch(id_of(first_id, chooser.choice([chunk_id, 0, 1, 2])), chooser.choice([0, 1, 4, 5, chooser.randrange(40), size - 4, 2 ** 32 - 1]),
                     chooser.randbytes(4), chooser.random() < .6) for _ in range(chooser.choice([0, 0, 0, 1, 2, 16]))]
    flags = chooser.choice([0, 0, 0, 1, 2, 2, 3, 4, 6, 7, 63])
    return Chunk(id_of(first_id, chunk_id), count, flags, bytearray(payload[:size]), patches)


def raw_line(writer: int, target: int, chunk: Chunk) -> str:
    """The line `raw` of a chunk, with the first of its patches."""
    line = f"raw {writer} {chunk.chunk_id} {chunk.count} {chunk.flags} {target} x'{bytes(chunk.payload).hex()}'"
    for patch in chunk.patches[:1]:
        line += f" {patch.chunk_id} {patch.offset} x'{patch.bytes.hex()}' {'last' if patch.last else 'more'}"
    return line


class RawMaker(ScenarioMaker):
    """A scenario in which chunks are committed in the names of some of its writers."""

    def __init__(self, seed: object, tries: bool = True):
        super().__init__(f'raws {seed}', tries, 'csrxqk' if self.is_cloned(seed) else 'csrxq')
        self.first_ids: list[int] = []
        self.targets: list[int] = []

    @staticmethod
    def is_cloned(seed: object) -> bool:
        return isinstance(seed, int) and seed % 5 == 4

    def add_writer(self, producer: int, buffer: int, policy: str) -> bool:
        added = super().add_writer(producer, buffer, policy)
        if added:
            words = self.lines[-1].split()
            self.first_ids.append(int(words[-1]) if 'from' in words else 0)
            self.targets.append(buffer + 1)
        return added

    def line_of_service(self) -> None:
        if 'k' in self.kinds and self.chance(.05) and sum(line.startswith('k ') for line in self.lines) < 4:
            self.lines.append(f'k {self.random.randrange(len(self.buffers)) + 1}')
        elif self.writers and self.chance(.6):
            self.commit(min(self.random.randrange(len(self.writers)), self.random.randrange(len(self.writers))))
        else:
            super().line_of_service()

    def commit(self, place: int) -> None:
        producer, payload = self.writers[place]
        if producer in self.closed:
            return
        target = self.targets[place] if self.chance(.95) else self.random.randrange(len(self.buffers)) + 1
        self.lines.append(raw_line(place + 1, target, odd_chunk(self.random, payload, self.first_ids[place])))


def with_raws(seed: object, tries: bool = True) -> bytes:
    return RawMaker(seed, tries).make()


def edited(data: bytes, chooser: random.Random, odd: bytes) -> bytes:
    """A byte more, less or other."""
    at, byte = chooser.randrange(len(data) + 1), bytes([chooser.choice(odd)])
    return data[:at] + chooser.choice([byte, b'', byte]) + data[at + chooser.choice([0, 1, 1]):]


def broken(seed: object, tries: bool = True) -> bytes:
    """A scenario with something wrong, mostly."""
    chooser = random.Random(f'broken {seed}')
    lines = scenario(seed, tries).split(b'\n')
    for _ in range(chooser.choice([1, 1, 2, 4])):
        way, at = chooser.randrange(5), chooser.randrange(len(lines))
        if way <= 1:
            lines.insert(at, chooser.choice(ODD_LINES))
        elif way == 2:
            lines[at] = edited(lines[at], chooser, ODD_BYTES)
        elif way == 3:
            lines.insert(at, chooser.choice(lines))
        else:
            del lines[at]
            lines = lines or [b'']
    text = b'\n'.join(lines)
    return text if chooser.random() < .95 else text[:chooser.randrange(len(text) + 1)]


def long_varint(chooser: random.Random, number: int) -> bytes:
    """A varint that is now and then longer than it needs to be."""
    short = varint(number)
    more = chooser.choice([0] * 60 + [1, 3, 10 - len(short)] * 4 + [11 - len(short)])
    return short if more <= 0 else bytes([*short[:-1], short[-1] | 128, *[128] * (more - 1), 0])


def any_fields(chooser: random.Random, most: int, top: bool) -> bytes:
    """Fields of a trace, or of a record's content."""
    made = b''
    for _ in range(chooser.randrange(most)):
        field = chooser.choice([1, 1, 1, 2, 900] if top else [8, 10, 10, 10, 42, 42, 900, 1])
        wire = chooser.choice([2] * 12 + [0, 1, 5]) if top else chooser.choice([0] * 12 + [1, 2, 5])
        if chooser.random() < .005:
            field, wire = chooser.choice([0, field, 536870911, 536870912, 2 ** 61 - 1]), chooser.choice([0, 3, 4, 6, 7])
        value = {0: lambda: long_varint(chooser, chooser.choice([0, 1, 2, 2, 3, 64, 300, MOST_NUMBER])), 1: lambda: chooser.randbytes(8),
                 5: lambda: chooser.randbytes(4)}.get(wire, lambda: b'')
        content = any_fields(chooser, 6, False) if top else chooser.randbytes(chooser.randrange(5))
        made += long_varint(chooser, 8 * field + wire) + (long_varint(chooser, len(content)) + content if wire == 2 else value())
    return made


def trace(seed: object) -> bytes:
    return any_fields(random.Random(f'trace {seed}'), 12, True)


def damaged(seed: object, data: bytes) -> bytes:
    """A trace with some bytes more, less or other, or cut short."""
    chooser = random.Random(f'damaged {seed}')
    for _ in range(chooser.choice([1, 1, 2, 5])):
        data = edited(data, chooser, bytes(range(256)))
    return data if chooser.random() < .8 else data[:chooser.randrange(len(data) + 1)]


def spoilt(seed: object, records: list, sequences: int) -> bytes:
    """A trace of these records with one of them wrong, or none."""
    chooser = random.Random(f'spoilt {seed}')
    pieces = [one.bytes for one in records]
    for _ in range(chooser.choice([0, 1, 1, 2])):
        if not pieces:
            break
        at, way = chooser.randrange(len(pieces)), chooser.randrange(7)
        if way == 0:
            del pieces[at]
        elif way == 1:
            pieces.insert(chooser.randrange(len(pieces) + 1), pieces[at])
        elif way == 2:
            pieces[at] = edited(pieces[at], chooser, bytes(range(256)))
        elif way == 3:
            pieces.insert(at, record(b'', chooser.randrange(sequences + 3), chooser.random() < .5))
        elif way == 4:
            pieces.insert(at, tag(7, 0) + varint(300))
        else:
            pieces[at] = remarked(pieces[at], records[at] if at < len(records) else None, way == 5)
    return b''.join(pieces)


def remarked(piece: bytes, told, front: bool) -> bytes:
    """The record with a mark more or less, in front or behind."""
    if told is None or told.bytes != piece:
        return piece
    tail = number_field(10, told.sequence)
    marked = told.content.endswith(tail + MARK)
    body = told.content[:-len(tail + MARK if marked else tail)]
    if front:
        body = body[len(MARK):] if body.startswith(MARK) else MARK + body
    return record(body, told.sequence, marked != (not front))


# Streams
