"""Reads FORMATS, "Configuration text": the session that a text says, or its first fault.

A session is a scenario without lines: its sources are writers, each with a page of 14 chunks.
"""

import re
from collections import Counter
from dataclasses import dataclass, field
from typing import NoReturn

from model.forms import number_of
from model.geometry import record_size
from model.limits import BUFFER_KB, MOST_BUFFERS, MOST_PRODUCERS, MOST_WRITERS, PAGE_SIZES, PAGES
from model.scenario import Buffer, Producer, Refused, Scenario, Writer

KB = 1024
CHUNKS_OF_PAGE = 14
BLANKS = b' \t\r\n'
COMMENT = re.compile(rb'[\x00-\x09\x0b-\x7f]*')
NAME = re.compile(rb'[A-Za-z_][A-Za-z0-9_]*')
WORD = re.compile(rb'[A-Za-z0-9_.+-]+')
QUOTED = re.compile(rb'[ !#-\[\]-~]*')
NUMERAL = re.compile(rb'0|[1-9][0-9]*')
POLICIES = {b'RING_BUFFER': 'ring', b'DISCARD': 'discard'}


# The text, as fields

@dataclass
class Field:
    """A field, with the line of its name: `value` has a word or a quoted text, `inner` the fields of a block."""
    line: int
    name: bytes
    value: bytes = b''
    is_quoted: bool = False
    inner: list['Field'] | None = None


class Text:
    """A text, read from left to right."""

    def __init__(self, text: bytes):
        self.text = text
        self.at = 0
        self.line, self.counted = 1, 0      # the line of the place up to which line feeds were counted

    def line_here(self) -> int:
        self.line += self.text.count(b'\n', self.counted, self.at)
        self.counted = self.at
        return self.line

    def next_is(self, *these: bytes) -> bool:
        return self.text[self.at:self.at + 1] in these

    def at_end(self) -> bool:
        return self.at == len(self.text)

    def refuse(self) -> NoReturn:
        raise Refused(self.line_here(), 'bad text')

    def take(self, pattern: re.Pattern[bytes]) -> bytes:
        found = pattern.match(self.text, self.at)
        if not found:
            self.refuse()
        self.at = found.end()
        return found[0]

    def take_byte(self, byte: bytes) -> None:
        if not self.next_is(byte):
            self.refuse()
        self.at += 1

    def pass_gap(self) -> None:
        """Blanks and comments."""
        while not self.at_end():
            if self.text[self.at] in BLANKS:
                self.at += 1
            elif self.next_is(b'#'):
                self.take(COMMENT)
                if not self.at_end() and not self.next_is(b'\n'):
                    self.refuse()
            else:
                return

    def pass_separator(self) -> None:
        self.pass_gap()
        if self.next_is(b';', b','):
            self.at += 1

    def fields(self) -> list[Field]:
        """All fields of the text. Blocks may be as deep as it allows, so those that are open are a list."""
        open_blocks: list[list[Field]] = [[]]
        while True:
            self.pass_gap()
            if self.at_end() and len(open_blocks) == 1:
                return open_blocks[0]
            if self.next_is(b'}') and len(open_blocks) > 1:
                self.at += 1
                open_blocks.pop()
                self.pass_separator()
                continue
            one = self.field()
            open_blocks[-1].append(one)
            if one.inner is None:
                self.pass_separator()
            else:
                open_blocks.append(one.inner)

    def field(self) -> Field:
        """A field up to its value's end, or up to the begin of its block."""
        line, name = self.line_here(), self.take(NAME)
        self.pass_gap()
        has_colon = self.next_is(b':')
        if has_colon:
            self.at += 1
            self.pass_gap()
        if self.next_is(b'{'):
            self.at += 1
            return Field(line, name, inner=[])
        if not has_colon:
            self.refuse()
        if self.next_is(b'"'):
            self.at += 1
            text = self.take(QUOTED)
            self.take_byte(b'"')
            return Field(line, name, text, is_quoted=True)
        return Field(line, name, self.take(WORD))


# What its blocks say

def is_number(one: Field) -> bool:
    return one.inner is None and not one.is_quoted and NUMERAL.fullmatch(one.value) is not None


def is_policy(one: Field) -> bool:
    return one.inner is None and not one.is_quoted and one.value in POLICIES


def is_text(one: Field) -> bool:
    return one.inner is None and one.is_quoted


def is_block(one: Field) -> bool:
    """A block, in which each field of the table has a value of its kind."""
    kinds = KINDS[one.name]
    return one.inner is not None and all(kinds[inside.name](inside) for inside in one.inner if inside.name in kinds)


KINDS = {
    b'buffers': {b'size_kb': is_number, b'fill_policy': is_policy},
    b'producers': {b'producer_name': is_text, b'shm_size_kb': is_number, b'page_size_kb': is_number},
    b'data_sources': {b'config': is_block, b'producer_name_filter': is_text},
    b'config': {b'name': is_text, b'target_buffer': is_number},
}
MOST = {b'buffers': MOST_BUFFERS, b'producers': MOST_PRODUCERS, b'data_sources': MOST_WRITERS}


def values_of(fields: list[Field], name: bytes) -> list[bytes]:
    return [one.value for one in fields if one.name == name]


def last_number(fields: list[Field], name: bytes, absent: int | None) -> int | None:
    values = values_of(fields, name)
    return number_of(values[-1]) if values else absent


@dataclass(frozen=True)
class Memory:
    """The sizes of a producer's memory and of its pages."""
    kb: int = 256
    page_kb: int = 4

    def is_out_of_range(self) -> bool:
        return self.page_kb * KB not in PAGE_SIZES or self.kb % self.page_kb != 0 or self.kb // self.page_kb not in PAGES

    def producer(self) -> Producer:
        return Producer(self.kb // self.page_kb, self.page_kb * KB, CHUNKS_OF_PAGE)


def memory_of(block: Field) -> Memory:
    return Memory(last_number(block.inner, b'shm_size_kb', 256), last_number(block.inner, b'page_size_kb', 4))


def target_of(source: Field) -> int:
    """The place of a source's buffer, by the fields of all its blocks `config`."""
    return last_number([one for config in source.inner if config.name == b'config' for one in config.inner], b'target_buffer', 0)


@dataclass
class Blocks:
    """The blocks of a text that count, in their order, and those of each name."""
    all: list[Field]
    of: dict[bytes, list[Field]] = field(default_factory=dict)

    def __post_init__(self):
        self.of = {name: [one for one in self.all if one.name == name] for name in MOST}

    def producer_of(self, source: Field) -> int:
        """The place of a source's producer: the first one that its filter names, or the first of all."""
        entries = set(values_of(source.inner, b'producer_name_filter')) - {b''}
        for place, block in enumerate(self.of[b'producers']):
            if (values_of(block.inner, b'producer_name') or [b''])[-1] in entries:
                return place
        return 0

    def memory_for(self, source: Field) -> Memory | None:
        """What a source's producer has; none where no producer can be looked up, or its sizes are at fault."""
        producers = self.of[b'producers']
        if not all(map(is_block, producers)):
            return None
        memory = memory_of(producers[self.producer_of(source)]) if producers else Memory()
        return None if memory.is_out_of_range() else memory

    def has_larger_chunks(self, source: Field) -> bool:
        buffer, memory = self.of[b'buffers'][target_of(source)], self.memory_for(source)
        kb = last_number(buffer.inner, b'size_kb', None) if is_block(buffer) else None
        return kb is not None and memory is not None and record_size(memory.producer().payload()) > kb * KB

    def reason_against(self, block: Field, before: int) -> str | None:
        """Why a block is refused that has so many of its name before it, if it is."""
        name = block.name
        if not is_block(block):
            return 'wrong kind'
        if name == b'buffers' and not values_of(block.inner, b'size_kb'):
            return 'missing size'
        if name == b'buffers' and last_number(block.inner, b'size_kb', None) not in BUFFER_KB:
            return 'out of range'
        if name == b'producers' and memory_of(block).is_out_of_range():
            return 'out of range'
        if before >= MOST[name]:
            return 'too many'
        if name == b'data_sources' and target_of(block) >= len(self.of[b'buffers']):
            return 'no such buffer'
        if name == b'data_sources' and self.has_larger_chunks(block):
            return 'chunk larger than buffer'
        return None

    def session(self) -> Scenario:
        buffers = [Buffer(last_number(one.inner, b'size_kb', None), POLICIES[(values_of(one.inner, b'fill_policy') or [b'RING_BUFFER'])[-1]])
                   for one in self.of[b'buffers']]
        producers = [memory_of(one).producer() for one in self.of[b'producers']] or [Memory().producer()]
        sources = [Writer(self.producer_of(one) + 1, target_of(one) + 1, 'drop', None) for one in self.of[b'data_sources']]
        return Scenario(buffers, producers, sources)


def read_config(text: bytes) -> Scenario:
    """The session that a text says; else its first fault."""
    blocks = Blocks([one for one in Text(text).fields() if one.name in MOST])
    before: Counter[bytes] = Counter()
    for block in blocks.all:
        reason = blocks.reason_against(block, before[block.name])
        if reason:
            raise Refused(block.line, reason)
        before[block.name] += 1
    return blocks.session()
