"""Reads FORMATS, "Chunk" and the claims of "Page": chunks as writers fill them, their fragments, and who has which chunk."""

from dataclasses import dataclass, field

from model.geometry import RUNS_ON, CONTINUES, AWAITS
from model.wire import DROP_SIZE, HOLE

MOST_FRAGMENTS = 1_023
SIZE = 4                    # bytes of a fragment's size, as writers write it


IDS = 2 ** 32               # a chunk's id is below this


def id_of(first_id: int, position: int) -> int:
    """The id of the chunk at this position of a sequence, whose first chunk has that id."""
    return (first_id + position) % IDS


def position_of(first_id: int, chunk_id: int) -> int:
    return (chunk_id - first_id) % IDS


class Unreadable(Exception):
    """The number of the first fragment that can't be read, from 0."""


@dataclass(frozen=True)
class Patch:
    """Four bytes that a writer sends later, and whether they are the last ones for their chunk."""
    chunk_id: int
    offset: int
    bytes: bytes
    last: bool


@dataclass(frozen=True)
class Fragment:
    """Where a fragment's bytes lie in the payload."""
    offset: int
    end: int
    dropped: bool = False       # it has the drop mark: its writer couldn't write the rest


@dataclass
class Chunk:
    """A chunk as the service takes it, or a part of it."""
    chunk_id: int
    count: int
    flags: int
    payload: bytearray
    patches: list[Patch] = field(default_factory=list)

    def continues(self) -> bool:
        return bool(self.flags & CONTINUES)

    def runs_on(self) -> bool:
        return bool(self.flags & RUNS_ON)

    def awaits(self) -> bool:
        return bool(self.flags & AWAITS)

    def filled(self, size: int) -> 'Chunk':
        """With a payload of this size: zeros stand behind what is given."""
        return Chunk(self.chunk_id, self.count, self.flags, bytearray(self.payload.ljust(size, b'\0')), self.patches)

    def first_fragments(self, count: int) -> 'Chunk':
        """The part that a scrape takes, which says nothing of the last fragment."""
        return Chunk(self.chunk_id, count, self.flags & CONTINUES, bytearray(self.payload))


def read_size(payload: bytes, at: int) -> tuple[int, int]:
    """A size of one to four bytes, and the place behind it."""
    size = 0
    for i, byte in enumerate(payload[at:at + SIZE]):
        size |= (byte & 127) << 7 * i
        if byte < 128:
            return size, at + i + 1
    raise ValueError('no size')


def read_fragments(payload: bytes, count: int) -> list[Fragment]:
    """So many fragments of a payload; of none the first is missing."""
    if count == 0:
        raise Unreadable(0)
    fragments, at = [], 0
    for number in range(count):
        try:
            size, offset = read_size(payload, at)
        except ValueError:
            raise Unreadable(number) from None
        is_last = number == count - 1
        if size == DROP_SIZE and is_last:
            fragments.append(Fragment(offset, len(payload), dropped=True))
        elif size != DROP_SIZE and offset + size <= len(payload):
            at = offset + size
            fragments.append(Fragment(offset, at))
        else:
            raise Unreadable(number)
    return fragments


@dataclass
class Hole:
    """A nested length whose message goes on: its chunk and its place in the payload."""
    chunk_id: int
    offset: int
    size: int = 0               # bytes of the message so far


class HeldChunk:
    """A chunk that a writer fills."""

    def __init__(self, slot: int, chunk_id: int, payload_size: int, continues: bool):
        self.slot, self.chunk_id, self.continues = slot, chunk_id, continues
        self.payload = bytearray(payload_size)
        self.at = 0             # where the next byte goes
        self.count = 0
        self.fragment_at = 0    # where the size of the last fragment stands

    def left(self) -> int:
        return len(self.payload) - self.at

    def start_fragment(self) -> None:
        self.count += 1
        self.fragment_at = self.at
        self.put(HOLE)

    def put(self, data: bytes) -> None:
        self.payload[self.at:self.at + len(data)] = data
        self.at += len(data)

    def put_at(self, at: int, data: bytes) -> None:
        self.payload[at:at + len(data)] = data

    def size_of_fragment(self) -> int:
        return self.at - self.fragment_at - SIZE

    def as_chunk(self, flags: int, patches: list[Patch]) -> Chunk:
        return Chunk(self.chunk_id, self.count, flags | (CONTINUES if self.continues else 0), self.payload, patches)


class Claims:
    """The chunks of a producer: which of them are claimed."""

    def __init__(self, chunks: int):
        self.claimed = [False] * chunks

    def claim(self) -> int | None:
        """The first free chunk, in rising order of pages and chunks; none where all are claimed."""
        for slot, claimed in enumerate(self.claimed):
            if not claimed:
                self.claimed[slot] = True
                return slot
        return None

    def release(self, slot: int) -> None:
        self.claimed[slot] = False
