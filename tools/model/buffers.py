"""Reads FORMATS, "Arrival", and the counts of "Report": a buffer, its records, and what is lost where a new record comes.

Chunks and patches come with ids, which are turned into positions where they come in.
"""

from collections import deque
from dataclasses import dataclass, field, replace

from model.chunks import Chunk, Fragment, Patch, Unreadable, position_of, read_fragments
from model.limits import raised

IDS_AHEAD = 1_024           # a chunk so far above the least missing one is refused

KEPT, REWRITTEN, DUPLICATE, TOO_FAR, DISCARDED, BAD_CHUNK = 'kept', 'rewritten', 'duplicate', 'too far', 'discarded', 'bad chunk'


@dataclass
class Record:
    """What a buffer has of a chunk, and where it lies."""
    sequence: 'Sequence'
    position: int
    at: int
    chunk: Chunk
    fragments: list[Fragment]
    partial: bool
    awaits: bool

    def end(self) -> int:
        return self.at + self.sequence.record_size


@dataclass
class Sequence:
    """What a buffer knows of a sequence."""
    number: int
    record_size: int
    first_id: int = 0
    live: dict[int, Record] = field(default_factory=dict)
    arrived: set[int] = field(default_factory=set)      # positions above the least missing one
    least_missing: int = 0
    cursor: tuple[int, int] = (0, 0)        # a chunk's position, and how many of its fragments were passed
    closed: bool = False
    final: set[int] = field(default_factory=set)        # positions of which a part was live when it was closed
    end: int = 0                            # behind the last position of which there ever was something, once it is closed
    missing: bool = False                   # something was passed since the last delivery
    delivered: int = 0
    dropped: int = 0
    lost: int = 0
    cut: int = 0

    def placed(self, named: Chunk | Patch) -> Chunk | Patch:
        """The same with the chunk's position in place of its id."""
        return replace(named, chunk_id=position_of(self.first_id, named.chunk_id))

    def has_arrived(self, position: int) -> bool:
        return position < self.least_missing or position in self.arrived

    def note_arrival(self, position: int, count: int) -> None:
        self.arrived.add(position)
        while self.least_missing in self.arrived:
            self.arrived.remove(self.least_missing)
            self.least_missing += 1
        if self.cursor[0] == position and self.cursor[1] >= count:
            self.cursor = (position + 1, 0)

    def unread(self, position: int, count: int) -> int:
        """How many of so many fragments of a chunk the cursor hasn't passed."""
        if position < self.cursor[0]:
            return 0
        return max(0, count - self.cursor[1]) if position == self.cursor[0] else count

    def unread_starts(self, position: int, count: int, continues: bool) -> int:
        """How many packets begin in these."""
        unread = self.unread(position, count)
        return unread - 1 if continues and unread == count else unread

    def close(self) -> None:
        self.closed = True
        self.final = {position for position, record in self.live.items() if record.partial}
        self.end = max(self.least_missing, *(position + 1 for position in self.arrived | self.final), 0)


class TraceBuffer:
    """A buffer of so many bytes."""

    def __init__(self, size: int, policy: str):
        self.size, self.policy = size, policy
        self.sequences: dict[int, Sequence] = {}
        self.next = 0                   # the write place
        # In the order in which they got their places: what a new record meets is in front, since it lies next round the ring.
        self.live: deque[Record] = deque()
        self.shut = False               # a record was discarded, and so is each that needs a new place
        self.placed = self.rewritten = self.overwritten = self.discarded = self.unpatched = self.padding = 0

    def add_sequence(self, number: int, record_size: int, first_id: int = 0) -> None:
        self.sequences[number] = Sequence(number, record_size, first_id)

    # What comes

    def arrive(self, number: int, chunk: Chunk) -> str:
        """A complete chunk arrives."""
        return self.arrive_placed(number, self.sequences[number].placed(chunk))

    def arrive_partial(self, number: int, chunk: Chunk) -> str:
        """A part of a chunk arrives, which its writer still holds."""
        return self.arrive_partial_placed(number, self.sequences[number].placed(chunk))

    def patch(self, number: int, patch: Patch) -> bool:
        """Puts a late length in, where a record awaits it there."""
        return self.patch_placed(number, self.sequences[number].placed(patch))

    def arrive_placed(self, number: int, chunk: Chunk) -> str:
        sequence = self.sequences[number]
        try:
            fragments = read_fragments(chunk.payload, chunk.count)
        except Unreadable:
            return BAD_CHUNK
        if sequence.has_arrived(chunk.chunk_id):
            return DUPLICATE
        if chunk.chunk_id >= sequence.least_missing + IDS_AHEAD:
            return TOO_FAR
        outcome = self.settle(sequence, chunk, fragments, partial=False)
        sequence.note_arrival(chunk.chunk_id, chunk.count)
        return outcome

    def arrive_partial_placed(self, number: int, chunk: Chunk) -> str:
        sequence = self.sequences[number]
        try:
            fragments = read_fragments(chunk.payload, chunk.count)
        except Unreadable:
            return BAD_CHUNK
        held = sequence.live.get(chunk.chunk_id)
        if sequence.has_arrived(chunk.chunk_id) or sequence.unread(chunk.chunk_id, chunk.count) == 0:
            return DUPLICATE
        if held and len(held.fragments) >= chunk.count:
            return DUPLICATE
        if chunk.chunk_id >= sequence.least_missing + IDS_AHEAD:
            return TOO_FAR
        return self.settle(sequence, chunk, fragments, partial=True)

    def settle(self, sequence: Sequence, chunk: Chunk, fragments: list[Fragment], partial: bool) -> str:
        """A chunk, or a part of one, gets a place or none."""
        awaits = chunk.awaits() and not partial
        held = sequence.live.get(chunk.chunk_id)
        if held:
            held.chunk, held.fragments, held.partial, held.awaits = chunk, fragments, partial, awaits
            self.rewritten = raised(self.rewritten)
            return REWRITTEN
        if self.refuses(sequence.record_size):
            self.shut = True
            if not partial:
                self.discarded = raised(self.discarded)
                sequence.lost = raised(sequence.lost, sequence.unread_starts(chunk.chunk_id, chunk.count, chunk.continues()))
            return DISCARDED
        at = self.make_room(sequence.record_size)
        record = Record(sequence, chunk.chunk_id, at, chunk, fragments, partial, awaits)
        self.live.append(record)
        sequence.live[chunk.chunk_id] = record
        self.placed = raised(self.placed)
        return KEPT

    # Places

    def place_for(self, size: int) -> tuple[int, int]:
        """Where a next record goes, and the padding before it."""
        if self.next + size <= self.size:
            return self.next, 0
        return 0, self.size - self.next

    def meets(self, record: Record, size: int) -> bool:
        """A next record of this size, or its padding, has a byte in common with this one."""
        at, padding = self.place_for(size)
        over = max(at, record.at) < min(at + size, record.end())
        return over or max(self.next, record.at) < min(self.next + padding, record.end())

    def is_unread(self, record: Record) -> bool:
        return record.sequence.unread(record.position, len(record.fragments)) > 0

    def refuses(self, size: int) -> bool:
        """A buffer that discards would lose an unread record."""
        if self.policy != 'discard':
            return False
        if self.shut:
            return True
        for record in self.live:
            if not self.meets(record, size):
                break
            if self.is_unread(record):
                return True
        return False

    def make_room(self, size: int) -> int:
        """Loses what a next record of this size meets; its place."""
        while self.live and self.meets(self.live[0], size):
            self.lose(self.live.popleft())
        at, padding = self.place_for(size)
        self.padding = raised(self.padding, padding)
        self.next = at + size
        return at

    def lose(self, record: Record) -> None:
        sequence = record.sequence
        del sequence.live[record.position]
        if record.partial and not sequence.closed:
            return
        if self.is_unread(record):
            self.overwritten = raised(self.overwritten)
        starts = sequence.unread_starts(record.position, len(record.fragments), record.chunk.continues())
        sequence.lost = raised(sequence.lost, starts)

    # Patches and closes

    def patch_placed(self, number: int, patch: Patch) -> bool:
        record = self.sequences[number].live.get(patch.chunk_id)
        if record is None or not record.awaits:
            return False
        last = record.fragments[-1]
        if not (last.offset <= patch.offset and patch.offset + len(patch.bytes) <= last.end):
            return False
        record.chunk.payload[patch.offset:patch.offset + len(patch.bytes)] = patch.bytes
        record.awaits = not patch.last
        return True

    def close_sequence(self, number: int) -> None:
        sequence = self.sequences[number]
        if not sequence.closed:
            self.unpatched = raised(self.unpatched, sum(record.awaits for record in sequence.live.values()))
            sequence.close()
