"""Reads FORMATS, "Cutting": a writer, which cuts its packets into chunks."""

from collections import deque
from collections.abc import Callable

from model.chunks import MOST_FRAGMENTS, Chunk, Claims, HeldChunk, Hole, Patch, id_of
from model.fields import Begin, End, Number
from model.geometry import AWAITS, RUNS_ON
from model.wire import CONTENT, DROP_MARK, HOLE, MARK, four_bytes, number_field, tag, text_head

ROOM_TO_BEGIN = 12          # bytes that have to be left where a packet begins
MOST_PIECE = 65_536         # bytes that are put at once of a text that stands many times


class Stalled(Exception):
    """A writer found no free chunk, and its service none to take."""

    def __init__(self, writer: int):
        super().__init__(writer)
        self.writer = writer


class OutOfChunks(Exception):
    """No chunk was free, and the writer is to drop."""


class Writer:
    """A writer of a scenario. `help` has the service take the producer's complete chunks, and says whether it took one."""

    def __init__(self, number: int, spec, payload_size: int, claims: Claims, help: Callable[[], bool]):
        self.number, self.spec, self.payload_size = number, spec, payload_size
        self.claims, self.help = claims, help
        self.held: HeldChunk | None = None
        self.complete: deque[tuple[int, Chunk]] = deque()   # with their slots, until the service takes them
        self.completed = 0          # chunks, so far
        self.next_position = 0
        self.holes: list[Hole] = []     # the innermost last
        self.patches: list[Patch] = []  # for earlier chunks, that go with the next completed one
        self.in_packet = False
        self.thrown_away = False        # the packet was dropped or given up
        self.lost_before = False        # and so was the newest one
        self.begun = 0
        self.dropped_at_begin = 0

    # Calls

    def begin(self) -> None:
        if not self.has_room_to_begin():
            self.flush()
            try:
                self.take_chunk(continues=False)
            except OutOfChunks:
                self.drop_at_begin()
                return
        self.begun += 1
        self.in_packet, self.thrown_away = True, False
        self.held.start_fragment()
        if self.lost_before:
            self.put(MARK)
        self.lost_before = False

    def write(self, part) -> None:
        """One part of the packet's fields."""
        if self.thrown_away:
            return
        try:
            if isinstance(part, Begin):
                self.begin_nested(part.field)
            elif isinstance(part, End):
                self.end_nested()
            elif isinstance(part, Number):
                self.put(number_field(part.field, part.value))
            else:
                self.put(text_head(part.field, len(part.text) * part.times))
                self.put_repeated(part.text, part.times)
        except OutOfChunks:
            self.give_up()

    def finish(self) -> None:
        if not self.thrown_away:
            self.close_fragment()
        self.in_packet = False

    def flush(self) -> None:
        """Completes the chunk that is held, if one is."""
        if self.held:
            self.complete_chunk(runs_on=False)

    # Packets

    def has_room_to_begin(self) -> bool:
        return self.held is not None and self.held.left() >= ROOM_TO_BEGIN and self.held.count < MOST_FRAGMENTS

    def drop_at_begin(self) -> None:
        self.begun += 1
        self.dropped_at_begin += 1
        self.in_packet = self.thrown_away = self.lost_before = True

    def give_up(self) -> None:
        """The rest of the packet can't be written: its chunk ends in a drop mark."""
        while self.holes:
            self.close_hole(0)
        self.held.put_at(self.held.fragment_at, DROP_MARK)
        self.complete_chunk(runs_on=False)
        self.thrown_away = self.lost_before = True

    def put(self, data: bytes) -> None:
        """Bytes of the packet, over as many chunks as they need."""
        while data:
            if self.held.left() == 0:
                self.run_on()
            piece = data[:self.held.left()]
            self.held.put(piece)
            for hole in self.holes:
                hole.size += len(piece)
            data = data[len(piece):]

    def put_repeated(self, text: bytes, times: int) -> None:
        most = max(1, MOST_PIECE // max(1, len(text)))
        while times and text:
            now = min(times, most)
            self.put(text * now)
            times -= now

    def begin_nested(self, field: int) -> None:
        self.put(tag(field, CONTENT))
        if self.held.left() < len(HOLE):
            self.run_on()
        hole = Hole(self.held.chunk_id, self.held.at)
        self.put(HOLE)
        self.holes.append(hole)

    def end_nested(self) -> None:
        self.close_hole(self.holes[-1].size)

    def close_hole(self, size: int) -> None:
        """The innermost hole is closed, in its chunk or by a patch."""
        hole = self.holes.pop()
        if hole.chunk_id == self.held.chunk_id:
            self.held.put_at(hole.offset, four_bytes(size))
        else:
            self.patches.append(Patch(hole.chunk_id, hole.offset, four_bytes(size), not self.has_hole_in(hole.chunk_id)))

    def has_hole_in(self, chunk_id: int) -> bool:
        return any(hole.chunk_id == chunk_id for hole in self.holes)

    # Chunks

    def run_on(self) -> None:
        """The packet goes on in a new chunk."""
        if self.spec.policy == 'stall' and self.spec.tries is None:
            self.complete_running_on()
            self.take_chunk(continues=True)
        else:
            slot = self.claim()
            self.complete_running_on()
            self.hold(slot, continues=True)
        self.held.start_fragment()

    def complete_running_on(self) -> None:
        self.close_fragment()
        self.complete_chunk(runs_on=True)

    def take_chunk(self, continues: bool) -> None:
        self.hold(self.claim(), continues)

    def hold(self, slot: int, continues: bool) -> None:
        self.held = HeldChunk(slot, id_of(self.spec.first_id, self.next_position), self.payload_size, continues)
        self.next_position += 1

    def claim(self) -> int:
        """A free chunk. How often a writer may ask that stalls and then drops doesn't matter here: no other job goes on between an ask
        that frees a chunk and the claim behind it, which gets it, and behind an ask that frees none all others free none too."""
        slot = self.claims.claim()
        while slot is None:
            if self.spec.policy == 'drop':
                raise OutOfChunks
            if not self.help():
                raise OutOfChunks if self.spec.tries else Stalled(self.number)
            slot = self.claims.claim()
        return slot

    def close_fragment(self) -> None:
        self.held.put_at(self.held.fragment_at, four_bytes(self.held.size_of_fragment()))

    def complete_chunk(self, runs_on: bool) -> None:
        flags = (RUNS_ON if runs_on else 0) | (AWAITS if runs_on and self.has_hole_in(self.held.chunk_id) else 0)
        self.complete.append((self.held.slot, self.held.as_chunk(flags, self.patches)))
        self.patches = []
        self.completed += 1
        self.held = None
