"""Reads FORMATS, "Reading": what a read of a sequence delivers, what it passes, and where it ends."""

from collections.abc import Iterator
from dataclasses import dataclass

from model.buffers import Record, Sequence, TraceBuffer
from model.limits import RESERVED_FIELDS, raised
from model.wire import Fault, read_field
from model.wire import record as trace_record

REFUSED_FIELDS = set(RESERVED_FIELDS) - {42}

Place = tuple[int, int]         # a chunk's id, and how many of its fragments come before

WHOLE, MARKED, INTO_LOST, CUT, OPEN = 'whole', 'marked', 'into lost', 'cut', 'open'


@dataclass
class Piece:
    """A fragment in its place."""
    bytes: bytes
    behind: Place
    continues: bool         # it is the first of a chunk that continues a packet
    runs_on: bool           # it is the last of a chunk that runs on
    awaits: bool            # it awaits a patch
    dropped: bool


@dataclass
class Gap:
    """A chunk that isn't there: it was lost, or it never came."""
    behind: Place
    lost: bool


@dataclass
class Stop:
    """The stop place, and whether a chain that comes there may still go on."""
    may_go_on: bool


@dataclass
class Chain:
    """Fragments that are joined over their flags, and how the last one ends."""
    pieces: list[Piece]
    fate: str
    behind: Place

    def is_headless(self) -> bool:
        return self.pieces[0].continues

    def awaits(self) -> bool:
        return any(piece.awaits for piece in self.pieces)

    def packet(self) -> bytes:
        return b''.join(piece.bytes for piece in self.pieces)


def pieces_of(sequence: Sequence, record: Record, passed: int) -> Iterator[Piece]:
    """The fragments of a record from this one on, but for one that awaits a patch in an open sequence."""
    for number in range(passed, len(record.fragments) - stops_at_last(sequence, record)):
        fragment, is_last = record.fragments[number], number == len(record.fragments) - 1
        stays = record.partial and not sequence.closed
        behind = (record.position + 1, 0) if is_last and not stays else (record.position, number + 1)
        yield Piece(bytes(record.chunk.payload[fragment.offset:fragment.end]), behind, record.chunk.continues() and number == 0,
                    record.chunk.runs_on() and is_last, record.awaits and is_last, fragment.dropped)


def stops_at_last(sequence: Sequence, record: Record) -> bool:
    """The record's last fragment is a stop place."""
    return record.awaits and not sequence.closed


def row_of(sequence: Sequence, place: Place) -> Iterator[Piece | Gap | Stop]:
    """What stands in a sequence from this place on, up to its stop place."""
    position, passed = place
    while not sequence.closed or position < sequence.end:
        record = sequence.live.get(position)
        if record:
            yield from pieces_of(sequence, record, passed)
            if stops_at_last(sequence, record):
                yield Stop(record.chunk.continues() and len(record.fragments) == 1)
                return
            if record.partial and not sequence.closed:
                yield Stop(False)
                return
        elif sequence.has_arrived(position) or position in sequence.final:
            yield Gap((position + 1, 0), lost=True)
        elif sequence.closed:
            yield Gap((position + 1, 0), lost=False)
        else:
            yield Stop(True)
            return
        position, passed = position + 1, 0
    yield Stop(False)


def chain_from(first: Piece, row: Iterator[Piece | Gap | Stop]) -> Chain:
    """The chain that begins with this fragment. What stands behind its last one may be taken from the row too."""
    pieces = [first]
    while True:
        last = pieces[-1]
        if last.dropped:
            return Chain(pieces, MARKED, last.behind)
        if not last.runs_on:
            return Chain(pieces, WHOLE, last.behind)
        after = next(row)
        if isinstance(after, Piece) and after.continues:
            pieces.append(after)
        elif isinstance(after, Gap) and after.lost:
            return Chain(pieces, INTO_LOST, last.behind)
        elif isinstance(after, Stop) and after.may_go_on:
            return Chain(pieces, OPEN, last.behind)
        else:
            return Chain(pieces, CUT, last.behind)


def is_accepted(packet: bytes) -> bool:
    """The packet check: whole fields, none of which is the service's own."""
    at = 0
    while at < len(packet):
        try:
            field, _, _, at = read_field(packet, at, len(packet))
        except Fault:
            return False
        if field in REFUSED_FIELDS:
            return False
    return True


def delivers(chain: Chain) -> bool:
    return chain.fate == WHOLE and not chain.is_headless() and not chain.awaits() and is_accepted(chain.packet())


def pass_by(sequence: Sequence, chain: Chain) -> None:
    """Counts a chain that isn't delivered."""
    if chain.is_headless():
        return
    if chain.fate == MARKED:
        sequence.dropped = raised(sequence.dropped)
    elif chain.fate == INTO_LOST:
        sequence.lost = raised(sequence.lost)
    else:
        sequence.cut = raised(sequence.cut)


def read_sequence(sequence: Sequence, limit: int) -> list[bytes]:
    """The records that a read delivers, so many at most; the cursor goes on."""
    records = []
    while True:
        row = row_of(sequence, sequence.cursor)
        first = next(row)
        if isinstance(first, Stop):
            return records
        if isinstance(first, Gap):
            sequence.cursor, sequence.missing = first.behind, True
            continue
        chain = chain_from(first, row)
        if chain.fate == OPEN:
            return records
        if delivers(chain):
            if len(records) == limit:
                return records
            records.append(trace_record(chain.packet(), sequence.number, sequence.missing or sequence.delivered == 0))
            sequence.delivered = raised(sequence.delivered)
            sequence.missing = False
        else:
            pass_by(sequence, chain)
            sequence.missing = True
        sequence.cursor = chain.behind


def read_buffer(buffer: TraceBuffer, limit: int) -> list[bytes]:
    """The sequences of a buffer in rising id, with a limit for all together."""
    records = []
    for number in sorted(buffer.sequences):
        records += read_sequence(buffer.sequences[number], limit - len(records))
    return records
