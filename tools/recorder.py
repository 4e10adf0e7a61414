"""What a run of the second reading does, noted event by event: outcomes, what each event fixes, where reads end, and which
branches of the definitions it takes."""

from model import reading, service
from model.buffers import BAD_CHUNK, DISCARDED, DUPLICATE, REWRITTEN, TOO_FAR, TraceBuffer
from model.chunks import Unreadable, read_fragments
from model.reading import CUT, INTO_LOST, MARKED, OPEN, Stop, delivers, is_accepted, row_of
from model.wire import MARK, Fault, read_field

# Branches of the definitions that few histories take.
BRANCHES = (
    'a headless chain that ends in a drop mark', 'a headless chain that runs into a lost chunk', 'a chain that is cut by its next chunk',
    'a chain that runs into a lost chunk', 'a chain that runs into a chunk that never came', 'a chain that its sequence\'s end cuts',
    'a chain that awaits a patch when its sequence is closed', 'a drop mark in a chunk that runs on',
    'a partial record that the cursor alone makes a double', 'a final partial record that is lost unread', 'a partial record that shuts a discard buffer',
    'an arrival of which more was passed', 'an arrival of which just all was passed', 'padding that meets a record', 'a patch outside the last fragment', 'a patch for a chunk that is gone',
    'a commit with patches', 'a chunk that is too far', 'a chunk out of order', 'a double', 'a chunk that is unreadable', 'a partial record that grows',
    'a packet that isn\'t whole fields', 'a packet with a field of the service', 'a packet with a mark in front',
    'a field that goes on in the next chunk',
    'a read that ends at its limit', 'a read that ends at a part', 'a read that ends at an open patch', 'a read that ends at a close',
    'a chunk that continues a packet and is lost unread', 'a packet that is discarded',
)


# Those of the packet check.
REFUSED = {'a packet that isn\'t whole fields', 'a packet with a field of the service'}


class Notes:
    """What was noted of one buffer."""

    def __init__(self):
        self.events = []        # kind, sequence, and what the event needs and answered
        self.cursors = []       # where the cursor of its sequence stands behind each event
        self.fixed = {}         # of each sequence: (position, passed, outcome)
        self.branches = set()

    def note(self, sequence, kind, *rest):
        self.events.append((kind, sequence.number, *rest))
        self.cursors.append(sequence.cursor)
        if self is not WHOLE:
            WHOLE.note(sequence, kind, *rest)

    def fix(self, number, place, outcome):
        self.fixed.setdefault(number, []).append((*place, outcome))


NOTES = {}
WHOLE = Notes()         # the events of all buffers in their order


def forget():
    """What was noted of other runs."""
    NOTES.clear()
    WHOLE.__init__()


def notes_of(buffer):
    return NOTES.setdefault(id(buffer), Notes())


def unread_starts(sequence, position, count, continues):
    """The places of the packets that begin in fragments which the cursor hasn't passed."""
    first = count - sequence.unread(position, count)
    return [(position, i) for i in range(first, count) if not (continues and i == 0)]


def image_of(chunk):
    return chunk.count, chunk.flags, bytes(chunk.payload)


class Buffer(TraceBuffer):
    """A buffer that notes what becomes of its events."""

    def add_sequence(self, number, record_size, first_id=0):
        super().add_sequence(number, record_size, first_id)
        self.sequences[number].buffer = self

    def lose(self, record):
        sequence = record.sequence
        if record.partial and sequence.closed and self.is_unread(record):
            notes_of(self).branches.add('a final partial record that is lost unread')
        if not (record.partial and not sequence.closed):
            if record.chunk.continues() and sequence.unread(record.position, len(record.fragments)) == len(record.fragments):
                notes_of(self).branches.add('a chunk that continues a packet and is lost unread')
            for place in unread_starts(sequence, record.position, len(record.fragments), record.chunk.continues()):
                notes_of(self).fix(sequence.number, place, 'Absent Lost')
        super().lose(record)

    def make_room(self, size):
        _, padding = self.place_for(size)
        if any(max(self.next, record.at) < min(self.next + padding, record.end()) for record in self.live):
            notes_of(self).branches.add('padding that meets a record')
        return super().make_room(size)

    def arrive_placed(self, number, chunk):
        notes, sequence, image = notes_of(self), self.sequences[number], image_of(chunk)
        was, is_ahead = sequence.cursor, chunk.chunk_id > sequence.least_missing
        starts = unread_starts(sequence, chunk.chunk_id, chunk.count, chunk.continues())
        outcome = super().arrive_placed(number, chunk)
        if outcome == BAD_CHUNK:
            notes.branches.add('a chunk that is unreadable')
            outcome = f'{BAD_CHUNK} {first_unreadable(chunk)}'
        elif outcome == DUPLICATE:
            notes.branches.add('a double')
        elif outcome == TOO_FAR:
            notes.branches.add('a chunk that is too far')
        elif is_ahead:
            notes.branches.add('a chunk out of order')
        if outcome == DISCARDED:
            for place in starts:
                notes.branches.add('a packet that is discarded')
                notes.fix(number, place, 'Absent Lost')
        if sequence.cursor[0] != was[0]:
            notes.branches.add(f'an arrival of which {"just all" if was[1] == chunk.count else "more"} was passed')
        notes.note(sequence, 'arrive', chunk.chunk_id, image, outcome)
        return outcome

    def arrive_partial_placed(self, number, chunk):
        notes, sequence, image = notes_of(self), self.sequences[number], image_of(chunk)
        held, was_shut = sequence.live.get(chunk.chunk_id), self.shut
        outcome = super().arrive_partial_placed(number, chunk)
        if outcome == DUPLICATE and not sequence.has_arrived(chunk.chunk_id) and not (held and len(held.fragments) >= chunk.count):
            notes.branches.add('a partial record that the cursor alone makes a double')
        if outcome == DISCARDED and not was_shut:
            notes.branches.add('a partial record that shuts a discard buffer')
        if outcome == REWRITTEN:
            notes.branches.add('a partial record that grows')
        notes.note(sequence, 'partial', chunk.chunk_id, image, outcome)
        return outcome

    def patch_placed(self, number, patch):
        notes, sequence = notes_of(self), self.sequences[number]
        found = sequence.live.get(patch.chunk_id)
        awaits = found is not None and found.awaits
        is_applied = super().patch_placed(number, patch)
        answer = 'Applied' if is_applied else 'BadOffset' if awaits else 'NoChunk'
        if not is_applied:
            notes.branches.add('a patch outside the last fragment' if awaits else 'a patch for a chunk that is gone')
        notes.note(sequence, 'patch', patch.chunk_id, patch, answer)
        return is_applied

    def close_sequence(self, number):
        super().close_sequence(number)
        notes_of(self).note(self.sequences[number], 'close')


def first_unreadable(chunk):
    try:
        read_fragments(chunk.payload, chunk.count)
    except Unreadable as fault:
        return fault.args[0]
    raise AssertionError('a chunk that can be read')


def stop_place(sequence):
    """Where the row of a sequence stops, from its cursor on, and why."""
    place = sequence.cursor
    for one in row_of(sequence, place):
        if isinstance(one, Stop):
            break
        place = one.behind
    if sequence.closed:
        return max(place, (sequence.end, 0)), 'End'
    found = sequence.live.get(place[0])
    return place, 'Missing' if found is None else 'Partial' if found.partial else 'Unpatched'


def outcome_of(chain):
    """What becomes of a packet whose chain is passed; None where it counts nothing."""
    if chain.is_headless():
        return None
    if delivers(chain):
        return 'Delivered'
    return {MARKED: 'Absent Dropped', INTO_LOST: 'Absent Lost'}.get(chain.fate, 'Absent Cut')


class Reads:
    """The chains of the read that is going on, each with the place at which it begins."""

    def __init__(self):
        self.sequence, self.chains = None, []

    def chain_from(self, first, row):
        chain = PLAIN_CHAIN(first, row)
        self.chains.append((self.sequence.cursor, chain))
        return chain

    def read_sequence(self, sequence, limit):
        """A read, with what it passes and where it ends."""
        self.sequence, self.chains = sequence, []
        notes = notes_of(sequence.buffer)
        records = PLAIN_READ(sequence, limit)
        end = None
        for place, chain in self.chains:
            if chain.fate == OPEN:
                continue
            if place == sequence.cursor:
                end = 'AtLimit'
                continue
            if outcome_of(chain):
                notes.fix(sequence.number, place, outcome_of(chain))
            notes.branches |= branches_of(sequence, chain)
        if end is None:
            end = end_at(notes, *stop_place(sequence))
        else:
            notes.branches.add('a read that ends at its limit')
        notes.note(sequence, 'read', limit, records, end)
        return records


def end_at(notes, place, why):
    """The end of a read at a stop place, as a term."""
    word = {'Partial': 'a part', 'Unpatched': 'an open patch', 'End': 'a close'}.get(why)
    notes.branches |= {f'a read that ends at {word}'} if word else set()
    return f'Stopped (record {{ at = record {{ chunk_id = {place[0]}; passed = {place[1]} }}; why = {why} }})'


def branches_of(sequence, chain):
    is_headless = chain.is_headless()
    if chain.fate == MARKED:
        return ({'a headless chain that ends in a drop mark'} if is_headless else set()) \
            | ({'a drop mark in a chunk that runs on'} if chain.pieces[-1].runs_on else set())
    if chain.fate == INTO_LOST:
        return {'a headless chain that runs into a lost chunk' if is_headless else 'a chain that runs into a lost chunk'}
    if chain.fate == CUT and not is_headless:
        return {'a chain that is cut by its next chunk' if chain.behind[0] in sequence.live
                else 'a chain that runs into a chunk that never came' if chain.behind[0] < sequence.end
                else 'a chain that its sequence\'s end cuts'}
    if is_headless:
        return set()
    return {'a chain that awaits a patch when its sequence is closed'} if chain.awaits() else branches_of_check(chain)


def branches_of_check(chain):
    """What the packet check finds of a whole packet."""
    packet, first = chain.packet(), chain.pieces[0].bytes
    if not is_accepted(packet):
        return {'a packet with a field of the service' if is_fields(packet) else 'a packet that isn\'t whole fields'}
    return ({'a packet with a mark in front'} if packet.startswith(MARK) else set()) \
        | ({'a field that goes on in the next chunk'} if not is_fields(first) else set())


def is_fields(data):
    """The bytes are whole fields."""
    at = 0
    try:
        while at < len(data):
            *_, at = read_field(data, at, len(data))
    except Fault:
        return False
    return True


PLAIN_CHAIN, PLAIN_READ = reading.chain_from, reading.read_sequence


def record_all():
    """Has the second reading note what it does."""
    reads = Reads()
    reading.chain_from, reading.read_sequence = reads.chain_from, reads.read_sequence
    service.TraceBuffer = Buffer
