"""Reads FORMATS, "Scenario" and "What is refused": the scenario that a text says, or its first fault.

The reasons of a line are a list of tests in the order of the page; the first one that holds counts.
"""

from dataclasses import dataclass, field

from model import limits
from model.chunks import MOST_FRAGMENTS, Chunk, Patch
from model.fields import BadField, Begin, End, first_reserved, is_too_deep, length_of, read_fields
from model.forms import OF_PRODUCERS, OF_WRITERS, SET_UP, Form, form_of
from model.geometry import payload_size, record_size


class Refused(Exception):
    """The first faulty line, and its reason."""

    def __init__(self, line: int, reason: str):
        super().__init__(f'line {line}: {reason}')
        self.line, self.reason = line, reason


@dataclass(frozen=True)
class Buffer:
    kb: int
    policy: str             # `ring` or `discard`

    def size(self) -> int:
        return self.kb * 1024


@dataclass(frozen=True)
class Producer:
    pages: int
    page_size: int
    chunks: int             # of a page

    def payload(self) -> int:
        return payload_size(self.page_size, self.chunks)


@dataclass(frozen=True)
class Writer:
    producer: int
    buffer: int
    policy: str             # `drop` or `stall`
    tries: int | None       # how often it asks for each chunk before it drops, where it stalls and then drops
    first_id: int = 0       # of its chunks


@dataclass(frozen=True)
class Line:
    """A played line: its place in the text, its kind, what it names, and what it gives a packet."""
    number: int
    kind: str
    of: int = 0
    parts: tuple = ()
    limit: int = limits.MOST_NUMBER
    target: int = 0         # the buffer of a chunk that is committed
    chunk: Chunk | None = None


@dataclass
class Packet:
    """A packet that a writer has begun."""
    line: int
    length: int = 0
    depth: int = 0


@dataclass
class Scenario:
    """What the lines so far say."""
    buffers: list[Buffer] = field(default_factory=list)
    producers: list[Producer] = field(default_factory=list)
    writers: list[Writer] = field(default_factory=list)
    lines: list[Line] = field(default_factory=list)
    packets: dict[int, Packet] = field(default_factory=dict)     # that are begun, by their writers
    closed: set[int] = field(default_factory=set)
    bytes: int = 0              # of all packets

    def has_raw(self, writer: int) -> bool:
        """A line commits a chunk in the writer's name."""
        return any(line.kind == 'raw' and line.of == writer for line in self.lines)

    def packet_of(self, form: Form) -> Packet | None:
        return self.packets.get(form.numbers[0])

    def producer_of(self, form: Form) -> int | None:
        """The producer that a line names, or whose writer it names."""
        if form.kind in OF_PRODUCERS:
            return form.numbers[0]
        return self.writers[form.numbers[0] - 1].producer if form.kind in (*OF_WRITERS, 'raw') else None


def is_out_of_range(_: Scenario, form: Form) -> bool:
    numbers = form.numbers
    if form.kind == 'buffer':
        return numbers[0] not in limits.BUFFER_KB
    if form.kind == 'producer':
        return numbers[0] not in limits.PAGES or numbers[1] not in limits.PAGE_SIZES or numbers[2] not in limits.CHUNK_COUNTS
    if form.tries is not None and form.tries not in limits.TRIES:
        return True
    if form.first_id is not None and form.first_id not in limits.CHUNK_IDS:
        return True
    if form.kind == 'r' and len(numbers) > 1 and numbers[1] == 0:
        return True
    if form.kind == 'raw' and is_out_of_header(form):
        return True
    return any(number > limits.MOST_NUMBER for number in (numbers[:1] if form.kind == 'n' else numbers))


def is_out_of_header(form: Form) -> bool:
    """A number of a chunk's header, or of a patch, is too large."""
    _, chunk_id, count, flags, _ = form.numbers
    ids = [chunk_id, *(form.patch[:2] if form.patch else ())]
    return any(number not in limits.CHUNK_IDS for number in ids) or count > MOST_FRAGMENTS or flags not in limits.FLAGS


def is_late(scenario: Scenario, form: Form) -> bool:
    return form.kind in SET_UP and bool(scenario.lines)


def is_too_many(scenario: Scenario, form: Form) -> bool:
    return {'buffer': len(scenario.buffers) >= limits.MOST_BUFFERS, 'producer': len(scenario.producers) >= limits.MOST_PRODUCERS,
            'writer': len(scenario.writers) >= limits.MOST_WRITERS,
            'k': sum(line.kind == 'k' for line in scenario.lines) >= limits.MOST_CLONES}.get(form.kind, False)


def lacks_producer(scenario: Scenario, form: Form) -> bool:
    return form.kind in ('writer', *OF_PRODUCERS) and not 1 <= form.numbers[0] <= len(scenario.producers)


def lacks_buffer(scenario: Scenario, form: Form) -> bool:
    place = {'writer': 1, 'r': 0, 'k': 0, 'raw': 4}.get(form.kind)
    return place is not None and not 1 <= form.numbers[place] <= len(scenario.buffers)


def lacks_writer(scenario: Scenario, form: Form) -> bool:
    return form.kind in (*OF_WRITERS, 'raw') and not 1 <= form.numbers[0] <= len(scenario.writers)


def has_larger_chunks(scenario: Scenario, form: Form) -> bool:
    if form.kind != 'writer':
        return False
    producer, buffer = scenario.producers[form.numbers[0] - 1], scenario.buffers[form.numbers[1] - 1]
    return record_size(producer.payload()) > buffer.size()


def has_closed_producer(scenario: Scenario, form: Form) -> bool:
    return scenario.producer_of(form) in scenario.closed


def has_long_payload(scenario: Scenario, form: Form) -> bool:
    return form.kind == 'raw' and len(form.payload) > scenario.producers[scenario.producer_of(form) - 1].payload()


def meets_packet(scenario: Scenario, form: Form) -> bool:
    return form.kind in ('p', 'b', 'f') and scenario.packet_of(form) is not None


def lacks_packet(scenario: Scenario, form: Form) -> bool:
    return form.kind in ('a', 'n', 'u', 'e') and scenario.packet_of(form) is None


def lacks_nesting(scenario: Scenario, form: Form) -> bool:
    return form.kind == 'u' and scenario.packet_of(form).depth == 0


def leaves_nesting(scenario: Scenario, form: Form) -> bool:
    return form.kind == 'e' and scenario.packet_of(form).depth > 0


REASONS = (
    (is_out_of_range, 'number out of range'), (is_late, 'late set-up'), (is_too_many, 'too many'),
    (lacks_producer, 'no such producer'), (lacks_buffer, 'no such buffer'), (lacks_writer, 'no such writer'),
    (has_larger_chunks, 'chunk larger than buffer'), (has_closed_producer, 'producer closed'), (has_long_payload, 'raw too long'),
    (meets_packet, 'packet begun'), (lacks_packet, 'no packet'), (lacks_nesting, 'no nesting'), (leaves_nesting, 'nesting left'),
)


def parts_given(scenario: Scenario, form: Form, line: int) -> tuple:
    """What a line gives its packet, unless that is refused."""
    if form.kind == 'n':
        if not 1 <= form.numbers[1] <= limits.MOST_FIELD:
            raise Refused(line, f'bad field at column {form.before_fields + 1}')
        parts = [Begin(form.numbers[1])]
    elif form.fields is not None:
        try:
            parts = read_fields(form.fields)
        except BadField as bad:
            raise Refused(line, f'bad field at column {form.before_fields + bad.place + 1}') from bad
    else:
        return (End(),) if form.kind == 'u' else ()
    packet = scenario.packet_of(form) or Packet(line)
    reserved = first_reserved(parts, packet.depth)
    if reserved is not None:
        raise Refused(line, f'reserved field {reserved}')
    if is_too_deep(parts, packet.depth):
        raise Refused(line, 'too deep')
    length = sum(map(length_of, parts))
    if packet.length + length > limits.MOST_PACKET:
        raise Refused(line, 'packet too long')
    if scenario.bytes + length > limits.MOST_PACKETS:
        raise Refused(line, 'too many bytes')
    return tuple(parts)


def set_up(scenario: Scenario, form: Form) -> None:
    numbers = form.numbers
    if form.kind == 'buffer':
        scenario.buffers.append(Buffer(numbers[0], form.policy))
    elif form.kind == 'producer':
        scenario.producers.append(Producer(*numbers))
    else:
        scenario.writers.append(Writer(*numbers, form.policy, form.tries, form.first_id or 0))


def chunk_asked(form: Form) -> Chunk:
    """The chunk of a line `raw`, with what its payload begins with."""
    _, chunk_id, count, flags, _ = form.numbers
    return Chunk(chunk_id, count, flags, bytearray(form.payload), [Patch(*form.patch)] if form.patch else [])


def add_line(scenario: Scenario, form: Form, line: int, parts: tuple) -> None:
    """What a played line adds, and how it changes the packet of its writer."""
    of = form.numbers[0] if form.numbers else 0
    limit = form.numbers[1] if form.kind == 'r' and len(form.numbers) > 1 else limits.MOST_NUMBER
    target, chunk = (form.numbers[4], chunk_asked(form)) if form.kind == 'raw' else (0, None)
    scenario.lines.append(Line(line, form.kind, of, parts, limit, target, chunk))
    length = sum(map(length_of, parts))
    scenario.bytes += length
    if form.kind == 'b':
        scenario.packets[of] = Packet(line)
    elif form.kind in ('a', 'n', 'u'):
        packet = scenario.packets[of]
        packet.length += length
        packet.depth += {'a': 0, 'n': 1, 'u': -1}[form.kind]
    elif form.kind == 'e':
        del scenario.packets[of]
    elif form.kind == 'x':
        scenario.closed.add(of)


def refuse_lines(scenario: Scenario, reasons: dict[str, str]) -> None:
    """The first line of a kind that isn't for a command is a fault."""
    for line in scenario.lines:
        if line.kind in reasons:
            raise Refused(line.number, reasons[line.kind])


def read_line(scenario: Scenario, number: int, line: bytes) -> None:
    if not line or line.startswith(b'#'):
        return
    form = form_of(line)
    if form is None:
        raise Refused(number, 'bad line')
    for holds, reason in REASONS:
        if holds(scenario, form):
            raise Refused(number, reason)
    parts = parts_given(scenario, form, number)
    if form.kind in SET_UP:
        set_up(scenario, form)
    else:
        add_line(scenario, form, number, parts)


def read_scenario(text: bytes) -> Scenario:
    """The scenario that a text says; else its first faulty line."""
    scenario = Scenario()
    *lines, rest = text.split(b'\n')
    for number, line in enumerate(lines, 1):
        read_line(scenario, number, line)
    if rest:
        raise Refused(len(lines) + 1, 'unfinished line')
    left = [packet.line for writer, packet in scenario.packets.items()
            if scenario.writers[writer - 1].producer not in scenario.closed]
    if left:
        raise Refused(min(left), 'packet left')
    return scenario
