"""Reads FORMATS, "Checking": whether a trace tells of the packets that a scenario's lines emit."""

from collections import defaultdict

from model.answers import Answer, refused
from model.fields import Begin, End, Number
from model.forms import OF_WRITERS
from model.scenario import Line, Refused, Scenario, read_scenario, refuse_lines
from model.service import sequence_of
from model.tracefile import BadTrace, Record, read_trace
from model.wire import CONTENT, MARK, four_bytes, number_field, record, tag, text_head

DIVIDER = b'=='


class Packet:
    """A packet as its lines write it: the bytes of each message that is open, the innermost last."""

    def __init__(self):
        self.levels = [bytearray()]

    def write(self, part) -> None:
        if isinstance(part, Begin):
            self.levels[-1] += tag(part.field, CONTENT)
            self.levels.append(bytearray())
        elif isinstance(part, End):
            message = self.levels.pop()
            self.levels[-1] += four_bytes(len(message)) + message
        elif isinstance(part, Number):
            self.levels[-1] += number_field(part.field, part.value)
        else:
            self.levels[-1] += text_head(part.field, len(part.text) * part.times) + part.text * part.times


def emitted_by(lines: list[Line]) -> list[bytes]:
    """The packets that the lines of a writer emit, in their order."""
    packets, packet = [], Packet()
    for line in lines:
        if line.kind in ('p', 'b'):
            packet = Packet()
        for part in line.parts:
            packet.write(part)
        if line.kind in ('p', 'e'):
            packets.append(bytes(packet.levels[0]))
    return packets


class Teller:
    """Whether the records of a sequence so far tell of its writer's packets: the places at which the next record may follow on."""

    def __init__(self, sequence: int, packets: list[bytes]):
        self.sequence = sequence
        self.places = defaultdict(list)         # of each packet, rising
        for place, packet in enumerate(packets):
            self.places[packet].append(place)
        self.nexts: set[int] | None = None      # none before the first record

    def take(self, data: Record) -> bool:
        """One record more; whether they still tell of packets."""
        found = set()
        for front in (False, True):
            for behind in (False, True):
                found |= {place + 1 for place in self.places_of(data, front, behind)}
        self.nexts = found
        return bool(found)

    def places_of(self, data: Record, front: bool, behind: bool) -> list[int]:
        """The places of the packets that the record is of, with a mark in front, or behind, or both, or without one."""
        tail = number_field(10, self.sequence) + (MARK if behind else b'')
        body = data.content[:len(data.content) - len(tail)]
        if record(body, self.sequence, behind) != data.bytes or (front and not body.startswith(MARK)):
            return []
        places = self.places.get(body[len(MARK):] if front else body, [])
        if self.nexts is None:
            return places if front or behind else []
        if front or behind:
            return [place for place in places if place > min(self.nexts)]
        return [place for place in places if place in self.nexts]


def verdict_on(scenario: Scenario, records: list[Record]) -> bytes:
    tellers = {}
    for number in range(1, len(scenario.writers) + 1):
        lines = [line for line in scenario.lines if line.of == number and line.kind in OF_WRITERS]
        tellers[sequence_of(number)] = Teller(sequence_of(number), emitted_by(lines))
    for number, data in enumerate(records, 1):
        if data.sequence not in tellers or not tellers[data.sequence].take(data):
            return f'differs packet {number} sequence {data.sequence}\n'.encode()
    return f'agrees {len(records)}\n'.encode()


def divided(data: bytes) -> tuple[bytes, bytes | None]:
    """What stands in front of the first line `==`, and what stands behind it, if there is one."""
    if data.startswith(DIVIDER + b'\n'):
        return b'', data[len(DIVIDER) + 1:]
    front, found, behind = data.partition(b'\n' + DIVIDER + b'\n')
    return (front + b'\n', behind) if found else (data, None)


def check(data: bytes) -> Answer:
    text, trace = divided(data)
    try:
        scenario = read_scenario(text)
        refuse_lines(scenario, {kind: 'not under check' for kind in ('k', 'raw')})
        if trace is None:
            raise Refused(text.count(b'\n') + 1, 'no trace')
        return Answer(0, verdict_on(scenario, read_trace(trace)))
    except (Refused, BadTrace) as fault:
        return refused(fault)
