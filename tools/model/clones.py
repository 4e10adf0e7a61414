"""Reads FORMATS, "Clones": a scenario whose lines `k` make clones of buffers, which are read behind its end."""

from copy import deepcopy
from dataclasses import dataclass

from model.answers import Answer, refused, stalled
from model.buffers import TraceBuffer
from model.limits import MOST_NUMBER
from model.reading import read_buffer
from model.replay import play_lines
from model.report import report_of
from model.scenario import Refused, Scenario, read_scenario
from model.service import Service
from model.writers import Stalled


@dataclass(frozen=True)
class Clone:
    """A copy of a buffer, and the buffer's number."""
    of: int
    buffer: TraceBuffer


def clone_of(buffer: TraceBuffer) -> TraceBuffer:
    """A buffer as it stands: no chunk comes any more, and its reader was given nothing yet."""
    clone = deepcopy(buffer)
    for number, sequence in clone.sequences.items():
        clone.close_sequence(number)
        sequence.delivered = 0
    return clone


def play_with_clones(service: Service, scenario: Scenario) -> list[Clone]:
    """Plays a scenario to its end, for a reader that keeps nothing; its clones."""
    clones, records = [], []
    for line in scenario.lines:
        if line.kind == 'k':
            clones.append(Clone(line.of, clone_of(service.buffers[line.of - 1])))
        else:
            play_lines(service, [line], records)
    service.finish()
    return clones


def clone(text: bytes) -> Answer:
    try:
        scenario = read_scenario(text)
    except Refused as fault:
        return refused(fault)
    service = Service(scenario)
    try:
        clones = play_with_clones(service, scenario)
    except Stalled as at:
        return stalled(at.writer, b'')
    output, lines = b'', report_of(service)
    for number, one in enumerate(clones, 1):
        records = read_buffer(one.buffer, MOST_NUMBER)
        output += b''.join(records)
        lines += f'clone {number} buffer {one.of} delivered {len(records)}\n'.encode()
    return Answer(0, output, lines)
