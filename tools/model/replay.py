"""Reads FORMATS, "What is played", of `replay`: a scenario line by line, and its end."""

from model.answers import Answer, refused, stalled
from model.report import report_of
from model.scenario import Line, Refused, Scenario, read_scenario, refuse_lines
from model.service import Service
from model.writers import Stalled, Writer


def play_of_writer(writer: Writer, line: Line) -> None:
    """A line of a writer: what it asks of it."""
    if line.kind in ('p', 'b'):
        writer.begin()
    for part in line.parts:
        writer.write(part)
    if line.kind in ('p', 'e'):
        writer.finish()
    elif line.kind == 'f':
        writer.flush()


def play_of_service(service: Service, line: Line) -> list[bytes]:
    """A line of the service: the records that it writes."""
    if line.kind == 'r':
        return service.read(line.of, line.limit)
    if line.kind == 'q':
        service.request_flush()
    elif line.kind == 'raw':
        service.commit(line.number, line.of, line.target, line.chunk)
    else:
        {'c': service.collect, 's': service.scrape, 'x': service.close}[line.kind](line.of)
    return []


def is_of_service(line: Line) -> bool:
    return line.kind in ('c', 's', 'x', 'r', 'q', 'raw')


def play_lines(service: Service, lines: list[Line], records: list[bytes]) -> None:
    """Plays lines, and adds the records that they write."""
    for line in lines:
        if is_of_service(line):
            records += play_of_service(service, line)
            continue
        writer = service.writers[line.of - 1]
        play_of_writer(writer, line)
        if line.kind == 'e':
            service.answer(writer)


def play(scenario: Scenario) -> Answer:
    service, records = Service(scenario), []
    try:
        play_lines(service, scenario.lines, records)
    except Stalled as at:
        return stalled(at.writer, b''.join(records))
    records += service.finish()
    return Answer(0, b''.join(records), report_of(service))


def replay(text: bytes) -> Answer:
    try:
        scenario = read_scenario(text)
        refuse_lines(scenario, {'k': 'not under replay'})
    except Refused as fault:
        return refused(fault)
    return play(scenario)
