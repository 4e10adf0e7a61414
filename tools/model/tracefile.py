"""Reads FORMATS, "Trace": the records of any trace, or its first fault."""

from dataclasses import dataclass

from model.wire import CONTENT, NUMBER, Fault, read_field

RECORD = 1                  # the field of a trace that is a record
SEQUENCE, MARKED = 10, 42   # fields of a record's content


class BadTrace(Exception):
    """The first fault, and the offset of its field."""

    def __init__(self, offset: int, reason: str):
        super().__init__(f'offset {offset}: {reason}')


@dataclass(frozen=True)
class Record:
    bytes: bytes            # all of it
    content: bytes
    sequence: int           # the last field 10 that is a number, or 0
    marked: bool


def read_record(trace: bytes, first: int, at: int, end: int) -> Record:
    """The record that begins at `first` and has its content from `at` to `end`."""
    start, last = at, {SEQUENCE: 0, MARKED: 0}
    while at < end:
        try:
            field, wire_type, value, behind = read_field(trace, at, end)
        except Fault as fault:
            raise BadTrace(at, 'group' if fault.reason == 'group' else 'bad record') from fault
        if field in last and wire_type == NUMBER:
            last[field] = value
        at = behind
    return Record(trace[first:end], trace[start:end], last[SEQUENCE], last[MARKED] != 0)


def read_trace(trace: bytes) -> list[Record]:
    records, at = [], 0
    while at < len(trace):
        try:
            field, wire_type, value, behind = read_field(trace, at, len(trace))
        except Fault as fault:
            raise BadTrace(at, 'bad record' if fault.reason == 'malformed' else fault.reason) from fault
        if field == RECORD and wire_type == CONTENT:
            records.append(read_record(trace, at, *value))
        at = behind
    return records
