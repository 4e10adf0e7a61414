"""Reads FORMATS, "Text", and the statuses of the man page: what a command writes, and how it ends."""

from dataclasses import dataclass

OUT_OF_MEMORY, USAGE, REFUSED, READ_FAULT, WRITE_FAULT, STALLED, TOO_LONG = range(1, 8)

USAGE_LINE = b'usage: tracesmb replay|run|read|check|gen NUMBER WRITERS PACKETS|stream|clone|tune USERS TURNS\n'


@dataclass(frozen=True)
class Answer:
    """The status of a command, what it writes on standard output, and what on standard error."""
    status: int
    output: bytes = b''
    text: bytes = b''


def refused(reason: object) -> Answer:
    return Answer(REFUSED, text=f'{reason}\n'.encode())


def stalled(writer: int, output: bytes) -> Answer:
    return Answer(STALLED, output, f'stalled: writer {writer}\n'.encode())
