"""Reads FORMATS, "Lines": which form a line has, up to its FIELDS."""

import re
from dataclasses import dataclass

NUMERAL = rb'(0|[1-9][0-9]*)'
PAIRS = rb"x'((?:[0-9a-f]{2})*)'"
FOUR_PAIRS = rb"x'([0-9a-f]{8})'"
MOST_DIGITS = 20            # of a number below 2^64; of a longer one no digit matters

FORMS = [(kind, re.compile(form.replace(b'N', NUMERAL))) for kind, form in (
    ('buffer', rb'buffer N (ring|discard)'),
    ('producer', rb'producer N N N'),
    ('writer', rb'writer N N (?:drop|stall|stall:N)'), ('writer', rb'writer N N (?:drop|stall|stall:N) from N'),
    ('p', rb'p N'), ('p', rb'p N (.*)'),
    ('b', rb'b N'), ('e', rb'e N'), ('u', rb'u N'), ('f', rb'f N'),
    ('a', rb'a N'), ('a', rb'a N (.*)'),
    ('n', rb'n N N'),
    ('c', rb'c N'), ('s', rb's N'), ('x', rb'x N'),
    ('r', rb'r N'), ('r', rb'r N N'),
    ('q', rb'q'),
    ('k', rb'k N'),
    ('raw', rb'raw N N N N N ' + PAIRS), ('raw', rb'raw N N N N N ' + PAIRS + rb' N N ' + FOUR_PAIRS + rb' (more|last)'),
)]

SET_UP = ('buffer', 'producer', 'writer')
OF_WRITERS = ('p', 'b', 'a', 'n', 'u', 'e', 'f')     # that ask something of one
OF_PRODUCERS = ('c', 's', 'x')


@dataclass(frozen=True)
class Form:
    """A line by its kind, its numbers, its policy, what else it says of a writer, and where its FIELDS begin."""
    kind: str
    numbers: tuple[int, ...] = ()
    policy: str = ''
    tries: int | None = None        # of `stall:N`
    first_id: int | None = None     # of a writer's chunks, where its line says it
    fields: bytes | None = None     # those of `a` and `p`
    before_fields: int = 0          # how many bytes stand in front of them, and of the FIELD of `n`
    payload: bytes = b''            # what the payload of `raw` begins with
    patch: tuple[int, int, bytes, bool] | None = None   # of `raw`: the chunk's id, the offset, the bytes, and whether it is the last one


def number_of(word: bytes) -> int:
    """A number; one of too many digits is just too large."""
    return int(word) if len(word) <= MOST_DIGITS else 10 ** MOST_DIGITS


def form_of(line: bytes) -> Form | None:
    """The form of a line, if it has one."""
    for kind, pattern in FORMS:
        found = pattern.fullmatch(line)
        if found:
            return form_by(kind, line, [word for word in found.groups() if word is not None])
    return None


def form_by(kind: str, line: bytes, words: list[bytes]) -> Form:
    """The form of a line of this kind, by its words behind the first one."""
    if kind in ('a', 'p'):
        fields = words[1] if len(words) > 1 else b'' if kind == 'a' else None
        return Form(kind, (number_of(words[0]),), fields=fields, before_fields=len(line) - len(fields or b''))
    if kind == 'n':
        return Form(kind, (number_of(words[0]), number_of(words[1])), before_fields=len(line) - len(words[1]))
    if kind == 'raw':
        return form_of_raw(words)
    if kind == 'writer':
        return form_of_writer(line.split(b' '))
    policies = [word for word in words if not word[:1].isdigit()]
    numbers = tuple(number_of(word) for word in words if word[:1].isdigit())
    return Form(kind, numbers, policies[0].decode() if policies else '')


def form_of_raw(words: list[bytes]) -> Form:
    """`raw W ID COUNT FLAGS B HEX`, or with a patch behind it, by its words without `raw`."""
    patch = None
    if len(words) > 6:
        patch = (number_of(words[6]), number_of(words[7]), bytes.fromhex(words[8].decode()), words[9] == b'last')
    return Form('raw', tuple(map(number_of, words[:5])), payload=bytes.fromhex(words[5].decode()), patch=patch)


def form_of_writer(words: list[bytes]) -> Form:
    """`writer P B POLICY`, or with `from ID` behind it."""
    policy, _, tries = words[3].partition(b':')
    return Form('writer', (number_of(words[1]), number_of(words[2])), policy.decode(), number_of(tries) if tries else None,
                number_of(words[5]) if len(words) > 4 else None)
