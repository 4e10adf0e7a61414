"""Reads FORMATS, "FIELDS" and the columns of "What is refused": the fields of a packet as a line spells them.

FIELDS are read into parts, in their order: a number, a text with how often it stands, the begin of a nested message, and its end.
"""

from dataclasses import dataclass

from model.limits import MOST_FIELD, MOST_NESTED, MOST_NUMBER, REPETITIONS, RESERVED_FIELDS
from model.wire import CONTENT, number_field, tag, text_head

DIGITS = b'0123456789'
HEXADECIMAL = b'0123456789abcdef'


@dataclass(frozen=True)
class Number:
    field: int
    value: int


@dataclass(frozen=True)
class Text:
    field: int
    text: bytes
    times: int


@dataclass(frozen=True)
class Begin:
    field: int


@dataclass(frozen=True)
class End:
    pass


class BadField(Exception):
    """The place, from 0, at which the text begins no FIELDS."""

    def __init__(self, place: int):
        super().__init__(place)
        self.place = place


def is_text_byte(byte: int) -> bool:
    return 0x20 <= byte <= 0x7E and byte not in b'"\\'


class FieldsText:
    """A text of FIELDS, read from left to right."""

    def __init__(self, text: bytes):
        self.text = text
        self.at = 0
        self.parts: list[Number | Text | Begin | End] = []

    def next_is(self, byte: bytes) -> bool:
        return self.text[self.at:self.at + 1] == byte

    def take(self, byte: bytes) -> None:
        if not self.next_is(byte):
            raise BadField(self.at)
        self.at += 1

    def number(self, least: int, most: int) -> int:
        """A number of this range; of one outside it the first digit is at fault."""
        first = self.at
        while self.at < len(self.text) and self.text[self.at] in DIGITS:
            self.at += 1
            if self.text[first:self.at] == b'0':
                break
        if self.at == first:
            raise BadField(first)
        digits = self.text[first:self.at]
        # (the digits of a longer number needn't be counted)
        if len(digits) > len(str(most)) or not least <= int(digits) <= most:
            raise BadField(first)
        return int(digits)

    def all(self) -> list:
        """The parts of FIELDS, which are one field at least."""
        depth = 0
        self.field()
        while True:
            if isinstance(self.parts[-1], Begin):
                depth += 1
                if not self.next_is(b'}'):
                    self.field()
                    continue
            if self.at == len(self.text) and depth == 0:
                return self.parts
            if self.next_is(b'}') and depth > 0:
                self.at += 1
                depth -= 1
                self.parts.append(End())
                continue
            self.take(b' ')
            self.field()

    def field(self) -> None:
        """A field, or the begin of a nested message."""
        field = self.number(1, MOST_FIELD)
        if self.next_is(b'{'):
            self.at += 1
            self.parts.append(Begin(field))
            return
        self.take(b':')
        if self.next_is(b'"'):
            self.parts.append(self.quoted(field))
        elif self.next_is(b'x'):
            self.parts.append(self.pairs(field))
        else:
            self.parts.append(Number(field, self.number(0, MOST_NUMBER)))

    def quoted(self, field: int) -> Text:
        self.at += 1
        first = self.at
        while self.at < len(self.text) and is_text_byte(self.text[self.at]):
            self.at += 1
        text = self.text[first:self.at]
        self.take(b'"')
        if not self.next_is(b'*'):
            return Text(field, text, 1)
        self.at += 1
        return Text(field, text, self.number(REPETITIONS[0], REPETITIONS[-1]))

    def pairs(self, field: int) -> Text:
        self.at += 1
        self.take(b"'")
        digits = bytearray()
        while self.at < len(self.text) and self.text[self.at] in HEXADECIMAL:
            digits.append(self.text[self.at])
            self.at += 1
        if len(digits) % 2 == 1:
            raise BadField(self.at)
        self.take(b"'")
        return Text(field, bytes.fromhex(digits.decode()), 1)


def read_fields(text: bytes) -> list:
    return FieldsText(text).all()


def length_of(part: object) -> int:
    """How many bytes a part makes its packet longer; a nested length has four."""
    if isinstance(part, Number):
        return len(number_field(part.field, part.value))
    if isinstance(part, Text):
        length = len(part.text) * part.times
        return len(text_head(part.field, length)) + length
    if isinstance(part, Begin):
        return len(tag(part.field, CONTENT)) + 4
    return 0


def first_reserved(parts: list, depth: int) -> int | None:
    """The first field at the top level of the packet that is the service's own, where so many messages are open in front."""
    for part in parts:
        if isinstance(part, End):
            depth -= 1
            continue
        if depth == 0 and part.field in RESERVED_FIELDS:
            return part.field
        if isinstance(part, Begin):
            depth += 1
    return None


def is_too_deep(parts: list, depth: int) -> bool:
    """More nested messages stand inside one another than may."""
    for part in parts:
        if isinstance(part, Begin):
            depth += 1
        elif isinstance(part, End):
            depth -= 1
        if depth > MOST_NESTED:
            return True
    return False
