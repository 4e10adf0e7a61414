"""Reads FORMATS, "Varint", "Packet" and the records of "Trace": numbers and fields as bytes."""

from model.limits import MOST_FIELD, MOST_NUMBER

NUMBER, EIGHT_BYTES, CONTENT, FOUR_BYTES = 0, 1, 2, 5       # wire types
GROUPS = (3, 4)

MARK = b'\xd0\x02\x01'              # field 42, the packet before is missing
HOLE = b'\x80\x80\x80\x00'          # a nested length whose message goes on
DROP_MARK = b'\xff\xff\xff\x7f'     # the size of a fragment whose rest couldn't be written
DROP_SIZE = 0x0FFFFFFF


class Fault(Exception):
    """Why no field stands at the front: `group`, `malformed` or `cut short`."""

    def __init__(self, reason: str):
        super().__init__(reason)
        self.reason = reason


def varint(number: int) -> bytes:
    """The shortest varint of a number."""
    groups = bytearray()
    while number > 127:
        groups.append(number & 127 | 128)
        number >>= 7
    groups.append(number)
    return bytes(groups)


def four_bytes(number: int) -> bytes:
    """The form of four bytes of a number below 2^28."""
    return bytes([number & 127 | 128, number >> 7 & 127 | 128, number >> 14 & 127 | 128, number >> 21 & 127])


def tag(field: int, wire_type: int) -> bytes:
    return varint(8 * field + wire_type)


def number_field(field: int, value: int) -> bytes:
    return tag(field, NUMBER) + varint(value)


def text_head(field: int, length: int) -> bytes:
    """What stands in front of a text of this length."""
    return tag(field, CONTENT) + varint(length)


def record(packet: bytes, sequence: int, marked: bool) -> bytes:
    """A packet as a record of a trace."""
    content = packet + number_field(10, sequence) + (MARK if marked else b'')
    return text_head(1, len(content)) + content


def read_varint(data: bytes, at: int, end: int) -> tuple[int, int]:
    """The number that stands there, and the place behind it; it may be longer than it needs to be."""
    number = 0
    for i in range(10):
        if at + i == end:
            raise Fault('cut short')
        byte = data[at + i]
        number |= (byte & 127) << 7 * i
        if byte < 128:
            if number > MOST_NUMBER:
                raise Fault('malformed')
            return number, at + i + 1
    raise Fault('malformed')


def read_field(data: bytes, at: int, end: int) -> tuple[int, int, object, int]:
    """The field that stands there: its number, its wire type, its number or where its content is, and the place behind it."""
    key, at = read_varint(data, at, end)
    field, wire_type = divmod(key, 8)
    if wire_type in GROUPS:
        raise Fault('group')
    if field == 0 or field > MOST_FIELD or wire_type > FOUR_BYTES:
        raise Fault('malformed')
    if wire_type == NUMBER:
        value, at = read_varint(data, at, end)
        return field, wire_type, value, at
    if wire_type == CONTENT:
        length, at = read_varint(data, at, end)
    else:
        length = 8 if wire_type == EIGHT_BYTES else 4
    if length > end - at:
        raise Fault('cut short')
    return field, wire_type, (at, at + length), at + length
