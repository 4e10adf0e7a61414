"""Reads FORMATS, "Stream": a session whose chunks come as bytes, and what is delivered of them."""

from dataclasses import dataclass

from model.answers import Answer, refused
from model.buffers import BAD_CHUNK, DUPLICATE, TOO_FAR
from model.check import divided
from model.chunks import Chunk, Patch
from model.config import read_config
from model.limits import MOST_NUMBER
from model.report import buffer_line, line_read
from model.scenario import Refused, Scenario
from model.service import Service, sequence_of

COMMIT, READ, CLOSE = 1, 2, 3           # kinds of frames
LENGTHS = range(1, 70_000 + 1)
LENGTH = 4                              # bytes of a frame's length
MOST_PATCHES = 16
FRAGMENT_BITS = 10                      # of a header's last number; the flags are above
REFUSALS = (BAD_CHUNK, DUPLICATE, TOO_FAR)


class BadStream(Exception):
    """The first fault of a stream, and its offset."""

    def __init__(self, offset: int, reason: str):
        super().__init__(f'offset {offset}: {reason}')


class BadFrame(Exception):
    """A frame isn't of the form of its kind."""


@dataclass(frozen=True)
class Frame:
    """A frame. A commit has a chunk and its source, a commit and a read have a buffer."""
    kind: int
    buffer: int = 0
    source: int = 0
    chunk: Chunk | None = None


class FrameBytes:
    """The bytes of a frame, read from left to right."""

    def __init__(self, data: bytes, session: Scenario):
        self.data, self.session = data, session

    def take(self, count: int) -> bytes:
        if count > len(self.data):
            raise BadFrame
        front, self.data = self.data[:count], self.data[count:]
        return front

    def number(self, count: int, allowed: range | None = None) -> int:
        number = int.from_bytes(self.take(count), 'little')
        if allowed and number not in allowed:
            raise BadFrame
        return number

    def among(self, count: int, things: list) -> int:
        """The number of one of these, from 1."""
        number = self.number(count)
        if not 1 <= number <= len(things):
            raise BadFrame
        return number

    def frame(self) -> Frame:
        kind = self.number(1, range(COMMIT, CLOSE + 1))
        buffer = self.among(1, self.session.buffers) if kind != CLOSE else 0
        if kind == COMMIT:
            return self.commit(buffer)
        if self.data:
            raise BadFrame
        return Frame(kind, buffer)

    def commit(self, buffer: int) -> Frame:
        chunk_id, source, head = self.number(4), self.among(2, self.session.writers), self.number(2)
        patches = [self.patch() for _ in range(self.number(1, range(MOST_PATCHES + 1)))]
        size = self.session.producers[self.session.writers[source - 1].producer - 1].payload()
        if len(self.data) > size:
            raise BadFrame
        flags, count = divmod(head, 2 ** FRAGMENT_BITS)
        return Frame(COMMIT, buffer, source, Chunk(chunk_id, count, flags, bytearray(self.data.ljust(size, b'\0')), patches))

    def patch(self) -> Patch:
        return Patch(self.number(4), self.number(4), self.take(4), self.number(1, range(2)) == 1)


def read_frames(stream: bytes, session: Scenario) -> list[Frame]:
    """The frames of a stream up to its close; else its first fault."""
    frames, at = [], 0
    while not frames or frames[-1].kind != CLOSE:
        behind = at + LENGTH + int.from_bytes(stream[at:at + LENGTH], 'little')
        if at + LENGTH > len(stream):
            raise BadStream(len(stream), 'no end')
        if behind - at - LENGTH not in LENGTHS:
            raise BadStream(at, 'bad frame')
        if behind > len(stream):
            raise BadStream(len(stream), 'no end')
        try:
            frames.append(FrameBytes(stream[at + LENGTH:behind], session).frame())
        except BadFrame:
            raise BadStream(at, 'bad frame') from None
        at = behind
    if at < len(stream):
        raise BadStream(at, 'bad frame')
    return frames


def is_refused(service: Service, frame: Frame) -> bool:
    """Plays a commit; whether its chunk is refused."""
    if service.writers[frame.source - 1].spec.buffer != frame.buffer:
        return True
    buffer, sequence = service.buffers[frame.buffer - 1], sequence_of(frame.source)
    outcome = buffer.arrive(sequence, frame.chunk)
    for patch in frame.chunk.patches:
        buffer.patch(sequence, patch)
    return outcome in REFUSALS


def play(session: Scenario, frames: list[Frame]) -> Answer:
    service, records = Service(session), []
    commits, refusals = 0, 0
    for frame in frames:
        if frame.kind == COMMIT:
            commits, refusals = commits + 1, refusals + is_refused(service, frame)
        elif frame.kind == READ:
            records += service.read(frame.buffer, MOST_NUMBER)
    for writer in service.writers:
        service.buffer_of(writer).close_sequence(sequence_of(writer.number))
    for number in range(1, len(service.buffers) + 1):
        records += service.read(number, MOST_NUMBER)
    return Answer(0, b''.join(records), report_of(service) + f'stream commits {commits} refused {refusals}\n'.encode())


def report_of(service: Service) -> bytes:
    """The lines of the buffers and of the sequences, by what reads and losses tell."""
    lines = [buffer_line(number, buffer) for number, buffer in enumerate(service.buffers, 1)]
    lines += [line_read(sequence_of(writer.number), service.buffer_of(writer)) for writer in service.writers]
    return ''.join(lines).encode()


def stream(data: bytes) -> Answer:
    text, frames = divided(data)
    try:
        if frames is None:
            raise Refused(text.count(b'\n') + bool(text.rpartition(b'\n')[2]) + 1, 'no stream')
        session = read_config(text)
        return play(session, read_frames(frames, session))
    except (Refused, BadStream) as fault:
        return refused(fault)
