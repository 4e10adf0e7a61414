"""Reads FORMATS, the lines `c`, `s`, `x`, `r` and `q` of "What is played": the service, which takes chunks into its buffers."""

from dataclasses import dataclass, field

from model.buffers import BAD_CHUNK, TraceBuffer
from model.chunks import Chunk, Claims, Unreadable, read_fragments
from model.geometry import record_size
from model.limits import MOST_NUMBER
from model.reading import read_buffer
from model.scenario import Scenario
from model.writers import Writer

LEAST_OF_PART = 2           # fragments of a chunk of which a scrape takes a part


def sequence_of(writer: int) -> int:
    return writer + 1


def first_unreadable(chunk: Chunk) -> int:
    """The number of the first fragment that can't be read."""
    try:
        read_fragments(chunk.payload, chunk.count)
    except Unreadable as at:
        return at.args[0]
    raise AssertionError('all fragments are there')


@dataclass
class Request:
    """A flush request, and the first answer of each writer to it or to a later one."""
    answers: dict[int, int] = field(default_factory=dict)


class Service:
    """The buffers of a scenario, its producers' chunks, and its writers."""

    def __init__(self, scenario: Scenario):
        self.scenario = scenario
        self.buffers = [TraceBuffer(buffer.size(), buffer.policy) for buffer in scenario.buffers]
        self.claims = [Claims(producer.pages * producer.chunks) for producer in scenario.producers]
        self.writers = [self.make_writer(number) for number in range(1, len(scenario.writers) + 1)]
        self.taken = [0] * len(self.writers)        # chunks of each writer
        self.closed: set[int] = set()               # producers
        self.requests: list[Request] = []
        self.raws: list[tuple[int, str]] = []       # the numbers of lines `raw`, and their answers
        self.given: dict[int, tuple[int, int]] = {}     # of a writer of `run` its last answer: the request's number, and its chunks

    def make_writer(self, number: int) -> Writer:
        spec = self.scenario.writers[number - 1]
        payload = self.scenario.producers[spec.producer - 1].payload()
        self.buffers[spec.buffer - 1].add_sequence(sequence_of(number), record_size(payload), spec.first_id)
        return Writer(number, spec, payload, self.claims[spec.producer - 1], lambda: self.collect(spec.producer) > 0)

    def writers_of(self, producer: int) -> list[Writer]:
        return [writer for writer in self.writers if writer.spec.producer == producer]

    def buffer_of(self, writer: Writer) -> TraceBuffer:
        return self.buffers[writer.spec.buffer - 1]

    def collect(self, producer: int) -> int:
        """Takes the complete chunks of a producer; how many they are."""
        count = 0
        for writer in self.writers_of(producer):
            buffer, sequence = self.buffer_of(writer), sequence_of(writer.number)
            while writer.complete:
                slot, chunk = writer.complete.popleft()
                buffer.arrive(sequence, chunk)
                for patch in chunk.patches:
                    buffer.patch(sequence, patch)
                self.claims[producer - 1].release(slot)
                self.taken[writer.number - 1] += 1
                count += 1
        return count

    def scrape(self, producer: int) -> None:
        self.collect(producer)
        for writer in self.writers_of(producer):
            if writer.held and writer.held.count >= LEAST_OF_PART:
                part = writer.held.as_chunk(0, []).first_fragments(writer.held.count - 1)
                self.buffer_of(writer).arrive_partial(sequence_of(writer.number), part)

    def close(self, producer: int) -> None:
        self.collect(producer)
        for writer in self.writers_of(producer):
            self.buffer_of(writer).close_sequence(sequence_of(writer.number))
        self.closed.add(producer)

    def read(self, buffer: int, limit: int) -> list[bytes]:
        return read_buffer(self.buffers[buffer - 1], limit)

    def commit(self, number: int, of: int, target: int, asked: Chunk) -> None:
        """The line with this number commits a chunk in a writer's name, and is answered."""
        writer = self.writers[of - 1]
        self.raws.append((number, self.answer_to(writer, target, asked)))

    def answer_to(self, writer: Writer, target: int, asked: Chunk) -> str:
        """Plays a commit; what becomes of its chunk. Its patches are put in all the same, but in the wrong buffer."""
        if writer.spec.buffer != target:
            return f'wrong target {writer.spec.buffer}'
        chunk = asked.filled(self.scenario.producers[writer.spec.producer - 1].payload())
        buffer, sequence = self.buffer_of(writer), sequence_of(writer.number)
        outcome = buffer.arrive(sequence, chunk)
        for patch in chunk.patches:
            buffer.patch(sequence, patch)
        return f'{outcome} {first_unreadable(chunk)}' if outcome == BAD_CHUNK else outcome

    # Flush requests

    def open_writers(self) -> list[Writer]:
        return [writer for writer in self.writers if writer.spec.producer not in self.closed]

    def open_producers(self) -> list[int]:
        return [producer for producer in range(1, len(self.claims) + 1) if producer not in self.closed]

    def request_flush(self) -> None:
        self.requests.append(Request())
        for writer in self.open_writers():
            self.answer(writer)
        for producer in self.open_producers():
            self.collect(producer)

    def answer(self, writer: Writer) -> None:
        """A writer that has no packet begun answers all requests that it hasn't answered yet."""
        if writer.in_packet or not self.requests or writer.number in self.requests[-1].answers:
            return
        writer.flush()
        for request in self.requests:
            request.answers.setdefault(writer.number, writer.completed)

    def chunks_of(self, request: Request) -> int:
        """The sum of the answers to a request; a writer without one counts with its chunks that were taken."""
        return sum(request.answers.get(writer.number, self.taken[writer.number - 1]) for writer in self.writers)

    # Flush requests of `run`: what the service doesn't see at once

    def note_request(self) -> None:
        self.requests.append(Request())

    def poll(self, writer: Writer) -> None:
        """A writer that has no packet begun answers the newest request, where it is newer than its last answer."""
        if writer.in_packet or len(self.requests) <= self.given.get(writer.number, (0, 0))[0]:
            return
        writer.flush()
        self.given[writer.number] = (len(self.requests), writer.completed)

    def read_answers(self) -> None:
        """An answer is one to each request up to its own that the writer hadn't answered before."""
        for number, (newest, chunks) in self.given.items():
            for request in self.requests[:newest]:
                request.answers.setdefault(number, chunks)

    # The end

    def finish(self) -> list[bytes]:
        """What follows the last line: the records of the last reads."""
        for writer in self.open_writers():
            writer.flush()
        for producer in self.open_producers():
            self.collect(producer)
        for producer in self.open_producers():
            self.close(producer)
        records = []
        for number in range(1, len(self.buffers) + 1):
            records += self.read(number, MOST_NUMBER)
        return records
