"""Reads FORMATS, "Report": its lines."""

from model.buffers import TraceBuffer
from model.limits import MOST_NUMBER, raised
from model.service import Service, sequence_of
from model.writers import Writer

SEQUENCE_WORDS = ('delivered', 'dropped', 'overwritten', 'discarded', 'cut')


def buffer_line(number: int, buffer: TraceBuffer) -> str:
    return (f'buffer {number} {buffer.policy} bytes {buffer.size} placed {buffer.placed} rewritten {buffer.rewritten} '
            f'overwritten {buffer.overwritten} discarded {buffer.discarded} unpatched {buffer.unpatched} padding {buffer.padding}\n')


def counts_read(number: int, buffer: TraceBuffer) -> dict[str, int]:
    """What became of a sequence's packets, as far as reads and losses tell."""
    sequence = buffer.sequences[number]
    return {
        'delivered': sequence.delivered,
        'dropped': sequence.dropped,
        'overwritten': sequence.lost if buffer.policy == 'ring' else 0,
        'discarded': sequence.lost if buffer.policy == 'discard' else 0,
        'cut': sequence.cut,
    }


def line_read(number: int, buffer: TraceBuffer) -> str:
    """The line of a sequence of which nobody knows what was begun."""
    counts = counts_read(number, buffer)
    return sequence_line(number, min(MOST_NUMBER, sum(counts.values())), counts)


def counts_of(writer: Writer, buffer: TraceBuffer) -> dict[str, int]:
    """What became of a writer's packets, each under its one cause."""
    counts = counts_read(sequence_of(writer.number), buffer)
    counts['dropped'] = raised(counts['dropped'], writer.dropped_at_begin)
    counts['cut'] += max(0, writer.begun - sum(counts.values()))
    return counts


def sequence_line(number: int, begun: int, counts: dict[str, int]) -> str:
    words = ' '.join(f'{word} {counts[word]}' for word in SEQUENCE_WORDS)
    return f'sequence {number} begun {begun} {words}\n'


def line_of(service: Service, writer: Writer) -> str:
    """The line of a writer's sequence."""
    if service.scenario.has_raw(writer.number):
        return line_read(sequence_of(writer.number), service.buffer_of(writer))
    return sequence_line(sequence_of(writer.number), writer.begun, counts_of(writer, service.buffer_of(writer)))


def report_of(service: Service) -> bytes:
    lines = [buffer_line(number, buffer) for number, buffer in enumerate(service.buffers, 1)]
    lines += [line_of(service, writer) for writer in service.writers]
    lines += [f'flush {number} chunks {service.chunks_of(request)}\n' for number, request in enumerate(service.requests, 1)]
    lines += [f'raw {line} {answer}\n' for line, answer in service.raws]
    return ''.join(lines).encode()
