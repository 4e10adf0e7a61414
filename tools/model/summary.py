"""Reads FORMATS, "Summary": what `read` writes."""

from model.answers import Answer, refused
from model.tracefile import BadTrace, Record, read_trace


def summary_of(records: list[Record]) -> bytes:
    of_sequences: dict[int, list[int]] = {}         # packets, marked ones, bytes
    for record in records:
        tally = of_sequences.setdefault(record.sequence, [0, 0, 0])
        for i, more in enumerate((1, record.marked, len(record.content))):
            tally[i] += more
    lines = ['sequence {} packets {} marked {} bytes {}\n'.format(number, *of_sequences[number]) for number in sorted(of_sequences)]
    lines.append(f'packets {len(records)} bytes {sum(len(record.content) for record in records)}\n')
    return ''.join(lines).encode()


def read(trace: bytes) -> Answer:
    try:
        return Answer(0, summary_of(read_trace(trace)))
    except BadTrace as fault:
        return refused(fault)
