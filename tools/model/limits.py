"""Reads FORMATS, the ranges of "Commands" and "Scenario": how much there may be of what."""

MOST_INPUT = 67_108_864         # bytes of an input
MOST_NUMBER = 2 ** 64 - 1
MOST_FIELD = 536_870_911        # the greatest number of a field

BUFFER_KB = range(4, 65_536 + 1)
PAGES = range(1, 64 + 1)
PAGE_SIZES = range(4_096, 65_536 + 1, 4_096)
CHUNK_COUNTS = (1, 2, 4, 7, 14)
TRIES = range(1, 1_000_000 + 1)     # how often a writer asks that stalls and then drops
CHUNK_IDS = range(2 ** 32)
FLAGS = range(64)               # of a chunk
REPETITIONS = range(1, 1_048_576 + 1)

MOST_BUFFERS = 8
MOST_PRODUCERS = 16
MOST_WRITERS = 64
MOST_CLONES = 4

MOST_NESTED = 16                # messages inside one another
MOST_PACKET = 1_048_576         # bytes of a packet's encoding
MOST_PACKETS = 268_435_456      # bytes of all packets of a scenario

GENERATED_WRITERS = range(1, 64 + 1)
GENERATED_PACKETS = range(1, 100_000 + 1)

TUNING_USERS = range(1, 8 + 1)
TUNING_TURNS = range(1, 10_000 + 1)

RESERVED_FIELDS = (3, 10, 33, 35, 36, 42, 50, 79)


def raised(count: int, more: int = 1) -> int:
    """A count that stays at its last value."""
    return min(count + more, MOST_NUMBER)
