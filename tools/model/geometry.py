"""Reads FORMATS, "Page" and "Chunk": sizes, and the flags of a chunk. Page words are seen by no input, so there are none here."""

PAGE_HEADER = 8
CHUNK_HEADER = 8
RECORD_HEADER = 16

CONTINUES, RUNS_ON, AWAITS = 1, 2, 4            # the flags of a chunk


def chunk_size(page_size: int, chunks: int) -> int:
    return (page_size - PAGE_HEADER) // chunks // 4 * 4


def payload_size(page_size: int, chunks: int) -> int:
    return chunk_size(page_size, chunks) - CHUNK_HEADER


def record_size(payload: int) -> int:
    """How many bytes a record with this payload takes in a buffer."""
    return (RECORD_HEADER + payload + 15) // 16 * 16
