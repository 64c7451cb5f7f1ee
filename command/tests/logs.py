"""Small event logs, made for the tests: records without a body, which a listing does not look into."""

import struct
import zlib

CHUNK = 65536
BLOCK = 4096
FIRST = 512
NOW = 133_813_836_000_000_000  # 2025-01-15T03:00:00Z
DIRTY, FULL = 1, 2


def record(number, ticks=NOW, size=32):
    return struct.pack("<4sIQQ", b"**\0\0", size, number, ticks) + bytes(size - 28) + struct.pack("<I", size)


def chunk(records, events=None, header=None, flags=0):
    """A chunk of records, each an ID and a time; events and header are checksums to store instead of the right ones."""
    body = b"".join(record(*one) for one in records)
    ids = [one[0] for one in records] or [2**64 - 1, 2**64 - 1]
    last = FIRST + len(body) - (32 if records else 0)
    out = bytearray(CHUNK)
    out[FIRST:FIRST + len(body)] = body
    crc = zlib.crc32(body) if events is None else events
    struct.pack_into("<8sQQQQIIII", out, 0, b"ElfChnk\0", ids[0], ids[-1], ids[0], ids[-1], 128, last, FIRST + len(body), crc)
    struct.pack_into("<I", out, 120, flags)
    crc = zlib.crc32(out[128:512], zlib.crc32(out[0:120])) if header is None else header
    struct.pack_into("<I", out, 124, crc)
    return bytes(out)


def run_of(first, last, ticks=None):
    """A chunk of the records first to last, one a second; the times go with the IDs."""
    return chunk([(n, (NOW + n * 10_000_000) if ticks is None else ticks) for n in range(first, last + 1)])


def log(chunks, next_id, flags=0, block=BLOCK, announced=None, checksum=None):
    out = bytearray(max(block, 128))
    count = len(chunks) if announced is None else announced
    struct.pack_into("<8sQQQIHHHH", out, 0, b"ElfFile\0", 0, max(count, 1) - 1, next_id, 128, 1, 3, block, count)
    struct.pack_into("<I", out, 120, flags)
    struct.pack_into("<I", out, 124, zlib.crc32(out[0:120]) if checksum is None else checksum)
    return bytes(out) + b"".join(chunks)
