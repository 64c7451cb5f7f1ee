"""sequence.py PROGRAM FOLDER: what info finds in logs whose IDs and times are made so: gaps, overlaps, a log that has wrapped round, times that go
back, checksums, chunks of zeros, and block sizes that are unusual."""

import sys

from logs import BLOCK, CHUNK, FULL, NOW, chunk, log, run_of
from program import Run, end, hold

program, folder = sys.argv[1:]
path = f"{folder}/sequence.evtx"
cases = 0
zeros = bytes(CHUNK)


def at(n):
    return BLOCK + n * CHUNK


def info(made):
    with open(path, "wb") as out:
        out.write(made)
    return Run(program, "info", "--json", path)


def found(name, made, expected, status=0):
    """The findings: what, offset, and the IDs before and after it where it is about IDs."""
    global cases
    cases += 1
    run = info(made)
    rows = [row for row in run.json() if row["what"] not in ("header", "chunk", "empty", "refused", "total")]
    got = [(row["what"], row["offset"], *([row["first_id"], row["last_id"]] if "first_id" in row else [])) for row in rows]
    hold(got == expected, f"{name}: {got} and not {expected}")
    hold(run.status == status, f"{name}: status {run.status}, not {status}: {run.said}")


a, b, c, d = run_of(1, 10), run_of(11, 20), run_of(21, 30), run_of(31, 40)
found("sound", log([a, b, c], 31), [])
found("no chunk", log([], 1), [])
found("a chunk without records", log([a, chunk([]), b], 21), [])
found("zeros between and behind", log([a, zeros, b, zeros, zeros], 21), [])
found("a gap of one", log([a, run_of(12, 20)], 21), [("gap", at(1), 10, 12)])
found("a gap of a chunk", log([a, c], 31), [("gap", at(1), 10, 21)])
found("a chunk overwritten", log([a, b"\x55" * CHUNK, c], 31), [("gap", at(2), 10, 21)], 1)
found("one byte in zeros", log([a, zeros[:-1] + b"\1", zeros[:40000] + b"\1" + zeros[40001:], b], 21), [], 1)
found("an overlap", log([a, run_of(6, 20)], 21), [("overlap", at(1), 10, 6), ("back", at(1) + 512)])
found("the same chunk twice", log([a, a], 11), [("overlap", at(1), 10, 1), ("back", at(1) + 512)])
found("wrapped, and marked full", log([c, d, a, b], 41, FULL), [("wrap", at(2), 40, 1)])
found("wrapped, not marked", log([c, d, a, b], 41), [("wrap", at(2), 40, 1)])
found("wrapped, zeros and a chunk without records between", log([c, zeros, chunk([]), a, b], 31), [("wrap", at(3), 30, 1)])
found("wrapped, the oldest half written over", log([c, d, b], 41, FULL), [("wrap", at(2), 40, 11)])
found("wrapped, a gap round", log([d, a, b], 41, FULL), [("wrap", at(1), 40, 1), ("gap", at(0), 20, 31)])
found("wrapped, an overlap round", log([c, d, run_of(5, 22)], 41, FULL), [("wrap", at(2), 40, 5), ("overlap", at(0), 22, 21), ("back", at(0) + 512)])
found("an overlap round, not marked full", log([c, d, run_of(5, 22)], 23), [("overlap", at(2), 40, 5), ("back", at(2) + 512)])
found("back twice", log([d, b, a], 11), [("overlap", at(2), 20, 1), ("back", at(2) + 512), ("overlap", at(1), 40, 11), ("back", at(1) + 512)])
found("back twice, marked full", log([c, b, d, a], 11, FULL),
      [("gap", at(2), 20, 31), ("overlap", at(3), 40, 1), ("back", at(3) + 512), ("overlap", at(1), 30, 11), ("back", at(1) + 512)])
found("inside a chunk", log([chunk([(1, NOW), (3, NOW), (3, NOW), (4, NOW)])], 5), [("broken", at(0) + 544, 1, 3)])
found("times inside", log([chunk([(1, NOW + 5), (2, NOW), (3, NOW + 9), (4, NOW + 8)])], 5), [("back", at(0) + 544)])
found("times between", log([run_of(1, 10, NOW + 1), run_of(11, 20, NOW)], 21), [("back", at(1) + 512)])
found("the next ID is behind", log([a, b], 12), [("next", 0, 20, 12)])
found("cut at a chunk", log([a, b], 31, announced=3), [("next", 0, 20, 31), ("cut", 0)])
found("cut in a chunk", log([a, b[:5000]], 21), [("next", 0, 10, 21)], 1)
found("flags", log([chunk([(1, NOW)], flags=1), chunk([(2, NOW)], flags=4)], 3), [("flags", at(1))])
found("IDs up to the last", log([chunk([(2**64 - 2, NOW), (2**64 - 1, NOW)])], 0), [])

# Checksums.
wrong = log([chunk([(1, NOW)], events=1), chunk([(2, NOW)], header=1), chunk([(3, NOW)]), chunk([(4, NOW)], events=1)], 5, checksum=1)
found("checksums", wrong, [("checksums", 0)])
rows = info(wrong).json()
hold("header's checksum is wrong in 1 of the chunks, the events' checksum in 2" in rows[-2]["why"], "checksums", rows[-2])
sums = [(row["what"], row["header_checksum"], row.get("events_checksum")) for row in rows if "header_checksum" in row]
hold(sums == [("header", "wrong", None), ("chunk", "right", "wrong"), ("chunk", "wrong", "right"), ("chunk", "right", "right"),
               ("chunk", "right", "wrong")], "checksums", sums)

# The numbers of a chunk and of the file.
run = info(log([a, zeros, zeros, b], 21, FULL | 1))
header, first, empty, second, total = run.json()
hold((header["flag_words"], header["announced"], header["next_id"], header["version"]) == ("dirty, full", 4, 21, "3.1"), "header", header)
hold((first["first_id"], first["last_id"], first["live"], int(first["first_ticks"])) == (1, 10, 10, NOW + 10_000_000), "chunk", first)
hold((empty["what"], empty["offset"], empty["chunks"], empty["size"]) == ("empty", at(1), 2, 2 * CHUNK), "empty", empty)
hold((total["chunks"], total["empty"], total["live"], total["refused"]) == (4, 2, 20, 0), "total", total)
end(f"{cases + 1} sequences")
