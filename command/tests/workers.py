"""workers.py PROGRAM FOLDER FILE...: show reads the chunks of a file in several threads. What it prints of a log of many chunks, sound, refused and
of zeros, is what it prints of each chunk alone, one after the other; each form is the same as in one thread; and an output that fails ends it."""

import os
import random
import resource
import subprocess
import sys

from logs import BLOCK, CHUNK, log, run_of
from program import Run, end, hold

program, folder, *files = sys.argv[1:]
seed = random.SystemRandom().randrange(2**32)
some = random.Random(seed)
path = f"{folder}/workers.evtx"
ZEROS = bytes(CHUNK)
COUNTS = ("chunks", "empty", "live", "carved", "refused", "unread")


def one_thread(*arguments, to=subprocess.PIPE):
    """Where the address space is limited there is one thread, whatever the limit is."""
    most = resource.getrlimit(resource.RLIMIT_AS)[1]
    limit = (1 << 50 if most == resource.RLIM_INFINITY else most, most)
    done = subprocess.run([program, *arguments], stdout=to, stderr=subprocess.PIPE, timeout=120, preexec_fn=lambda: resource.setrlimit(resource.RLIMIT_AS, limit))
    return done.returncode, done.stdout, done.stderr


def write(data, to=path):
    with open(to, "wb") as out:
        out.write(data)


def alone(piece, kept={}):
    """The rows of a log that has no other chunk."""
    if piece not in kept:
        write(log([piece], 1))
        kept[piece] = Run(program, "show", "--json", path).json()
    return kept[piece]


def moved(row, by):
    return row | {name: row[name] + by for name in ("offset", "chunk") if name in row}


def joined(pieces):
    """What a log of these must say: the rows of each, zeros that stand together in one row, and the sums."""
    rows, total = [], dict.fromkeys(COUNTS, 0)
    for n, piece in enumerate(pieces):
        *said, counts = alone(piece)
        total |= {name: total[name] + counts[name] for name in COUNTS}
        for row in said:
            row = moved(row, n * CHUNK)
            if row["what"] == "empty" and rows and rows[-1]["what"] == "empty":
                rows[-1] |= {name: rows[-1][name] + row[name] for name in ("size", "chunks")}
            else:
                rows.append(row)
    return rows + [{"file": path, "what": "total"} | total]


def log_of(kinds):
    """Up to 40 pieces, and the file may end in the middle of the last."""
    pieces = []
    while len(pieces) < some.randrange(1, 40):
        pieces += [some.choice((ZEROS, some.choice(kinds), some.choice(kinds)))] * some.choice((1, 1, 1, 3))
    if some.random() < 0.3:
        pieces[-1] = pieces[-1][:some.randrange(1, CHUNK)]
    return pieces


def in_order(kinds, rounds):
    for n in range(rounds):
        pieces = log_of(kinds)
        name = f"seed {seed} log {n}"
        must = joined(pieces)
        write(log(pieces, 1))
        run = Run(program, "show", "--json", path)
        hold(run.json() == must, f"{name}: not what its chunks say alone")
        for more in ((), ("--json",), ("--csv",), ("--tokens",), ("--live", "--id", "3")):
            run = Run(program, "show", *more, path)
            hold((run.status, run.out, run.said) == one_thread("show", *more, path), f"{name} {more}: another output than one thread's")


def long_output():
    """A file's name so long that a chunk's rows in CSV take more memory than a thread has for them; two such files."""
    place = folder
    while len(os.path.abspath(place)) < 3500:
        place += "/" + 200 * "x"
        os.makedirs(place, exist_ok=True)
    long = f"{place}/long.evtx"
    write(log([run_of(n * 2000 + 1, n * 2000 + 2000) for n in range(5)], 10_001), long)
    run = Run(program, "show", "--csv", long, long)
    hold((run.status, run.out, run.said) == one_thread("show", "--csv", long, long), "a long name: another output than one thread's")
    hold(len(run.out) > 2 * 10_000 * 3500, "a long name: too little output")
    return long


def full(*given):
    """A disk without room: found out early where the output is long, and at the end where it is short."""
    for file in given:
        with open("/dev/full", "wb") as disk:
            run = subprocess.run([program, "show", file], stdout=disk, stderr=subprocess.PIPE, timeout=60)
            must = one_thread("show", file, to=disk)
        hold(run.returncode == 4 and b"could not be written: No space left" in run.stderr, "a full disk", run)
        hold((run.returncode, run.stderr) == (must[0], must[2]), "a full disk: another end than one thread's", run, must)


chunks = []
for file in files:
    with open(file, "rb") as given:
        data = given.read()[BLOCK:]
    chunks += [data[n:n + CHUNK] for n in range(0, min(len(data), 6 * CHUNK), CHUNK) if len(data) >= n + CHUNK]
in_order([run_of(1, 30), run_of(7, 300), some.randbytes(CHUNK), b"\1" + ZEROS[1:], ZEROS[1:] + b"\1", *chunks], 8)
full(long_output(), *files)
end("logs shown in several threads and in one")
