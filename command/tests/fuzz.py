"""fuzz.py PROGRAM WHOLE FOLDER SECONDS FILE...: damaged files, made from these and from a seed. The command ends by itself with 0, 1 or 2 on
each, with a total as its last row wherever it is a log; its rows are those of doortumble_list_file on the whole file (WHOLE prints them); and
show has the same records, in each form as many. A file that fails is kept in FOLDER."""

import random
import shutil
import struct
import subprocess
import sys
import time

import program as command
from logs import CHUNK, chunk, log, run_of
from program import Run, end, hold

program, whole, folder, seconds, *files = sys.argv[1:]
seed = random.SystemRandom().randrange(2**32)
some = random.Random(seed)
until = time.monotonic() + float(seconds)
path = f"{folder}/fuzz.evtx"
ITEMS = {"live": 1, "carved": 2, "refused": 3}


def made():
    first = some.randrange(1, 2**some.randrange(1, 64))
    return log([chunk([(first + n, some.randrange(2**some.randrange(1, 62))) for n in range(some.randrange(200))]),
                bytes(CHUNK), run_of(first % 1000 + 1, first % 1000 + 30)], first)


def flip(data):
    for _ in range(2 ** some.randrange(8)):
        data[some.randrange(len(data))] = some.choice((0, 255, 1, 42, some.randrange(256)))


def field(data):
    """Something else in a field of the file's or a chunk's header, or of a record."""
    at = some.choice((0, 4096, 4096 + 512, some.randrange(len(data))))
    at = min(at + some.randrange(0, 128, 2), len(data) - 8)
    struct.pack_into("<Q", data, max(at, 0), some.choice((0, 1, 2**63, 2**64 - 1, some.randrange(2**64), some.randrange(2**17))))


def block(data):
    struct.pack_into("<H", data, 40, some.choice((0, 1, 40, 127, 128, 4095, 4096, 65535, some.randrange(65536))))


def cut(data):
    del data[some.choice((some.randrange(len(data)), 127, 128, 4096, 4097, 4096 + CHUNK)):]


def swap(data):
    to, at = (some.randrange(len(data)) // 512 * 512 for _ in range(2))
    length = some.choice((512, 4096, CHUNK))
    data[to:to + length] = data[at:at + length]


def longer(data):
    data += bytes(some.randrange(3 * CHUNK)) if some.random() < 0.7 else some.randbytes(some.randrange(2 * CHUNK))


def rows_of(run):
    """The command's rows as the call has them: a chunk of zeros is refused 4 there."""
    for row in run.json():
        if row["what"] == "empty":
            for n in range(row["chunks"]):
                yield row["offset"] + n * CHUNK, 3, 0, 4, 0, 0
        elif row["what"] == "refused":
            yield row["chunk"], 3, row["place"], row["number"], 0, 0
        elif row["what"] != "total":
            yield row["chunk"], ITEMS[row["what"]], row["offset"] - row["chunk"], row["size"], row["id"], int(row["ticks"])


def look(name, verb, run, printed):
    hold(run.status in (0, 1, 2), f"{name} {verb}: status {run.status}: {run.said.decode(errors='replace')}")
    if run.status == 2:
        hold(run.out == b"" and b"refused 18" in printed, f"{name} {verb}: a log that is none")
    elif verb == "list":
        hold(run.json()[-1]["what"] == "total", f"{name} list: no total")
        hold([tuple(map(int, line.split())) for line in printed.splitlines()] == list(rows_of(run)), f"{name} list: other rows")
    else:
        hold(run.json()[-1]["what"] == "total", f"{name} info: no total")


def inside(data):
    """Something else inside records, where their tokens, names and values stand."""
    for _ in range(2 ** some.randrange(6)):
        at = 4096 + 512 + some.randrange(max(len(data) - 5000, 1))
        if at + 4 <= len(data):
            struct.pack_into(*some.choice((("<B", data, at, some.choice((0, 1, 4, 5, 6, 8, 12, 13, 14, 15, 33, 65, 129))), ("<H", data, at, some.randrange(2**16)),
                                           ("<I", data, at, some.choice((0, 512, 550, 65535, some.randrange(2**16)))))))


def look_shown(name, listed):
    """Each form of show has the records of list; text ends in a total."""
    shown, csv = Run(program, "show", "--json", path), Run(program, "show", "--csv", path)
    hold(shown.status == csv.status and shown.status in (0, 1, 2), f"{name} show: status {shown.status}, {csv.status}: {shown.said.decode(errors='replace')}")
    if shown.status == 2:
        return
    rows = shown.json()
    hold([(row["what"], row.get("offset"), row.get("id")) for row in rows] == [(row["what"], row.get("offset"), row.get("id")) for row in listed.json()],
         f"{name} show: other records than list's")
    hold(sum(max(len(row.get("fields", [])), 1) for row in rows) == len(csv.csv()), f"{name} show: other fields in CSV than in JSON")
    for more in ((), ("--tokens", "--live")):
        text = Run(program, "show", *more, path)
        hold(text.status in (0, 1) and text.out.decode("utf-8").splitlines()[-1].startswith("total: "), f"{name} show {more}: no total")


bases = [data for data in (open(file, "rb").read()[:20 * CHUNK] for file in files) if len(data) >= 256]
cases = 0
while time.monotonic() < until:
    data = bytearray(some.choice(bases)[:4096 + some.choice((1, 3, 20)) * CHUNK] if some.random() < 0.6 else made())
    for _ in range(some.randrange(1, 4)):
        some.choice((flip, field, field, block, cut, swap, longer, inside, inside))(data)
        if len(data) < 256:
            break
    with open(path, "wb") as out:
        out.write(data)
    name = f"seed {seed} case {cases}"
    printed = subprocess.run([whole, path], capture_output=True).stdout
    failures = command.failures
    listed = Run(program, "list", "--json", path)
    look(name, "list", listed, printed)
    look_shown(name, listed)
    look(name, "info", Run(program, "info", "--json", "-", given=bytes(data)), printed)
    text = Run(program, "list", path)
    hold(text.status == 2 or text.out.splitlines()[-1].startswith(b"total: "), f"{name} text: no total")
    if command.failures != failures:
        shutil.copy(path, f"{folder}/failed-{seed}-{cases}.evtx")
    cases += 1
end(f"{cases} damaged files, seed {seed}")
