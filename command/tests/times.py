"""times.py PROGRAM FOLDER: a record's time is the one that Python's datetime has for its ticks, in text, JSON and CSV."""

import datetime
import random
import sys

from logs import chunk, log
from program import Run, end, hold

program, folder = sys.argv[1:]
START = datetime.datetime(1601, 1, 1)
DAY = 86_400 * 10_000_000
LAST = 2_650_466_808_009_999_999  # the last that is read; later ones are refused 6


def readable(ticks):
    moment = START + datetime.timedelta(microseconds=ticks // 10)
    return moment.strftime("%Y-%m-%dT%H:%M:%S.").rjust(20, "0") + f"{ticks % 10_000_000:07}Z"


def ticks_of(year, month, day):
    return (datetime.datetime(year, month, day) - START).days * DAY


# The ends of every year and of every February, the first and the last time of all, neighbours in both directions, and any.
values = [0, 1, LAST, LAST - 1]
for year in range(1601, 10000):
    for month, day in ((1, 1), (2, 28), (3, 1), (12, 31)):
        at = ticks_of(year, month, day)
        values += [at, at + DAY - 1] if year % 4 == 0 or year < 2200 else [at]
seed = random.SystemRandom().randrange(2**32)
some = random.Random(seed)
values += [some.randrange(LAST + 1) for _ in range(20_000)]
values += [133_813_836_000_000_000 + some.randrange(3 * DAY) for _ in range(10_000)]
some.shuffle(values)
values = [ticks for ticks in values if ticks <= LAST]

parts = [values[n:n + 2000] for n in range(0, len(values), 2000)]
number = iter(range(1, len(values) + 1))
path = f"{folder}/times.evtx"
with open(path, "wb") as out:
    out.write(log([chunk([(next(number), ticks) for ticks in part]) for part in parts], len(values) + 1))

text = [line.split() for line in Run(program, "list", path).out.decode().splitlines()[1:-1]]
hold([(line[1], line[3]) for line in text] == [("live", readable(ticks)) for ticks in values], "text, seed", seed)
for rows in (Run(program, "list", "--json", path).json(), Run(program, "list", "--csv", path).csv()):
    got = [(row["time"], row["ticks"]) for row in rows if row["what"] == "live"]
    hold(got == [(readable(ticks), str(ticks)) for ticks in values], "JSON or CSV, seed", seed)
end(f"{len(values)} times")
