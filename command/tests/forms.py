"""forms.py PROGRAM FOLDER FILE...: JSON and CSV, read by Python's own readers, say the same as each other and as the text; carved records are
marked on each line; and the names of files come back whatever bytes they have."""

import json
import os
import re
import sys

from logs import log, run_of
from program import Run, end, hold

program, folder, *files = sys.argv[1:]

# A line of text has the row's numbers as words.
NEEDED = {"live": ("offset", "what", "id", "time", "size"), "carved": ("offset", "what", "id", "time", "size"),
          "refused": ("offset", "what", "number", "place", "chunk", "why"), "empty": ("offset", "what", "chunks"),
          "total": ("live", "carved", "refused", "chunks", "empty")}


def agree(file, row, line):
    place = 0
    for name in NEEDED[row["what"]]:
        found = line.find(str(row[name]), place)
        hold(found >= 0, f"{file}: '{line}' does not have {name} {row[name]}")
        place = max(found, 0) + len(str(row[name]))


for file in files:
    for verb in ("list", "info"):
        for more in ((), ("--no-recovery",)):
            objects, csv = Run(program, verb, "--json", *more, file), Run(program, verb, "--csv", *more, file)
            rows = objects.json()
            hold([{name: str(field) for name, field in row.items()} for row in rows] == csv.csv(), f"{verb} {file}: JSON and CSV differ")
            hold(rows[-1]["what"] == "total", f"{verb} {file}: the last row is no total")
            hold(all(row["file"] == file for row in rows), f"{verb} {file}: another file's name")
            text = Run(program, verb, *more, file)
            hold(objects.status == csv.status == text.status, f"{verb} {file}: the exit statuses differ")
            lines = text.out.decode().splitlines()
            if verb == "list":
                hold(len(lines) == len(rows) + 1, f"{file}: {len(lines)} lines and {len(rows)} rows")
                for row, line in zip(rows, lines[1:]):
                    agree(file, row, line)
            else:
                findings = [row for row in rows if row["what"] not in ("header", "chunk", "empty", "refused", "total")]
                told = [line.strip() for line in lines if line.startswith(" " * 12) and ": " in line and line[18:24] != "dirty:" and line[18:23] != "full:"]
                hold(told == [f"{row['what']}: {row['why']}" for row in findings], f"{file}: other findings in text than in JSON")

# What show says of a field in CSV: the escapes of text in a text.
ESCAPES = {"t": "\t", "n": "\n", "r": "\r", "\\": "\\"}


def unescaped(text):
    return re.sub(r"\\(u[0-9A-F]{4}|.)", lambda one: ESCAPES.get(one[1]) or chr(int(one[1][1:], 16)), text)


def rows_of_fields(rows):
    """The rows of CSV that JSON's records make: one a field, or one of a record without."""
    for row in rows:
        head = {name: str(field) for name, field in row.items() if name != "fields"}
        for field in row.get("fields") or [{}]:
            yield head | {name: "true" if field[name] is True else field[name] if isinstance(field[name], list) else str(field[name])
                          for name in field if field[name] is not None and field[name] != ""}


def as_json(row):
    """A row of CSV with its value as JSON has it."""
    if row.get("type") == "String":
        row = row | {"value": unescaped(row["value"])} if "value" in row else row
    elif row.get("type") == "String array" and row.get("value", "").startswith("["):
        row = row | {"value": json.loads(row["value"])}
    return {name: field for name, field in row.items() if field != []}


def joined(rows):
    """Two halves of a character that stand side by side are one in JSON."""
    return [{name: field.encode("utf-16", "surrogatepass").decode("utf-16", "surrogatepass") if isinstance(field, str) else field
             for name, field in row.items() if field != []} for row in rows]


def marked(file, lines, rows):
    """The records' own lines are those of JSON; what stands below a carved one is marked, and nothing else is."""
    own, carved = [], False
    for line in lines[1:-1]:
        if line[:4] == "    " and line[4:12] in ("        ", "carved  "):
            hold((line[4:10] == "carved") == carved, f"{file}: '{line[:60]}' stands below a record that is {'carved' if carved else 'live'}")
        else:
            own.append(line)
            carved = line[12:18] == "carved"
    hold(len(own) == len(rows) - 1, f"{file}: {len(own)} lines of records and {len(rows) - 1} rows")
    for row, line in zip(rows, own):
        agree(file, row, line)


for file in files:
    for more in ((), ("--live",)):
        json_run, csv = Run(program, "show", "--json", *more, file), Run(program, "show", "--csv", *more, file)
        rows = json_run.json()
        hold(rows[-1]["what"] == "total", f"show {file}: the last row is no total")
        ours, theirs = joined(rows_of_fields(rows)), joined(as_json(row) for row in csv.csv())
        hold(len(ours) == len(theirs), f"show {file}: {len(ours)} rows by JSON and {len(theirs)} by CSV")
        for one, other in zip(ours, theirs):
            hold(one == other, f"show {file}: JSON and CSV differ", one, other)
        text, tokens = Run(program, "show", *more, file), Run(program, "show", "--tokens", *more, file)
        hold(json_run.status == csv.status == text.status, f"show {file}: the exit statuses differ")
        for run in (text, tokens):
            marked(file, run.out.decode("utf-8").splitlines(), rows)

sound = log([run_of(1, 20)], 21)
for name in (b'a"b', b"a,b", b"a b", b"a\nb", b"a\rb", b"a\\b", b"\xff\xfe", b"a\xe2\x82", "größe €.evtx".encode(), b"\x01\x1b[2J\x7f", b"\xed\xa0\x80", b"\xc0\x80",
             "\u0085\U0001f600".encode(), b"\xf4\x90\x80\x80", b"-x", "\u2028\u2029".encode(), b"x" * 255):
    path = os.path.join(os.fsencode(folder), name)
    with open(path, "wb") as out:
        out.write(sound)
    rows = Run(program, "list", "--json", path).json()
    hold(len(rows) == 21 and all(os.fsencode(row["file"]) == path for row in rows), "JSON", path)
    rows = Run(program, "list", "--csv", path).csv()
    hold(len(rows) == 21 and all(row["file"].encode("utf-8", "surrogateescape") == path for row in rows), "CSV", path)
    text = Run(program, "info", path).out.decode("utf-8")
    hold(all(sign.isprintable() or sign == "\n" for sign in text), "text", path)
    hold(text.count("\n") == Run(program, "info", "-", given=sound).out.count(b"\n"), "lines", path)
    os.remove(path)
end(f"JSON, CSV and text of {len(files)} files, and 17 names")
