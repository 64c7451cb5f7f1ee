"""said.py PROGRAM FOLDER: what show says of records made here, of every type of value and every way in which values hang on names, against
Python's own spelling and against what was put into them."""

import datetime
import json
import math
import os
import random
import re
import struct
import sys
import uuid

sys.path.insert(0, os.path.join(os.path.dirname(os.path.abspath(__file__)), "..", "..", "examples"))
from logs import log
from make_sample import (CLOSE_ELEMENT, CLOSE_START, END, HEADER, TEMPLATE, Chunk, cdata, char_ref, element, entity_ref, pi, substitution,
                         text, utf16)
from program import Run, end, hold

program, folder = sys.argv[1:]
some = random.Random(1)
BODY = 0x21


def instance(definition, *values, number=None, place=None):
    """An instance with its definition in place; a value is its type and its bytes, or for a body in it a list of tokens. Instances with the same
    place, a list, share the definition of the first."""
    def write(r):
        guid = TEMPLATE if number is None else struct.pack("<I", number) + TEMPLATE[4:]
        there = r.after(10)
        r.put("BBII", 0x0C, 1, int.from_bytes(TEMPLATE[:4], "little"), place[0] if place else there)
        if not place:
            r.put("I16s", 0, guid)
            r.sized(lambda: define(r))
        if place == []:
            place.append(there)
        r.put("I", len(values))
        table = len(r.out)
        r.out += bytes(4 * len(values))
        for n, (kind, data) in enumerate(values):
            start = len(r.out)
            if isinstance(data, bytes):
                r.out += data
            else:
                for token in data:
                    token(r)
            struct.pack_into("<HBB", r.out, table + 4 * n, len(r.out) - start, kind, 0)

    def define(r):
        r.dependencies = True
        for token in (HEADER, definition, END):
            token(r)
        r.dependencies = False
    return write


def show(records, change=None):
    """The records, each a list of tokens, as show has them: JSON, text and CSV. The chunk may be changed before."""
    chunk = Chunk()
    for n, tokens in enumerate(records):
        chunk.live(n + 1, HEADER, *tokens, END)
    if change:
        change(chunk)
    chunk.seal()
    path = f"{folder}/said.evtx"
    with open(path, "wb") as out:
        out.write(log([bytes(chunk.bytes)], len(records) + 1))
    rows = Run(program, "show", "--json", path).json()
    shown = Run(program, "show", path).out.decode("utf-8")
    csv = Run(program, "show", "--csv", path).csv()
    return rows[:-1], shown.splitlines()[1:-1], csv[:-1]


def fields(row):
    return [(field["path"], field["value"]) for field in row["fields"]]


# ---------------------------------------------------------------------------------------------------------------- values
def moment(ticks):
    at = datetime.datetime(1601, 1, 1) + datetime.timedelta(microseconds=ticks // 10)
    return f"{at:%Y-%m-%dT%H:%M:%S}.{at.microsecond:06d}{ticks % 10}Z"


def systemtime(year, month, day, hour, minute, second, milli, weekday=0):
    return struct.pack("<8H", year, month, weekday, day, hour, minute, second, milli)


guid = uuid.UUID("54849625-5478-4994-a5ba-3e3b0328c30d")
NOW = 133_813_836_000_000_102
# Of each its type, its bytes, the type's name, its value, its bits, and the text of a line.
VALUES = [
    (0x00, b"", "Null", None, None, "null"),
    (0x01, b"", "String", "", "", '""'),
    (0x01, utf16("Grün 停止 \U0001f600 a<b & c"), "String", "Grün 停止 \U0001f600 a<b & c", None, '"Grün 停止 \U0001f600 a<b & c"'),
    (0x01, utf16('"a\\b"\t\r\n\x1b\x7f\x85\u2028\u202e\ufeff'), "String", '"a\\b"\t\r\n\x1b\x7f\x85\u2028\u202e\ufeff', None,
     r'"\"a\\b\"\t\r\n\u001B\u007F\u0085\u2028\u202E\uFEFF"'),
    (0x01, utf16("a") + b"\x00\xd8" + utf16("b"), "String", "a\ud800b", "610000D86200", r'"a\uD800b" (unsound)'),
    (0x01, b"\x00\xdc\x00\xd8", "String", "\udc00\ud800", "00DC00D8", r'"\uDC00\uD800" (unsound)'),
    (0x01, utf16("before\0after"), "String", "before", None, '"before"'),
    (0x02, b"abc", "AnsiString", "616263", "616263", "hex 616263 (AnsiString)"),
    (0x03, b"\x80", "Int8", "-128", "80", "-128"),
    (0x04, b"\xff", "UInt8", "255", "FF", "255"),
    (0x05, b"\x00\x80", "Int16", "-32768", "8000", "-32768"),
    (0x06, b"\xff\xff", "UInt16", "65535", "FFFF", "65535"),
    (0x07, struct.pack("<i", -2**31), "Int32", str(-2**31), None, str(-2**31)),
    (0x08, struct.pack("<I", 2**32 - 1), "UInt32", str(2**32 - 1), "FFFFFFFF", str(2**32 - 1)),
    (0x09, struct.pack("<q", -2**63), "Int64", str(-2**63), "8000000000000000", str(-2**63)),
    (0x09, struct.pack("<q", 2**63 - 1), "Int64", str(2**63 - 1), "7FFFFFFFFFFFFFFF", str(2**63 - 1)),
    (0x0A, struct.pack("<Q", 2**64 - 1), "UInt64", str(2**64 - 1), "FFFFFFFFFFFFFFFF", str(2**64 - 1)),
    (0x0B, struct.pack("<f", 0.1), "Real32", "0.1", "3DCCCCCD", "0.1"),
    (0x0C, struct.pack("<d", 48.5), "Real64", "48.5", "4048400000000000", "48.5"),
    (0x0C, struct.pack("<d", -0.0), "Real64", "-0", "8000000000000000", "-0"),
    (0x0C, struct.pack("<d", 5e-324), "Real64", "5e-324", "0000000000000001", "5e-324"),
    (0x0C, struct.pack("<d", math.inf), "Real64", "Infinity", None, "Infinity"),
    (0x0C, struct.pack("<d", -math.inf), "Real64", "-Infinity", None, "-Infinity"),
    (0x0C, struct.pack("<Q", 0x7FF8000000000123), "Real64", "NaN (bits 7FF8000000000123)", "7FF8000000000123", "NaN (bits 7FF8000000000123)"),
    (0x0D, struct.pack("<I", 0), "Boolean", "false", "00000000", "false"),
    (0x0D, struct.pack("<I", 1), "Boolean", "true", "00000001", "true"),
    (0x0D, struct.pack("<I", 2), "Boolean", "2", "00000002", "2"),
    (0x0E, b"", "Binary", "", "", "no bytes (Binary)"),
    (0x0E, bytes(range(256)) * 8, "Binary", (bytes(range(256)) * 8).hex().upper(), None, f"hex {(bytes(range(256)) * 8).hex().upper()} (Binary)"),
    (0x0F, guid.bytes_le, "GUID", f"{{{str(guid).upper()}}}", guid.bytes_le.hex().upper(), f"{{{str(guid).upper()}}}"),
    (0x10, struct.pack("<I", 4096), "SizeT", "4096", "00001000", "4096"),
    (0x10, struct.pack("<Q", 2**40), "SizeT", str(2**40), "0000010000000000", str(2**40)),
    (0x11, struct.pack("<Q", NOW), "FILETIME", moment(NOW), f"{NOW:016X}", f"{moment(NOW)} ({NOW})"),
    (0x11, struct.pack("<Q", 0), "FILETIME", "1601-01-01T00:00:00.0000000Z", "0" * 16, "1601-01-01T00:00:00.0000000Z (0)"),
    (0x12, systemtime(2024, 2, 29, 23, 59, 58, 987, 4), "SYSTEMTIME", "2024-02-29T23:59:58.9870000Z", None,
     "2024-02-29T23:59:58.9870000Z (133537247989870000)"),
    (0x12, systemtime(2023, 2, 29, 0, 0, 0, 0), "SYSTEMTIME", None, None, f"hex {systemtime(2023, 2, 29, 0, 0, 0, 0).hex().upper()} (SYSTEMTIME)"),
    (0x12, bytes(16), "SYSTEMTIME", "0" * 32, "0" * 32, f"hex {'0' * 32} (SYSTEMTIME)"),
    (0x13, bytes.fromhex("010500000000000515000000") + struct.pack("<4I", 1, 2, 2**32 - 1, 1001), "SID", "S-1-5-21-1-2-4294967295-1001", None,
     "S-1-5-21-1-2-4294967295-1001"),
    (0x13, bytes.fromhex("0100010000000000"), "SID", "S-1-0x010000000000", None, "S-1-0x010000000000"),
    (0x14, struct.pack("<I", 0xC0000005), "HexInt32", "0xC0000005", "C0000005", "0xC0000005"),
    (0x15, struct.pack("<Q", 2**63), "HexInt64", "0x8000000000000000", "8000000000000000", "0x8000000000000000"),
    (0x81, utf16("a\0\0\"b\0"), "String array", ["a", "", '"b'], None, '["a","","\\"b"]'),
    (0x81, b"", "String array", [], "", "[]"),
    (0x81, utf16("a\0b"), "String array", "610000006200", "610000006200", "hex 610000006200 (String array)"),
    (0x81, b"\0", "String array", "00", "00", "hex 00 (String array)"),
    (0x88, struct.pack("<2I", 1, 2), "UInt32 array", "0100000002000000", "0100000002000000", "hex 0100000002000000 (UInt32 array)"),
]


def values():
    definition = element("E", [], *[element(f"V{n}", [], substitution(n, kind)) for n, (kind, *_) in enumerate(VALUES)])
    (row,), lines, csv = show([[instance(definition, *[(kind, data) for kind, data, *_ in VALUES])]])
    hold(len(row["fields"]) == len(VALUES) == len(csv) == len(lines) - 1, "values: not one for each", len(row["fields"]))
    for n, (kind, data, name, value, bits, line) in enumerate(VALUES):
        field, path = row["fields"][n], f"E/V{n}"
        hold((field["path"], field["type"]) == (path, name), "values", field)
        hold(field["value"] == (value if value is not None or kind == 0 else data.hex().upper()), "values", field)
        hold(bits is None or field["bits"] == bits, "bits", field)
        hold(("bits" in field) == (kind != 0), "bits", field)
        hold(("unsound" in field) == ("(unsound)" in line), "unsound", field)
        hold(lines[n + 1] == f"            {path:<44}  {line}", "line", lines[n + 1], line)
        hold((csv[n]["path"], csv[n]["type"], csv[n].get("bits", "")) == (path, name, field.get("bits", "")), "CSV", csv[n])
        hold(csv[n].get("value_ticks") == field.get("value_ticks"), "ticks", csv[n])
    listed = next(row for row in csv if row["type"] == "String array")
    hold(json.loads(listed["value"]) == ["a", "", '"b'], "CSV", listed)
    hold(csv[3]["value"] == r'"a\\b"\t\r\n\u001B\u007F\u0085\u2028\u202E\uFEFF', "CSV", csv[3])


def significant(spelled):
    return len(re.sub(r"e.*|[-.]", "", spelled).strip("0")) or 1


def narrow(number):
    return struct.unpack("<f", struct.pack("<f", number))[0]


def reals():
    """Their bits come back, from as few digits as Python needs; of the narrow ones from the fewest that a search finds."""
    wide = [struct.unpack("<d", some.randbytes(8))[0] for _ in range(300)]
    wide += [some.uniform(-1, 1) * 10.0**some.randrange(-5, 18) for _ in range(600)] + [round(some.uniform(-1e4, 1e4), some.randrange(9)) for _ in range(200)]
    wide += [2.0**n for n in range(-1074, 1024, 7)] + [2.0**-44, 2.0**-1022, 1e22, 1e23, 9007199254740993.0, 1e15, 123456789012345.0, 0.1 + 0.2, 1e-7, 1e-18]
    wide = [number for number in wide if math.isfinite(number)]
    small = [struct.unpack("<f", some.randbytes(4))[0] for _ in range(150)] + [2.0**n for n in range(-149, 128, 3)]
    small = [number for number in small if math.isfinite(number)]
    for kind, form, numbers in ((0x0C, "<d", wide), (0x0B, "<f", small)):
        for at in range(0, len(numbers), 60):
            part = numbers[at:at + 60]
            definition = element("E", [], *[substitution(n, kind) for n in range(len(part))])
            (row,), _, _ = show([[instance(definition, *[(kind, struct.pack(form, number)) for number in part])]])
            for number, field in zip(part, row["fields"]):
                hold(struct.pack(form, float(field["value"])) == struct.pack(form, number), "real", number, field)
                fewest = significant(repr(number)) if form == "<d" else next(
                    p for p in range(1, 10) if any(back(number, p, step) for step in (0, 1)))
                hold(significant(field["value"]) == fewest, "digits", repr(number), field)


def back(number, digits, step):
    """Whether the nearest decimal of so many digits, or one step off it, reads back as the narrow number."""
    mantissa, exponent = f"{abs(number):.{digits - 1}e}".split("e")
    for off in (-step, step):
        if narrow_or_none(f"{int(mantissa.replace('.', '')) + off}e{int(exponent) - digits + 1}") == abs(number):
            return True
    return False


def narrow_or_none(spelled):
    try:
        return narrow(float(spelled))
    except OverflowError:
        return None


# ----------------------------------------------------------------------------------------------------------------- paths
def data(name, *content, more=()):
    return element("Data", [("Name", text(name)), *more], *content)


def paths():
    """Whole paths, labels, bodies in values."""
    string = (0x01, utf16("v"))
    inner = [HEADER, instance(element("EventData", [], data("Tag", substitution(0, 1)), data("After", element("Value", [], substitution(1, 1))),
                                      data("Before", element("Value", [], substitution(0, 1)))), (0x01, utf16("t")), (0x01, utf16("w"))), END]
    outer = element("Event", [], element("System", [], element("ID", [("q", substitution(2, 1))], substitution(0, 1))), substitution(1, BODY))
    plain = [HEADER, element("UserData", [("a", text("x"))], element("B", [], cdata("c"), char_ref("€"), entity_ref("amp"))), END]
    rows, lines, _ = show([
        [instance(outer, string, (BODY, inner), (0x01, utf16("q")))],
        [instance(outer, string, (BODY, plain), (0x00, b""))],
        # bodies in the order of the values, not of the elements that hold them; the same value held twice; a value that no element holds
        [instance(element("E", [], element("Second", [], substitution(1, BODY)), element("First", [], substitution(0, BODY))), (BODY, inner), (BODY, plain))],
        [instance(element("E", [], element("A", [], substitution(0, BODY)), element("B", [], substitution(0, BODY))), (BODY, inner))],
        [instance(element("E", [], element("A", [], substitution(1, 1))), (BODY, inner), string)],
        [instance(element("E", [], element("A", [], substitution(1, 1))), (BODY, plain), string)],
        # three levels, each below the one before; a body in an attribute and in a Data with a name
        [instance(element("One", [], data("n", substitution(0, BODY))),
                  (BODY, [HEADER, instance(element("Two", [("at", substitution(0, BODY))]), (BODY, inner)), END]))],
        # instructions round the root; an element without values
        [pi("p", "q"), element("Root", [], element("A", [], text("1"))), pi("p", "q")],
        [element("Empty", [])],
        [instance(element("E", [], substitution(0, BODY)), (BODY, [HEADER, element("Empty", []), END]))],
    ])
    said = ["EventData/Data[Tag]/@Name", "EventData/Data[Tag]", "EventData/Data[After]/@Name", "EventData/Data[After]/Value",
            "EventData/Data[Before]/@Name", "EventData/Data[Before]/Value"]
    worth = ["Tag", "t", "After", "w", "Before", "t"]

    def below(above):
        return [(f"{above}/{path}", value) for path, value in zip(said, worth)]
    user = [("UserData/@a", "x"), ("UserData/B", "c"), ("UserData/B", "&#8364;"), ("UserData/B", "&amp;")]
    system = ("Event/System/ID", "v")
    want = [
        [("Event/System/ID/@q", "q"), system, ("Event", "body 1"), *below("Event")],
        [("Event/System/ID/@q", None), system, ("Event", "body 1"), *[(f"Event/{path}", value) for path, value in user]],
        [("E/Second", "body 2"), ("E/First", "body 1"), *below("E/First"), *[(f"E/Second/{path}", value) for path, value in user]],
        [("E/A", "body 1"), ("E/B", "body 1"), *below("E/A")],
        [("E/A", "v"), *below("(held by no element)")],
        [("E/A", "v")] + [(f"(held by no element)/(elements above not known)/{path.split('/', path.count('B'))[-1]}", value) for path, value in
                          [("UserData/@a", "x"), ("B", "c"), ("B", "&#8364;"), ("B", "&amp;")]],
        [("One/Data[n]/@Name", "n"), ("One/Data[n]", "body 1"), ("One/Data[n]/Two/@at", "body 2"), *below("One/Data[n]/Two/@at")],
        [("Root/A", "1")],
        [],
        [("E", "body 1")],
    ]
    for n, (row, rows_wanted) in enumerate(zip(rows, want)):
        hold(fields(row) == rows_wanted, f"paths of record {n + 1}", fields(row), rows_wanted)
    hold([line.split() for line in lines[1:6]] == [["Event/System/ID/@q", '"q"'], ["Event/System/ID", '"v"'], ["Event/EventData/Data[Tag]", '"t"'],
                                                   ["Event/EventData/Data[After]/@Name", '"After"'], ["Event/EventData/Data[After]/Value", '"w"']],
         "lines", lines[:8])
    hold(lines[-1].split() == ["E", "body", "1"], "a body without values", lines[-1])


def shared():
    """Records of one definition: below other elements, and with other labels."""
    inner, outer, other = [], [], []

    def body(label, value):
        return instance(element("D", [], element("Data", [("Name", substitution(0, 1))], substitution(1, 1), element("X", [], text("x"))), data("n", substitution(1, 1))),
                        label, (0x01, utf16(value)), place=inner)

    def inside(element_name, place, *tokens):
        return [instance(element("E", [], element(element_name, [], substitution(0, BODY))), (BODY, [HEADER, *tokens, END]), place=place)]
    null, one, two = (0x00, b""), (0x01, utf16("one")), (0x01, utf16("two"))
    given = [(inside("A", outer, body(one, "1")), "E/A", "[one]"), (inside("B", other, body(two, "2")), "E/B", "[two]"), (inside("A", outer, body(null, "3")), "E/A", ""),
             ([body(null, "4")], "", ""), (inside("A", outer, body(null, "5")), "E/A", ""), ([body(two, "6")], "", "[two]"), (inside("A", outer, body(one, "7")), "E/A", "[one]"),
             (inside("B", other, body(null, "8")), "E/B", ""), ([body(null, "9")], "", "")]
    rows, _, _ = show([tokens for tokens, _, _ in given])
    for n, (row, (_, above, label)) in enumerate(zip(rows, given)):
        start = f"{above}/D" if above else "D"
        want = [(f"{start}/Data{label}/@Name", label[1:-1] or None), (f"{start}/Data{label}", str(n + 1)), (f"{start}/Data{label}/X", "x"),
                (f"{start}/Data[n]/@Name", "n"), (f"{start}/Data[n]", str(n + 1))]
        hold(fields(row) == [(above, "body 1")] * bool(above) + want, f"shared definition, record {n + 1}", fields(row), want)


def labels():
    """What is a label and what is not; and signs in labels and names that would make paths look alike."""
    rows, lines, _ = show([[element("E", [],
                                    element("Data", [("Name", text("a"), text("b"))], text("1")),
                                    element("Data", [("Name", text(""))], text("2")),
                                    element("Data", [("name", text("n"))], text("3")),
                                    element("Datum", [("Name", text("n"))], text("4")),
                                    data("x]/y[\\\"\n\u202e", text("5")),
                                    data("n", more=[("Type", text("t"))]),
                                    element("a/b", [], text("6")), element("a]@(\u00e9)", [("@\\", text("7"))]))]])
    want = [("E/Data/@Name", "a"), ("E/Data/@Name", "b"), ("E/Data", "1"), ("E/Data/@Name", ""), ("E/Data", "2"), ("E/Data/@name", "n"), ("E/Data", "3"),
            ("E/Datum/@Name", "n"), ("E/Datum", "4"), (r"E/Data[x\u005D/y\u005B\u005C\u0022\u000A\u202E]/@Name", "x]/y[\\\"\n\u202e"),
            (r"E/Data[x\u005D/y\u005B\u005C\u0022\u000A\u202E]", "5"), ("E/Data[n]/@Name", "n"), ("E/Data[n]/@Type", "t"), (r"E/a\u002Fb", "6"),
            (r"E/a\u005D\u0040\u0028é\u0029/@\u0040\u005C", "7")]
    hold(fields(rows[0]) == want, "labels", fields(rows[0]), want)
    hold(len(lines) == len(want) + 1 - 1, "one label stands in its path", lines)


def names():
    """A name that was overwritten, a long one, an empty one, one past the chunk: said, and not guessed."""
    far = []

    def pointing(r):
        """An element whose name is an offset alone."""
        r.put("BII", 0x01, 0, 0)
        far.append(r.base + len(r.out) - 4)

    def change(chunk):
        chunk.bytes[chunk.names["Gone"] + 8] = ord("X")
        struct.pack_into("<I", chunk.bytes, far[0], 70_000)

    rows, _, _ = show([[element("Root", [], element("Gone", [], text("1")), element("L" * 300, [], text("2")), element("", [], text("3")),
                                pointing, CLOSE_START, text("4"), CLOSE_ELEMENT)]], change)
    told = [path for path, _ in fields(rows[0])]
    hold(len(told) == 4 and re.fullmatch(r"Root/\(overwritten name at \d+\)", told[0]) and re.fullmatch(r"Root/\(long name at \d+\)", told[1])
         and re.fullmatch(r"Root/\(empty name at \d+\)", told[2]) and told[3] == "Root/(no name at 70000)", "names", told)


def unread():
    """Another definition where the record's was: never read, and said what to do; and the exit status tells."""
    rows, lines, csv = show([[instance(element("E", [], substitution(0, 1)), (0x01, utf16("v")), number=7)],
                             [instance(element("E", [], substitution(1, 1)), (0x01, utf16("v")))]])
    hold([(row["number"], row["place_is"], "fields" in row) for row in rows] == [(30, "offset", False), (32, "offset", False)], "unread", rows)
    hold("older copy of the log" in rows[0]["next"] and "Next: take its values from an older copy" in lines[1], "unread", lines)
    hold([row["number"] for row in csv] == ["30", "32"], "unread", csv)
    run = Run(program, "show", f"{folder}/said.evtx")
    hold(run.status == 1 and b"0 refused, and 2 records unread" in run.said and b" 2 unread;" in run.out, "unread", run.said)


# --------------------------------------------------------------------------------------------------------------- options
def wanted():
    """The records that options ask for."""
    path = f"{folder}/wanted.evtx"
    chunk = Chunk()
    for n in range(1, 101):
        chunk.live(n, HEADER, element("E", [], text(str(n))), END)
    chunk.seal()
    with open(path, "wb") as out:
        out.write(log([bytes(chunk.bytes)], 101))

    def ids(*options):
        run = Run(program, "show", "--json", *options, path)
        hold(run.status == 0, options, run.said)
        return [row["id"] for row in run.json()[:-1]]
    hold(ids("--id", "57") == [57] and ids("--id", "101") == [], "--id")
    # record n was written n seconds after three in the morning
    hold(ids("--from", "2025-01-15T03:01:38") == [98, 99, 100] and ids("--to", "2025-01-15T03:00:02Z") == [1, 2], "--from, --to")
    hold(ids("--from", "2025-01-15 03:01", "--to", "2025-01-15T03:01") == list(range(60, 101)), "a minute")
    hold(ids("--to", "2025-01-14") == [] and ids("--from", "2025-01-15", "--to", "2025-01-15") == list(range(1, 101)), "a day")
    hold(ids("--from", "2025-01-15T03:00:02.0000001", "--to", "2025-01-15T03:00:04.0") == [3, 4], "a part of a second")
    hold(ids("--from", "133813836020000000", "--to", "133813836030000000") == [2, 3], "ticks")
    for option, value in (("--id", ""), ("--id", "-1"), ("--id", "1x"), ("--id", str(2**64)), ("--from", ""), ("--from", "2025-02-29"),
                          ("--to", "2025-01-15T24:00"), ("--to", "2025-01-15T03"), ("--to", "2025-01-15T03:00:00.00000001"), ("--from", "2025-01-15x"),
                          ("--from", "2025-1-5"), ("--to", "2025-01-15T03:00:")):
        run = Run(program, "show", option, value, path)
        hold(run.status == 4 and run.out == b"" and run.said.count(b"\n") == 1, option, value, run.status, run.said)


values()
reals()
paths()
shared()
labels()
names()
unread()
wanted()
end("values, reals, paths, labels, names and options of show")
