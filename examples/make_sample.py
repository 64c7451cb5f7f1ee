#!/usr/bin/env python3
"""make_sample.py CHUNK LOG - make the chunk and the log file that the example program is run on (examples/sample.chunk,
examples/sample.evtx).

Both are a controller's journal of tag writes, sound and damaged: each record and each chunk below says what it is there to show.
The same bytes come out on every run. A token is a function that writes itself into a record.
"""
import struct
import sys
import uuid
import zlib

CHUNK, FIRST = 65536, 512
BLOCK = 4096                                         # of the file's header, as Windows writes it
STRING, REAL, TIME = 0x01, 0x0C, 0x11                # types of values
THREE = 133813836000000000                           # FILETIME of 2025-01-15, three in the morning
TEMPLATE = uuid.UUID("5c0a1f7e-3d52-4b7a-9a10-2f6e8d41c0b3").bytes_le


def utf16(text):
    return text.encode("utf-16-le")


def name_hash(text):
    value = 0
    for unit in struct.unpack("<%dH" % len(text), utf16(text)):
        value = (value * 65599 + unit) & 0xFFFFFFFF
    return value & 0xFFFF


class Chunk:
    """Records one behind the other, and the tables of the names and templates that they bring."""

    def __init__(self, first=1):
        self.bytes = bytearray(CHUNK)
        self.first = first                           # the first record's number in the log
        self.end = FIRST                             # where the next record goes
        self.last = 0                                # where the last one went
        self.ids = []
        self.names = {}
        self.strings, self.templates = [0] * 64, [0] * 32

    def live(self, number, *tokens):
        self.last, self.end = self.end, self.record(self.end, number, tokens)
        self.ids.append(number)

    def record(self, at, number, tokens):
        """A record at an offset: header, tokens, zeros up to a multiple of 8, and the copy of its size. Answers its end."""
        r = Record(self, at + 24)
        for token in tokens:
            token(r)
        size = (24 + len(r.out) + 4 + 7) // 8 * 8
        head = struct.pack("<4sIQQ", b"**\0\0", size, number, THREE + number * 10_000_000)
        self.bytes[at:at + size] = (head + r.out).ljust(size - 4, b"\0") + struct.pack("<I", size)
        return at + size

    def seal(self):
        """The chunk's header, with both checksums."""
        b = self.bytes
        struct.pack_into("<8sQQQQ", b, 0, b"ElfChnk\0", self.first, self.first + len(self.ids) - 1,
                         self.ids[0], self.ids[-1])
        struct.pack_into("<III", b, 40, 128, self.last, self.end)
        struct.pack_into("<I", b, 52, zlib.crc32(b[FIRST:self.end]))
        struct.pack_into("<64I32I", b, 128, *self.strings, *self.templates)
        struct.pack_into("<I", b, 124, zlib.crc32(b[128:512], zlib.crc32(b[0:120])))


class Record:
    """A record's payload as it is written; `base` is its offset in the chunk."""

    def __init__(self, chunk, base):
        self.chunk, self.base, self.out = chunk, base, bytearray()
        self.dependencies = False                    # only a template's definition carries them

    def put(self, form, *fields):
        self.out += struct.pack("<" + form, *fields)

    def after(self, size):
        """The chunk offset that lies `size` bytes on."""
        return self.base + len(self.out) + size

    def name(self, text):
        """A name by its offset. At its first use in the chunk it stands right behind, and its bucket gets to know it."""
        at = self.chunk.names.setdefault(text, self.after(4))
        self.put("I", at)
        if at == self.after(0):
            code = name_hash(text)
            self.put("IHH", self.chunk.strings[code % 64], code, len(text))
            self.out += utf16(text) + b"\0\0"
            self.chunk.strings[code % 64] = at

    def sized(self, write):
        """A u32 that says how many bytes `write` writes behind it."""
        at = len(self.out)
        self.put("I", 0)
        write()
        struct.pack_into("<I", self.out, at, len(self.out) - at - 4)


# ------------------------------------------------------------------------------------------------------------------ tokens
def token(byte, form="", *fields):
    return lambda r: r.put("B" + form, byte, *fields)


def named(byte, name):
    return lambda r: (r.put("B", byte), r.name(name))


def counted(byte, text, form="", *fields):
    return token(byte, form + "H%ds" % len(utf16(text)), *fields, len(text), utf16(text))


HEADER, END = token(0x0F, "BBB", 1, 1, 0), token(0x00)
CLOSE_START, CLOSE_EMPTY, CLOSE_ELEMENT = token(0x02), token(0x03), token(0x04)


def text(words):
    return counted(0x05, words, "B", STRING)


def real(number):
    return token(0x05, "Bd", REAL, number)


def time(filetime):
    return token(0x05, "BQ", TIME, filetime)


def cdata(words):
    return counted(0x07, words)


def char_ref(char):
    return token(0x08, "H", ord(char))


def entity_ref(name):
    return named(0x09, name)


def pi(target, data):
    return lambda r: (named(0x0A, target)(r), counted(0x0B, data)(r))


def substitution(number, kind, optional=False):
    return token(0x0E if optional else 0x0D, "HB", number, kind)


def open_tag(name):
    """An open token alone, for elements that never end; the element's size stays 0."""
    return lambda r: (r.put("BI", 0x01, 0), r.name(name))


def element(name, attributes, *content):
    """A whole element; each attribute is its name and then its items."""
    def attribute_list(r):
        for n, (attribute, *items) in enumerate(attributes):
            named(0x46 if n + 1 < len(attributes) else 0x06, attribute)(r)
            for item in items:
                item(r)

    def inside(r):
        r.name(name)
        if attributes:
            r.sized(lambda: attribute_list(r))
        for item in (CLOSE_START, *content, CLOSE_ELEMENT) if content else (CLOSE_EMPTY,):
            item(r)

    def write(r):
        r.put("B", 0x41 if attributes else 0x01)
        if r.dependencies:
            r.put("H", 0xFFFF)
        r.sized(lambda: inside(r))
    return write


def instance(definition, *values):
    """A template with its definition in place, and the values: type and bytes of each."""
    def body(r):
        r.dependencies = True
        for item in (HEADER, definition, END):
            item(r)
        r.dependencies = False

    def write(r):
        number = int.from_bytes(TEMPLATE[:4], "little")
        at = r.after(10)
        r.put("BBIII16s", 0x0C, 1, number, at, r.chunk.templates[number % 32], TEMPLATE)
        r.sized(lambda: body(r))
        r.chunk.templates[number % 32] = at
        r.put("I", len(values))
        for kind, data in values:
            r.put("HBB", len(data), kind, 0)
        for _, data in values:
            r.out += data
    return write


# ----------------------------------------------------------------------------------------------------------------- records
def sample():
    c = Chunk()
    # a body with every kind of token but the instance; 'quality' stands in place once and is pointed at once
    c.live(101, HEADER,
           element("TagWrite", [("tag", text("FIC-101.SP")), ("unit", text("m"), char_ref("\u00b3"), text("/h"), entity_ref("nbsp"))],
                   element("Before", [("quality", text("good"))], real(48.5)),
                   element("After", [("quality", text("good"))], real(51.25)),
                   element("Time", [], time(THREE)),
                   element("Note", [], cdata("load < 80 & rising"), char_ref("\n"), entity_ref("amp"),
                           substitution(0, STRING), substitution(1, REAL, optional=True)),
                   pi("journal", "controller=A"),
                   element("Synced", [])),
           END)
    # what Windows writes: a header and one instance
    c.live(102, HEADER,
           instance(element("TagWrite", [("tag", substitution(0, STRING))],
                            element("Before", [], substitution(1, REAL)),
                            element("After", [], substitution(2, REAL)),
                            element("Time", [], substitution(3, TIME))),
                    (STRING, utf16("FIC-101.SP\0")), (REAL, struct.pack("<d", 51.25)), (REAL, struct.pack("<d", 49.0)),
                    (TIME, struct.pack("<Q", THREE + 102))),
           END)
    # the controller stopped while it wrote the value after: 15
    c.live(103, HEADER, open_tag("TagWrite"), CLOSE_START, open_tag("After"), CLOSE_START, real(12.0), END)
    # a value inside a start tag, before any attribute: 13
    c.live(104, HEADER, open_tag("TagWrite"), text("FIC-101.SP"), CLOSE_EMPTY, END)
    # a name whose count of units was overwritten, so that it ends past the chunk: 2
    c.live(105, HEADER, lambda r: r.put("BIIIHH", 0x01, 0, r.after(9), 0, name_hash("TagWrite"), 0xFFFF), END)
    # 65 elements, each in the one before: 14
    c.live(106, HEADER, *[open_tag("Note"), CLOSE_START] * 65, *[CLOSE_ELEMENT] * 65, END)
    # overwritten where it begins: the walk refuses it (4) and goes on at the next record
    c.live(107, HEADER, element("Synced", []), END)
    c.bytes[c.last:c.last + 8] = b"\xFF" * 8
    # the record behind the damage, with names of the first
    c.live(108, HEADER, element("TagWrite", [("tag", text("PIC-204.MODE"))], element("After", [], text("AUTO"))), END)
    # in the free space a record of an earlier round, whose template is long gone: carved
    c.record(c.end + 64, 57, [HEADER, token(0x0C, "BIII", 1, 7, 4242, 0), END])
    c.seal()
    return bytes(c.bytes)


# ------------------------------------------------------------------------------------------------------------------ chunks
def sound():
    """A chunk in which everything can be read."""
    c = Chunk(first=9)
    c.live(109, HEADER, element("TagWrite", [("tag", text("FIC-101.SP"))], element("After", [], real(47.75))), END)
    c.live(110, HEADER, element("Synced", []), END)
    c.seal()
    return bytes(c.bytes)


def cut():
    """A chunk whose second half the disk never got."""
    c = Chunk(first=11)
    c.live(111, HEADER, element("TagWrite", [("tag", text("FIC-101.SP"))], element("After", [], real(48.0))), END)
    c.seal()
    return bytes(c.bytes[:1512])


def log():
    # the damaged chunk; one of zeros, never written (4); a sound one, which neither of them keeps from being read; the rest (1)
    chunks = [sample(), bytes(CHUNK), sound(), cut()]
    header = bytearray(BLOCK)
    struct.pack_into("<8sQQQIHHHH", header, 0, b"ElfFile\0", 0, 2, 112, 128, 1, 3, BLOCK, 3)
    struct.pack_into("<I", header, 120, 1)           # it was not closed
    struct.pack_into("<I", header, 124, zlib.crc32(header[0:120]))
    return b"".join([bytes(header), *chunks])


if __name__ == "__main__":
    if len(sys.argv) != 3:
        sys.exit("usage: make_sample.py CHUNK LOG")
    for path, made in zip(sys.argv[1:], (sample, log)):
        with open(path, "wb") as out:
            out.write(made())
