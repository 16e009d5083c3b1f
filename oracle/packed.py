"""Streams, answers and lists as files (docs/ORACLE.md has the formats)."""

import struct


def text(lines):
    return "".join(line + "\n" for line in lines).encode()


def packed(data):
    return struct.pack(">I", len(data)) + data


def read_number(f):
    return struct.unpack(">I", f.read(4))[0]


def stream(places, journal, source):
    """A stream with R row places and J journal places; J is 0 where it has no batch."""
    return struct.pack(">HH", journal, places) + packed(source)


def read_streams(f):
    while head := f.read(4):
        journal, places = struct.unpack(">HH", head)
        yield places, journal, f.read(read_number(f))


def read_answers(f):
    while head := f.read(4):
        lines = f.read(struct.unpack(">I", head)[0])
        yield lines, f.read(read_number(f)), f.read(read_number(f))


def read_list(f):
    """R, J, records, lines, the store at the end and, where J is not 0, the journal."""
    for places, journal, source in read_streams(f):
        parts = [f.read(read_number(f)) for _ in range(3 if journal else 2)]
        yield places, journal, source, parts[0], b"".join(parts[1:])
