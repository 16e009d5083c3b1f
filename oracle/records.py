"""Document 01, "Requests", and 02, T-06: records read, an input cut into records, values printed."""

import struct

from values import (
    BOOLEAN, COLUMNS, DEFAULT, FLOAT, INTEGER, NULL, REFERENCES, Column, Schema, normalised,
)


class Broken(Exception):
    """The offset of the first byte that could not be accepted, from the version byte."""

    def __init__(self, offset):
        self.offset = offset


class Reader:
    """A record (without its length) and a position."""

    def __init__(self, record):
        self.record = record
        self.at = 0

    def take(self, count):
        if self.at + count > len(self.record):
            raise Broken(len(self.record))  # cut off
        self.at += count
        return self.record[self.at - count : self.at]

    def byte(self, low=0, high=255):
        value = self.take(1)[0]
        if not low <= value <= high:
            raise Broken(self.at - 1)
        return value

    def name(self):
        return self.take(self.byte(0, 24))

    def value(self):
        kind = self.byte(0, 4)
        if kind == 0:
            return NULL
        if kind == BOOLEAN:
            return kind, self.byte(0, 1)
        if kind == INTEGER:
            return kind, struct.unpack(">q", self.take(8))[0]
        if kind == FLOAT:
            return kind, normalised(struct.unpack(">Q", self.take(8))[0])
        return kind, self.take(self.byte(0, 24))

    def values(self):
        return tuple(self.value() for _ in range(self.byte()))

    def column(self):
        name, kind, flags = self.name(), self.byte(1, 4), self.byte(0, 31)
        default = self.value() if flags & DEFAULT else None
        reference = self.name() if flags & REFERENCES else None
        return Column(name, kind, flags, default, reference)

    def operation(self):
        number = self.byte()
        if number not in OPERATIONS:
            raise Broken(self.at - 1)
        return OPERATIONS[number]

    def request(self):
        self.byte(1, 1)  # version
        operation = self.operation()
        operands = ()
        if operation == "create":
            name, key = self.name(), self.byte()
            columns = tuple(self.column() for _ in range(self.byte(0, COLUMNS)))
            operands = (Schema(name, key, columns),)
        elif operation == "drop":
            operands = self.name(), self.byte(0, 1)
        elif operation == "insert":
            name = self.name()
            mapping = list(self.take(self.byte())) if self.byte(0, 1) else None
            operands = name, mapping, [self.values() for _ in range(self.byte())]
        elif operation == "update":
            name = self.name()
            operands = name, [(self.value(), self.values()) for _ in range(self.byte())]
        elif operation in ("delete", "get"):
            operands = self.name(), self.values()
        elif operation == "lookup":
            operands = self.name(), self.byte(), self.values()
        elif operation == "scan":
            operands = (self.name(),)
        if self.at < len(self.record):
            raise Broken(self.at)  # bytes left over
        return operation, operands


OPERATIONS = dict(enumerate("create drop insert update delete get lookup scan list".split(), 1))
OPERATIONS.update(enumerate("open keep back".split(), 12))


def printed(value):
    kind, content = value
    if kind == 0:
        return "NULL"
    if kind == BOOLEAN:
        return "true" if content else "false"
    if kind == INTEGER:
        return str(content)
    if kind == FLOAT:
        return "f:%016x" % content
    return "t:" + content.hex()


def records(source):
    """The records of an input as it is framed; None for a broken one."""
    at = 0
    while at < len(source):
        if at + 2 > len(source):
            yield None  # half a length
            return
        length = int.from_bytes(source[at : at + 2], "big")
        at += 2
        if not 2 <= length <= 4096:
            yield None  # skipped
        elif at + length > len(source):
            yield None  # cut off
            return
        else:
            yield source[at : at + length]
        at += length
