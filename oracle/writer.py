"""Requests written as records: the other way round of records.py."""

import struct

from records import OPERATIONS
from values import BOOLEAN, DEFAULT, FLOAT, INTEGER, REFERENCES, TEXT

NUMBERS = {operation: number for number, operation in OPERATIONS.items()}


def name(n):
    return bytes([len(n)]) + n


def value(v):
    kind, content = v
    if kind == BOOLEAN:
        return bytes([kind, content])
    if kind == INTEGER:
        return bytes([kind]) + struct.pack(">q", content)
    if kind == FLOAT:
        return bytes([kind]) + struct.pack(">Q", content)
    if kind == TEXT:
        return bytes([kind]) + name(content)
    return bytes([kind])


def counted(items):
    return bytes([len(items)]) + b"".join(items)


def values(row):
    return counted([value(v) for v in row])


def column(c):
    out = name(c.name) + bytes([c.kind, c.flags])
    if c.flags & DEFAULT:
        out += value(c.default)
    if c.flags & REFERENCES:
        out += name(c.reference)
    return out


def body(operation, operands):
    """Version byte, operation and operands."""
    head = bytes([1, NUMBERS[operation]])
    if operation == "create":
        (schema,) = operands
        return head + name(schema.name) + bytes([schema.key]) + counted([column(c) for c in schema.columns])
    if operation == "drop":
        return head + name(operands[0]) + bytes([operands[1]])
    if operation == "insert":
        table, mapping, rows = operands
        map_bytes = b"\0" if mapping is None else bytes([1, len(mapping), *mapping])
        return head + name(table) + map_bytes + counted([values(row) for row in rows])
    if operation == "update":
        table, pairs = operands
        return head + name(table) + counted([value(old) + values(row) for old, row in pairs])
    if operation in ("delete", "get"):
        return head + name(operands[0]) + values(operands[1])
    if operation == "lookup":
        return head + name(operands[0]) + bytes([operands[1]]) + values(operands[2])
    if operation == "scan":
        return head + name(operands[0])
    return head


def record(operation, *operands):
    """With its two length bytes."""
    b = body(operation, operands)
    return struct.pack(">H", len(b)) + b
