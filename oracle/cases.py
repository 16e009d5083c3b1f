"""Words for cases written by hand: values, columns, tables, requests with their answers."""

import struct
from collections import namedtuple

from values import (
    BOOLEAN, DEFAULT, FLOAT, INDEX, INTEGER, NAN, NULL, NULLABLE, REFERENCES, TEXT, UNIQUE, Column, Schema,
)
from writer import record

Case = namedtuple("Case", "words places journal source lines carries")
KINDS = {"boolean": BOOLEAN, "integer": INTEGER, "float": FLOAT, "text": TEXT}
NOTHING = object()


def value(x):
    """A Python value as a value; None is NULL."""
    if x is None:
        return NULL
    if isinstance(x, bool):
        return BOOLEAN, int(x)
    if isinstance(x, int):
        return INTEGER, x
    if isinstance(x, float):
        return NAN if x != x else (FLOAT, struct.unpack(">Q", struct.pack(">d", x))[0])
    if isinstance(x, str):
        return TEXT, x.encode()
    if isinstance(x, bytes):
        return TEXT, x
    return x  # a value already


def values(xs):
    return tuple(value(x) for x in xs)


def name(x):
    return x.encode() if isinstance(x, str) else x


def column(own, kind, words="", default=NOTHING, to=None):
    """words: nullable, unique, index, in any order."""
    flags = sum(f for w, f in (("nullable", NULLABLE), ("unique", UNIQUE), ("index", INDEX)) if w in words.split())
    given = default is not NOTHING
    flags |= (DEFAULT if given else 0) | (0 if to is None else REFERENCES)
    return Column(name(own), KINDS[kind], flags, value(default) if given else None, None if to is None else name(to))


def key(kind="integer", own="id", **more):
    return column(own, kind, "unique", **more)


def create(own, *columns, at=0):
    return record("create", Schema(name(own), at, columns))


def drop(table, if_exists=0):
    return record("drop", name(table), if_exists)


def insert(table, *rows, to=None):
    return record("insert", name(table), to, [values(row) for row in rows])


def update(table, *pairs):
    return record("update", name(table), [(value(old), values(row)) for old, row in pairs])


def delete(table, *keys):
    return record("delete", name(table), values(keys))


def get(table, *keys):
    return record("get", name(table), values(keys))


def lookup(table, at, *xs):
    return record("lookup", name(table), at, values(xs))


def scan(table):
    return record("scan", name(table))


def list_tables():
    return record("list")


OPEN, KEEP, BACK = record("open"), record("keep"), record("back")


def raw(*parts):
    """A record of these bytes, with its length."""
    body = b"".join(bytes([p]) if isinstance(p, int) else p for p in parts)
    return struct.pack(">H", len(body)) + body


def case(words, places, *steps, journal=0):
    """Steps are bytes, each followed by its lines in one string, and maybe by what is carried in brackets. A journal has J places."""
    source, lines, carries, request = b"", [], {}, -1
    for step in steps:
        if isinstance(step, bytes):
            source, request = source + step, request + 1
        elif isinstance(step, list):
            carries[request] = step[0]
        else:
            lines += [line.strip() for line in step.split(";")]
    return Case(words, places, journal, source, "".join(line + "\n" for line in lines).encode(), carries)
