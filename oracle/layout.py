"""Document 01, "Store layout": every byte of a store, and whether lent bytes are sound."""

import struct
from functools import lru_cache

from rules import Refused, check_row, check_schema
from values import (
    BOOLEAN, COLUMNS, DEFAULT, FLOAT, INDEX, INTEGER, NULL, REFERENCES, TABLES, TEXT,
    Column, Schema, State, normalised, rank, store_size,
)


@lru_cache(1 << 12)
def name_cell(name):
    return bytes([len(name)]) + name.ljust(24, b"\0")


@lru_cache(1 << 14)
def value_cell(value):
    kind, content = value
    if kind == BOOLEAN:
        body = bytes([content])
    elif kind == INTEGER:
        body = struct.pack(">q", content)
    elif kind == FLOAT:
        body = struct.pack(">Q", content)
    elif kind == TEXT:
        body = content
    else:
        body = b""
    return bytes([kind, len(body) if kind == TEXT else 0]) + body.ljust(24, b"\0")


@lru_cache(1 << 12)
def table_record(schema):
    out = name_cell(schema.name) + bytes([schema.key, len(schema.columns)])
    for c in schema.columns:
        out += name_cell(c.name) + bytes([c.kind, c.flags])
        out += value_cell(NULL if c.default is None else c.default)
        out += name_cell(b"" if c.reference is None else c.reference)
    return out.ljust(651, b"\0")


@lru_cache(1 << 14)
def row_record(name, row):
    return (name_cell(name) + b"".join(map(value_cell, row))).ljust(233, b"\0")


@lru_cache(1 << 15)
def index_entry(name, column, value, key):
    return name_cell(name) + bytes([column]) + value_cell(value) + value_cell(key)


def image(state):
    """Every byte of the store. The index is rebuilt from schemas and rows."""
    if state.bytes is None:
        tables, rows, entries = [], [], []
        for name in sorted(state.tables):
            schema = state.tables[name]
            tables.append(table_record(schema))
            stored = sorted(state.rows[name].items(), key=lambda item: rank(item[0]))
            rows += [row_record(name, row) for _, row in stored]
            for i, column in enumerate(schema.columns):
                if column.flags & INDEX:  # NULL and NaN too; sorting keeps the keys' order
                    by_value = sorted(stored, key=lambda item: rank(item[1][i]))
                    entries += [index_entry(name, i, row[i], key) for key, row in by_value]
        size = store_size(state.places)
        header = struct.pack(">IBBHI", size, 1, len(tables), len(rows), len(entries))
        state.bytes = (
            header
            + b"".join(tables).ljust(TABLES * 651, b"\0")
            + b"".join(rows).ljust(state.places * 233, b"\0")
            + b"".join(entries).ljust(state.places * 7 * 78, b"\0")
        )
        assert len(state.bytes) == size
    return state.bytes


class NotSound(Exception):
    pass


def read_name(cell):
    if cell[0] > 24:
        raise NotSound
    return cell[1 : 1 + cell[0]]


def read_value(cell):
    """A cell that the layout doesn't know gives NotSound, or a value whose cell differs from it."""
    kind, body = cell[0], cell[2:]
    if kind == 0:
        return NULL
    if kind == BOOLEAN:
        return kind, int(body[0] > 0)
    if kind == INTEGER:
        return kind, struct.unpack(">q", body[:8])[0]
    if kind == FLOAT:
        return kind, normalised(struct.unpack(">Q", body[:8])[0])
    if kind == TEXT and cell[1] <= 24:
        return kind, body[: cell[1]]
    raise NotSound


def read_table(record):
    key, count = record[25], record[26]
    if count > COLUMNS:
        raise NotSound
    columns = []
    for at in range(27, 27 + 78 * count, 78):
        cell = record[at : at + 78]
        kind, flags = cell[25], cell[26]
        if not 1 <= kind <= 4 or flags > 31:
            raise NotSound
        default = read_value(cell[27:53]) if flags & DEFAULT else None
        reference = read_name(cell[53:78]) if flags & REFERENCES else None
        columns.append(Column(read_name(cell[:25]), kind, flags, default, reference))
    return Schema(read_name(record[:25]), key, tuple(columns))


def read_row(schema, record):
    return tuple(read_value(record[25 + 26 * i : 51 + 26 * i]) for i in range(len(schema.columns)))


def read_state(store):
    """The schemas and rows that the bytes hold, if they are the image of any."""
    places, rest = divmod(len(store) - store_size(0), 779)
    if rest or not 1 <= places <= 4096:
        raise NotSound
    tables, rows = struct.unpack(">BH", store[5:8])
    if tables > TABLES or rows > places:
        raise NotSound
    state = State(places)
    for at in range(12, 12 + 651 * tables, 651):
        state.add_table(read_table(store[at : at + 651]))
    start = 12 + 651 * TABLES
    for at in range(start, start + 233 * rows, 233):
        record = store[at : at + 233]
        name = read_name(record[:25])
        schema = state.tables.get(name)
        if schema is None or schema.key >= len(schema.columns):
            raise NotSound
        row = read_row(schema, record)
        state.put_row(name, row[schema.key], row)
    # Contents fix the bytes: order, density, zeros, counts and index are tested at once.
    if image(state) != store:
        raise NotSound
    return state


def lent_state(store):
    """The state of a sound store; NotSound for any other bytes."""
    state = read_state(bytes(store))
    check_stored(state)
    return state


def check_stored(state):
    """Schemas pass their rules against each other, and each row as an update to itself: 26, 28 to 31."""
    try:
        for schema in state.tables.values():
            check_schema(state, schema)
        for name, rows in state.rows.items():
            for row in rows.values():
                check_row(state, state.tables[name], row, 0, 0, same_key=True)
    except Refused:
        raise NotSound
