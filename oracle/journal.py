"""Document 02, T-06: every byte of a journal (docs/LAYOUT.md), and whether a lent one is sound beside its store."""

import struct

from layout import NotSound, check_stored, name_cell, read_name, read_row, read_value, row_record, value_cell
from values import JOURNAL_MOST, NULL, NULLABLE, undefined

HEADER, PLACE = 3, 234
ABSENT, STOOD = 1, 2


def journal_size(places):
    return HEADER + PLACE * places


def place_record(name, key, row):
    if row is None:
        return (bytes([ABSENT]) + name_cell(name) + value_cell(key)).ljust(PLACE, b"\0")
    return bytes([STOOD]) + row_record(name, row)


def journal_image(state):
    """Every byte of the journal: zeros while no batch is open."""
    used = b""
    if state.batch is not None:
        used = struct.pack(">BH", 1, len(state.batch)) + b"".join(place_record(*event) for event in state.batch)
    return used.ljust(journal_size(state.journal), b"\0")


def read_place(state, record):
    """What the place says stood at a key of a stored table."""
    name = read_name(record[1:26])
    if name not in state.tables:
        raise NotSound
    if record[0] != STOOD:
        return name, read_value(record[26:52]), None
    row = read_row(state.tables[name], record[1:])
    return name, row[state.tables[name].key], row


def check_place(state, name, key, row):
    """A row that stood there has its table's kinds and NULLs, and a key."""
    if row is None:
        return
    if undefined(key):
        raise NotSound
    for c, value in zip(state.tables[name].columns, row):
        if value == NULL and not c.flags & NULLABLE or value != NULL and value[0] != c.kind:
            raise NotSound


def lend_journal(state, data):
    """The state gets the journal's places and its open batch; NotSound for bytes that are none of this state."""
    places, rest = divmod(len(data) - HEADER, PLACE)
    if rest or not 1 <= places <= JOURNAL_MOST:
        raise NotSound
    is_open, used = struct.unpack(">BH", data[:HEADER])
    if used > places:
        raise NotSound
    state.journal = places
    if is_open:
        starts = range(HEADER, HEADER + PLACE * used, PLACE)
        state.batch = [read_place(state, data[at : at + PLACE]) for at in starts]
    # Contents fix the bytes: kinds, cells, zeros and the first byte are tested at once.
    if journal_image(state) != data:
        raise NotSound
    if is_open:
        check_way_back(state.copy())


def check_way_back(state):
    """The batch can be taken back: never more rows than places on the way, and at its end all rules of rows hold."""
    for event in state.batch:
        check_place(state, *event)
    for rows in state.put_back():
        if rows > state.places:
            raise NotSound
    check_stored(state)
