#!/usr/bin/env python3
"""Lent journals beside lent stores, sound and not, as changes of a few sound pairs.

  journals.py    makes lists/journals.list

journals.list, for each part: k (4) and k bytes of a sound store; l (4) and l bytes of its journal; the number of cases (4). A case:
  e (4) and e changes of the store, each an offset (4) and a byte (1); the journal's length (4), zeros coming behind the l bytes; e (4) and e changes
  of the journal; a byte: 1 sound, 0 not (38); and where it is 1, e (4) and e changes of the part's store, which make it what taking back leaves.
The verdicts on changes by hand are written by hand; those on single and random bytes, and what a taking back leaves, are decider.py's.
"""

import os
import random
import struct

from cases import name, value, values
from decider import taken_back
from journal import HEADER, PLACE, journal_image, journal_size, place_record
from layout import image
from packed import packed
from runs import answer
from stores import PLAN, POINT
from values import NAN, Schema, State
from writer import record

FILE = os.path.join(os.path.dirname(os.path.abspath(__file__)), "lists", "journals")
RANDOM = 60


def absent(table, key):
    return place_record(name(table), value(key), None)


def stood(table, *row):
    return place_record(name(table), None, values(row))


def opened(*places, used=None, journal=4, first=1):
    """An open journal with these places in use."""
    used = len(places) if used is None else used
    return (struct.pack(">BH", first, used) + b"".join(places)).ljust(journal_size(journal), b"\0")


def closed(journal):
    return bytes(journal_size(journal))


def put(data, *changes):
    data = bytearray(data)
    for at, new in changes:
        data[at : at + len(new)] = new
    return bytes(data)


def state_of(places, rows):
    """Plans and points, sound."""
    state = State(places, 4)
    state.add_table(Schema(b"plan", 0, tuple(PLAN)))
    state.add_table(Schema(b"point", 0, tuple(POINT)))
    for table, given in rows.items():
        for row in given:
            state.put_row(name(table), value(row[0]), values(row))
    return state


# ---------------------------------------------------------------- the base: a plan added, a point changed, a point removed

WAS_SECOND = 2.5, None, 0.0, False
WAS_FIRST = 1.5, 7, float("nan"), True
STATE = state_of(4, {"plan": [(7, "A")], "point": [WAS_FIRST, WAS_SECOND]})
BEFORE = image(STATE)
for request in (
    record("open"),
    record("insert", b"plan", None, [values((8, "C"))]),
    record("update", b"point", [(value(2.5), values((2.5, 8, 0.5, True)))]),
    record("delete", b"point", [value(1.5)]),
):
    answer(STATE, request[2:])
STORE, JOURNAL = image(STATE), journal_image(STATE)
ADDED, CHANGED, REMOVED = absent("plan", 8), stood("point", *WAS_SECOND), stood("point", *WAS_FIRST)
FIRST, SECOND, THIRD, FREE = (HEADER + PLACE * i for i in range(4))


def key_cell(cell):
    """The base with these bytes as the key of nothing."""
    return put(JOURNAL, (FIRST + 26, cell.ljust(26, b"\0")))


def row_cell(at, cell):
    """The base with these bytes as a cell of the row that was removed."""
    return put(JOURNAL, (THIRD + 26 + 26 * at, cell.ljust(26, b"\0")))


def of_float(bits):
    return b"\3\0" + struct.pack(">Q", bits)


SOUND = [
    ("the base", JOURNAL),
    ("closed", closed(4)),
    ("closed, J = 1", closed(1)),
    ("closed, J = 8,192", closed(8192)),
    ("open, no place used", opened()),
    ("open, no place used, J = 1", opened(journal=1)),
    ("the base's places in J = 3", opened(ADDED, CHANGED, REMOVED, journal=3)),
    ("the base's places in J = 8,192", opened(ADDED, CHANGED, REMOVED, journal=8192)),
    ("all places used", opened(ADDED, CHANGED, REMOVED, absent("plan", 9))),
    ("nothing stood where nothing stands", opened(absent("plan", 9))),
    ("a row in place of itself", opened(stood("point", 2.5, 8, 0.5, True))),
    ("the key of nothing: NULL", opened(absent("plan", None))),
    ("the key of nothing: NaN", opened(absent("point", float("nan")))),
    ("the key of nothing of another kind", opened(absent("plan", "x"), absent("plan", True), absent("plan", 8.0))),
    ("kind 2 of nothing: a plan whose sheet is NULL", put(JOURNAL, (FIRST, b"\2"))),
    ("a reference that hangs on the way only", opened(CHANGED, ADDED)),
    ("a value twice in a unique column on the way only", opened(absent("point", 3.5), stood("point", 3.5, None, 0.5, True))),
    ("a key four times: its first place is what stays",
     opened(absent("plan", 9), stood("plan", 9, "x"), absent("plan", 9), stood("plan", 9, "y"))),
    ("as many rows as places on the way", opened(absent("plan", 9), stood("plan", 9, None))),
    ("rows of texts at their longest", opened(stood("plan", 7, b"\xff" * 24), stood("plan", 7, ""), stood("plan", 7, None))),
    ("a reference to a row that a place brings", opened(stood("plan", 9, "x"), stood("point", 2.5, 9, 0.5, True))),
]
NOT_SOUND = [
    ("first byte 2", opened(ADDED, CHANGED, REMOVED, first=2)),
    ("first byte 255", opened(first=255)),
    ("closed, places counted", put(closed(4), (2, b"\1"))),
    ("closed, the count's high byte", put(closed(4), (1, b"\1"))),
    ("closed, a kind", put(closed(4), (HEADER, b"\1"))),
    ("closed, the last byte", put(closed(4), (journal_size(4) - 1, b"\1"))),
    ("closed, the base's places", put(JOURNAL, (0, b"\0"))),
    ("closed, the base's places and none counted", put(JOURNAL, (0, b"\0\0\0"))),
    ("a place counted more", opened(ADDED, CHANGED, REMOVED, used=4)),
    ("a place counted less", opened(ADDED, CHANGED, REMOVED, used=2)),
    ("no place counted", opened(ADDED, CHANGED, REMOVED, used=0)),
    ("more places counted than J", opened(ADDED, CHANGED, REMOVED, absent("plan", 9), used=5)),
    ("65,535 places counted", opened(ADDED, CHANGED, REMOVED, used=65535)),
    ("256 times as many counted", opened(absent("plan", 9), used=256)),
    ("a byte behind the used places", put(JOURNAL, (FREE, b"\1"))),
    ("the last byte", put(JOURNAL, (len(JOURNAL) - 1, b"\1"))),
    ("kind 0", put(JOURNAL, (FIRST, b"\0"))),
    ("kind 3", put(JOURNAL, (FIRST, b"\3"))),
    ("kind 1 of a row", put(JOURNAL, (SECOND, b"\1"))),
    ("kind 255 of a row", put(JOURNAL, (THIRD, b"\xff"))),
    ("length 0", b""),
    ("length 1", b"\0"),
    ("length 2", b"\0\0"),
    ("J = 0", bytes(3)),
    ("J = 0, open", b"\1\0\0"),
    ("J = 8,193", closed(8193)),
    ("J = 8,193, open", opened(ADDED, CHANGED, REMOVED, journal=8193)),
    ("closed, a byte less", closed(4)[:-1]),
    ("closed, a byte more", closed(4) + b"\0"),
    ("J = 1, a byte less", closed(1)[:-1]),
    ("a byte less", JOURNAL[:-1]),
    ("a byte more", JOURNAL + b"\0"),
    ("cut behind the second place", JOURNAL[:THIRD]),
    ("a table that is not stored", opened(absent("plans", 8))),
    ("a row of a table that is not stored", opened(place_record(b"plans", None, values((8, "C"))))),
    ("no table name", opened(absent("", 8))),
    ("table name: length 25", put(JOURNAL, (FIRST + 1, b"\x19"))),
    ("table name: a byte behind it", put(JOURNAL, (FIRST + 25, b"x"))),
    ("a row's table name: a byte behind it", put(JOURNAL, (THIRD + 25, b"x"))),
    ("a row's table name: length 25", put(JOURNAL, (THIRD + 1, b"\x19"))),
    ("the key of nothing: kind 5", key_cell(b"\5")),
    ("the key of nothing: boolean 2", key_cell(b"\1\0\2")),
    ("the key of nothing: an integer with a byte behind it", key_cell(b"\2" + bytes(9) + b"\1")),
    ("the key of nothing: an integer with a text's length", key_cell(b"\2\1" + bytes(7) + b"\x08")),
    ("the key of nothing: minus zero", key_cell(of_float(1 << 63))),
    ("the key of nothing: another NaN", key_cell(of_float(0x7FF0000000000001))),
    ("the key of nothing: a NaN with a sign", key_cell(of_float(0xFFF8000000000000))),
    ("the key of nothing: a text of 25 bytes", key_cell(b"\4\x19" + bytes(24))),
    ("the key of nothing: a text with a byte behind it", key_cell(b"\4\1ab")),
    ("the key of nothing: NULL with a byte", key_cell(b"\0\0\1")),
    ("the key of nothing: a byte behind the cell", put(JOURNAL, (FIRST + 52, b"\1"))),
    ("a row's key: NULL", row_cell(0, b"")),
    ("a row's key: NaN", row_cell(0, of_float(NAN[1]))),
    ("a row's key of another kind", row_cell(0, b"\2\0" + bytes(7) + b"\1")),
    ("a row's cell of another kind", row_cell(1, b"\4\1a")),
    ("a row's cell NULL where it must not be", row_cell(3, b"")),
    ("a row's cell: boolean 2", row_cell(3, b"\1\0\2")),
    ("a row's cell: minus zero", row_cell(2, of_float(1 << 63))),
    ("a row's cell: another NaN", row_cell(2, of_float(0x7FF8000000000001))),
    ("a row's cell: kind 5", row_cell(2, b"\5")),
    ("a row's cell: a text of 25 bytes", opened(put(stood("plan", 7, "A"), (1 + 25 + 26, b"\4\x19")))),
    ("a row's cell: a byte behind the columns", row_cell(4, b"\1\0\1")),
    ("a row with a cell more than its table", opened(stood("plan", 7, "A", None, 1))),
    ("a row that does not fit, overwritten by an earlier place", opened(stood("plan", 7, "A"), stood("plan", 7, 1))),
    ("a NULL that must not be, overwritten by an earlier place", opened(CHANGED, stood("point", 2.5, None, 1.0, None))),
    ("a row whose key is NULL, and nothing at NULL", opened(absent("plan", None), stood("plan", None, "A"))),
    ("a row whose key is NaN, and nothing at NaN", opened(absent("point", float("nan")), stood("point", float("nan"), None, 1.0, True))),
    ("the row brings a value twice in a unique column", opened(stood("point", 3.5, None, 0.5, True))),
    ("two rows bring a value twice in a unique column",
     opened(stood("point", 2.5, None, 1.0, True), stood("point", 3.5, None, 1.0, True))),
    ("the row names a row that is not there", opened(stood("point", 3.5, 9, 1.0, True))),
    ("a row goes that another names", opened(absent("plan", 8))),
    ("a row comes, and the one it names goes", opened(absent("plan", 7), stood("point", 3.5, 7, 1.0, True))),
    ("a change is not put back, and the row it names goes", opened(ADDED, REMOVED)),
    ("more rows than places on the way, and no more at the end",
     opened(absent("plan", 8), CHANGED, stood("plan", 9, None), stood("plan", 10, None))),
    ("more rows than places at the end", opened(stood("plan", 9, None), stood("plan", 10, None))),
    ("more rows than places in the middle",
     opened(absent("plan", 9), absent("plan", 10), stood("plan", 9, None), stood("plan", 10, None))),
]

# ---------------------------------------------------------------- other stores

OTHER = image(state_of(4, {"plan": [(1, "x"), (2, None)], "point": [(0.5, 1, 0.5, True)]}))  # beside the base's journal
FULL = image(state_of(4, {"plan": [(7, "A"), (8, "C"), (9, None)], "point": [(2.5, 8, 0.5, True)]}))
EMPTY = image(state_of(4, {}))
HANGING = image(state_of(4, {"plan": [(7, "A")], "point": [(2.5, 8, 0.5, True)]}))
STORES = [
    ("another store: the rows come, a plan that one names is not there", OTHER, JOURNAL, 0),
    ("another store, closed", OTHER, closed(4), 1),
    ("another store, open, no place used", OTHER, opened(), 1),
    ("another store that the places leave sound", OTHER, opened(ADDED, CHANGED), 1),
    ("a full store: one row more on the way", FULL, JOURNAL, 0),
    ("a full store: a row goes first", FULL, opened(stood("plan", 10, None), absent("plan", 9)), 1),
    ("a full store: the same places, turned round", FULL, opened(absent("plan", 9), stood("plan", 10, None)), 0),
    ("a store with no rows: a point without its plan", EMPTY, JOURNAL, 0),
    ("a store with no rows: a plan and its point", EMPTY, opened(stood("plan", 7, "A"), REMOVED), 1),
    ("a store as it was at the opening: all is there", BEFORE, JOURNAL, 1),
    ("a store that is not sound, and the base's journal", put(STORE, (4, b"\0")), JOURNAL, 0),
    ("a store that is not sound, and a closed journal", put(STORE, (6, b"\0\4")), closed(4), 0),
    ("a store that is not sound: a reference hangs, and taking back would mend it", HANGING, opened(CHANGED), 0),
    ("a store that is not sound: its last byte", put(STORE, (len(STORE) - 1, b"\1")), JOURNAL, 0),
    ("a store that is not sound, and a journal of no length", put(STORE, (0, b"\xff")), b"", 0),
]

ONE = image(state_of(1, {"plan": [(1, "x")]}))
ROOM = [
    ("R = 1: nothing at 1, and row 2: two rows on the way", opened(absent("plan", 1), stood("plan", 2, None), journal=2), 0),
    ("R = 1: row 2, and nothing at 1", opened(stood("plan", 2, None), absent("plan", 1), journal=2), 1),
    ("R = 1: row 1 again and again", opened(stood("plan", 1, "a"), stood("plan", 1, "b"), journal=2), 1),
    ("R = 1: two rows at the end", opened(stood("plan", 2, "a"), journal=2), 0),
    ("R = 1: closed", closed(2), 1),
]

# ---------------------------------------------------------------- single and random bytes


def single_bytes():
    """Each byte of the header, of the place where nothing stood and of one with a row: some other values; where it is zero for good, one."""
    ranges = [(0, HEADER, HEADER), (FIRST, FIRST + 52, SECOND), (THIRD, THIRD + 26 + 26 * 4, FREE)]
    for start, behind, end in ranges:
        for at in range(start, end):
            was = JOURNAL[at]
            others = {0, 1, 2, 255, was ^ 1, was ^ 128} if at < HEADER else {0, was ^ 1, was ^ 128, 255} if at < behind else {1 + at % 255}
            for byte in sorted(others - {was}):
                yield "byte %d: %d" % (at, byte), put(JOURNAL, (at, bytes([byte])))


def random_journals():
    """Some bytes of the base changed, mostly where something stands; or places of other rows, so that about half are sound."""
    rng = random.Random("journals 1")
    standing = [i for i, b in enumerate(JOURNAL) if b]
    for number in range(RANDOM):
        if number % 3 == 0:
            data = bytearray(JOURNAL)
            for _ in range(rng.choice([1, 2, 2, 3])):
                at = rng.choice(standing) + rng.choice([0, 0, 0, 1])
                data[at] = rng.choice([0, 1, 2, data[at] ^ 1 << rng.randrange(8), rng.randrange(256)])
            yield bytes(data)
        else:
            yield opened(*[random_place(rng) for _ in range(rng.randrange(1, 5))])


def random_place(rng):
    plan, point = rng.choice([7, 8, 9]), rng.choice([1.5, 2.5, 3.5])
    if rng.random() < 0.45:
        return rng.choice([absent("plan", plan), absent("point", point)])
    if rng.random() < 0.4:
        return stood("plan", plan, rng.choice(["A", None]))
    return stood("point", point, rng.choice([7, 8, 9, None, None]), rng.choice([0.0, 0.5, float("nan"), None]), True)


# ---------------------------------------------------------------- the list


def changes(base, data):
    base = base[: len(data)].ljust(len(data), b"\0")
    edits = [(i, b) for i, (a, b) in enumerate(zip(base, data)) if a != b]
    return struct.pack(">I", len(edits)) + b"".join(struct.pack(">IB", *e) for e in edits)


def judged(words, store, journal, verdict=None, unsound=False):
    """A case with what taking back leaves, None for 38. The decider is asked beside sound stores only."""
    left = None if unsound else taken_back(store, journal)
    if verdict is not None and verdict != (left is not None):
        raise SystemExit("the decider says otherwise: " + words)
    return words, store, journal, left


def parts():
    """For each base its store, its journal, and cases."""
    cases = [judged(words, STORE, data, 1) for words, data in SOUND] + [judged(words, STORE, data, 0) for words, data in NOT_SOUND]
    cases += [judged(words, store, data, verdict, words.startswith("a store that is not sound")) for words, store, data, verdict in STORES]
    cases += [judged(words, STORE, data) for words, data in single_bytes()]
    cases += [judged("random", STORE, data) for data in random_journals()]
    yield STORE, JOURNAL, cases
    yield ONE, closed(2), [judged(words, ONE, data, verdict) for words, data, verdict in ROOM]


def write_list():
    number = sound = 0
    with open(FILE + ".list", "wb") as f, open(FILE + ".txt", "w") as t:
        for base, journal, cases in parts():
            f.write(packed(base) + packed(journal) + struct.pack(">I", len(cases)))
            for words, store, data, left in cases:
                f.write(changes(base, store) + struct.pack(">I", len(data)) + changes(journal, data))
                f.write(b"\0" if left is None else b"\1" + changes(base, left))
                t.write("%d %s: %s\n" % (number, "38" if left is None else "sound", words))
                number, sound = number + 1, sound + (left is not None)
        print("journals.list: %d cases, %d of them sound, %d bytes" % (number, sound, f.tell()))


if __name__ == "__main__":
    write_list()
