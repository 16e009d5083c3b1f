#!/usr/bin/env python3
"""Lent stores, sound and not, as changes of one sound store.

  stores.py    makes lists/lent.list

lent.list: k (4), k bytes of a sound store; then each case:
  e (4), e changes of an offset (4) and a byte (1), and a byte: 1 sound, 0 not (38).
The verdicts on changes by hand are written by hand; those on random bytes are the model's.
"""

import os
import random
import struct

from cases import column, key, name, value, values
from checks import sound
from layout import image
from packed import packed
from values import Schema, State

FILE = os.path.join(os.path.dirname(os.path.abspath(__file__)), "lists", "lent")
PLACES = 4
TABLES, ROWS, ENTRIES = 12, 12 + 16 * 651, 12 + 16 * 651 + PLACES * 233

PLAN = [key(), column("sheet", "text", "nullable", default="x")]
POINT = [
    key("float"),
    column("plan", "integer", "nullable index", default=None, to="plan"),
    column("v", "float", "nullable unique index", default=0.5),
    column("b", "boolean"),
]
PLAN_ROWS = [(7, "A")]
POINT_ROWS = [(1.5, 7, float("nan"), True), (2.5, None, 0.0, False)]


def store(tables, rows):
    """The image of tables (name: key column, columns) and rows (name: rows), valid or not."""
    state = State(PLACES)
    for table, (at, columns) in tables.items():
        state.add_table(Schema(name(table), at, tuple(columns)))
    for table, given in rows.items():
        at = tables[table][0]
        for row in given:
            state.put_row(name(table), value(row[at]), values(row))
    return image(state)


def variant(plan=None, point=None, plan_rows=PLAN_ROWS, point_rows=POINT_ROWS, plan_key=0, **more):
    tables = {"plan": (plan_key, PLAN if plan is None else plan), "point": (0, POINT if point is None else point), **more}
    return store(tables, {"plan": plan_rows, "point": point_rows})


BASE = variant()


def put(*changes):
    """The base with bytes written over it."""
    data = bytearray(BASE)
    for at, new in changes:
        data[at : at + len(new)] = new
    return bytes(data)


def swapped(start, width, one, other):
    a, b = (BASE[start + width * i : start + width * (i + 1)] for i in (one, other))
    return put((start + width * one, b), (start + width * other, a))


def with_column(columns, at, new):
    return columns[:at] + [new] + columns[at + 1 :]


def in_column(table, at, offset):
    return TABLES + 651 * table + 27 + 78 * at + offset


def in_cell(row, at, offset):
    return ROWS + 233 * row + 25 + 26 * at + offset


EMPTY = dict(plan_rows=[], point_rows=[])
SOUND = [
    ("the base", BASE),
    ("no rows", variant(**EMPTY)),
    ("another text", variant(plan_rows=[(7, b"\xff\0")])),
    ("two tables that reference each other, which no request can make",
     variant(plan=PLAN + [column("p", "float", "nullable index", default=None, to="point")], plan_rows=[(7, "A", 1.5)])),
    ("a row that names its own key",
     variant(plan=PLAN + [column("up", "integer", "index", to="plan")], plan_rows=[(7, "A", 7)])),
    ("two NaN in a unique column", variant(point_rows=[POINT_ROWS[0], (2.5, None, float("nan"), False)])),
    ("all rows used", variant(plan_rows=[(7, "A"), (8, "B")])),
]
NOT_SOUND = [
    ("header: length", put((3, bytes([BASE[3] ^ 1])))),
    ("header: version 0", put((4, b"\0"))),
    ("header: version 2", put((4, b"\2"))),
    ("header: a table fewer", put((5, b"\1"))),
    ("header: a table more", put((5, b"\3"))),
    ("header: 17 tables", put((5, b"\x11"))),
    ("header: a row fewer", put((6, b"\0\2"))),
    ("header: a row more", put((6, b"\0\4"))),
    ("header: rows above R", put((6, b"\0\5"))),
    ("header: an entry fewer", put((8, b"\0\0\0\3"))),
    ("header: an entry more", put((8, b"\0\0\0\5"))),
    ("header: entries huge", put((8, b"\xff\xff\xff\xff"))),
    ("table name: length 25", put((TABLES, b"\x19"))),
    ("table name: a byte behind it", put((TABLES + 24, b"x"))),
    ("tables swapped", swapped(TABLES, 651, 0, 1)),
    ("an unused table place", put((TABLES + 651 * 15 + 650, b"\1"))),
    ("an unused column place", put((in_column(0, 7, 77), b"\1"))),
    ("nine columns", put((TABLES + 26, b"\x09"))),
    ("column kind 0", put((in_column(0, 1, 25), b"\0"))),
    ("column kind 5", put((in_column(0, 1, 25), b"\5"))),
    ("flags 32", put((in_column(0, 0, 26), b"\x24"))),
    ("a default without its flag", put((in_column(0, 0, 27), b"\2"))),
    ("a reference name without its flag", put((in_column(0, 0, 53), b"\4plan"))),
    ("a default cell with a byte behind it", put((in_column(0, 1, 52), b"\1"))),
    ("4: empty table name", store({"": (0, PLAN)}, {})),
    ("5: no columns", variant(plan=[], point=[key()], **EMPTY)),
    ("6: key column out of range", variant(plan_key=2, point=[key()], **EMPTY)),
    ("6 of a referenced table", variant(plan_key=2, **EMPTY)),
    ("6: key column 255", variant(plan_key=255, **EMPTY)),
    ("6 of a table that an earlier one references",
     variant(plan_key=255, a=(0, [key(), column("p", "integer", "nullable index", default=None, to="plan")]), **EMPTY)),
    ("7: empty column name", variant(plan=with_column(PLAN, 1, column("", "text")))),
    ("8: key nullable", variant(plan=with_column(PLAN, 0, column("id", "integer", "unique nullable", default=None)))),
    ("9: key not unique", variant(plan=with_column(PLAN, 0, column("id", "integer")))),
    ("10: key indexed", variant(plan=with_column(PLAN, 0, column("id", "integer", "unique index")))),
    ("11: nullable without default", variant(plan=with_column(PLAN, 1, column("sheet", "text", "nullable")))),
    ("12: NULL default, not nullable", variant(plan=with_column(PLAN, 1, column("sheet", "text", default=None)))),
    ("13: default of another kind", variant(plan=with_column(PLAN, 1, column("sheet", "text", default=1)))),
    ("14: unique without index", variant(plan=with_column(PLAN, 1, column("sheet", "text", "unique")))),
    ("15: reference without index",
     variant(point=with_column(POINT, 1, column("plan", "integer", "nullable", default=None, to="plan")))),
    ("16: unknown target",
     variant(point=with_column(POINT, 1, column("plan", "integer", "nullable index", default=None, to="plans")), point_rows=[])),
    ("17: another kind than the target's key",
     variant(point=with_column(POINT, 1, column("plan", "text", "nullable index", default=None, to="plan")), point_rows=[])),
    ("18: a column name twice", variant(plan=with_column(PLAN, 1, column("id", "text", "nullable", default=None)))),
    ("a row of no table", put((ROWS + 1, b"plam"))),
    ("row name: length 25", put((ROWS, b"\x19"))),
    ("rows swapped", swapped(ROWS, 233, 1, 2)),
    ("a row twice", put((ROWS + 466, BASE[ROWS + 233 : ROWS + 466]))),
    ("an unused row place", put((ROWS + 233 * 3, b"\1"))),
    ("an unused cell", put((in_cell(0, 2, 0), b"\2"))),
    ("kind of a cell", variant(plan_rows=[(7, 5)])),
    ("kind 5", put((in_cell(0, 1, 0), b"\5"))),
    ("NULL not allowed", variant(point_rows=[(1.5, 7, 1.0, None)])),
    ("key NULL", variant(plan_rows=[(None, "A")], point_rows=[])),
    ("key NaN", variant(point_rows=[(float("nan"), None, 1.0, True)])),
    ("key of another kind", variant(plan_rows=[(7.0, "A")], point_rows=[])),
    ("boolean 2", put((in_cell(1, 3, 2), b"\2"))),
    ("minus zero", put((in_cell(2, 2, 2), b"\x80"))),
    ("minus zero, in the index too", put((in_cell(2, 2, 2), b"\x80"), (ENTRIES + 78 * 2 + 28, b"\x80"))),
    ("another NaN", put((in_cell(1, 2, 9), b"\1"))),
    ("another NaN, in the index too", put((in_cell(1, 2, 9), b"\1"), (ENTRIES + 78 * 3 + 35, b"\1"))),
    ("a NULL cell with a byte", put((in_cell(2, 1, 25), b"\1"))),
    ("an integer with a text's length", put((in_cell(0, 0, 1), b"\1"))),
    ("an integer with a byte behind it", put((in_cell(0, 0, 10), b"\1"))),
    ("text length 25", put((in_cell(0, 1, 1), b"\x19"))),
    ("a text with a byte behind it", put((in_cell(0, 1, 25), b"\1"))),
    ("a reference to no row", variant(point_rows=[(1.5, 8, 1.0, True)])),
    ("a value twice in a unique column", variant(point_rows=[(1.5, 7, 0.0, True), (2.5, 7, 0.0, True)])),
    ("a NaN as a reference",
     variant(point=POINT + [column("n", "float", "index", to="point")], point_rows=[(1.5, 7, 1.0, True, float("nan"))])),
    ("an entry of another value", put((ENTRIES + 78 + 35, b"\x08"))),
    ("an entry of another key", put((ENTRIES + 78 * 2 + 54, b"\x41"))),
    ("an entry of another column", put((ENTRIES + 25, b"\2"))),
    ("an entry of another table", put((ENTRIES + 1, b"plan\0"))),
    ("entries swapped", swapped(ENTRIES, 78, 0, 1)),
    ("an entry twice", put((ENTRIES + 78, BASE[ENTRIES : ENTRIES + 78]))),
    ("an entry missing", put((8, b"\0\0\0\3"), (ENTRIES + 78 * 3, bytes(78)))),
    ("an unused entry place", put((len(BASE) - 1, b"\1"))),
    ("NULL left out of the index", put((8, b"\0\0\0\3"), (ENTRIES, BASE[ENTRIES + 78 : ENTRIES + 312] + bytes(78)))),
    ("all bytes zero", bytes(len(BASE))),
    ("header all 255", put((0, b"\xff" * 12))),
]


def random_stores(count):
    """One to three bytes of the base changed, mostly where something stands."""
    rng = random.Random("stores 1")
    used = [i for i, b in enumerate(BASE) if b]
    for _ in range(count):
        data = bytearray(BASE)
        for _ in range(rng.choice([1, 1, 2, 3])):
            at = min(len(data) - 1, rng.choice(used) + rng.choice([0, 0, 1, -1]))
            data[at] = rng.choice([0, 1, data[at] ^ 1 << rng.randrange(8), rng.randrange(256)])
        yield bytes(data)


def changes(data):
    return [(i, b) for i, (a, b) in enumerate(zip(BASE, data)) if a != b]


def write_list():
    cases = [(words, data, 1) for words, data in SOUND] + [(words, data, 0) for words, data in NOT_SOUND]
    for words, data, verdict in cases:
        if sound(data) != verdict:
            raise SystemExit("the model says otherwise: " + words)
    cases += [("random bytes", data, sound(data)) for data in random_stores(200)]
    with open(FILE + ".list", "wb") as f, open(FILE + ".txt", "w") as t:
        f.write(packed(BASE))
        for number, (words, data, verdict) in enumerate(cases):
            edits = changes(data)
            f.write(struct.pack(">I", len(edits)) + b"".join(struct.pack(">IB", *e) for e in edits) + bytes([verdict]))
            t.write("%d %s: %s\n" % (number, "sound" if verdict else "38", words))
        print("lent.list: %d cases, %d of them sound, %d bytes" % (len(cases), sum(c[2] for c in cases), f.tell()))


if __name__ == "__main__":
    write_list()
