"""Batches (document 02, T-06): cases whose lines were written by hand."""

from cases import (
    BACK, KEEP, OPEN, case, column, create, delete, drop, get, insert, key, list_tables, lookup, raw, scan, update,
)
from values import FLOAT

OK, BROKEN, FULL, INSIDE, TURN = "ok 0", "no 1 0 0", "no 43 0 0", "no 44 0 0", "no 45 0 0"
MINUS_ZERO = (FLOAT, 1 << 63)
NAN = float("nan")
T = create("t", key(), column("v", "integer", "nullable unique index", default=None))
PLAN = create("plan", key(), column("sheet", "text", "nullable", default=None))
POINT = create("point", key(), column("plan", "integer", "nullable index", default=None, to="plan"))
AT = range(5)  # of rows and pairs


def keys(*ks):
    return [(k,) for k in ks]


def same(*ks):
    """Pairs that leave the rows of these keys as they are."""
    return [(k, (k, None)) for k in ks]


# ---------------------------------------------------------------- opened, kept, taken back

ENDINGS = [
    case(
        "one of each: 43 with GONE 0 and 1, 44, 45, taken back, kept", 70,
        T, OK,
        KEEP, TURN,
        BACK, TURN,
        insert("t", (1, 1), (2, 2)), "ok 2",
        OPEN, OK,
        OPEN, TURN,
        create("u", key()), INSIDE,
        drop("nowhere", 1), INSIDE,
        insert("t", (3, 3), (4, 3)), "no 31 1 0",
        update("t", (1, (10, 1))), "ok 1",
        update("t", (2, (20, 2))), "no 43 0 1",
        scan("t"), "row 3 3; row 10 1; ok 2",
        insert("t", (5,)), FULL,
        insert("t", (10,)), "no 27 0 0",
        delete("t", 99), "ok 1",
        delete("t", 3, 99), FULL,
        BACK, OK,
        scan("t"), "row 1 1; row 2 2; ok 2",
        OPEN, OK,
        update("t", (1, (1, 1)), (2, (2, 5))), "ok 2",
        delete("t", 1, 1, 2, 2, 7), "ok 5",
        insert("t", (8,)), FULL,
        KEEP, OK,
        scan("t"), "ok 0",
        insert("t", (8,)), "ok 1",
        journal=4,
    ),
    case(
        "kept: rows added, replaced, removed and moved stay", 6,
        T, OK,
        insert("t", (1, 1), (2, 2), (3, 3)), "ok 3",
        OPEN, OK,
        insert("t", (4, 4)), "ok 1",
        update("t", (1, (1, 9)), (2, (5, 2))), "ok 2",
        delete("t", 3), "ok 1",
        KEEP, OK,
        scan("t"), "row 1 9; row 4 4; row 5 2; ok 3",
        lookup("t", 1, 1, 2, 3, 4, 9), "row 1; row 4; row 5; ok 3",
        journal=8,
    ),
    case(
        "taken back: the same requests leave nothing", 6,
        T, OK,
        insert("t", (1, 1), (2, 2), (3, 3)), "ok 3",
        OPEN, OK,
        insert("t", (4, 4)), "ok 1",
        update("t", (1, (1, 9)), (2, (5, 2))), "ok 2",
        delete("t", 3), "ok 1",
        BACK, OK,
        scan("t"), "row 1 1; row 2 2; row 3 3; ok 3",
        lookup("t", 1, 1, 2, 3, 4, 9), "row 1; row 2; row 3; ok 3",
        journal=8,
    ),
    case(
        "refused in the middle: what was changed before is kept, or taken back", 8,
        T, OK,
        insert("t", (1, 1), (2, 2)), "ok 2",
        OPEN, OK,
        insert("t", (3, 3), (4, 4), (5, 1), (6, 6)), "no 31 2 0",
        update("t", (1, (7, 1)), (2, (3, 2))), "no 27 1 1",
        update("t", (3, (3, 5)), (4, (4, 5))), "no 31 1 0",
        scan("t"), "row 3 5; row 4 4; row 7 1; ok 3",
        BACK, OK,
        scan("t"), "row 1 1; row 2 2; ok 2",
        OPEN, OK,
        insert("t", (3, 3), (4, 4), (5, 1), (6, 6)), "no 31 2 0",
        update("t", (1, (7, 1)), (2, (3, 2))), "no 27 1 1",
        KEEP, OK,
        scan("t"), "row 3 3; row 4 4; row 7 1; ok 3",
        journal=12,
    ),
    case(
        "a key changed many times gets its first row back", 4,
        T, OK,
        insert("t", (1, 1), (2, 2)), "ok 2",
        OPEN, OK,
        update("t", (1, (1, 3))), "ok 1",
        delete("t", 1), "ok 1",
        insert("t", (1, 4)), "ok 1",
        update("t", (1, (5, 4)), (2, (1, 1))), "ok 2",
        delete("t", 5, 1), "ok 2",
        insert("t", (2, 7), (3, 8), (1, 9)), "ok 3",
        update("t", (1, (1, 1)), (3, (3, 9))), "ok 2",
        scan("t"), "row 1 1; row 2 7; row 3 9; ok 3",
        BACK, OK,
        scan("t"), "row 1 1; row 2 2; ok 2",
        OPEN, OK,
        insert("t", (3, 3)), "ok 1",
        delete("t", 3), "ok 1",
        insert("t", (3, 4)), "ok 1",
        delete("t", 3), "ok 1",
        BACK, OK,
        scan("t"), "row 1 1; row 2 2; ok 2",
        journal=14,
    ),
    case(
        "two batches in a row, one taken back, one kept, and each has all places again", 8,
        T, OK,
        *[step for end in (BACK, KEEP, BACK) for step in (
            OPEN, OK,
            insert("t", *keys(1, 2, 3)), "ok 3",
            insert("t", *keys(4)), FULL,
            end, OK,
            delete("t", 1, 2, 3), "ok 3",
        )],
        OPEN, OK,
        insert("t", *keys(1, 2)), "ok 2",
        KEEP, OK,
        OPEN, OK,
        delete("t", 1), "ok 1",
        insert("t", (1, 5), (3, 6)), "ok 2",
        BACK, OK,
        scan("t"), "row 1 NULL; row 2 NULL; ok 2",
        KEEP, TURN,
        journal=3,
    ),
    case(
        "an empty batch, kept and taken back", 2,
        OPEN, OK,
        KEEP, OK,
        OPEN, OK,
        BACK, OK,
        T, OK,
        insert("t", (1, 1)), "ok 1",
        OPEN, OK,
        BACK, OK,
        scan("t"), "row 1 1; ok 1",
        journal=1,
    ),
    case(
        "with no batch open nothing is noted and no place is needed", 8,
        T, OK,
        insert("t", *keys(1, 2, 3, 4)), "ok 4",
        update("t", *same(1, 2, 3)), "ok 3",
        delete("t", 1, 2, 3), "ok 3",
        OPEN, OK,
        delete("t", 4), "ok 1",
        KEEP, OK,
        insert("t", *keys(1, 2, 3, 4)), "ok 4",
        OPEN, OK,
        delete("t", 4), "ok 1",
        BACK, OK,
        delete("t", 1, 2, 3, 4), "ok 4",
        journal=1,
    ),
    case(
        "a full store: rows go and come, and all come back", 3,
        T, OK,
        insert("t", (1, 1), (2, 2), (3, 3)), "ok 3",
        OPEN, OK,
        insert("t", (4, 4)), "no 33 0 0",
        update("t", (1, (4, 4)), (2, (1, 1))), "ok 2",
        delete("t", 3, 4), "ok 2",
        insert("t", (5, 5), (6, 6), (7, 7)), "no 33 2 0",
        update("t", (1, (1, 6))), "no 31 0 0",
        scan("t"), "row 1 1; row 5 5; row 6 6; ok 3",
        BACK, OK,
        scan("t"), "row 1 1; row 2 2; row 3 3; ok 3",
        OPEN, OK,
        delete("t", 1, 2, 3), "ok 3",
        insert("t", (7, 1), (8, 2), (9, 3)), "ok 3",
        update("t", (7, (10, 1)), (8, (7, 2)), (9, (8, 3))), "ok 3",
        BACK, OK,
        scan("t"), "row 1 1; row 2 2; row 3 3; ok 3",
        journal=12,
    ),
    case(
        "rows that refer go first and come back last", 8,
        PLAN, OK,
        POINT, OK,
        create("z", key(), column("up", "integer", "nullable index", default=None, to="z")), OK,
        insert("plan", (7, "A")), "ok 1",
        insert("point", (1, 7), (2, 7)), "ok 2",
        insert("z", (1, 1), (2, 1)), "ok 2",
        OPEN, OK,
        delete("plan", 7), "no 32 0 0", ["32 t:706f696e74 0 1"],
        delete("point", 1, 2), "ok 2",
        update("plan", (7, (8, "B"))), "ok 1",
        insert("point", (1, 8), (3, 8)), "ok 2",
        delete("z", 1, 2), "ok 2",
        insert("z", (2, 2), (1, 2)), "ok 2",
        scan("point"), "row 1 8; row 3 8; ok 2",
        BACK, OK,
        scan("plan"), "row 7 t:41; ok 1",
        scan("point"), "row 1 7; row 2 7; ok 2",
        scan("z"), "row 1 1; row 2 1; ok 2",
        lookup("point", 1, 7, 8), "row 1; row 2; ok 2",
        journal=20,
    ),
    case(
        "reads inside see what stands now, and use no place", 6,
        T, OK,
        insert("t", (1, 1), (2, 2)), "ok 2",
        OPEN, OK,
        insert("t", (3, 3)), "ok 1",
        get("t", 3, 1, 9), "row 3 3; row 1 1; ok 2",
        lookup("t", 1, 3, 2), "row 2; row 3; ok 2",
        scan("t"), "row 1 1; row 2 2; row 3 3; ok 3",
        list_tables(), "row t:74; ok 1",
        scan("none"), OK,
        lookup("t", 0, 1), "no 37 0 0",
        lookup("none", 0), "no 2 0 0",
        insert("none", (1,)), "no 2 0 0",
        update("none"), "no 2 0 0",
        delete("none", 1), "no 2 0 0",
        insert("t"), OK,
        update("t"), OK,
        delete("t"), OK,
        BACK, OK,
        get("t", 3, 1, 9), "row 1 1; ok 1",
        lookup("t", 1, 3, 2), "row 2; ok 1",
        journal=1,
    ),
    case(
        "an open batch at the end: nothing stood, and rows of every kind of value", 8,
        create("f", key("float"), column("b", "boolean"), column("s", "text", "nullable index", default="x")), OK,
        create("s", key("text"), column("n", "float", "nullable unique index", default=NAN)), OK,
        create("b", key("boolean", "k"), column("i", "integer"), at=0), OK,
        insert("f", (0.5, True)), "ok 1",
        insert("s", ("x" * 24, 1.5)), "ok 1",
        insert("b", (True, -(2**63))), "ok 1",
        OPEN, OK,
        insert("f", (MINUS_ZERO, False, None), (float("-inf"), True, "")), "ok 2",
        update("f", (0.0, (0.0, True, "z" * 24)), (0.5, (-0.5, False, b"\xff\0"))), "ok 2",
        insert("s", ("", NAN), (b"\0",)), "ok 2",
        delete("s", "x" * 24, ""), "ok 2",
        update("b", (True, (False, 2**63 - 1))), "ok 1",
        insert("b", (True, -1)), "ok 1",
        scan("f"), "row f:fff0000000000000 true t:; row f:bfe0000000000000 false t:ff00; row f:0000000000000000 true t:%s; ok 3" % ("7a" * 24),
        scan("s"), "row t:00 f:7ff8000000000000; ok 1",
        scan("b"), "row false 9223372036854775807; row true -1; ok 2",
        journal=13,
    ),
    case(
        "an open batch at the end, all places used, and a record cut off behind it", 70,
        create("k", key()), OK,
        OPEN, OK,
        *[step for i in range(7) for step in (insert("k", *keys(*range(10 * i, 10 * i + 10))), "ok 10")],
        delete("k", 3), FULL,
        insert("k", (99,)), "no 33 0 0",
        scan("k")[:-1], BROKEN,
        journal=70,
    ),
    case(
        "an open batch with no place used at the end", 2,
        OPEN, OK,
        journal=2,
    ),
    case(
        "a batch opened twice goes on as it was", 4,
        T, OK,
        OPEN, OK,
        insert("t", (1, 1)), "ok 1",
        OPEN, TURN,
        OPEN, TURN,
        insert("t", (2, 2)), "ok 1",
        BACK, OK,
        scan("t"), OK,
        BACK, TURN,
        KEEP, TURN,
        OPEN, OK,
        insert("t", (1, 1)), "ok 1",
        KEEP, OK,
        KEEP, TURN,
        BACK, TURN,
        scan("t"), "row 1 1; ok 1",
        journal=2,
    ),
]

# ---------------------------------------------------------------- 43: at each row, pair, and of a delete


def used(count):
    """So many places used by a row that changes to itself."""
    return [step for _ in range(count) for step in (update("t", *same(0)), "ok 1")]


def places_left(left, journal, *steps):
    """A batch with so many places left, and taken back."""
    return [OPEN, OK, *used(journal - left), *steps, BACK, OK]


def at_each_row():
    steps = [T, OK, insert("t", (0,)), "ok 1"]
    for at in AT:
        rows = keys(*range(1, at + 1))
        steps += places_left(at, 5, insert("t", *rows, (50,), (60,)), "no 43 %d 0" % at, scan("t"),
                             "; ".join("row %d NULL" % k for k in range(at + 1)) + "; ok %d" % (at + 1))
        steps += [OPEN, OK, *used(5 - at), insert("t", *rows), "ok %d" % at, KEEP, OK, delete("t", *range(1, at + 1)), "ok %d" % at]
    return case("43 at each row of an insert; earlier rows stay", 8, *steps, scan("t"), "row 0 NULL; ok 1", journal=5)


def at_each_same_key():
    steps = [T, OK, insert("t", *keys(*range(8))), "ok 8"]
    for at in AT:
        pairs = [(k, (k, 10 + k)) for k in range(1, at + 3)]
        steps += places_left(at, 5, update("t", *pairs), "no 43 %d 0" % at, get("t", at, at + 1),
                             "row %d %s; row %d NULL; ok 2" % (at, 10 + at if at else "NULL", at + 1))
    steps += places_left(0, 5, update("t", *same(3)), FULL)
    return case("43 at each same-key pair, equal rows too; earlier pairs stay", 8, *steps, lookup("t", 1, *range(20)), OK, journal=5)


def at_each_other_key():
    """Each pair takes two places: an odd number left is used by the old row, so that it is gone."""
    steps = [T, OK, insert("t", *keys(*range(8))), "ok 8"]
    for left in range(8):
        at, gone = divmod(left, 2)
        pairs = [(k, (10 + k, k)) for k in range(1, at + 3)]
        steps += places_left(left, 8, update("t", *pairs), "no 43 %d %d" % (at, gone),
                             get("t", at + 1, at + 11), OK if gone else "row %d NULL; ok 1" % (at + 1),
                             lookup("t", 1, *range(8)), "; ".join(["row %d" % (10 + k) for k in range(1, at + 1)] + ["ok %d" % at]))
    steps += places_left(8, 8, update("t", *[(k, (10 + k, k)) for k in range(1, 5)]), "ok 4")
    return case("43 at each pair with another key, GONE 0 and 1", 9, *steps, scan("t"),
                "; ".join("row %d NULL" % k for k in range(8)) + "; ok 8", journal=8)


def of_absent_keys():
    steps = [T, OK, insert("t", (0,)), "ok 1"]
    absent = [(k, (10 + k, k)) for k in range(1, 6)]
    for left in AT:
        steps += places_left(left, 5, update("t", *absent[: left + 1]), "no 43 %d 0" % left)
    steps += places_left(5, 5, update("t", *absent), "ok 5")
    steps += places_left(0, 5, update("t", (None, (7, 7))), FULL)
    steps += places_left(1, 5, update("t", (None, (7, 7))), "ok 1")
    steps += places_left(1, 5, update("t", (0, (None, 7))), "no 26 0 1")
    steps += places_left(0, 5, update("t", (0, (None, 7))), FULL)
    steps += places_left(0, 5, update("t", (9, (None, 7))), "no 26 0 0")
    return case("43 of pairs whose old key is absent or NULL: one place each", 8, *steps, scan("t"), "row 0 NULL; ok 1", journal=5)


def of_deletes():
    steps = [T, OK, insert("t", *keys(*range(7))), "ok 7"]
    for n in range(1, 6):
        repeated = [*range(1, n + 1), 90, None, *range(n, 0, -1), 90]
        gone = "; ".join("row %d NULL" % k for k in [0, *range(n + 1, 7)]) + "; ok %d" % (7 - n)
        steps += places_left(n - 1, 6, delete("t", *repeated), FULL, get("t", *range(1, n + 1)),
                             "; ".join("row %d NULL" % k for k in range(1, n + 1)) + "; ok %d" % n)
        steps += places_left(n, 6, delete("t", *repeated), "ok %d" % len(repeated), scan("t"), gone)
    steps += places_left(0, 6, delete("t", 90, None, "x", 90), "ok 4", delete("t"), OK, delete("t", 90, 0), FULL)
    return case("43 of a delete: as many places as distinct stored rows, absent keys none", 8, *steps, scan("t"),
                "; ".join("row %d NULL" % k for k in range(7)) + "; ok 7", journal=6)


def other_refusals_first():
    table = create("t", key(), column("v", "integer", "nullable unique index", default=None), column("w", "text", default="w"),
                   column("r", "integer", "nullable index", default=None, to="t"))
    faults = [
        (2, insert("none", (5,))), (24, insert("t", (5,), to=[9])), (21, insert("t", (5, 5, "w", 1, 1))),
        (22, insert("t", (5,), to=[0, 1])), (23, insert("t", (5,), to=[1])), (26, insert("t", (None,))), (27, insert("t", (1,))),
        (28, insert("t", (5, "x"))), (29, insert("t", (5, 5, None))), (30, insert("t", (5, 5, "w", 9))), (31, insert("t", (5, 1))),
        (25, update("t", (1, (1,)))), (26, update("t", (None, (None, 1, "w", None)))), (28, update("t", (1, (1, "x", "w", None)))),
        (29, update("t", (1, (1, 1, None, None)))), (30, update("t", (1, (1, 1, "w", 9)))), (31, update("t", (1, (1, 2, "w", None)))),
        (34, update("t", (8, (8, 8, "w", None)))), (32, update("t", (2, (8, 8, "w", None)))), (27, update("t", (8, (1, 8, "w", None)))),
        (31, update("t", (8, (9, 2, "w", None)))), (32, delete("t", 2)), (32, delete("t", 3, 2)),
    ]
    steps = [table, OK, insert("t", (2, 2), (1, 1, "w", 2), (3, 3)), "ok 3", OPEN, OK, update("t", (3, (3, 3, "w", None))), "ok 1"]
    for code, request in faults:
        steps += [request, "no %d 0 0" % code] + ([["32 t:74 0 1"]] if code == 32 else [])
    steps += [update("t", (3, (3, 3, "w", None)), (1, (1, 1, "w", None))), "no 35 1 0"]
    for request in (insert("t", (5, 5)), update("t", (1, (1, 1, "w", None))), update("t", (3, (8, 8, "w", None))),
                    update("t", (8, (9, 9, "w", None))), delete("t", 3), delete("t", 1, 2)):
        steps += [request, FULL]
    return case("2, 21 to 32, 34 and 35 before 43, and requests without a fault", 4, *steps, BACK, OK,
                scan("t"), "row 1 1 t:77 2; row 2 2 t:77 NULL; row 3 3 t:77 NULL; ok 3", journal=1)


PLACES = [
    at_each_row(), at_each_same_key(), at_each_other_key(), of_absent_keys(), of_deletes(), other_refusals_first(),
    case(
        "33 before 43: a full store with no place left", 2,
        T, OK,
        insert("t", (1, 1), (2, 2)), "ok 2",
        OPEN, OK,
        update("t", (1, (1, 1))), "ok 1",
        insert("t", (3, 3)), "no 33 0 0",
        update("t", (8, (9, 9))), "no 33 0 0",
        update("t", (1, (3, 3))), FULL,
        update("t", (2, (2, 2))), FULL,
        BACK, OK,
        OPEN, OK,
        delete("t", 2), "ok 1",
        insert("t", (3, 3), (4, 4)), FULL,
        KEEP, OK,
        insert("t", (3, 3), (4, 4)), "no 33 1 0",
        OPEN, OK,
        update("t", (1, (4, 4))), "no 43 0 1",
        scan("t"), "row 3 3; ok 1",
        BACK, OK,
        scan("t"), "row 1 1; row 3 3; ok 2",
        journal=1,
    ),
    case(
        "J = 1: one row of each kind of change", 4,
        T, OK,
        insert("t", (1, 1), (2, 2)), "ok 2",
        *[step for request, lines in (
            (insert("t", (3, 3)), "ok 1"), (update("t", (1, (1, 5))), "ok 1"), (delete("t", 1), "ok 1"), (delete("t", 1, 1), "ok 2"),
            (update("t", (8, (9, 9))), "ok 1"), (update("t", (1, (9, 9))), "no 43 0 1"), (insert("t", (3, 3), (4, 4)), "no 43 1 0"),
            (update("t", (1, (1, 5)), (2, (2, 6))), "no 43 1 0"), (delete("t", 1, 2), FULL),
        ) for step in (
            OPEN, OK, request, lines, BACK, OK, scan("t"), "row 1 1; row 2 2; ok 2",
        )],
        OPEN, OK,
        update("t", (1, (9, 9))), "no 43 0 1",
        KEEP, OK,
        scan("t"), "row 2 2; ok 1",
        journal=1,
    ),
]

# ---------------------------------------------------------------- 44, 45, and 1 before them

TURNS = [
    case(
        "44 before 2, 3 and every other fault of a create or drop; afterwards they are answered", 6,
        PLAN, OK,
        POINT, OK,
        OPEN, OK,
        create("t", key()), INSIDE,
        PLAN, INSIDE,
        create("", key()), INSIDE,
        create("e"), INSIDE,
        create("e", key(), at=1), INSIDE,
        create("e", key(to="none")), INSIDE,
        drop("point"), INSIDE,
        drop("plan"), INSIDE,
        drop("none"), INSIDE,
        drop("none", 1), INSIDE,
        drop("point", 1), INSIDE,
        insert("plan", (1,)), "ok 1",
        list_tables(), "row t:706c616e; row t:706f696e74; ok 2",
        KEEP, OK,
        drop("none", 1), OK,
        drop("none"), "no 2 0 0",
        drop("plan"), "no 20 0 0", ["20 t:706f696e74 1"],
        PLAN, "no 3 0 0",
        OPEN, OK,
        drop("point", 1), INSIDE,
        BACK, OK,
        drop("point"), "ok 1",
        create("t", key()), OK,
        journal=3,
    ),
    case(
        "44 of a seventeenth table and with no place left", 2,
        *[step for i in range(16) for step in (create(chr(97 + i), key()), OK)],
        create("z", key()), "no 19 0 0",
        OPEN, OK,
        insert("a", (1,)), "ok 1",
        create("z", key()), INSIDE,
        drop("b"), INSIDE,
        KEEP, OK,
        drop("b"), "ok 1",
        journal=1,
    ),
    case(
        "45: kept or taken back while none is open, opened while one is; after either ending none is", 3,
        KEEP, TURN,
        BACK, TURN,
        OPEN, OK,
        OPEN, TURN,
        KEEP, OK,
        BACK, TURN,
        KEEP, TURN,
        OPEN, OK,
        BACK, OK,
        KEEP, TURN,
        BACK, TURN,
        OPEN, OK,
        OPEN, TURN,
        OPEN, TURN,
        BACK, OK,
        journal=2,
    ),
    case(
        "1 before 45: bytes left over behind 12, 13 and 14, and the operations beside them", 3,
        T, OK,
        *[step for byte in (0, 1, 255) for step in (
            raw(1, 12, byte), BROKEN, raw(1, 13, byte), BROKEN, raw(1, 14, byte), BROKEN,
        )],
        KEEP, TURN,
        OPEN, OK,
        insert("t", (1, 1)), "ok 1",
        *[step for n in (1, 2, 200) for step in (
            raw(1, 12, bytes(n)), BROKEN, raw(1, 13, bytes(n)), BROKEN, raw(1, 14, bytes(n)), BROKEN,
        )],
        raw(2, 13), BROKEN,
        raw(0, 14), BROKEN,
        raw(1, 0), BROKEN,
        raw(1, 10), BROKEN,
        raw(1, 11), BROKEN,
        raw(1, 16), BROKEN,
        raw(1, 255), BROKEN,
        b"\0\0", BROKEN,
        b"\0\1\1", BROKEN,
        OPEN, TURN,
        BACK, OK,
        scan("t"), OK,
        BACK[:3], BROKEN,
        journal=2,
    ),
    case(
        "1 before 44: a broken create and drop inside", 3,
        T, OK,
        OPEN, OK,
        raw(T[2:], 0), BROKEN,
        raw(T[2:-1]), BROKEN,
        raw(drop("t")[2:-1], 2), BROKEN,
        raw(drop("t")[2:], 0), BROKEN,
        T, INSIDE,
        journal=1,
    ),
]

CASES = ENDINGS + PLACES + TURNS
