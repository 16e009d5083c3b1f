"""Cases that the Rust can't answer: broken records, refusals added by the document, full stores, odd values.

Their lines were written by hand from document 01.
"""

from cases import (
    case, column, create, delete, drop, get, insert, key, list_tables, lookup, raw, scan, update,
)
from values import FLOAT, NULL

NAN = float("nan")
MINUS_ZERO = (FLOAT, 1 << 63)
OTHER_NAN = (FLOAT, 0xFFF0000000000001)
OK, BROKEN = "ok 0", "no 1 0 0"
PLAN = create("plan", key(), column("sheet", "text", "nullable", default=None))
POINT = create("point", key(), column("plan", "integer", "nullable index", default=None, to="plan"))
TREE = create("t", key(), column("up", "integer", "nullable index", default=None, to="t"))
PAIRS = create("t", key(), column("a", "text", "unique index"))


def each(answer, *records):
    """Several requests with one answer each."""
    return [step for r in records for step in (r, answer)]


def cut(record):
    """Every beginning of a record that is too short, each with a right length."""
    return [raw(record[2 : 2 + n]) for n in range(2, len(record) - 2)]


def longer(record):
    return raw(record[2:], 0)


def with_byte(record, at, byte):
    """The byte at an offset from the version byte replaced."""
    return record[: 2 + at] + bytes([byte]) + record[3 + at :]


EVERY = [
    create("t", key(default=5), column("a", "text", "nullable index", default="x", to="t")),
    drop("t"), insert("t", (1, True, 0.5, "x", None), to=[0, 1, 2, 3, 4]), update("t", (1, (1, "x"))),
    delete("t", 1, "x"), get("t", 1), lookup("t", 1, 1.0), scan("t"), list_tables(),
]
LONGEST = get("t", *["x" * 24] * 157, 1)  # 2 + 2 + 1 + 157 * 26 + 9 bytes
SIXTEEN = [create(chr(97 + i), key()) for i in range(16)]


def wide_row(k, i):
    return (k, *[i * c % 11 for c in range(7)])


WIDE = create("w", key(), *[column("c%d" % i, "integer", "index") for i in range(7)])

BROKEN_CASES = [
    case(
        "1: version byte", 2,
        *each(BROKEN, raw(0, 9), raw(2, 9), raw(255, 9)),
        list_tables(), OK,
    ),
    case(
        "1: unknown operation", 2,
        *each(BROKEN, raw(1, 0), raw(1, 10), raw(1, 255)),
        list_tables(), OK,
    ),
    case(
        "1: lengths 0 and 1, skipped", 2,
        b"\0\0", BROKEN,
        b"\0\1\1", BROKEN,
        list_tables(), OK,
        b"\0\1\xff", BROKEN,
        PLAN, OK,
    ),
    case(
        "1: length 4,097 skipped, 4,096 read", 2,
        LONGEST, OK,
        b"\x10\1" + bytes(4097), BROKEN,
        PLAN, OK,
        longer(LONGEST), BROKEN,
        list_tables(), "row t:706c616e; ok 1",
    ),
    case(
        "1: cut off by the end", 2,
        PLAN, OK,
        insert("plan", (1,))[:-1], BROKEN,
    ),
    case(
        "1: a length and no byte more", 2,
        PLAN, OK,
        b"\0\2", BROKEN,
    ),
    case(
        "1: half a length at the end", 2,
        list_tables(), OK,
        b"\0", BROKEN,
    ),
    case(
        "1: a bad length that runs past the end", 2,
        PLAN, OK,
        b"\xff\xff\0\2\1\x09", BROKEN,
    ),
    case(
        "1: an input without a byte", 1,
    ),
    case(
        "1: every operation cut short", 3,
        PLAN, OK,
        *each(BROKEN, *[c for r in EVERY for c in cut(r)]),
        list_tables(), "row t:706c616e; ok 1",
    ),
    case(
        "1: bytes left over", 3,
        PLAN, OK,
        *each(BROKEN, *map(longer, EVERY)),
        scan("plan"), OK,
    ),
    case(
        "1: a byte above its limit, each kind of it", 2,
        *each(
            BROKEN,
            create("t", *[column("c%d" % i, "integer", "unique") for i in range(9)]),  # nine columns
            with_byte(create("t", key()), 9, 0), with_byte(create("t", key()), 9, 5),  # column kind
            with_byte(create("t", key()), 10, 32), with_byte(create("t", key()), 10, 255),  # flags
            with_byte(drop("t"), 4, 2),  # if-exists
            with_byte(insert("t", (1,)), 4, 2),  # map byte
            with_byte(insert("t", (True,)), 8, 2),  # boolean
            with_byte(insert("t", (True,)), 7, 5),  # kind of a value
            scan("x" * 25), create("t", key(own="y" * 25)), create("t", key(to="z" * 25)),  # names
            get("t", "x" * 25), create("t", key("text", default="x" * 25)),  # texts
        ),
        list_tables(), OK,
    ),
    case(
        "1 before 2: a broken record for an unknown table", 1,
        longer(delete("none", 1)), BROKEN,
        delete("none", 1), "no 2 0 0",
    ),
]

REFUSALS_ADDED = [
    case(
        "18: the first column that repeats, after 7 to 17 of every column", 2,
        create("t", key(), column("a", "text"), column("a", "text"), column("id", "text")), "no 18 2 0",
        create("t", key(), column("id", "text")), "no 18 1 0",
        create("t", key(), column("b", "text"), column("a", "text"), column("b", "text")), "no 18 3 0",
        create("t", key(), column("id", "text"), column("c", "text", "nullable")), "no 11 2 0",
        create("t", key(own="a"), column("a", "integer", "index"), column("a", "integer", "index")), "no 18 1 0",
        list_tables(), OK,
    ),
    case(
        "19: sixteen tables, after 3 and 4 to 18", 1,
        *each(OK, *SIXTEEN),
        create("q", key()), "no 19 0 0",
        create("p", key()), "no 3 0 0",
        create("q", column("id", "integer")), "no 9 0 0",
        create("q", key(), column("id", "text")), "no 18 1 0",
        drop("p"), "ok 1",
        create("q", key(to="a")), OK,
        create("p", key()), "no 19 0 0",
        drop("a"), "no 20 0 0", ["20 t:71 0"],
    ),
    case(
        "24: map column out of range or twice; with no row, before 21 to 23, after 2", 3,
        PLAN, OK,
        insert("plan", to=[2]), "no 24 0 0",
        insert("plan", to=[0, 0]), "no 24 0 0",
        insert("plan", (1,), to=[0, 255]), "no 24 0 0",
        insert("plan", (1, "a", 3), to=[0, 1, 1]), "no 24 0 0",
        insert("plan", (), to=[2]), "no 24 0 0",
        insert("none", to=[0, 0]), "no 2 0 0",
        insert("plan", to=list(range(255))), "no 24 0 0",
        insert("plan", ("a", 1), to=[1, 0]), "ok 1",
        scan("plan"), "row 1 t:61; ok 1",
    ),
    case(
        "25: a row too short, too long or empty; no pair is done", 4,
        PLAN, OK,
        insert("plan", (1, "a"), (2, "b")), "ok 2",
        update("plan", (1, (1, "x")), (2, (2,))), "no 25 1 0",
        update("plan", (1, ())), "no 25 0 0",
        update("plan", (1, (5, "x")), (2, (6, "y", None))), "no 25 1 0",
        update("plan", (1, (9,))), "no 25 0 0",
        scan("plan"), "row 1 t:61; row 2 t:62; ok 2",
    ),
    case(
        "35: old keys equal or falling; the later pair; before 25", 4,
        PLAN, OK,
        insert("plan", (1, "a"), (2, "b")), "ok 2",
        update("plan", (1, (1, "x")), (1, (1, "y"))), "no 35 1 0",
        update("plan", (1, ()), (2, ()), (2, ())), "no 35 2 0",
        update("plan", (2, (2, "x")), (1, (1, "y"))), "no 35 1 0",
        update("plan", (1, (1, "x")), (3, (4, "x")), (2, (2, "y"))), "no 35 2 0",
        update("none", (2, ()), (1, ())), "no 2 0 0",
        scan("plan"), "row 1 t:61; row 2 t:62; ok 2",
    ),
    case(
        "35: the order runs over all kinds: NULL, booleans, integers, floats, texts", 6,
        PLAN, OK,
        update(
            "plan", (None, (1, "n")), (False, (2, "n")), (True, (3, "n")), (-1, (4, "n")),
            (-9.0, (5, "n")), (NAN, (6, "n")), ("", (7, "n")),
        ), "no 33 6 0",
        update("plan", (0.0, (8, "n")), (MINUS_ZERO, (9, "n"))), "no 35 1 0",
        update("plan", (NAN, (8, "n")), (OTHER_NAN, (9, "n"))), "no 35 1 0",
        update("plan", (1.0, (8, "n")), (1, (9, "n"))), "no 35 1 0",
        update("plan", ("a", (8, "n")), (NAN, (9, "n"))), "no 35 1 0",
        update("plan", ("ab", (8, "n")), ("a", (9, "n"))), "no 35 1 0",
    ),
    case(
        "34: the row of a same-key pair is absent; after 26 and 28 to 31, earlier pairs stay", 5,
        PAIRS, OK,
        insert("t", (1, "a"), (2, "b")), "ok 2",
        update("t", (1, (1, "z")), (3, (3, "c"))), "no 34 1 0",
        update("t", (3, (3, 7))), "no 28 0 0",
        update("t", (3, (3, None))), "no 29 0 0",
        update("t", (3, (3, "b"))), "no 31 0 0",
        update("t", (None, (None, "q"))), "no 26 0 0",
        lookup("t", 1, "z", "a"), "row 1; ok 1",
    ),
    case(
        "34: after 30, and a row naming its own absent key", 3,
        TREE, OK,
        update("t", (1, (1, 2))), "no 30 0 0",
        update("t", (1, (1, 1))), "no 34 0 0",
        update("t", (1, (1, None))), "no 34 0 0",
        scan("t"), OK,
    ),
    case(
        "37: a column not indexed, the key, out of range; after 2", 3,
        PLAN, OK,
        POINT, OK,
        lookup("plan", 0, 1), "no 37 0 0",
        lookup("plan", 1), "no 37 0 0",
        lookup("point", 1, None), OK,
        lookup("point", 2, None), "no 37 0 0",
        lookup("point", 255), "no 37 0 0",
        lookup("none", 0), "no 2 0 0",
    ),
    case(
        "2: with no row, pair, key or value given", 1,
        insert("t"), "no 2 0 0",
        update("t"), "no 2 0 0",
        delete("t"), "no 2 0 0",
        lookup("t", 0), "no 2 0 0",
        get("t"), OK,
        scan("t"), OK,
        drop("t"), "no 2 0 0",
        drop("t", 1), OK,
    ),
    case(
        "21 to 23: row by row, up to 255 values", 2,
        PLAN, OK,
        insert("plan", (1,), [None] * 255), "no 21 1 0",
        insert("plan", (), (1, "a", 2)), "no 23 0 0",
        insert("plan", (1, 2, 3), to=[0]), "no 21 0 0",
        scan("plan"), OK,
    ),
]

FULL = [
    case(
        "33: row R accepted, row R + 1 not; earlier rows stay", 2,
        PLAN, OK,
        insert("plan", (1,), (2,), (3,)), "no 33 2 0",
        scan("plan"), "row 1 NULL; row 2 NULL; ok 2",
        insert("plan", (3,)), "no 33 0 0",
        delete("plan", 1), "ok 1",
        insert("plan", (3,), (4,)), "no 33 1 0",
        scan("plan"), "row 2 NULL; row 3 NULL; ok 2",
    ),
    case(
        "33: one place", 1,
        PLAN, OK,
        insert("plan", (1, "a")), "ok 1",
        insert("plan", (2,)), "no 33 0 0",
        POINT, OK,
        insert("point", (1,)), "no 33 0 0",
        drop("point"), "ok 1",
        drop("plan"), "ok 1",
        PLAN, OK,
        insert("plan", (2,)), "ok 1",
    ),
    case(
        "33 after 26 to 31 in a full store", 2,
        PAIRS, OK,
        insert("t", (1, "a"), (2, "b")), "ok 2",
        insert("t", (None, "c")), "no 26 0 0",
        insert("t", (1, "c")), "no 27 0 0",
        insert("t", (3, 3)), "no 28 0 0",
        insert("t", (3, None)), "no 29 0 0",
        insert("t", (3, "a")), "no 31 0 0",
        insert("t", (3, "c")), "no 33 0 0",
        create("r", key(to="t")), OK,
        insert("r", (3,)), "no 30 0 0",
        insert("r", (1,)), "no 33 0 0",
    ),
    case(
        "33: pairs in a full store: another key fits, an absent old key doesn't, GONE stays 0", 2,
        PLAN, OK,
        insert("plan", (1, "a"), (2, "b")), "ok 2",
        update("plan", (1, (3, "c"))), "ok 1",
        update("plan", (1, (4, "d"))), "no 33 0 0",
        update("plan", (2, (2, "e")), (3, (1, "f"))), "ok 2",
        update("plan", (1, (5, "g")), (7, (8, "h"))), "no 33 1 0",
        scan("plan"), "row 2 t:65; row 5 t:67; ok 2",
    ),
    case(
        "33: every index place used, and used again", 2,
        WIDE, OK,
        insert("w", (1, *[3] * 7), (2, *[1] * 7), (3, *[2] * 7)), "no 33 2 0",
        update("w", (1, (4, *range(7))), (2, (2, *[0] * 7))), "ok 2",
        lookup("w", 1, 0), "row 2; row 4; ok 2",
        insert("w", (5, *[2] * 7)), "no 33 0 0",
    ),
    case(
        "33: seventy rows of eight columns, seven of them indexed", 70,
        WIDE, OK,
        *each("ok 10", *[insert("w", *[wide_row(69 - i, i) for i in range(k, k + 10)]) for k in range(0, 70, 10)]),
        insert("w", (70, *[0] * 7)), "no 33 0 0",
        update("w", (3, (-1, *[5] * 7))), "ok 1",
        lookup("w", 1, 0, 0),
        "; ".join("row %d" % k for k in [*range(0, 3), *range(4, 70)]) + "; ok 69",
        delete("w", *range(-1, 60)), "ok 61",
        insert("w", (70, *[0] * 7)), "ok 1",
    ),
]

VALUES = [
    case(
        "minus zero is zero: as key, value, default, in lookup and delete", 4,
        create("f", key("float"), column("v", "float", "unique index", default=MINUS_ZERO)), OK,
        insert("f", (MINUS_ZERO, 1.0)), "ok 1",
        insert("f", (0.0, 2.0)), "no 27 0 0",
        get("f", 0.0, MINUS_ZERO), "row f:0000000000000000 f:3ff0000000000000; row f:0000000000000000 f:3ff0000000000000; ok 2",
        insert("f", (5.0,)), "ok 1",
        insert("f", (6.0, 0.0)), "no 31 0 0",
        lookup("f", 1, MINUS_ZERO), "row f:4014000000000000; ok 1",
        update("f", (MINUS_ZERO, (0.0, 3.0))), "ok 1",
        delete("f", MINUS_ZERO), "ok 1",
        lookup("f", 1, 3.0), OK,
    ),
    case(
        "each NaN is the one NaN", 4,
        create("f", key(), column("v", "float", "unique index")), OK,
        insert("f", (1, OTHER_NAN), (2, (FLOAT, 0x7FFFFFFFFFFFFFFF))), "ok 2",
        scan("f"), "row 1 f:7ff8000000000000; row 2 f:7ff8000000000000; ok 2",
        lookup("f", 1, NAN, OTHER_NAN), "row 1; row 2; ok 2",
        create("g", key("float")), OK,
        insert("g", (OTHER_NAN,)), "no 26 0 0",
        update("g", (OTHER_NAN, (NAN,))), "no 26 0 0",
    ),
    case(
        "a NaN doesn't pass as a reference, whatever its bits", 3,
        create("f", key("float")), OK,
        create("g", key(), column("f", "float", "nullable index", default=None, to="f")), OK,
        insert("g", (1, OTHER_NAN)), "no 30 0 0",
        insert("g", (1, NAN)), "no 30 0 0",
        insert("g", (1, None)), "ok 1",
        update("g", (1, (1, OTHER_NAN))), "no 30 0 0",
        update("g", (1, (2, NAN))), "no 30 0 1",
        scan("g"), OK,
    ),
    case(
        "keys of another kind: integer 1 isn't float 1", 4,
        TREE, OK,
        insert("t", (2, None), (1, 2)), "ok 2",
        delete("t", 2, 1.0), "no 32 0 0", ["32 t:74 0 1"],
        get("t", 1.0, "1", True), OK,
        update("t", (1.0, (1, None))), "no 27 0 0",
        insert("t", (3.0, None)), "no 28 0 0",
        insert("t", ("a",)), "no 28 0 0",
        update("t", (1, (1.0, None))), "no 28 0 1",
        delete("t", 2.0, "x", False), "ok 3",
        scan("t"), "row 2 NULL; ok 1",
    ),
    case(
        "lookup values of another kind find nothing", 3,
        create("s", key(), column("v", "integer", "nullable index", default=None)), OK,
        insert("s", (1,), (2, 1)), "ok 2",
        lookup("s", 1, 1.0, "x", True, None), "row 1; ok 1",
        lookup("s", 1, 1, 1.0, 1), "row 2; ok 1",
    ),
    case(
        "old key of another kind with a reference to NULL: 32 comes for key NULL only", 3,
        PLAN, OK,
        POINT, OK,
        insert("point", (1, None)), "ok 1",
        update("plan", (1.0, (1, "a"))), "ok 1",
        update("plan", (None, (2, "b"))), "no 32 0 0", ["32 t:706f696e74 0 1"],
        delete("plan", "x", 5.0), "ok 2",
        delete("plan", "x", None), "no 32 0 0", ["32 t:706f696e74 0 1"],
    ),
    case(
        "names and texts are bytes: not UTF-8, ordered as bytes", 4,
        create(b"\xff", key("text", own=b"\x80")), OK,
        create(b"\xfe\x00", key("text", own=b"\xc3", to=b"\xff")), OK,
        list_tables(), "row t:fe00; row t:ff; ok 2",
        insert(b"\xff", (b"\xff",), (b"\x80\x00",), (b"\x80",)), "ok 3",
        scan(b"\xff"), "row t:80; row t:8000; row t:ff; ok 3",
        insert(b"\xfe\x00", (b"\x80",)), "ok 1",
        delete(b"\xff", b"\x80\x00", b"\x80"), "no 32 0 0", ["32 t:fe00 0 t:80"],
        drop(b"\xff"), "no 20 0 0", ["20 t:fe00 0"],
    ),
    case(
        "delete carries the smallest referencing key, not the first found", 4,
        PLAN, OK,
        POINT, OK,
        insert("plan", (7,), (9,)), "ok 2",
        insert("point", (1, 9), (2, 7)), "ok 2",
        delete("plan", 7, 9), "no 32 0 0", ["32 t:706f696e74 0 1"],
        delete("plan", 9, 7), "no 32 0 0", ["32 t:706f696e74 0 1"],
    ),
    case(
        "GONE 1 with each of 26 to 31", 8,
        create("p", key()), OK,
        create("t", key(), column("a", "integer", "unique index", to="p")), OK,
        insert("p", (1,), (2,), (3,)), "ok 3",
        insert("t", (1, 1), (2, 2)), "ok 2",
        update("t", (2, (NULL, 3))), "no 26 0 1",
        insert("t", (2, 2)), "ok 1",
        update("t", (2, (1, 3))), "no 27 0 1",
        insert("t", (2, 2)), "ok 1",
        update("t", (2, (5, "x"))), "no 28 0 1",
        insert("t", (2, 2)), "ok 1",
        update("t", (2, (5, None))), "no 29 0 1",
        insert("t", (2, 2)), "ok 1",
        update("t", (2, (5, 9))), "no 30 0 1",
        insert("t", (2, 2)), "ok 1",
        update("t", (2, (5, 1))), "no 31 0 1",
        scan("t"), "row 1 1; ok 1",
    ),
]

CASES = BROKEN_CASES + REFUSALS_ADDED + FULL + VALUES
