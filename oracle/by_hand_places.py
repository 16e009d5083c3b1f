"""Every column and every row as AT: cases inside the domain, made by loops, their answers written by hand."""

from cases import case, column, create, delete, insert, key, scan, update, value
from records import printed

OK = "ok 0"
ROWS = range(6)  # AT of rows and pairs


# ---------------------------------------------------------------- columns: 7 to 17


def faults(kind, other):
    """For each code a column of this kind that breaks it: {code: (is it the key?, column)}."""
    default = {"integer": 1, "float": 0.5, "text": "x", "boolean": True}
    return {
        7: (False, column("", kind)),
        8: (True, column("k", kind, "unique nullable", default=None)),
        9: (True, column("k", kind, default=default[kind])),
        10: (True, column("k", kind, "unique index")),
        11: (False, column("x", kind, "nullable")),
        12: (False, column("x", kind, "index", default=None)),
        13: (False, column("x", kind, "nullable", default=default[other])),
        14: (False, column("x", kind, "unique", default=default[kind])),
        15: (False, column("x", kind, to="stored")),
        16: (False, column("x", kind, "index", to="none")),
        17: (False, column("x", other, "index unique", to="stored")),
    }


def broken_at(at, is_key, fault):
    """Eight columns, the faulty one at its place; the key is this one or another."""
    key_at = at if is_key else (at + 1) % 8
    columns = [column("c%d" % i, "integer", "index") for i in range(8)]
    columns[key_at] = key(own="k")
    columns[at] = fault
    return create("t", *columns, at=key_at)


def columns_case(kind, other):
    steps = [create("stored", key(kind)), OK]
    for code, (is_key, fault) in faults(kind, other).items():
        for at in range(8):
            steps += [broken_at(at, is_key, fault), "no %d %d 0" % (code, at)]
    return case("7 to 17 at each of eight columns, %s against %s" % (kind, other), 3, *steps)


# ---------------------------------------------------------------- rows and pairs: 21 to 23, 26 to 32


class Rows:
    """The cases over tables p and t whose keys are numbers of one kind."""

    def __init__(self, kind, number):
        self.kind, self.number = kind, number  # number: int or float
        self.tables = [
            create("p", key(kind)), OK,
            create("t", key(kind), column("u", "text", "unique index"), column("r", kind, "index", to="p")), OK,
            insert("p", *self.keys(1, 2)), "ok 2",
            insert("t", self.row(0, "s", 1)), "ok 1",
        ]
        self.bad = {
            26: self.row(None, "x", 1), 27: self.row(0, "x", 1), 28: self.row(100, 5, 1),
            29: self.row(100, "x", None), 30: self.row(100, "x", 9), 31: self.row(100, "s", 1),
        }

    def n(self, k):
        return None if k is None else self.number(k)

    def keys(self, *ks):
        return [(self.n(k),) for k in ks]

    def row(self, k, u, r):
        return self.n(k), u, self.n(r)

    def good(self, k, words="u"):
        return self.row(k, "%s%d" % (words, k), 1 + k % 2)

    def delete(self, table, *ks):
        return delete(table, *map(self.n, ks))

    def all_gone(self):
        """At the end of a case t has its first row only."""
        return [scan("t"), "row %s t:73 %s; ok 1" % tuple(printed(value(self.n(k))) for k in (0, 1))]

    def inserts(self):
        steps = list(self.tables)
        for at in ROWS:
            rows = [self.good(k) for k in range(1, at + 1)]
            full = self.row(9, "x", 1)
            steps += [insert("t", *rows, full + (1,)), "no 21 %d 0" % at]
            steps += [insert("t", *rows, full[:2], to=[0, 1, 2]), "no 22 %d 0" % at]
            steps += [insert("t", *rows, full[:2]), "no 23 %d 0" % at]
            for code, bad in self.bad.items():
                steps += [insert("t", *rows, bad, self.good(7)), "no %d %d 0" % (code, at)]
                steps += [self.delete("t", *range(1, at + 1)), "ok %d" % at]
        words = "21 to 23 and 26 to 31 at each row of an insert, %s keys; earlier rows stay" % self.kind
        return case(words, 10, *steps, *self.all_gone())

    def pairs(self, gone):
        """The last pair but one is refused: of a stored old key 50, or of an absent one."""
        steps = list(self.tables)
        for at in ROWS:
            olds = range(1, at + 1)
            pairs = [(self.n(k), self.good(k, "v")) for k in olds]
            for code, bad in self.bad.items():
                stored = [self.good(k) for k in [*olds, 50][: at + gone]]
                steps += [insert("t", *stored), "ok %d" % len(stored)]
                steps += [update("t", *pairs, (self.n(50), bad), (self.n(60), self.good(60))), "no %d %d %d" % (code, at, gone)]
                steps += [self.delete("t", *olds, 50), "ok %d" % (at + 1)]
        words = "26 to 31 at each pair with GONE %d, %s keys; earlier pairs stay" % (gone, self.kind)
        return case(words, 10, *steps, *self.all_gone())

    def same_key(self):
        """The refused pair keeps its key, or its old row is referenced."""
        steps = list(self.tables)
        first = printed(value(self.n(0)))
        for at in ROWS:
            olds = range(1, at + 1)
            pairs = [(self.n(k), self.good(k, "v")) for k in olds]
            for code in (28, 29, 30, 31):
                steps += [insert("t", *map(self.good, [*olds, 50])), "ok %d" % (at + 1)]
                steps += [update("t", *pairs, (self.n(50), (self.n(50), *self.bad[code][1:]))), "no %d %d 0" % (code, at)]
                steps += [self.delete("t", *olds, 50), "ok %d" % (at + 1)]
            steps += [insert("p", *self.keys(*[-k for k in olds])), "ok %d" % at]
            moved = [(self.n(-k), (self.n(-10 - k),)) for k in reversed(olds)]
            steps += [update("p", *moved, (self.n(1), (self.n(5),))), "no 32 %d 0" % at, ["32 t:74 0 " + first]]
            steps += [self.delete("p", *[-10 - k for k in olds]), "ok %d" % at]
        return case("28 to 31 at each same-key pair, 32 at each pair, %s keys" % self.kind, 10, *steps, *self.all_gone())


COLUMN_CASES = [columns_case("integer", "text"), columns_case("float", "integer"), columns_case("text", "boolean")]
ROW_CASES = [
    c for rows in (Rows("integer", int), Rows("float", float))
    for c in (rows.inserts(), rows.pairs(1), rows.pairs(0), rows.same_key())
]
CASES = COLUMN_CASES + ROW_CASES
