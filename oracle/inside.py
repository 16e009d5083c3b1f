"""Requests inside the domain, made against a state so that every answer comes often."""

import struct

from domain import outside
from rules import STEPS, Refused
from values import (
    BOOLEAN, DEFAULT, FLOAT, INDEX, INTEGER, NAN, NULL, NULLABLE, REFERENCES, TEXT, UNIQUE,
    Column, Schema, State, keys_holding, rank,
)
from writer import record


def bits(number):
    return struct.unpack(">Q", struct.pack(">d", number))[0]


TABLE_NAMES = [
    b"a", b"ab", b"b", b"plan", b"point", b"a\0", "\u00e9".encode(), "\u4e2d\u6587".encode(),
    b"t" * 24, b"t" * 23, b"A", b"z", b"~", "\U0001d11e".encode(), b"\x7f", b"ab c",
]
COLUMN_NAMES = [
    b"id", b"i", b"plan", b"a", b"ab", "\u00fc".encode(), b"c" * 24, b"\0", b"sheet", b"x", b"y", b"id2",
]
POOL = {
    BOOLEAN: [0, 1],
    INTEGER: [0, 1, 2, 3, 4, 5, 6, 7, 8, 9, 10, 11, -1, -2, -256, 255, 2**32, 2**63 - 1, -(2**63)],
    FLOAT: [bits(x) for x in (
        0.0, 1.0, -1.0, 0.5, -0.5, 2.0, 3.0, 1e300, -1e300, 5e-324, -5e-324, float("inf"), -float("inf"), 0.1
    )] + [NAN[1]] * 4,
    TEXT: [
        b"", b"a", b"ab", b"b", b"a\0", b"\0", b"A", "\u00e9".encode(), "\u20ac".encode(), b"zz",
        b"x" * 24, b"x" * 23, "\U0001f9ed".encode() * 6, b"12", b"NULL",
    ],
}
OPERATION_WEIGHTS = {
    "create": 12, "drop": 6, "insert": 28, "update": 22, "delete": 12, "get": 6, "lookup": 6, "scan": 5, "list": 2,
}


class Inside:
    """A stream in the making. `seen` counts answers over all streams: rare ones are sought."""

    def __init__(self, rng, places, seen):
        self.rng, self.seen = rng, seen
        self.state = State(places)
        self.founded = rng.choice([2, 3, 3, 4, 5, 7])  # tables to start with

    # ------------------------------------------------ small choices

    def chance(self, percent):
        return self.rng.random() * 100 < percent

    def pick(self, items):
        return self.rng.choice(items)

    def of_kind(self, kind):
        return kind, self.pick(POOL[kind])

    def kind(self):
        return self.pick([BOOLEAN, INTEGER, INTEGER, FLOAT, FLOAT, TEXT])

    def table(self, known=92, filled=70):
        if self.state.tables and self.chance(known):
            names = sorted(self.state.tables)
            full = [n for n in names if self.state.rows[n]]
            return self.pick(full if full and self.chance(filled) else names)
        return self.pick(TABLE_NAMES + [b"", b"none"])

    def stored_keys(self, name):
        return sorted(self.state.rows.get(name, ()), key=rank)

    # ------------------------------------------------ schemas

    def key_column(self, column_name, own):
        flags, reference, kind = UNIQUE, None, self.pick([INTEGER, INTEGER, FLOAT, FLOAT, TEXT, BOOLEAN])
        if self.chance(35):
            reference = self.target(own)
            flags |= REFERENCES
            if reference in self.state.tables:
                kind = self.target_kind(reference)
        default = self.of_kind(kind) if self.chance(20) else None
        return Column(column_name, kind, flags | (DEFAULT if default else 0), default, reference)

    def target(self, own):
        """A table to reference, mostly one that has rows."""
        full = [n for n in sorted(self.state.tables) if self.state.rows[n]]
        return self.pick(full * 3 + sorted(self.state.tables) + [own] * (2 + len(full)))

    def target_kind(self, name):
        schema = self.state.tables[name]
        return schema.columns[schema.key].kind

    def other_column(self, column_name, own, own_kind):
        flags, reference, kind = 0, None, self.kind()
        roll = self.rng.random()
        if roll < 0.4:
            reference = self.target(own)
            kind = own_kind if reference == own else self.target_kind(reference)
            flags = INDEX | REFERENCES | (UNIQUE if self.chance(20) else 0)
        elif roll < 0.6:
            flags = INDEX
        elif roll < 0.85:
            flags = INDEX | UNIQUE
        default = None
        if self.chance(45 if reference is None or self.state.rows.get(reference) else 85):
            flags |= NULLABLE
            default = NULL if self.chance(70) else self.of_kind(kind)
        elif self.chance(40):
            default = self.of_kind(kind)
        return Column(column_name, kind, flags | (DEFAULT if default else 0), default, reference)

    def good_schema(self, counts=(1, 2, 2, 3, 3, 4, 4, 5, 6, 7, 8)):
        free = [n for n in TABLE_NAMES if n not in self.state.tables]
        own = self.pick(free or TABLE_NAMES)
        count = self.pick(counts)
        key = 0 if self.chance(50) else self.rng.randrange(count)
        names = self.rng.sample(COLUMN_NAMES, count)
        first = self.key_column(names[key], own)
        columns = [first if i == key else self.other_column(names[i], own, first.kind) for i in range(count)]
        return Schema(own, key, tuple(columns))

    def spoilt(self, schema, code):
        """The schema with the fault that a code names, if nothing earlier is wrong with it."""
        if code == 3 and self.state.tables:
            return schema._replace(name=self.pick(sorted(self.state.tables)))
        if code == 4:
            return schema._replace(name=b"")
        if code == 5:
            return schema._replace(columns=())
        if code == 6:
            return schema._replace(key=self.pick([len(schema.columns), len(schema.columns) + 1, 255]))
        if schema.key >= len(schema.columns):
            return schema
        at = schema.key if code in (8, 9, 10) else self.rng.randrange(len(schema.columns))
        columns = list(schema.columns)
        columns[at] = self.spoilt_column(columns[at], code)
        return schema._replace(columns=tuple(columns))

    def spoilt_column(self, c, code):
        if code == 7:
            return c._replace(name=b"")
        if code == 8:
            return c._replace(flags=c.flags | NULLABLE | DEFAULT, default=NULL)
        if code == 9:
            return c._replace(flags=c.flags & ~UNIQUE)
        if code == 10:
            return c._replace(flags=c.flags | INDEX)
        if code == 11:
            return c._replace(flags=c.flags & ~DEFAULT | NULLABLE, default=None)
        if code == 12:
            return c._replace(flags=c.flags & ~NULLABLE | DEFAULT, default=NULL)
        if code == 13:
            return c._replace(flags=c.flags | DEFAULT, default=self.of_kind(c.kind % 4 + 1))
        if code == 14:
            return c._replace(flags=c.flags & ~(INDEX | REFERENCES) | UNIQUE, reference=None)
        if code == 15:
            return c._replace(
                flags=c.flags & ~(INDEX | UNIQUE) | REFERENCES, reference=c.reference or self.table(95)
            )
        if code == 16:
            return c._replace(flags=c.flags | INDEX | REFERENCES, reference=self.pick([b"none", b"", b"ab\0"]))
        if code == 17:
            return c._replace(flags=c.flags | INDEX | REFERENCES, kind=c.kind % 4 + 1, reference=self.table(95))
        return c

    def create(self):
        faults = self.pick([0, 1, 1, 2])
        schema = self.good_schema((1, 2, 4, 6, 8, 8)) if faults else self.good_schema()
        for _ in range(faults):
            schema = self.spoilt(schema, self.rng.randrange(3, 18))
        return (schema,)

    # ------------------------------------------------ rows

    def new_key(self, schema, batch):
        kind = schema.columns[schema.key].kind
        reference = schema.columns[schema.key].reference
        if reference is not None and reference != schema.name and self.chance(70):
            held = self.stored_keys(reference)
            if held:
                return self.pick(held)
        if self.chance(4):
            return NULL
        if self.chance(6) and (self.stored_keys(schema.name) or batch):
            return self.pick(self.stored_keys(schema.name) + batch)
        for _ in range(6):
            key = self.of_kind(kind)
            if key not in self.state.rows.get(schema.name, ()) and key not in batch and key != NAN:
                break
        return key

    def cell(self, schema, i, key, batch):
        """A value for a column that isn't the key, mostly a good one."""
        c = schema.columns[i]
        roll = self.rng.random() * 100
        if roll < 2:
            return self.of_kind(c.kind % 4 + 1)
        if roll < 4 or (roll < 25 and c.flags & NULLABLE):
            return NULL
        if c.reference is not None and roll < 94:
            held = self.stored_keys(c.reference)
            if c.reference == schema.name:
                held = held + batch + [key, key]
            if held or c.flags & NULLABLE:
                return self.pick(held or [NULL])
        for _ in range(4):
            value = self.of_kind(c.kind)
            if not c.flags & UNIQUE or not keys_holding(self.state, schema.name, i, (value,)) or self.chance(10):
                break
        return value

    def row(self, schema, key, batch):
        return tuple(
            key if i == schema.key else self.cell(schema, i, key, batch) for i in range(len(schema.columns))
        )

    def insert(self):
        name = self.table(filled=20)
        schema = self.state.tables.get(name)
        if schema is None:
            return name, None, [(self.of_kind(INTEGER),) for _ in range(self.rng.randrange(3))]
        width, mapping = len(schema.columns), None
        if self.chance(35):
            mapping = self.rng.sample(range(width), self.rng.randrange(width + 1))
            if self.chance(75):  # mostly with every column that has no default
                needed = [i for i, c in enumerate(schema.columns) if c.default is None and i not in mapping]
                mapping = self.rng.sample(mapping + needed, len(mapping + needed))
        defaults = [c.default is not None for c in schema.columns]
        tail = width if all(defaults) else defaults[::-1].index(False)  # columns at the end that have one
        short = self.rng.randint(0, tail) if self.chance(90) else self.rng.randrange(width + 1)
        rows, batch = [], []
        for _ in range(self.pick([0, 1, 1, 1, 2, 2, 3, 4, 6, 12 if self.state.places > 20 else 1])):
            key = self.new_key(schema, batch)
            full = self.row(schema, key, batch)
            batch.append(key)
            left_out = self.rng.randrange(width + 1) if self.chance(8) else short
            row = [full[i] for i in mapping] if mapping is not None else list(full[: width - left_out])
            if self.chance(3):
                row.append(self.of_kind(self.kind()))
            if self.chance(1):
                row += [self.of_kind(INTEGER)] * self.rng.randrange(1, width + 2)
            if row and self.chance(2):
                row.pop()
            rows.append(tuple(row))
        return name, mapping, rows

    def update(self):
        name = self.table()
        schema = self.state.tables.get(name)
        if schema is None:
            return name, [(self.of_kind(INTEGER), (self.of_kind(INTEGER),)) for _ in range(self.rng.randrange(2))]
        kind, stored = schema.columns[schema.key].kind, self.stored_keys(name)
        olds = set(self.rng.sample(stored, min(len(stored), self.pick([0, 1, 1, 2, 3]))))
        while self.chance(18):
            olds.add(NULL if self.chance(15) else self.of_kind(kind))
        pairs, batch = [], []
        while olds:
            old = min(olds, key=rank)
            olds.remove(old)
            row = self.state.rows[name].get(old)
            key = old
            if old in batch and self.chance(70):
                row = None  # a row that an earlier pair brought
            elif row is None or self.chance(45):
                key = self.new_key(schema, batch)
                if pairs and self.chance(20):
                    key = self.pick(pairs)[0]  # a key that an earlier pair may have freed
                if rank(key) > rank(old) and self.chance(15):
                    olds.add(key)
                batch.append(key)
            fresh = self.row(schema, key, batch)
            if row is None or self.chance(15):
                row = fresh
            else:
                changed = self.rng.sample(range(len(row)), min(len(row), self.pick([0, 1, 1, 2])))
                row = tuple(fresh[i] if i in changed else v for i, v in enumerate(row))
                row = row[: schema.key] + (key,) + row[schema.key + 1 :]
            pairs.append((old, row))
        return name, pairs

    # ------------------------------------------------ keys and reads

    def keys(self, name):
        schema = self.state.tables.get(name)
        if schema is None:
            return tuple(self.of_kind(INTEGER) for _ in range(self.rng.randrange(3)))
        stored = self.stored_keys(name)
        keys = self.rng.sample(stored, min(len(stored), self.pick([0, 1, 1, 1, 2, 3, 5])))
        if self.chance(12):
            keys.append(NULL)
        while self.chance(20):
            keys.append(self.of_kind(schema.columns[schema.key].kind))
        if keys and self.chance(10):
            keys.append(self.pick(keys))
        self.rng.shuffle(keys)
        return tuple(keys)

    def delete(self):
        name = self.table()
        return name, self.keys(name)

    def get(self):
        name = self.table()
        return name, self.keys(name)

    def lookup(self):
        name = self.table(100)
        schema = self.state.tables.get(name)
        indexed = [i for i, c in enumerate(schema.columns) if c.flags & INDEX] if schema else []
        if not indexed:
            return name, 0, ()
        column = self.pick(indexed)
        held = [row[column] for _, row in sorted(self.state.rows[name].items(), key=lambda r: rank(r[0]))]
        values = [self.pick(held) for _ in range(self.rng.randrange(4)) if held]
        while self.chance(30):
            values.append(NULL if self.chance(40) else self.of_kind(schema.columns[column].kind))
        return name, column, tuple(values)

    def scan(self):
        return (self.table(),)

    def drop(self):
        return self.table(75), int(self.chance(50))

    def list(self):
        return ()

    # ------------------------------------------------ one request of several

    def candidate(self, operation=None):
        """(answer class, record, state afterwards), or None when it isn't inside."""
        weights = OPERATION_WEIGHTS
        operation = operation or self.rng.choices(list(weights), list(weights.values()))[0]
        operands = getattr(self, operation)()
        if outside(self.state, operation, operands):
            return None
        data = record(operation, *operands)
        if len(data) > 2 + 4096:
            return None
        after = self.state.copy()
        try:
            _, count = STEPS[operation](after, *operands)
            kind = operation, "ok", min(count, 2)
        except Refused as r:
            if r.code in (19, 33):  # room enough
                return None
            kind = operation, r.code, r.gone, r.at
        if operation == "drop" and kind[1] == "ok" and kind[2] and self.chance(60):
            return None  # or no table would live long
        return kind, data, after

    def request(self):
        """What is wished for: a table, rows, an accepted request, or the rarest of a few refusals."""
        if len(self.state.tables) < self.founded and self.chance(60):
            found = self.first_accepted("create", 0)
        elif self.chance(25):
            found = self.first_accepted("insert", 1)
        elif self.chance(40):
            found = self.first_accepted(None, self.pick([0, 1, 1, 1]))
        else:
            found = self.rarest_refusal()
        if found is None:
            return None
        kind, data, self.state = found
        for part in (kind[:3], kind[3:] and kind):  # with and without AT
            self.seen[part] = self.seen.get(part, 0) + 1
        return data

    def first_accepted(self, operation, count):
        found = None
        for _ in range(8):
            found = self.candidate(operation) or found
            if found and found[0][1] == "ok" and found[0][2] >= count:
                break
        return found

    def rarest_refusal(self):
        found = [c for c in (self.candidate() for _ in range(8)) if c is not None]
        refusals = [c for c in found if c[0][1] != "ok"]
        return min(refusals or found, key=lambda c: self.times(c[0]), default=None)

    def times(self, kind):
        return self.seen.get(kind[:3], 0) + 4 * self.seen.get(kind, 0)
