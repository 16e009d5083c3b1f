"""Requests outside the domain, and broken records: what the document alone decides."""

import struct

from inside import TABLE_NAMES, Inside
from records import Reader
from runs import answer
from values import FLOAT, INTEGER, NULL, TEXT, UNIQUE, Column, Schema
from writer import record

ODD_FLOATS = [1 << 63, 0, 0xFFF8000000000000, 0x7FF0000000000001, 0xFFFFFFFFFFFFFFFF, 0x7FF8000000000001]
ODD_TEXTS = [b"\xff", b"\x80", b"a\xff", b"\xc3", b"\xff" * 24, b"\xed\xa0\x80"]
OPERATION_WEIGHTS = {
    "create": 10, "drop": 3, "insert": 32, "update": 30, "delete": 8, "get": 5, "lookup": 8, "scan": 3, "list": 1,
}


class Wild(Inside):
    def __init__(self, rng, places, seen):
        super().__init__(rng, places, seen)
        self.founded = rng.choice([2, 3, 4, 4, 17])
        self.oddity = rng.choice([0, 5, 15, 40])  # how often a value is an odd one, in percent

    # ------------------------------------------------ odd operands

    def of_kind(self, kind):
        if self.chance(self.oddity):
            if kind == FLOAT:
                return kind, self.pick(ODD_FLOATS)
            if kind == TEXT:
                return kind, self.pick(ODD_TEXTS)
            if self.chance(20):
                return self.pick([NULL, (INTEGER, 1), (FLOAT, 0x3FF0000000000000), (TEXT, b""), (1, 1)])
        return super().of_kind(kind)

    def table(self, known=96, filled=70):
        if self.chance(1):
            return self.pick(ODD_TEXTS)
        return super().table(known, filled)

    def small_schema(self):
        name = self.pick([b"%c" % c for c in range(97, 123)] + TABLE_NAMES + ODD_TEXTS)
        return Schema(name, 0, (Column(b"id", INTEGER, UNIQUE, None, None),))

    def create(self):
        if self.founded == 17 and self.chance(70):
            return (self.small_schema(),)
        (schema,) = super().create()
        if len(schema.columns) > 1 and self.chance(40):
            columns = list(schema.columns)
            one, other = self.rng.sample(range(len(columns)), 2)
            columns[one] = columns[one]._replace(name=columns[other].name)
            schema = schema._replace(columns=tuple(columns))
        return (schema,)

    def insert(self):
        name, mapping, rows = super().insert()
        if mapping is not None and self.chance(30):
            mapping = mapping + [self.pick([0, 1, 7, 8, 255])] if self.chance(50) else mapping[1:] + mapping[:1] * 2
        if self.chance(5):
            rows = [row + self.of_kind_many() for row in rows]
        return name, mapping, rows

    def of_kind_many(self):
        return tuple(NULL for _ in range(self.pick([1, 8, 9, 60, 240])))

    def update(self):
        name, pairs = super().update()
        if self.chance(25):
            self.rng.shuffle(pairs)
        if pairs and self.chance(15):
            pairs.append(self.pick(pairs))
        if pairs and self.chance(20):
            at = self.rng.randrange(len(pairs))
            old, row = pairs[at]
            pairs[at] = old, self.pick([row[:-1], row + (NULL,), (), row[:1]])
        if pairs and self.chance(20):  # the old key anything, so that the row may be absent
            at = self.rng.randrange(len(pairs))
            pairs[at] = self.same_key(name, pairs[at][1])
        return name, pairs

    def same_key(self, name, row):
        schema = self.state.tables.get(name)
        if schema is None or len(row) <= schema.key:
            return NULL, row
        key = self.of_kind(schema.columns[schema.key].kind)
        return key, row[: schema.key] + (key,) + row[schema.key + 1 :]

    def keys(self, name):
        keys = super().keys(name)
        if self.chance(20):
            keys += tuple(self.of_kind(self.kind()) for _ in range(self.rng.randrange(3)))
        return keys

    def lookup(self):
        if self.chance(50):
            return super().lookup()
        return self.table(), self.pick([0, 1, 1, 2, 3, 8, 255]), tuple(
            self.of_kind(self.kind()) for _ in range(self.rng.randrange(3))
        )

    # ------------------------------------------------ the record, whole or broken

    def candidate(self, operation=None):
        weights = OPERATION_WEIGHTS
        operation = operation or self.rng.choices(list(weights), list(weights.values()))[0]
        operands = getattr(self, operation)()
        data = record_or_none(operation, operands)
        if data is None or len(data) > 2 + 4096:
            return None
        if self.chance(12):
            data = self.spoil(data)
        after = self.state.copy()
        lines, _ = answer(after, data[2:])
        words = lines[-1].split()
        if words[0] == "ok":
            kind = operation, "ok", min(int(words[1]), 2)
        else:
            code, at, gone = map(int, words[1:])
            kind = operation, code, gone, at
        return kind, data, after

    def spoil(self, data):
        """A record with a wrong byte, too few or too many, its length still right."""
        body = bytearray(data[2:])
        if self.chance(50):
            return framed(self.past_a_limit(body))
        roll = self.rng.randrange(8)
        at = self.rng.randrange(len(body))
        if roll == 0:
            body[0] = self.pick([0, 2, 255])
        elif roll == 1:
            body[1] = self.pick([0, 10, 255, self.rng.randrange(1, 10)])
        elif roll == 2:
            body += bytes(self.pick([1, 1, 2, 30]))
        elif roll == 3:
            body = body[: max(2, at)]
        elif roll == 4:
            del body[at]
        elif roll == 5:
            body.insert(at, self.rng.randrange(256))
        else:
            body[at] = self.pick([0, 1, 2, 5, 24, 25, 32, 255, body[at] ^ 1 << self.rng.randrange(8)])
        return framed(body)

    def past_a_limit(self, body):
        """One byte that has a limit goes past it; a length of 25 is followed by 25 bytes."""
        at, low, high = self.pick(limited_bytes(bytes(body)))
        if high == 24:
            body[at + 1 : at + 1] = bytes(25 - body[at])
        body[at] = low - 1 if low and self.chance(40) else self.pick([high + 1, high + 1, 255])
        return body

    def bad_length(self):
        """A length out of range, and that many bytes to be skipped."""
        length = self.pick([0, 1, 0, 1, 4097, 4100, 5000])
        return struct.pack(">H", length) + self.rng.randbytes(length)

    def ending(self):
        """What may stand at the end of an input: a record cut off, half a length, a skip past the end."""
        whole = record("insert", b"a", None, [((INTEGER, 1),)])
        return self.pick([b"", b"", b"\0", b"\x02", whole[:-1], whole[:2], whole[:3], b"\xff\xff" + whole, b"\0\1"])


class Watch(Reader):
    """Notes each byte that isn't free: its offset and its range."""

    def __init__(self, body):
        super().__init__(body)
        self.limits = []

    def byte(self, low=0, high=255):
        if high < 255:
            self.limits.append((self.at, low, high))
        return super().byte(low, high)

    def operation(self):
        self.limits.append((self.at, 1, 9))  # 10 is none
        return super().operation()


def limited_bytes(body):
    watch = Watch(body)
    watch.request()
    return watch.limits


def framed(body):
    body = bytes(body[:4096]).ljust(2, b"\1")
    return struct.pack(">H", len(body)) + body


def record_or_none(operation, operands):
    try:
        return record(operation, *operands)
    except (ValueError, struct.error):  # a count above 255
        return None
