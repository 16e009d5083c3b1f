"""Document 01, "Values and sizes": values, their order, schemas, and the state they make, with the places of an open batch (02, T-06)."""

from collections import namedtuple

BOOLEAN, INTEGER, FLOAT, TEXT = 1, 2, 3, 4
NAN_BITS = 0x7FF8000000000000
NULL = (0, 0)
NAN = (FLOAT, NAN_BITS)
# A value is (kind, content): 0 or 1, a number, 64 bits as a number, or bytes.
# Contents are normalised on entry, so Python's == is the document's "equal".

TABLES, COLUMNS = 16, 8
JOURNAL_MOST = 8192  # journal places; the programs' own journals have as many
NULLABLE, DEFAULT, UNIQUE, INDEX, REFERENCES = 1, 2, 4, 8, 16

Schema = namedtuple("Schema", "name key columns")
Column = namedtuple("Column", "name kind flags default reference")


def normalised(bits):
    """Minus zero becomes zero and each NaN the one NaN."""
    if bits == 1 << 63:
        return 0
    if bits & ~(1 << 63) > 0x7FF0000000000000:
        return NAN_BITS
    return bits


def rank(value):
    """What sorts as the values do: NULL, booleans, integers, floats (NaN last), texts."""
    kind, content = value
    if kind == FLOAT:  # below zero the bits fall as the number rises
        content = content ^ (2**64 - 1) if content >> 63 else content | 1 << 63
    return kind, content


def undefined(value):
    return value == NULL or value == NAN


def store_size(places):
    return 10428 + 779 * places


class State:
    """Schemas by name, and for each name its rows by key. Every change passes through here.

    While a batch is open each row added, replaced or removed notes what stood at its key: (name, key, row), the row None where nothing did.
    """

    def __init__(self, places, journal=JOURNAL_MOST):
        self.places = places  # R
        self.journal = journal  # J
        self.batch = None  # the journal places in use, while a batch is open
        self.tables = {}
        self.rows = {}
        self.bytes = None  # the image, while it is known

    def copy(self):
        other = State(self.places, self.journal)
        other.batch = None if self.batch is None else list(self.batch)
        other.tables = dict(self.tables)
        other.rows = {name: dict(rows) for name, rows in self.rows.items()}
        other.bytes = self.bytes
        return other

    def add_table(self, schema):
        self.tables[schema.name] = schema
        self.rows[schema.name] = {}
        self.bytes = None

    def drop_table(self, name):
        del self.tables[name], self.rows[name]
        self.bytes = None

    def put_row(self, name, key, row):
        self.note(name, key)
        self.stand(name, key, row)

    def remove_row(self, name, key):
        """Whether there was one."""
        if key not in self.rows[name]:
            return False
        self.note(name, key)
        self.stand(name, key, None)
        return True

    def stand(self, name, key, row):
        """This row stands at the key, or none."""
        if row is None:
            self.rows[name].pop(key, None)
        else:
            self.rows[name][key] = row
        self.bytes = None

    def note(self, name, key):
        if self.batch is not None:
            self.batch.append((name, key, self.rows[name].get(key)))

    def lacks(self, count):
        """Whether a batch is open and has not so many more places."""
        return self.batch is not None and len(self.batch) + count > self.journal

    def put_back(self):
        """From the last place to the first, what stood at the key stands there again; after each how many rows there are."""
        for name, key, row in reversed(self.batch):
            self.stand(name, key, row)
            yield self.row_count()
        self.batch = None

    def row_count(self):
        return sum(map(len, self.rows.values()))


def keys_holding(state, name, column, values):
    """The keys of the rows that hold one of these values, rising: what the index gives."""
    return sorted((key for key, row in state.rows[name].items() if row[column] in values), key=rank)
