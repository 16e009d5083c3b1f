"""Document 01, "Numbers of refusal" and "Rules of rows", and 02, T-06: the checks in their order, and a step for each operation."""

from records import OPERATIONS, printed
from values import INDEX, NULL, NULLABLE, TABLES, TEXT, UNIQUE, keys_holding, rank, undefined


class Refused(Exception):
    def __init__(self, code, at=0, gone=0, carried="-"):
        self.code, self.at, self.gone, self.carried = code, at, gone, carried


def known(state, name):
    if name not in state.tables:
        raise Refused(2)
    return state.tables[name]


def need_places(state, count, at=0, gone=0):
    if state.lacks(count):
        raise Refused(43, at, gone)


def outside_batch(state):
    if state.batch is not None:
        raise Refused(44)


def in_turn(state, is_open):
    if (state.batch is not None) != is_open:
        raise Refused(45)


def check_schema(state, schema):
    """Rules 4 to 18, against the tables stored and the schema itself."""
    if not schema.name:
        raise Refused(4)
    if not schema.columns:
        raise Refused(5)
    if schema.key >= len(schema.columns):
        raise Refused(6)
    for at, c in enumerate(schema.columns):
        key, nullable = at == schema.key, c.flags & NULLABLE
        if not c.name:
            raise Refused(7, at)
        if key and nullable:
            raise Refused(8, at)
        if key and not c.flags & UNIQUE:
            raise Refused(9, at)
        if key and c.flags & INDEX:
            raise Refused(10, at)
        if nullable and c.default is None:
            raise Refused(11, at)
        if c.default == NULL and not nullable:
            raise Refused(12, at)
        if c.default not in (None, NULL) and c.default[0] != c.kind:
            raise Refused(13, at)
        if c.flags & UNIQUE and not c.flags & INDEX and not key:
            raise Refused(14, at)
        if c.reference is not None:
            if not c.flags & INDEX and not key:
                raise Refused(15, at)
            target = schema if c.reference == schema.name else state.tables.get(c.reference)
            if target is None:
                raise Refused(16, at)
            # A lent target may itself break 6: then no kind fits.
            if c.kind not in [t.kind for t in target.columns[target.key : target.key + 1]]:
                raise Refused(17, at)
    names = [c.name for c in schema.columns]
    for at, name in enumerate(names):
        if name in names[:at]:
            raise Refused(18, at)


def check_row(state, schema, row, at, gone, same_key):
    """26 to 31. The row is full, the store as earlier rows or pairs left it."""
    key = row[schema.key]
    if undefined(key):
        raise Refused(26, at, gone)
    if not same_key and key in state.rows[schema.name]:
        raise Refused(27, at, gone)
    for i, (c, value) in enumerate(zip(schema.columns, row)):
        if value != NULL and value[0] != c.kind:
            raise Refused(28, at, gone)
        if value == NULL and not c.flags & NULLABLE:
            raise Refused(29, at, gone)
        if c.reference is not None and value != NULL:
            own = c.reference == schema.name and value == key
            if not own and value not in state.rows.get(c.reference, ()):
                raise Refused(30, at, gone)  # NaN too: no row has it as its key
        if c.flags & UNIQUE and i != schema.key and not undefined(value):
            holders = keys_holding(state, schema.name, i, (value,))
            if [k for k in holders if not (same_key and k == key)]:
                raise Refused(31, at, gone)


def add_row(state, schema, row, at, gone=0):
    check_row(state, schema, row, at, gone, same_key=False)
    if state.row_count() == state.places:
        raise Refused(33, at, gone)
    # An index place is never missing: a row has at most 7 indexed columns and the store 7R places.
    need_places(state, 1, at, gone)
    state.put_row(schema.name, row[schema.key], row)


def references(state, target):
    """The columns that reference a table: tables by name, columns rising."""
    for name in sorted(state.tables):
        for i, c in enumerate(state.tables[name].columns):
            if c.reference == target:
                yield state.tables[name], i


def check_unreferenced(state, schema, keys, at):
    """32. Keys are looked up as they stand, NULL too."""
    for source, i in references(state, schema.name):
        if i == source.key:  # a key is found among the rows and is never NULL
            holders = sorted((k for k in set(keys) if k in state.rows[source.name]), key=rank)
        else:
            holders = keys_holding(state, source.name, i, keys)
        if source.name == schema.name:  # rows also being deleted don't count
            holders = [k for k in holders if k not in keys]
        if holders:
            carried = "32 t:%s %d %s" % (source.name.hex(), source.key, printed(holders[0]))
            raise Refused(32, at, 0, carried)


def mapped(schema, mapping, values, at):
    """21 to 23, and the full row: given values, then defaults."""
    if len(values) > len(schema.columns):
        raise Refused(21, at)
    if mapping is not None and len(mapping) != len(values):
        raise Refused(22, at)
    given = dict(zip(range(len(values)) if mapping is None else mapping, values))
    row = []
    for i, c in enumerate(schema.columns):
        if i not in given and c.default is None:
            raise Refused(23, at)
        row.append(given.get(i, c.default))
    return tuple(row)


# Each takes the state and its operands, and gives the row lines (as tuples of values) and N.


def create(state, schema):
    outside_batch(state)
    if schema.name in state.tables:
        raise Refused(3)
    check_schema(state, schema)
    if len(state.tables) == TABLES:
        raise Refused(19)
    state.add_table(schema)
    return [], 0


def drop(state, name, if_exists):
    outside_batch(state)
    if if_exists and name not in state.tables:
        return [], 0
    known(state, name)
    for source, i in references(state, name):
        if source.name != name:
            raise Refused(20, 0, 0, "20 t:%s %d" % (source.name.hex(), i))
    state.drop_table(name)
    return [], 1


def insert(state, name, mapping, rows):
    schema = known(state, name)
    if mapping is not None:
        if len(set(mapping)) < len(mapping) or any(i >= len(schema.columns) for i in mapping):
            raise Refused(24)
    # All rows are mapped before any is written.
    full = [mapped(schema, mapping, values, at) for at, values in enumerate(rows)]
    for at, row in enumerate(full):
        add_row(state, schema, row, at)
    return [], len(rows)


def update(state, name, pairs):
    schema = known(state, name)
    for at in range(1, len(pairs)):
        if rank(pairs[at - 1][0]) >= rank(pairs[at][0]):
            raise Refused(35, at)
    for at, (_, row) in enumerate(pairs):
        if len(row) != len(schema.columns):
            raise Refused(25, at)
    for at, (old, row) in enumerate(pairs):
        update_pair(state, schema, old, row, at)
    return [], len(pairs)


def update_pair(state, schema, old, row, at):
    if old == row[schema.key]:
        check_row(state, schema, row, at, 0, same_key=True)
        if old not in state.rows[schema.name]:
            raise Refused(34, at)
        need_places(state, 1, at)
        state.put_row(schema.name, old, row)
    else:  # a delete of the old key, then an insert
        check_unreferenced(state, schema, (old,), at)
        need_places(state, int(old in state.rows[schema.name]), at)
        gone = state.remove_row(schema.name, old)
        add_row(state, schema, row, at, int(gone))


def delete(state, name, keys):
    schema = known(state, name)
    check_unreferenced(state, schema, keys, 0)
    need_places(state, len({key for key in keys if key in state.rows[name]}))
    for key in keys:
        state.remove_row(name, key)
    return [], len(keys)


def get(state, name, keys):
    rows = state.rows.get(name, {})
    found = [rows[key] for key in keys if key in rows]
    return found, len(found)


def lookup(state, name, column, values):
    schema = known(state, name)
    if column >= len(schema.columns) or not schema.columns[column].flags & INDEX:
        raise Refused(37)  # the key has no index: rule 10
    found = [(key,) for key in keys_holding(state, name, column, values)]
    return found, len(found)


def scan(state, name):
    rows = state.rows.get(name, {})
    return [rows[key] for key in sorted(rows, key=rank)], len(rows)


def list_tables(state):
    return [((TEXT, name),) for name in sorted(state.tables)], len(state.tables)


def open_batch(state):
    in_turn(state, is_open=False)
    state.batch = []
    return [], 0


def keep_batch(state):
    in_turn(state, is_open=True)
    state.batch = None
    return [], 0


def take_back(state):
    in_turn(state, is_open=True)
    list(state.put_back())
    return [], 0


WRITES = create, drop, insert, update, delete
READS = get, lookup, scan, list_tables
BATCHES = open_batch, keep_batch, take_back
STEPS = dict(zip(OPERATIONS.values(), WRITES + READS + BATCHES))
