"""Document 01, "The domain compared with the Rust": whether a request is inside it.

Minus zero and other NaNs are not looked for here: a request that was read has none left.
"""

from rules import Refused, update_pair
from values import INDEX, NULL, rank


def is_text(data):
    try:
        data.decode("utf-8")
    except UnicodeDecodeError:
        return False
    return True


def names_and_texts(operation, operands):
    """Every name and value of a request: (names, values)."""
    if operation == "create":
        (schema,) = operands
        names, values = [schema.name], []
        for c in schema.columns:
            names += [c.name] + ([] if c.reference is None else [c.reference])
            values += [] if c.default is None else [c.default]
        return names, values
    names, values = list(operands[:1]), []
    if operation == "insert":
        values = [v for row in operands[2] for v in row]
    elif operation == "update":
        values = [v for old, row in operands[1] for v in (old, *row)]
    elif operation in ("delete", "get", "lookup"):
        values = list(operands[-1])
    return names, values


def fits(value, kind):
    return value == NULL or value[0] == kind


def outside(state, operation, operands):
    """The reason why the request is outside, or None. 19 and 33 ("room enough") are seen by their answers."""
    names, values = names_and_texts(operation, operands)
    if not all(map(is_text, names)) or not all(is_text(v[1]) for v in values if v[0] == 4):
        return "not UTF-8"
    if operation == "create":
        columns = [c.name for c in operands[0].columns]
        return "column name twice" if len(set(columns)) < len(columns) else None
    if operation in ("drop", "scan", "list"):
        return None
    schema = state.tables.get(operands[0])
    if schema is None:
        return "lookup of an unknown table" if operation == "lookup" else None
    kind = schema.columns[schema.key].kind
    if operation in ("delete", "get"):
        return None if all(fits(v, kind) for v in operands[1]) else "kind of a key"
    if operation == "lookup":
        column = operands[1]
        if column >= len(schema.columns) or not schema.columns[column].flags & INDEX:
            return "lookup without index"
        return None if all(fits(v, schema.columns[column].kind) for v in values) else "kind of a lookup value"
    if operation == "insert":
        return outside_insert(schema, kind, *operands[1:])
    return outside_update(state, schema, kind, operands[1])


def outside_insert(schema, kind, mapping, rows):
    if mapping is not None and (
        len(set(mapping)) < len(mapping) or any(i >= len(schema.columns) for i in mapping)
    ):
        return "map"
    for row in rows:
        places = range(len(row)) if mapping is None else mapping
        if not all(fits(v, kind) for i, v in zip(places, row) if i == schema.key):
            return "kind of a key"
    return None


def outside_update(state, schema, kind, pairs):
    for (first, _), (second, _) in zip(pairs, pairs[1:]):
        if rank(first) >= rank(second):
            return "old keys not rising"
    if any(len(row) != len(schema.columns) for _, row in pairs):
        return "row not full"
    if not all(fits(v, kind) for old, row in pairs for v in (old, row[schema.key])):
        return "kind of a key"
    after = state.copy()
    try:
        for at, (old, row) in enumerate(pairs):
            if old == row[schema.key] and old not in after.rows[schema.name]:
                return "same-key pair without its row"
            update_pair(after, schema, old, row, at)
    except Refused:
        pass
    return None
