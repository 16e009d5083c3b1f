"""Whether a journal is sound beside a sound store, and what taking its batch back leaves: over the bytes alone, with nothing of the model.

Cells of a sound store are equal where the values are, so rows are kept by the bytes of their table's name cell and key cell.
"""

NAME, CELL, COLUMN, TABLE, ROW, ENTRY, PLACE = 25, 26, 78, 651, 233, 78, 234
TABLES_AT, ROWS_AT = 12, 12 + 16 * TABLE
NULL = bytes(CELL)
NAN = b"\3\0\x7f\xf8" + bytes(22)


def cut(data, width, count, at=0):
    return [data[at + width * i : at + width * (i + 1)] for i in range(count)]


# ---------------------------------------------------------------- what a sound store holds


def tables_of(store):
    """By name cell: the number of the key column, and the columns."""
    return {t[:NAME]: (t[NAME], cut(t, COLUMN, t[NAME + 1], NAME + 2)) for t in cut(store, TABLE, store[5], TABLES_AT)}


def cells_of(record, columns):
    return cut(record, CELL, len(columns), NAME)


def rows_of(store, tables):
    """By name cell and key cell: the row's record."""
    rows = {}
    for record in cut(store, ROW, int.from_bytes(store[6:8], "big"), ROWS_AT):
        key, columns = tables[record[:NAME]]
        rows[record[:NAME], cells_of(record, columns)[key]] = record
    return rows


def flag(column, bit):
    return column[26] & bit > 0


# ---------------------------------------------------------------- cells


def is_canonical(cell):
    """The bytes of some value."""
    kind, length, content = cell[0], cell[1], cell[2:]
    if kind == 4:
        return length <= 24 and not any(content[length:])
    if length or kind > 4:
        return False
    if kind < 2:
        return not any(content[kind:]) and content[0] < 2
    if any(content[8:]):
        return False
    above_infinity = (content[0] & 0x7F, *content[1:8]) > (0x7F, 0xF0, 0, 0, 0, 0, 0, 0)
    return kind == 2 or (cell == NAN if above_infinity else content[:8] != b"\x80" + bytes(7))


def order(cell):
    """Sorts as the values do."""
    kind, content = cell[0], cell[2:]
    if kind == 4:
        return kind, content[: cell[1]]
    if kind == 2 or kind == 3 and content[0] < 128:
        content = bytes([content[0] ^ 128]) + content[1:]
    elif kind == 3:
        content = bytes(255 - b for b in content[:8])
    return kind, content[:8]


def by_name(cell):
    return cell[1 : 1 + cell[0]]


# ---------------------------------------------------------------- the journal


def place_of(record, tables):
    """A place's name cell, key cell and row record (or None); None where it is no place."""
    kind, rest = record[0], record[1:]
    if kind not in (1, 2) or rest[:NAME] not in tables:
        return None
    key, columns = tables[rest[:NAME]]
    cells = cells_of(rest, columns if kind == 2 else [None])
    if not all(map(is_canonical, cells)) or any(rest[NAME + CELL * len(cells) :]):
        return None
    if kind == 1:
        return rest[:NAME], cells[0], None
    for cell, column in zip(cells, columns):
        if cell[0] != column[25] and not (cell == NULL and flag(column, 1)):
            return None
    return None if cells[key] in (NULL, NAN) else (rest[:NAME], cells[key], rest)


def places_of(journal, tables):
    """The places in use, [] where no batch is open; None where the layout is broken."""
    count, rest = divmod(len(journal) - 3, PLACE)
    if rest or count < 1 or count > 8192:
        return None
    used = int.from_bytes(journal[1:3], "big")
    if journal[0] == 0:
        return None if any(journal) else []
    if journal[0] > 1 or used > count or any(journal[3 + PLACE * used :]):
        return None
    places = [place_of(record, tables) for record in cut(journal, PLACE, used, 3)]
    return None if None in places else places


def rules_hold(rows, tables):
    """No value twice in a unique column, and every reference names a row."""
    held = set()
    for (name, key), record in rows.items():
        at, columns = tables[name]
        for i, (cell, column) in enumerate(zip(cells_of(record, columns), columns)):
            if flag(column, 4) and i != at and cell not in (NULL, NAN):
                if (name, i, cell) in held:
                    return False
                held.add((name, i, cell))
            if flag(column, 16) and cell != NULL and (column[53:], cell) not in rows:
                return False
    return True


def with_rows(store, rows, tables):
    """The store with these rows, and the index that goes with them."""
    places = (len(store) - ROWS_AT) // (ROW + 7 * ENTRY)
    rising = sorted(rows, key=lambda at: (by_name(at[0]), order(at[1])))
    entries = []
    for name, key in rising:
        for i, (cell, column) in enumerate(zip(cells_of(rows[name, key], tables[name][1]), tables[name][1])):
            if flag(column, 8):
                entries.append(((by_name(name), i, order(cell), order(key)), name + bytes([i]) + cell + key))
    counts = len(rows).to_bytes(2, "big") + len(entries).to_bytes(4, "big")
    area = b"".join(rows[at] for at in rising).ljust(ROW * places, b"\0")
    return store[:6] + counts + store[TABLES_AT:ROWS_AT] + area + b"".join(e for _, e in sorted(entries)).ljust(7 * ENTRY * places, b"\0")


def taken_back(store, journal):
    """The store after its batch is taken back, itself where none is open; None where the journal is not sound (38)."""
    tables = tables_of(store)
    rows, most = rows_of(store, tables), (len(store) - ROWS_AT) // (ROW + 7 * ENTRY)
    places = places_of(journal, tables)
    if places is None:
        return None
    for name, key, record in reversed(places):
        rows.pop((name, key), None)
        if record is not None:
            rows[name, key] = record
        if len(rows) > most:
            return None
    return with_rows(store, rows, tables) if rules_hold(rows, tables) else None
