#!/usr/bin/env python3
"""Brings the definitions and lemmas of crates/ to today's spelling, once, behind the port's own script.

Words are in snake case, types in camel case: `cmpValue` becomes `cmp_value`. What src/ declares keeps its name.
A lemma that would fall together with a definition of the new spelling gets `_lem` first.

usage: python3 tools/spell_names.py        at the top of the repository
"""

import os
import re

NAME = re.compile(r"[A-Za-z0-9_'ℤℕʳ₀-₉◌-]+")
SIGNATURE = re.compile(r"^\s*(?:(?:abbrev|unfoldable)\s+)?(?:pub\s+)?([^\s:(){}\[\],;=.]+)\s*:\s")

# lemma: the files in which the name means the lemma
FALLS = {
    "entry_in": ["crates/sound/proofs/Indexed.antt"],
    "first_key": ["crates/rules/proofs/Removed.antt"],
    "goes_on": ["crates/serve/proofs/", "crates/serve/specs/Course.antt"],
    "in_group": ["crates/checks/proofs/Taking.antt", "crates/walks/proofs/NextKey.antt"],
    "is_open": ["crates/operations/proofs/Asked.antt"],
    "is_same": ["crates/areas/proofs/"],
    "laid_out": ["crates/store/proofs/schema/validate_row/Proof.antt"],
    "makes_one": ["crates/records/proofs/"],
    "map_at": ["crates/rules/proofs/", "crates/changes/proofs/RowReplaced.antt"],
    "other_key": ["crates/checks/proofs/Taking.antt"],
    "same_key": ["crates/changes/proofs/RowReplaced.antt"],
    "taken_back": ["crates/rules/proofs/", "crates/requests/proofs/"],
    "too_many": ["crates/sound/proofs/", "crates/mapping/proofs/"],
    "count_at": ["crates/operations/proofs/InsertRead.antt"],
}


def files():
    for folder, dirs, names in os.walk("crates"):
        dirs[:] = sorted(d for d in dirs if d != "out")
        for name in sorted(names):
            if name.endswith((".antt", ".rt", ".edit")):
                yield os.path.join(folder, name)
    for name in sorted(os.listdir("docs")):
        if name.endswith(".md"):
            yield os.path.join("docs", name)
    yield "README.md"


def camel_names():
    found = {"orElse", "◌orElse◌"}
    for path in files():
        if path.endswith(".antt"):
            with open(path, encoding="utf-8") as f:
                for line in f:
                    m = SIGNATURE.match(line)
                    if m and not line.lstrip().startswith(("--", "use ")) and re.match(r"[a-z].*[A-Z]", m.group(1)):
                        found.add(m.group(1))
    return found


def snake(name):
    if "getD" in name:
        name = name.replace("getD", "get_or")
    return re.sub(r"([a-z0-9])([A-Z])", lambda m: m.group(1) + "_" + m.group(2).lower(), name)


def main():
    turned = {name: snake(name) for name in camel_names()}
    for path in files():
        with open(path, encoding="utf-8") as f:
            text = f.read()
        new = text
        for name, places in FALLS.items():
            if path.startswith(tuple(places)):
                new = NAME.sub(lambda m: name + "_lem" if m.group(0) == name else m.group(0), new)
        new = NAME.sub(lambda m: turned.get(m.group(0), m.group(0)), new)
        if new != text:
            with open(path, "w", encoding="utf-8") as f:
                f.write(new)


main()
