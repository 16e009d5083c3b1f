#!/usr/bin/env python3
"""Whether the generated streams notice wrong changes to the rules.

  strength.py [SEED [COUNT]]    COUNT requests from each generator (20,000)

Each change is made in a copy of the model; the copy answers the same streams as the model,
and replays the fixed lists. A change is noticed when a line, a byte of a store or what a
refusal carries differs.
"""

import os
import re
import shutil
import subprocess
import sys
import tempfile

from packed import read_answers

HERE = os.path.dirname(os.path.abspath(__file__))
REPLAYED = ["../crates/replay/data/" + name for name in ("rust", "paper", "batch")]
LISTS = REPLAYED + ["lists/lent", "lists/journals"]
PARTS = ["model.py", "values.py", "layout.py", "journal.py", "records.py", "rules.py", "runs.py", "packed.py", "checks.py"]


def written_changes():
    """Of wrong.txt: (name, file, right lines, wrong lines)."""
    with open(os.path.join(HERE, "wrong.txt")) as f:
        for block in f.read().split("\n## ")[1:]:
            name, file, *patch = block.rstrip("\n").split("\n")
            right = "".join(line[1:] + "\n" for line in patch if line[:1] != "+")
            wrong = "".join(line[1:] + "\n" for line in patch if line[:1] != "-")
            yield name, file, right, wrong


def refusals_left_out():
    """Each refusal of rules.py passed over, in the order of their numbers."""
    with open(os.path.join(HERE, "rules.py")) as f:
        found = [(line, re.match(r"( +)raise Refused\((\d+)", line)) for line in f]
    for line, match in sorted((x for x in found if x[1]), key=lambda x: int(x[1][2])):
        yield "%s never refused" % match[2], "rules.py", line, match[1] + "pass\n"


def copied_model(work):
    folder = tempfile.mkdtemp(dir=work)
    for part in PARTS:
        shutil.copy(os.path.join(HERE, part), folder)
    return folder


def change(folder, file, right, wrong):
    path = os.path.join(folder, file)
    with open(path) as f:
        source = f.read()
    if source.count(right) != 1:
        raise SystemExit("stands %d times in %s:\n%s" % (source.count(right), file, right))
    source = source.replace(right, wrong)
    compile(source, path, "exec")  # a change that can't be read is no change
    with open(path, "w") as f:
        f.write(source)


def answers(folder, streams):
    """The answers of the model in a folder; fewer when it stops."""
    out = os.path.join(folder, "answers")
    command = [sys.executable, "-B", os.path.join(folder, "model.py"), streams, out]
    subprocess.run(command, stderr=subprocess.DEVNULL)
    with open(out, "rb") as f:
        return list(read_answers(f))


def failing(folder):
    """How many cases of each fixed list the model in a folder fails, as text."""
    row = []
    for name in LISTS:
        command = [sys.executable, "-B", os.path.join(folder, "model.py"), "--check", os.path.join(HERE, name + ".list")]
        done = subprocess.run(command, stdout=subprocess.PIPE, stderr=subprocess.DEVNULL, text=True)
        found = re.search(r"(\d+) failed", done.stdout)
        row.append(found[1] if found else "stops")
    return "-" if row == ["0"] * len(LISTS) else "/".join(row)


def carried(notes):
    return [line.split(b" ", 1)[1] for line in notes.splitlines()]


def crcs(notes):
    return [line.split(b" ", 1)[0] for line in notes.splitlines()]


def differences(right, wrong):
    """How many streams show the change: in lines, in bytes, in what is carried."""
    seen = [0, 0, 0]
    for one, other in zip(right, wrong):
        seen[0] += one[0] != other[0]
        seen[1] += crcs(one[1]) != crcs(other[1]) or one[2] != other[2]
        seen[2] += carried(one[1]) != carried(other[1])
    return seen, len(wrong) < len(right)


def generated(work, kind, seed, count):
    """A file of streams, and the right answers to them."""
    streams = os.path.join(work, kind)
    with open(streams, "wb") as f:
        command = [sys.executable, "-B", os.path.join(HERE, "generate.py"), kind, seed, count]
        subprocess.run(command, stdout=f, check=True)
    return streams, answers(copied_model(work), streams)


def main(words):
    seed, count = words + ["1", "20000"][len(words) :]
    missed = 0
    with tempfile.TemporaryDirectory() as work:
        sources = {kind: generated(work, kind, seed, count) for kind in ("inside", "broken", "tight")}
        print("Streams that differ, by lines / bytes / what is carried; then failing cases of the lists. Seed %s, %s." % (
            seed, ", ".join("%s: %d streams" % (kind, len(right)) for kind, (_, right) in sources.items())))
        line = "%-70s" + " %-14s" * len(sources) + " %s"
        print(line % ("change", *sources, "/".join(os.path.basename(name) for name in LISTS)))
        changes = [*written_changes(), *refusals_left_out()]
        for name, file, was, becomes in changes:
            folder = copied_model(work)
            change(folder, file, was, becomes)
            row, lists = [], failing(folder)
            noticed = lists != "-"
            for streams, right in sources.values():
                seen, stopped = differences(right, answers(folder, streams))
                noticed = noticed or any(seen) or stopped
                row.append("stops" if stopped else "/".join(map(str, seen)) if any(seen) else "-")
            shutil.rmtree(folder)
            missed += not noticed
            print(line % (name, *row, lists + ("" if noticed else "  NOT NOTICED")), flush=True)
        print("%d changes, %d not noticed" % (len(changes), missed))
    return 1 if missed else 0


if __name__ == "__main__":
    sys.exit(main(sys.argv[1:]))
