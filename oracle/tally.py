"""How often each operation, code, AT and GONE comes in streams and their answers."""

from collections import Counter

from records import OPERATIONS, records


def by_request(lines):
    """The lines of each request: any `row` lines, then `ok` or `no`."""
    found = []
    for line in lines.decode().splitlines():
        found.append(line)
        if not line.startswith("row"):
            yield found
            found = []


def operation(record):
    return OPERATIONS.get(record[1], "none") if record is not None and record[0] == 1 else "none"


class Tally:
    def __init__(self):
        self.requests = 0
        self.operations, self.codes, self.ats, self.gones = Counter(), Counter(), Counter(), Counter()

    def add(self, source, lines):
        for record, answer in zip(records(source), by_request(lines)):
            words = answer[-1].split()
            self.requests += 1
            self.operations[operation(record), words[0]] += 1
            if words[0] == "no":
                code, at, gone = map(int, words[1:])
                self.codes[code] += 1
                self.ats[code, at] += 1
                self.gones[code] += gone

    def lines(self):
        yield "%d requests" % self.requests
        for name in sorted({name for name, _ in self.operations}):
            yield "%-7s ok %7d  no %7d" % (name, self.operations[name, "ok"], self.operations[name, "no"])
        for code in sorted(self.codes):
            places = " ".join("%d:%d" % (at, n) for (c, at), n in sorted(self.ats.items()) if c == code)
            yield "no %2d %7d  GONE 1 %6d  AT %s" % (code, self.codes[code], self.gones[code], places)
