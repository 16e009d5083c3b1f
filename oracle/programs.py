"""The built programs: those that `./run --build NAME..` makes in crates/NAME/out, or of the folder that SELUVAMA_PROGRAMS names."""

import os
import subprocess
import threading
import time

ROOT = os.path.join(os.path.dirname(os.path.abspath(__file__)), "..")


def command(name):
    """The words that start a program."""
    folder = os.environ.get("SELUVAMA_PROGRAMS") or os.path.join(ROOT, "crates", name, "out")
    return [os.path.join(os.path.abspath(folder), name)]


def kiosk(source):
    """The lines of records over a fresh store with 70 row places."""
    return subprocess.run(command("kiosk"), input=source, stdout=subprocess.PIPE, check=True, timeout=600).stdout


def kiosk_in_pieces(source, size):
    """The same, the records handed over a few bytes at a time."""
    with subprocess.Popen(command("kiosk"), stdin=subprocess.PIPE, stdout=subprocess.PIPE) as program:
        lines = []
        reader = threading.Thread(target=lambda: lines.append(program.stdout.read()))
        reader.start()
        try:
            for at in range(0, len(source), size):
                program.stdin.write(source[at : at + size])
                program.stdin.flush()
                time.sleep(0.0005)
            program.stdin.close()
        except BrokenPipeError:  # it stopped at a record that was cut off
            pass
        reader.join()
    return lines[0]


def lent(store, journal, source, folder):
    """The lines of records over a lent store and its journal, and the bytes of both afterwards: those they had where they are refused and nothing is written."""
    names = [os.path.join(folder, name) for name in ("store", "journal", "records", "store.after", "journal.after")]
    for name, data in zip(names, (store, journal, source)):
        write(name, data)
    for name in names[3:]:
        if os.path.exists(name):
            os.remove(name)
    done = subprocess.run(command("lent") + names, stdout=subprocess.PIPE, stderr=subprocess.PIPE, check=True, timeout=600)
    if [read(name) for name in names[:3]] != [store, journal, source]:
        raise RuntimeError("lent changed a file that it was to read")
    written = [os.path.exists(name) for name in names[3:]]
    if done.stdout == b"no 38 0 0\n" and not any(written):
        return done.stdout, store, journal
    if done.stderr or not all(written):
        raise RuntimeError(done.stderr.decode(errors="replace") or "lent wrote one file of two")
    return done.stdout, read(names[3]), read(names[4])


def write(name, data):
    with open(name, "wb") as f:
        f.write(data)


def read(name):
    with open(name, "rb") as f:
        return f.read()
