"""A folder for one case: files put there, a program run in it, and what it left compared with what was expected."""

import contextlib
import os
import resource
import shutil
import signal
import stat
import subprocess
import sys
import tempfile

ROOT = os.path.dirname(os.path.dirname(os.path.abspath(__file__)))
sys.path.insert(0, os.path.join(ROOT, "oracle"))

from programs import command  # noqa: E402

PATIENCE = 20  # seconds; a program that waits longer has failed


class Said:
    """What a program wrote, and how it ended: a status, minus a signal's number, or None where it had to be stopped."""

    def __init__(self, out, err, status):
        self.out, self.err, self.status = out, err, status

    def last(self):
        lines = self.err.decode(errors="replace").splitlines()
        return lines[-1] if lines else ""


class Room:
    def __init__(self):
        self.folder = tempfile.mkdtemp()

    def __enter__(self):
        return self

    def __exit__(self, *_):
        shutil.rmtree(self.folder)

    def path(self, name):
        return os.path.join(self.folder, name)

    def put(self, files):
        """Makes files with these bytes; for `dir` a folder, for `pipe` a named pipe, for `link to X` a link, for `device` one like
        /dev/null, or a pipe where no device may be made."""
        for name, data in files.items():
            os.makedirs(os.path.dirname(self.path(name)), exist_ok=True)
            path = self.path(name)
            if isinstance(data, bytes):
                with open(path, "wb") as f:
                    f.write(data)
            elif data == "dir":
                os.mkdir(path)
            elif data.startswith("link to "):
                os.symlink(data[8:], path)
            elif data == "device" and os.getuid() == 0:
                try:
                    os.mknod(path, 0o666 | stat.S_IFCHR, os.makedev(1, 3))
                except PermissionError:
                    os.mkfifo(path)
            else:
                os.mkfifo(path)

    def files(self):
        """Every file below the folder with its bytes, or with what it is."""
        found = {}
        for at, folders, names in os.walk(self.folder):
            for name in folders + names:
                path = os.path.join(at, name)
                mode = os.lstat(path).st_mode
                if stat.S_ISREG(mode):
                    with open(path, "rb") as f:
                        found[os.path.relpath(path, self.folder)] = f.read()
                else:
                    kinds = {stat.S_ISDIR: "dir", stat.S_ISFIFO: "pipe", stat.S_ISLNK: "link"}
                    found[os.path.relpath(path, self.folder)] = next((k for test, k in kinds.items() if test(mode)), "device")
        return found

    def run(self, program, words, stdin=b"", stdout=None, ignored=(), closed=(), limit=None):
        """Runs a program here. `stdin`: bytes or an open file; `stdout`: an open file; `ignored`: signals; `closed`: standard files that it
        is started without; `limit`: so many bytes a file may have."""

        def prepare():
            for number in (signal.SIGPIPE, signal.SIGXFSZ):  # Python ignores both; a shell does not
                signal.signal(number, signal.SIG_IGN if number in ignored else signal.SIG_DFL)
            if limit is not None:
                resource.setrlimit(resource.RLIMIT_FSIZE, (limit, limit))
            for fd in closed:
                os.close(fd)

        given = isinstance(stdin, bytes)
        with subprocess.Popen(
            command(program) + words,
            cwd=self.folder,
            stdin=subprocess.PIPE if given else stdin,
            stdout=subprocess.PIPE if stdout is None else stdout,
            stderr=subprocess.PIPE,
            preexec_fn=prepare,
            restore_signals=False,
        ) as running:
            try:
                out, err = running.communicate(stdin if given else None, timeout=PATIENCE)
            except subprocess.TimeoutExpired:
                running.kill()
                out, err = running.communicate()
                return Said(out or b"", err, None)
        return Said(out or b"", err, running.returncode)


@contextlib.contextmanager
def disk(size):
    """A room on a disk of so many bytes, or None where none can be mounted."""
    with Room() as room:
        words = ["mount", "-t", "tmpfs", "-o", "size=%d" % size, "tmpfs", room.folder]
        if not shutil.which("mount") or subprocess.run(words, stderr=subprocess.DEVNULL).returncode != 0:
            yield None
            return
        try:
            yield room
        finally:
            subprocess.run(["umount", room.folder], check=True)


def shown(data):
    """Bytes short enough for a line."""
    if not isinstance(data, bytes):
        return str(data)
    return "%d bytes" % len(data) if len(data) > 80 else repr(data)


def compared(before, after, changed):
    """What is wrong with the files: each is as it was, but for those in `changed` (None: gone)."""
    wanted = {**before, **changed}
    wrong = []
    for name in sorted({*wanted, *after}):
        if wanted.get(name) != after.get(name):
            wrong.append("%s should be %s, is %s" % (name, shown(wanted.get(name, "absent")), shown(after.get(name, "absent"))))
    return wrong


class Tally:
    """A line for each case, and how many passed."""

    def __init__(self):
        self.passed = self.failed = 0

    def add(self, title, wrong):
        if wrong:
            self.failed += 1
            print("FAIL  %s: %s" % (title, "; ".join(wrong)))
        else:
            self.passed += 1
            print("ok    %s" % title)
        sys.stdout.flush()

    def end(self):
        print("%d passed, %d failed" % (self.passed, self.failed))
        return 1 if self.failed or not self.passed else 0
