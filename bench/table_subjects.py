"""What bench/table measures: gz-table, sqlite3(1), modsh and cat, and how each is asked for one change or for many."""
import hashlib
import os
import shutil
import subprocess
from typing import NamedTuple

from trees import Missing

# A module that each of Debian's kernels has, and who holds it.
MODULE = "overlay"
HOLDER = "7"
# (modsh can have 64 workers)
HOLDERS = 64
LOAD, REMOVAL = f"modprobe {MODULE}\n".encode(), f"modprobe -r {MODULE}\n".encode()
UPSERT = "INSERT INTO held VALUES('web17','overlay',1) ON CONFLICT DO UPDATE SET count=count+1 RETURNING 'ok';"
ROWS = """CREATE TABLE held(holder TEXT, name TEXT, count INTEGER, PRIMARY KEY(holder, name));
INSERT INTO held VALUES('web17','overlay',1),('web18','overlay',1);"""


class Call(NamedTuple):
    """A program with its words, lines for its standard input, and what it is to answer."""

    words: list
    lines: list
    expected: bytes


def changes(count):
    """Lines of a session that change its table: holders get the module and give it back."""
    pairs = ((f"get {it % HOLDERS} {MODULE}\n", f"put {it % HOLDERS} {MODULE}\n") for it in range(count // 2))
    return [line.encode() for pair in pairs for line in pair]


def references(count):
    """The lines of a journal in which holders come and go. At its end nearly all hold the module."""
    last = [f"get {it} {MODULE}\n".encode() for it in range(1, HOLDERS)]
    return [LOAD, *changes(count - HOLDERS), *last]


def loads(count):
    """The lines of a journal in which the module is loaded and removed. At its end it is held."""
    return [LOAD, REMOVAL] * (count // 2 - 1) + [LOAD, f"get {HOLDER} {MODULE}\n".encode()]


def existing(program):
    if not os.access(program, os.X_OK):
        raise Missing(f"{program} is missing")
    return program


def ran(words):
    """What a program answers that must end well."""
    it = subprocess.run(words, stdin=subprocess.DEVNULL, capture_output=True)
    if it.returncode:
        raise Missing(f"{os.path.basename(words[0])} ended with {it.returncode} {it.stderr.decode()[-200:].strip()}")
    return it.stdout


def keep(file):
    """Brings a file to the disk, so that no later sync has to."""
    number = os.open(file, os.O_RDONLY)
    os.fsync(number)
    os.close(number)


class Table:
    """gz-table over all modules of a kernel, of which one is live."""

    kind = None

    def __init__(self, program, root, release, room):
        self.program, self.made, self.folder, self.synced = existing(program), room / "made", None, False
        ran([program, self.made, "create", "--host", "-S", release, f"--root={root}"])
        ran([program, self.made, "modprobe", MODULE])

    def begin(self, room, synced):
        """A table of its own for a round."""
        self.folder, self.synced = room / "table", synced
        shutil.copytree(self.made, self.folder)
        for file in self.folder.iterdir():
            keep(file)

    def words(self, *words):
        return [self.program, *([] if self.synced else ["--no-sync"]), self.folder, *words]

    def once(self):
        return Call(self.words("get", HOLDER, MODULE), [], b"ok\n")

    def many(self, count):
        return Call(self.words(), changes(count), b"ok\n" * count)

    asked = many

    def query(self):
        return Call(self.words("query", MODULE), [], b"yes\n")

    def query_line(self):
        return Call(self.words(), [f"query {MODULE}\n".encode()], b"yes\n")

    def compact(self):
        return Call(self.words("compact"), [], b"")

    def write(self, journal):
        """Puts these bytes in the place of the journal."""
        with open(self.folder / "journal", "wb") as out:
            out.write(journal)
        keep(self.folder / "journal")

    def write_journal(self, lines):
        """Writes a journal of these lines, as gourzhiel(5) tells it."""
        link = b"gourzhiel journal 2 - -"
        sealed = [b"+" + link + b"\n"]
        for line in lines:
            link = hashlib.sha256(link + line[:-1]).hexdigest()[:16].encode()
            sealed.append(b"+" + link + b" " + line)
        self.write(b"".join(sealed) + b" ")


class Sqlite:
    """sqlite3(1) over a table of two rows, a transaction per change."""

    kind = "sqlite3"

    def __init__(self):
        self.program, self.file, self.synced = existing(shutil.which("sqlite3") or "/usr/bin/sqlite3"), None, False

    def begin(self, room, synced):
        self.file, self.synced = room / "rows", synced
        ran([self.program, "-batch", self.file, ROWS])
        keep(self.file)

    def words(self, *words):
        pragma = "PRAGMA synchronous=" + ("FULL" if self.synced else "OFF")
        return [self.program, "-batch", "-init", "/dev/null", "-cmd", pragma, self.file, *words]

    def once(self):
        return Call(self.words(UPSERT), [], b"ok\n")

    def many(self, count):
        return Call(self.words(), [f"{UPSERT}\n".encode()] * count, b"ok\n" * count)

    def asked(self, count):
        """(with stdbuf(1) each reply is written at once)"""
        words, lines, expected = self.many(count)
        return Call([shutil.which("stdbuf"), "-oL", *words], lines, expected)


class Modsh:
    """modsh, which reads its texts anew and keeps nothing."""

    kind = "modsh"

    def __init__(self, program, words):
        self.own = [existing(program), "--workers", str(HOLDERS), *words]

    def begin(self, room, synced):
        pass

    def session(self, lines):
        return Call(self.own, [b"%session\n" + LOAD, *lines], b"ok\n" * (1 + len(lines)))

    def once(self):
        return self.session([f"get {HOLDER} {MODULE}\n".encode()])

    def many(self, count):
        return self.session(changes(count))

    asked = many


class Cat:
    """cat(1), which says back what it is told: the least that a line and its reply take."""

    kind = "cat"

    def begin(self, room, synced):
        pass

    def asked(self, count):
        return Call([shutil.which("cat")], [b"ok\n"] * count, b"ok\n" * count)
