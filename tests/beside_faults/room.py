"""A folder in which gz-table meets faults, and what is found there."""

import os
import re
import subprocess
import tempfile
from contextlib import contextmanager
from pathlib import Path

TOP = Path(__file__).resolve().parents[2]
CATALOGUE = TOP / "crates/gz_table/data/snd.catalogue"
SOUND = TOP / "crates/gz_table/data/sound"
GET = "get web19 snd"
SECONDS = 60
# A call as strace(1) shows it: its name, the number and the path of its file, or a path alone, and the kind of a lock.
CALL = re.compile(r'(\w+)\((?:(\d+)<(?:[^>]*/)?([^>]*)>|"(?:[^"]*/)?([^"]*)")(?:, (LOCK_..))?')


class Room:
    """The program, and whether each thing was found as it must be. A table lies in disk/table of the working folder."""

    def __init__(self, program):
        self.program, self.results = program, []

    def sees(self, is_right, what, *found):
        self.results.append(is_right)
        if not is_right:
            print(f"{what}: {found}")

    def finds(self, what, found, wanted):
        self.sees(found == wanted, what, f"wanted {wanted!r}", f"found {found!r}")

    def runs(self, words, **how):
        """A call by a line of the shell: its status, what it writes, and its errors."""
        ran = subprocess.run(f"{self.program} {words}", shell=True, capture_output=True, text=True, timeout=SECONDS, **how)
        return ran.returncode, ran.stdout, ran.stderr

    def asks(self, words):
        """A call over disk/table that does not wait: its status, and its errors, or what it writes if there are none."""
        status, output, errors = self.runs(f"--wait 0 disk/table {words}")
        return status, errors.removeprefix("gz-table: ") or output

    def tries(self, words, status, said, changes=False):
        """A call over disk/table: how it must end, and whether it changes the table."""
        before = self.asks("check")
        found = self.asks(words)
        is_right = found == (status, f"{said}\n") and (self.asks("check") != before) == changes
        self.sees(is_right, f"`{words}`: wanted {status} {said!r}", found, before, self.asks("check"))

    def begun(self, words):
        """A run of the program, of which each stream is read."""
        return subprocess.Popen([self.program, *words], stdin=subprocess.PIPE, stdout=subprocess.PIPE, stderr=subprocess.PIPE, text=True)

    def under_strace(self, options, words):
        """A call under strace(1): its status and its errors."""
        shell = f"strace -o trace {options} {self.program} {words}"
        ran = subprocess.run(shell, shell=True, capture_output=True, text=True, timeout=SECONDS)
        return ran.returncode, ran.stderr

    def traced(self, words):
        """The calls by which the program locks, writes, syncs, cuts and renames, each with its file."""
        self.under_strace("-y -e trace=flock,mkdir,rename,fsync,ftruncate,write", words)
        found = [it.groups() for it in map(CALL.match, Path("trace").read_text().splitlines()) if it]
        return [f"{call} {kind or (name or path if number != '1' else 'the reply')}" for call, number, name, path, kind in found]

    def makes(self, folder, catalogue=CATALOGUE, words="create"):
        return self.runs(f"disk/{folder} {words} catalogue={catalogue}")


@contextmanager
def sound():
    """A working folder with a table of Debian's modules for sound in disk/table, which is gone afterwards."""
    with tempfile.TemporaryDirectory(prefix="faults-") as room:
        os.chdir(room)
        os.system(f"mkdir disk; cp -r {SOUND} disk/table")
        yield
        os.chdir("/")
