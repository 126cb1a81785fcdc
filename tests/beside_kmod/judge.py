"""What differs between the two programs, by what it is recognised, and how it is shown."""

import os
import re
import shlex
import shutil
import subprocess
import sys
import tempfile
from collections import Counter
from dataclasses import replace
from pathlib import Path

from . import faults
from .stage import OWN, Link, write_files

# What kmod says to its own developers, where in its sources it says a thing, and what is said in other words.
DEVELOPERS = re.compile(
    rb"^(?:modprobe|libkmod): (?:INFO|DEBUG|NOTICE)|^modprobe: ERROR: \.\./libkmod|^==\d+==WARNING"
    rb"|^modprobe: ERROR: (?:failed to lookup dependency|could not read integer from|kmod_module '.*' already exists) "
)
STATE = re.compile(rb"^modprobe: ERROR: (?:\.\./libkmod/\S+ \w+\(\) )?unknown \S+/initstate: '[^']*'\n", re.M)
SOURCES = re.compile(rb"^libkmod: ERROR(?: \S+\.c:\d+|:) \w+: ")
OWN_WORDS = re.compile(
    rb"deprecated and not parsed|starting with '(?:include|config)'|Ignoring bad option on kernel command line"
    rb"|gz-modprobe: NOTICE: |WARNING: there is no configuration |no UTF-8"
)
LINES = 40


def depmod(root, version):
    """Runs the real depmod over a root."""
    ran = subprocess.run(["depmod", "-b", root, "-C", "/dev/null", version], capture_output=True)
    if ran.returncode != 0:
        print(f"depmod ended with {ran.returncode} over {root}: {ran.stderr.decode(errors='replace')}", file=sys.stderr)


def beginning(text, before=""):
    """The first lines of a text, for people."""
    lines = [before + it[:300] for it in text.decode("latin1").splitlines()]
    return lines[:LINES] + ([f"{before}.. and {len(lines) - LINES} lines more"] if len(lines) > LINES else [])


def shown(said):
    """An answer for people."""
    return "\n".join([f"status {said.status}", *beginning(said.output), *beginning(said.errors, "  (says) ")])


def messages(errors):
    """Standard error without what may differ: the program's name, places in kmod's sources, what is for developers."""
    lines = [SOURCES.sub(b"modprobe: ERROR: ", it) for it in STATE.sub(b"", errors).split(b"\n") if it and not DEVELOPERS.match(it)]
    return [re.sub(rb"^gz[-_]modprobe: ", b"modprobe: ", it) for it in lines if not OWN_WORDS.search(it)]


def files_below(root):
    """The files of a world that stands below a root, by their paths."""
    root, files = os.fsencode(root), {}
    for folder, folders, names in os.walk(root):
        if folder == root:
            folders[:] = [it for it in folders if it not in OWN]
        for path in (os.path.join(folder, it) for it in names + [it for it in folders if os.path.islink(os.path.join(folder, it))]):
            files[path[len(root) :]] = Link(os.readlink(path)) if os.path.islink(path) else Path(os.fsdecode(path)).read_bytes()
    return files


class Judge:
    """Asks both programs over the world that stands in a stage, and counts."""

    def __init__(self, stage, version, keep, with_messages, most):
        self.stage, self.version, self.keep, self.with_messages, self.most = stage, version, keep, with_messages, most
        self.same, self.differ, self.known = 0, 0, Counter()
        self.name, self.kept = None, None

    def enter(self, name, files):
        """Puts a new world into the stage."""
        self.stage.clear()
        write_files(self.stage.root, files)
        self.name, self.kept = name, None

    def take(self, folder):
        """Puts a kept world into the stage."""
        self.stage.clear()
        shutil.copytree(folder, self.stage.root, symlinks=True, dirs_exist_ok=True)
        self.name, self.kept = str(folder), folder

    def compare(self, words, environment=None):
        """Asks both. True if they agree, or differ by a named fault."""
        environment = environment or {}
        theirs = self.stage.ask("modprobe", words, environment)
        ours = self.ours(words, environment)
        if self.agree(theirs, ours):
            self.same += 1
            return True
        fault = self.fault(theirs, ours, words, environment)
        if fault is not None:
            self.known[fault] += 1
            return True
        self.differ += 1
        self.show(theirs, ours, words, environment)
        return False

    def ours(self, words, environment=(), folder=b"/"):
        """How gz-modprobe answers as this version of kmod."""
        return self.stage.ask("ours", [b"--as=%d" % self.version, *words], environment, folder)

    def alike(self, words):
        """Whether both say the same; nothing is counted."""
        return self.agree(self.stage.ask("modprobe", words), self.ours(words))

    def agree(self, theirs, ours):
        alike = (theirs.status, theirs.output) == (ours.status, ours.output)
        return alike and (not self.with_messages or messages(theirs.errors) == messages(ours.errors))

    def fault(self, theirs, ours, words, environment):
        """The named difference between the answers, or None."""
        if theirs.status < 0 and ours.status >= 0:
            return faults.ENDLESS
        if faults.has_other_path(self.stage.ask("modprobe", faults.told(words), environment)):
            return faults.OTHER_PATH
        if plain := faults.without_variable(words, environment):
            words, environment = plain, {}
            if self.agree(self.stage.ask("modprobe", words), ours):
                return faults.OVERWRITTEN
        words = faults.without_waiting(words)
        if self.agree(self.stage.ask("modprobe", words, environment), ours):
            return faults.WAIT
        files = files_below(self.stage.root)
        if self.agree(theirs, replace(ours, output=faults.with_cut_names(files, self.version, ours.output))):
            return faults.CUT
        for fault, mend in faults.MENDS:
            changed = mend(files, self.version)
            self.write(changed)
            theirs = self.stage.ask("modprobe", words, environment)
            self.write({it: files[it] for it in changed})
            if theirs.status < 0 and ours.status >= 0:
                return faults.ENDLESS
            if self.agree(replace(theirs, output=faults.shown_right(theirs.output)), ours):
                return fault
        return None

    def write(self, files):
        for path, content in files.items():
            Path(os.fsdecode(os.fsencode(self.stage.root) + path)).write_bytes(content)

    def folder(self):
        """Where this world is kept; it is written there at its first difference."""
        if self.kept is None:
            self.keep = self.keep or Path(tempfile.mkdtemp(prefix="kmod-differences-"))
            self.kept = self.keep / re.sub(r"\W+", "-", f"{self.version} {self.name}")
            write_files(self.kept, files_below(self.stage.root))
        return self.kept

    def show(self, theirs, ours, words, environment):
        if self.differ > self.most:
            return
        variables = [f"{os.fsdecode(name)}={os.fsdecode(value)}" for name, value in environment.items()]
        again = ["tests/kmod", f"--as={self.version}", "--world", str(self.folder()), *variables, *map(os.fsdecode, words)]
        again = " ".join(map(shlex.quote, again)).encode(errors="surrogateescape").decode("latin1")
        print(f"DIFFERENT, world {self.name}:\n  {again}\n--- kmod\n{shown(theirs)}\n--- ours\n{shown(ours)}", flush=True)

    def report(self):
        """Prints what was counted. The status: 1 if something differs."""
        for fault, count in sorted(self.known.items()):
            print(f"named difference: {fault}: {count}")
        print(f"kmod {self.version}: {self.same} the same, {sum(self.known.values())} named differences, {self.differ} differ", flush=True)
        return 1 if self.differ else 0
