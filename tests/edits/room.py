"""Where crates are checked with edits: over what a proof of each left, or over the libraries that the gate has just built."""

import os
import shutil
import subprocess
from pathlib import Path

from edits.cut import cut_others
from edits.places import PARTS
from edits.report import Report


class NotProved(Exception):
    """A crate that is not proved as it stands."""


class Stopped(Exception):
    """The run is to end, so no further check begins."""


class Room:
    """A folder for copies of crates, and the checks that run there."""

    def __init__(self, root, folder, crates):
        self.root, self.folder, self.crates = root, folder, crates
        self.running, self.is_stopped = set(), False

    def run(self, folder, *words):
        """Runs a command in the folder. Returns its status and what it printed."""
        if self.is_stopped:
            raise Stopped
        how = {"stdin": subprocess.DEVNULL, "stdout": subprocess.PIPE, "stderr": subprocess.STDOUT}
        with subprocess.Popen(words, cwd=folder, text=True, errors="replace", **how) as ran:
            self.running.add(ran)
            said = ran.communicate()[0]
            self.running.discard(ran)
        if self.is_stopped:
            raise Stopped
        return ran.returncode, said

    def stop(self):
        """Ends the checks: rt ends the prover when it ends itself."""
        self.is_stopped = True
        for ran in list(self.running):
            ran.kill()


class ProvingRoom(Room):
    """Has two repositories for each crate: in one it is proved as it stands, in the other with edits."""

    # each round begins with what the proof without edits left
    begins_anew = True

    def prove(self, crate, waits, is_tried=False):
        """Proves the crate after the libraries below it, over what its own out/ keeps if that still fits. A crate whose edits
        are tried is checked even if its library fits, since only a check keeps what spares a round the other functions."""
        for proof in waits:
            proof.result()
        copy = self.repository(crate, "proved")
        copy_parts(crate.folder, copy)
        try:
            copy_out(crate.folder, copy, shutil.copy2)
        except (OSError, shutil.Error):
            shutil.rmtree(copy / "out", ignore_errors=True)
        is_program = (copy / "src/main.rt").is_file()
        for verb in ["check"] * (is_tried or is_program) + ["lib"] * (not is_program):
            status, said = self.run(copy, "rt", verb, "--jobs", "1")
            if status:
                raise NotProved(f"without an edit it is not proved, so none was tried:\n{said[-2000:]}")

    def check(self, crate, changed, _asked, _kept):
        """Checks a copy of the proved crate in which these files are changed."""
        copy = self.repository(crate, "changed")
        copy_parts(self.proved(crate.name), copy)
        copy_out(self.proved(crate.name), copy, os.link, ["incremental"])
        write_all(copy, changed)
        return Report(self.run(copy, "rt", "check", "--jobs", "1")[1])

    def proved(self, name):
        return self.folder / "proved" / name / "crates" / name

    def repository(self, crate, kind):
        """Makes a repository of the proved libraries below the crate. Returns the folder for the crate itself."""
        top = self.folder / kind / crate.name
        shutil.rmtree(top, ignore_errors=True)
        top.mkdir(parents=True)
        shutil.copy(self.root / "HANDLES", top)
        lines = [self.crates[name].line + "\n" for name in [*crate.below, crate.name]]
        (top / "crates.txt").write_text("".join(lines), encoding="utf-8")
        for name in crate.below:
            copy_parts(self.proved(name), top / "crates" / name)
            copy_out(self.proved(name), top / "crates" / name, os.link, ["rlib"])
        return top / "crates" / crate.name


class BuiltRoom(Room):
    """Checks the functions that edits change, over the contracts of the others and the libraries that rt ci built in this
    working tree."""

    # each round goes on from the one before it
    begins_anew = False

    def __init__(self, root, folder, crates):
        super().__init__(root, folder, crates)
        self.kit = Path(self.run(root, "rt", "doc")[1].strip()).parent

    def prove(self, crate, _waits, _is_tried=False):
        """Proves nothing, since rt ci did: the libraries below the crate have only to be there."""
        missing = [name for name in crate.below if not (library_of(self.crates[name]) / "format").is_file()]
        if missing:
            raise NotProved(f"rt ci has not built {missing[0]} here: run rt ci first")

    def check(self, crate, changed, asked, kept):
        """Checks a copy of the crate in which these files are changed: the functions asked for, over the contracts of all
        others but those kept, or with none asked for the whole crate."""
        copy = self.folder / "changed" / crate.name
        shutil.rmtree(copy, ignore_errors=True)
        copy_parts(crate.folder, copy)
        write_all(copy, changed)
        only = [word for it in sorted(asked) for word in ("--only", it)]
        if only:
            cut_others(crate, copy, {**crate.texts(), **changed}, kept)
            only.append("--allow-holes")
        return Report(self.run(copy, *self.words(crate), *only)[1])

    def words(self, crate):
        """The prover's command for the crate, as rt ci gives it."""
        words = [str(self.kit / "bin/rattle"), "check", "--crate-name", crate.name]
        words.append("src/main.rt" if (crate.folder / "src/main.rt").is_file() else "src/lib.rt")
        of_kit = [it for it in crate.uses if it not in self.crates]
        for name in of_kit if "core" in of_kit else ["std", *of_kit]:
            words += ["--extern", f"{name}={self.kit}/rlibs/{name}.rlib"]
        words += ["-L", f"dependency={self.kit}/rlibs"]
        for name in filter(self.crates.get, crate.uses):
            words += ["--extern", f"{name}={library_of(self.crates[name])}"]
        for name in crate.below:
            words += ["-L", f"dependency={library_of(self.crates[name]).parent}"]
        words += ["--crate-type", "staticlib"] * (" staticlib" in crate.line.partition(":")[0])
        words += ["--antt-project", f"{self.kit}/rattle/logic/antt-project.json", "--logic-built", f"{self.kit}/logic_built"]
        return [*words, "--jobs", "1", "--progress", "--incremental", str(self.folder / "kept" / crate.name)]


def library_of(crate):
    """Where rt puts the library of a crate."""
    return crate.folder / "out/rlib" / f"{crate.name}.rlib"


def write_all(crate, changed):
    for path, text in changed.items():
        (crate / path).write_text(text, encoding="utf-8")


def copy_parts(crate, copy):
    for part in PARTS:
        if (crate / part).is_dir():
            shutil.copytree(crate / part, copy / part)


def copy_out(crate, copy, by, kinds=("rlib", "incremental")):
    """Copies what a proof left. A link will do, since rt and the prover never write into a file that is there."""
    for kind in kinds:
        if (crate / "out" / kind).is_dir():
            shutil.copytree(crate / "out" / kind, copy / "out" / kind, copy_function=by)
