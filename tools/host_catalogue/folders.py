"""The modules of a release, and what cannot be read of them."""

import errno
import os
import re
import shutil
from collections.abc import Iterator
from dataclasses import dataclass, field
from pathlib import Path

from .elf import Unreadable
from .modules import Module, name_of, read_module
from .report import Notes, Progress, Refusal

# depmod(8) leaves these out, wherever they stand: they lead to the kernel's source.
LEFT_OUT = ("build", "source")
LONGEST_PATH = 400
NO_ZSTD = "the command zstd is not there"


@dataclass(frozen=True)
class Fault:
    """A file or a folder that cannot be read, and why. Of a file, the name of its module."""

    path: Path
    why: str
    name: str = ""

    def __str__(self) -> str:
        path = str(self.path)
        if len(path) > LONGEST_PATH:
            path = f"{path[: LONGEST_PATH // 2]}...{path[-LONGEST_PATH // 2 :]}"
        return f"{path}: {self.why}"


@dataclass
class Reading:
    """The modules by their names, in the order of the names, and the faults."""

    modules: dict[str, Module] = field(default_factory=dict)
    faults: list[Fault] = field(default_factory=list)


def lines_of(faults: list[Fault]) -> list[str]:
    """A line for each fault, but one alone for all files that want zstd."""
    first = next((it for it in faults if it.why == NO_ZSTD), None)
    return [str(it) for it in faults if it.why != NO_ZSTD or it is first]


def names_in(folder: Path) -> list[str]:
    """The names in a folder, none if it cannot be read."""
    try:
        return os.listdir(folder)
    except OSError:
        return []


def folder_of(root: Path, release: str) -> Path:
    """The folder of a release's modules."""
    folders = [root / it / release for it in ("lib/modules", "usr/lib/modules")]
    faults = []
    for folder in folders:
        try:
            os.listdir(folder)
            return folder
        except OSError as cause:
            faults.append(cause)
    fault = max(faults, key=lambda it: it.errno != errno.ENOENT)
    others = sorted({it for folder in folders for it in names_in(folder.parent)} - {release})
    there = f"; there are: {' '.join(others)}" if others else ""
    raise Refusal(f"{fault.filename}: {fault.strerror}{there}")


def is_folder(entry: os.DirEntry, is_followed: bool) -> bool:
    """Whether it is a folder, or with that a link to one."""
    try:
        return entry.is_dir(follow_symlinks=is_followed)
    except OSError:
        return False


def files_below(folder: Path, faults: list[Fault]) -> Iterator[Path]:
    """The files of modules below a folder, in no order. Folders that cannot be read are faults. No link is followed."""
    left = [str(folder)]
    while left:
        place = left.pop()
        try:
            with os.scandir(place) as found:
                entries = [it for it in found if it.name not in LEFT_OUT]
        except OSError as cause:
            faults.append(Fault(Path(place), cause.strerror or str(cause)))
            continue
        left += [it.path for it in entries if is_folder(it, is_followed=False)]
        files = (it for it in entries if re.search(r"\.ko(\.gz|\.xz|\.zst)?\Z", it.name))
        yield from (Path(it.path) for it in files if not is_folder(it, is_followed=True))


def files_by_name(folder: Path, reading: Reading, notes: Notes) -> dict[str, Path]:
    """The file of each module: the first one, where those of `updates` come first."""
    found = list(files_below(folder, reading.faults))
    reading.faults.sort(key=lambda it: it.path)
    files: dict[str, Path] = {}
    for path in sorted(found, key=lambda it: (it.relative_to(folder).parts[0] != "updates", it)):
        first = files.setdefault(name_of(path.name), path)
        if first is not path:
            notes.add("second files of a module", str(path))
    return files


def read_files(files: dict[str, Path], reading: Reading) -> None:
    """Reads the modules in these files. Each that is no module is a fault."""
    progress = Progress(len(files))
    is_zstd_there = shutil.which("zstd") is not None
    for done, (name, path) in enumerate(sorted(files.items()), 1):
        try:
            if path.suffix == ".zst" and not is_zstd_there:
                raise Unreadable(NO_ZSTD)
            reading.modules[name] = read_module(name, path)
        except Unreadable as why:
            reading.faults.append(Fault(path, str(why), name))
        except MemoryError:
            reading.faults.append(Fault(path, "out of memory", name))
        progress.show(done)
    progress.wipe()


def read_modules(folder: Path, may_lack: bool, notes: Notes) -> Reading:
    """The modules of a folder. Unless some may be lacking, each fault is a reason to refuse."""
    reading = Reading()
    files = files_by_name(folder, reading, notes)
    if may_lack or not reading.faults:
        read_files(files, reading)
    if reading.faults and not may_lack:
        raise Refusal(*lines_of(reading.faults))
    return reading
