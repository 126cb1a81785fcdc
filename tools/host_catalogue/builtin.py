"""The modules that are built into the kernel of a release."""

import re
from pathlib import Path

from .elf import Unreadable
from .folders import Reading
from .format import is_name
from .modules import Module, add_entry, name_of
from .report import Notes, Refusal
from .unpack import text_in


def builtin_names(path: Path) -> list[str]:
    """The names in modules.builtin, which has a path on each line."""
    names = [name_of(line) for line in text_in(path).splitlines()]
    for number, name in enumerate(names, 1):
        if not is_name(name):
            raise Unreadable(f"line {number} names no module")
    return sorted(set(names))


def add_builtin_info(modules: dict[str, Module], path: Path) -> None:
    """Adds the entries of modules.builtin.modinfo, as `ext4.parmtype=name:int`. Kernels before 5.2 have none."""
    if not path.exists():
        return
    for entry in re.finditer(r"([^.\0]+)\.([^=\0]+)=([^\0]*)", text_in(path)):
        module = modules.get(name_of(entry[1]))
        if module:
            add_entry(module, entry[2], entry[3])


def builtins(folder: Path) -> dict[str, Module]:
    """The modules that are built into the kernel. They are live from the beginning, so what they need is there."""
    path = folder / "modules.builtin"
    try:
        modules = {it: Module(it, 0, is_permanent=True, is_builtin=True) for it in builtin_names(path)}
        path = folder / "modules.builtin.modinfo"
        add_builtin_info(modules, path)
    except Unreadable as why:
        raise Refusal(f"{path}: {why}") from why
    return modules


def add_builtins(reading: Reading, folder: Path, notes: Notes) -> None:
    """Adds the modules that are built in and have no file."""
    for name, module in builtins(folder).items():
        if reading.modules.setdefault(name, module) is not module:
            notes.add("built-in modules of which there is a file", name)
    reading.modules = dict(sorted(reading.modules.items()))
