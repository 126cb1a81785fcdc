"""Which faults are a reason to refuse, if modules were named: those of files that the names reach."""

import re
from collections.abc import Iterable, Iterator
from pathlib import Path

from .elf import Unreadable
from .folders import Fault, Reading, lines_of
from .format import normal
from .modules import Module, name_of
from .report import Refusal
from .unpack import text_in


def refuse_unknown(names: Iterable[str], reading: Reading) -> None:
    """Refuses names of no module, and of modules whose files cannot be read."""
    faults = {it.name: it for it in reading.faults if it.name}
    unknown = [it for it in names if normal(it) not in reading.modules]
    if unknown:
        # (a folder that cannot be read may have them)
        folders = [str(it) for it in reading.faults if not it.name]
        raise Refusal(*(str(faults.get(normal(it), f"{it}: no module of this name")) for it in unknown), *folders)


def needed_paths(folder: Path, modules: Iterable[Module]) -> Iterator[Path]:
    """The files that modules need by modules.dep, if depmod(8) has written it."""
    names = {it.name for it in modules}
    try:
        lines = re.finditer(r"([^:\n]+):(.*)", text_in(folder / "modules.dep"))
        yield from (folder / path for line in lines if name_of(line[1]) in names for path in line[2].split())
    except Unreadable:
        return


def reached_faults(folder: Path, reading: Reading, modules: list[Module]) -> list[Fault]:
    """The faults of files that modules need by modules.dep, or name as soft dependencies."""
    if not reading.faults:
        return []
    paths = set(needed_paths(folder, modules))
    names = {name_of(it.name) for it in paths}
    names |= {normal(item) for module in modules for item in module.soft_before + module.soft_after}
    folders = {parent for path in paths for parent in path.parents}
    return [it for it in reading.faults if (it.name in names if it.name else it.path in folders)]


def refuse_reached(folder: Path, reading: Reading, modules: list[Module]) -> None:
    faults = reached_faults(folder, reading, modules)
    if faults:
        raise Refusal(*lines_of(faults))
