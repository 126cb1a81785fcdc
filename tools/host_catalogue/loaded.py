"""The sizes of modules that are loaded."""

import re
from pathlib import Path

from .elf import Unreadable
from .format import SIZES
from .modules import Module
from .report import Refusal
from .unpack import text_in


def set_loaded_sizes(modules: dict[str, Module], path: Path) -> None:
    """Gives the modules that stand in /proc/modules the sizes that stand there."""
    try:
        lines = text_in(path).splitlines()
    except Unreadable as why:
        raise Refusal(f"{path}: {why}") from why
    for number, line in enumerate(lines, 1):
        said = re.match(r"(\S+) ([0-9]{1,10}) ", line)
        if not said or int(said[2]) > SIZES:
            raise Refusal(f"{path}: line {number} describes no module")
        if said[1] in modules:
            modules[said[1]].size = int(said[2])
