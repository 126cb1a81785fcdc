"""What the file of a module says of it."""

from dataclasses import dataclass, field
from pathlib import Path

from .elf import Content, Elf, Unreadable
from .format import LONGEST, SIZES, is_name, is_symbol, normal
from .unpack import unpacked

EXPORT = "__ksymtab_"
FUNCTIONS = ("init_module", "cleanup_module")
BEGINNINGS = (EXPORT.encode(), *(it.encode() + b"\0" for it in FUNCTIONS))
# Aliases, parameters or soft items of a module, at most. Modules of Linux have some 1,600, 90 and 12.
ENTRIES = 100_000


@dataclass
class Module:
    """What a file says of its module. A parameter is its name and its type, in the kernel's words."""

    name: str
    size: int
    exports: list[str] = field(default_factory=list)
    open_symbols: list[str] = field(default_factory=list)
    params: list[tuple[str, str]] = field(default_factory=list)
    aliases: list[str] = field(default_factory=list)
    soft_before: list[str] = field(default_factory=list)
    soft_after: list[str] = field(default_factory=list)
    is_permanent: bool = False
    is_builtin: bool = False


def module_of(name: str, content: Content) -> Module:
    """The module that an ELF file is."""
    elf = Elf(content)
    module = Module(name, elf.loaded_size())
    if module.size > SIZES:
        raise Unreadable(f"{module.size} bytes, and sizes in a catalogue end at {SIZES}")
    add_symbols(module, elf)
    add_info(module, elf)
    if not all(map(is_symbol, module.exports)):
        raise Unreadable("an exported symbol that a catalogue cannot hold")
    return module


def add_symbols(module: Module, elf: Elf) -> None:
    """Adds exports, what is left open, and whether the module is permanent."""
    exports, functions = [], set()
    for symbol in elf.symbols(BEGINNINGS):
        if symbol.is_open:
            # (on some machines a function is open under its name with a dot before it)
            module.open_symbols.append(symbol.name.removeprefix("."))
        elif symbol.name.startswith(EXPORT):
            exports.append(symbol.name.removeprefix(EXPORT))
        else:
            functions.add(symbol.name)
    # (if local symbols were stripped, the names are still there for the kernel)
    module.exports = list(dict.fromkeys(exports or elf.strings("__ksymtab_strings")))
    module.is_permanent = functions == {"init_module"}


def add_info(module: Module, elf: Elf) -> None:
    """Adds the entries of .modinfo. Of its soft dependencies the first entry counts, as with kmod."""
    is_first = True
    for entry in elf.strings(".modinfo"):
        key, _, value = entry.partition("=")
        if key != "softdep":
            add_entry(module, key, value)
        elif value and is_first:
            is_first = False
            add_soft_items(module, value.split())


def add_entry(module: Module, key: str, value: str) -> None:
    """Adds a parameter or an alias."""
    if key == "parmtype":
        name, _, kind = value.partition(":")
        module.params.append((name, kind))
    elif key == "alias":
        module.aliases.append(value)
    else:
        return
    if len(value) > LONGEST:
        raise Unreadable(f"more than {LONGEST} bytes in an entry of .modinfo: {value[:20]}...")
    if max(len(module.params), len(module.aliases)) > ENTRIES:
        raise Unreadable(f"more than {ENTRIES} parameters or aliases")


def add_soft_items(module: Module, words: list[str]) -> None:
    """Adds the words after `pre:` and `post:`. Words before either say nothing."""
    if len(words) > ENTRIES:
        raise Unreadable(f"more than {ENTRIES} soft dependencies")
    marks = {"pre:": module.soft_before, "post:": module.soft_after}
    items: list[str] = []
    for word in words:
        if len(word) > LONGEST:
            raise Unreadable(f"more than {LONGEST} bytes in a soft dependency: {word[:20]}...")
        if word in marks:
            items = marks[word]
        else:
            items.append(word)


def name_of(file: str) -> str:
    """The name of the module in a file: that of the file up to its first dot, with _ for each -."""
    return normal(file.rpartition("/")[2].partition(".")[0])


def read_module(name: str, path: Path) -> Module:
    """The module in a file, which may be compressed."""
    if not is_name(name):
        raise Unreadable("a name that a catalogue cannot hold")
    return module_of(name, unpacked(path))
