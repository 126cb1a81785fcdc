"""What a catalogue can hold."""

import re
from dataclasses import dataclass


SIZES = 2**32 - 1
# The bytes of a symbol or of another word, at most: every reader takes a line of that length.
LONGEST = 1000


@dataclass(frozen=True)
class Format:
    """A version of the catalogue: how many modules it holds, whether it says where it ends, and its word for each type of the
    kernel's."""

    version: int
    modules: int
    has_end: bool
    kinds: dict[str, str]


# The standard types of include/linux/moduleparam.h. There are arrays of all but charp.
SCALARS = ["byte", "short", "ushort", "int", "uint", "long", "ulong", "ullong", "hexint", "bool", "bint", "invbool"]
WORDS = {it: it for it in [*SCALARS, "charp"]} | {f"array of {it}": f"{it}[]" for it in SCALARS}
FORMATS = {
    2: Format(version=2, modules=1024, has_end=False, kinds={it: it for it in ("int", "bool", "charp")}),
    3: Format(version=3, modules=65535, has_end=True, kinds=WORDS),
}
NEWEST = FORMATS[3]


def is_name(name: str) -> bool:
    """Whether it can be the name of a module or of a parameter."""
    return re.fullmatch(r"[A-Za-z0-9_-]{1,55}", name) is not None


def is_symbol(symbol: str) -> bool:
    """Whether it can be a word of a line."""
    return re.fullmatch(rf"[^\x00-\x20\x7f]{{1,{LONGEST}}}", symbol) is not None


def normal(name: str) -> str:
    """The name with _ for each -."""
    return name.replace("-", "_")
