"""Relocatable ELF files: their sections, symbols and strings."""

import re
import struct
from collections.abc import Iterator
from dataclasses import dataclass
from typing import Union

from .report import TEXT

# What is read of a file, at most. Modules of Linux have some hundred sections, thousands of symbols, 100 KiB of names.
SECTIONS = 100_000
SYMBOLS = 1_000_000
LETTERS = 4 * 2**20


class Unreadable(Exception):
    """Why a file is no module."""


@dataclass(frozen=True)
class Layout:
    """The fields that are read, in the letters of struct.

    header: type; place, size and number of the section headers; number of the section with their names
    section: name, kind, flags, place, size, link
    symbol: name, section
    """

    header: str
    section: str
    symbol: str


LAYOUTS = {1: Layout("16xH14xI10xHHH", "III4xIII12x", "I10xH"), 2: Layout("16xH22xQ10xHHH", "IIQ8xQQI20x", "I2xH16x")}
BYTE_ORDERS = {1: "<", 2: ">"}
RELOCATABLE = 1
SYMBOL_TABLE = 2
WITHOUT_BYTES = (0, 8)
ALLOCATED = 2
NUMBER_ELSEWHERE = 0xFFFF
DAMAGED = "damaged or cut short"
TOO_MUCH = f"more than {LETTERS // 2**20} MiB of names and strings"
PART = re.compile(rb"[^\0]+")
Content = Union[bytes, bytearray]


@dataclass(frozen=True)
class Section:
    """A section, by its header."""

    name_at: int
    kind: int
    flags: int
    at: int
    size: int
    link: int

    @property
    def room(self) -> int:
        """How many bytes of the file it takes."""
        return 0 if self.kind in WITHOUT_BYTES else self.size


@dataclass(frozen=True)
class Symbol:
    """A symbol with its name. One that another file has to define is open."""

    name: str
    is_open: bool


class Names:
    """A section of names, each with a zero byte after it. A name is known by where it begins."""

    def __init__(self, content: Content, section: Section):
        self.content = content
        self.start = section.at
        self.last = content.rfind(b"\0", section.at, section.at + section.room)

    def begins(self, at: int, beginnings: tuple[bytes, ...]) -> bool:
        """Whether a name begins in one of these ways. With a zero byte at its end a beginning is a whole name."""
        if self.start + at > self.last:
            raise Unreadable(DAMAGED)
        return self.content.startswith(beginnings, self.start + at)

    def name(self, at: int, longest: int) -> Content:
        """The name, if it is no longer."""
        begin = self.start + at
        end = self.content.find(b"\0", begin, begin + longest + 1)
        if end < 0:
            raise Unreadable(TOO_MUCH)
        return self.content[begin:end]


class Elf:
    """A relocatable file of 32 or 64 bits, in either order of bytes. Its sections all lie in it, and do not overlap."""

    def __init__(self, content: Content):
        if content[:4] != b"\x7fELF":
            raise Unreadable("no ELF file")
        self.content = content
        self.letters_left = LETTERS
        self.names_in: dict[int, Names] = {}
        try:
            self.read_headers()
        except (struct.error, IndexError) as cause:
            raise Unreadable(DAMAGED) from cause

    def read_headers(self) -> None:
        layout, order = LAYOUTS.get(self.content[4]), BYTE_ORDERS.get(self.content[5])
        if layout is None or order is None:
            raise Unreadable("an ELF file of no known form")
        self.symbol_form = struct.Struct(order + layout.symbol)
        form = struct.Struct(order + layout.section)
        kind, at, size, count, names = struct.unpack_from(order + layout.header, self.content)
        if kind != RELOCATABLE or size != form.size:
            raise Unreadable("an ELF file, and no module")
        # (numbers too large for the header stand in the first section's)
        first = Section(*form.unpack(self.content[at : at + size]))
        count = count or first.size
        if at + count * size > len(self.content):
            raise Unreadable(DAMAGED)
        end = at + at_most(count, SECTIONS, "sections") * size
        self.sections = self.sections_of(form.iter_unpack(self.content[at:end]))
        self.names = self.names_of(first.link if names == NUMBER_ELSEWHERE else names)

    def sections_of(self, headers: Iterator[tuple[int, ...]]) -> list[Section]:
        """The sections, which lie in the file and together take no more bytes than it has."""
        sections = [Section(*it) for it in headers]
        if any(it.at + it.room > len(self.content) for it in sections if it.room):
            raise Unreadable(DAMAGED)
        if sum(it.room for it in sections) > len(self.content):
            raise Unreadable("sections that overlap")
        return sections

    def names_of(self, number: int) -> Names:
        """The names in a section."""
        if number not in self.names_in:
            self.names_in[number] = Names(self.content, self.sections[number])
        return self.names_in[number]

    def read(self, letters: Content) -> str:
        """A text of these bytes. All that are read of a file are counted."""
        self.letters_left -= len(letters) + 1
        if self.letters_left < 0:
            raise Unreadable(TOO_MUCH)
        return letters.decode(*TEXT)

    def strings(self, name: str) -> Iterator[str]:
        """The strings of the sections of this name, without empty ones."""
        whole = (name.encode() + b"\0",)
        found = [it for it in self.sections if self.names.begins(it.name_at, whole)]
        if sum(it.room for it in found) > LETTERS:
            raise Unreadable(TOO_MUCH)
        for section in found:
            for part in PART.finditer(self.content, section.at, section.at + section.room):
                yield self.read(part.group())

    def symbols(self, beginnings: tuple[bytes, ...]) -> Iterator[Symbol]:
        """The open symbols that have names, and the others whose names begin so, in the order of the file."""
        tables = [it for it in self.sections if it.kind == SYMBOL_TABLE]
        at_most(sum(it.size // self.symbol_form.size for it in tables), SYMBOLS, "symbols")
        for table in tables:
            try:
                names = self.names_of(table.link)
                pairs = self.symbol_form.iter_unpack(memoryview(self.content)[table.at : table.at + table.size])
            except (struct.error, IndexError) as cause:
                raise Unreadable(DAMAGED) from cause
            for at, section in pairs:
                if at and (names.begins(at, beginnings) or section == 0):
                    yield Symbol(self.read(names.name(at, self.letters_left)), section == 0)

    def loaded_size(self) -> int:
        """The sum of the sections that are loaded."""
        return sum(it.size for it in self.sections if it.flags & ALLOCATED)


def at_most(count: int, limit: int, what: str) -> int:
    """The count, if it is within the limit."""
    if count > limit:
        raise Unreadable(f"{count} {what}, and at most {limit} are read")
    return count
