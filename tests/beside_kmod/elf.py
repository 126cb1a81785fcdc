"""Small modules that depmod(8) accepts, written without a compiler: see elf(5)."""

import struct

HEADER = struct.Struct("<16sHHIQQQIHHHHHH")
SECTION = struct.Struct("<IIQQQQIIQQ")
SYMBOL = struct.Struct("<IBBHQQ")
PROGBITS, SYMTAB, STRTAB = 1, 2, 3
GLOBAL_FUNCTION, GLOBAL_UNTYPED = 0x12, 0x10


class Strings:
    """A table of texts with their places."""

    def __init__(self):
        self.content = b"\0"

    def place(self, text):
        at = len(self.content)
        self.content += text + b"\0"
        return at


def symbol_table(exports, needs, section):
    """The symbols of a module and their names: what it exports stands in a section, what it needs in none."""
    names, rows = Strings(), [SYMBOL.pack(0, 0, 0, 0, 0, 0)]
    for at, name in enumerate(exports):
        rows.append(SYMBOL.pack(names.place(name), GLOBAL_FUNCTION, 0, section, at, 1))
    for name in needs:
        rows.append(SYMBOL.pack(names.place(name), GLOBAL_UNTYPED, 0, 0, 0, 0))
    return b"".join(rows), names.content


def module_file(info=(), exports=(), needs=()):
    """A module with these entries of .modinfo, exported symbols and needed symbols, all bytes."""
    symbols, names = symbol_table(exports, needs, 2)
    parts = [
        (b"", 0, b"", 0, 0),
        (b".modinfo", PROGBITS, b"".join(it + b"\0" for it in info), 0, 0),
        (b"__ksymtab_strings", PROGBITS, b"".join(it + b"\0" for it in exports), 0, 0),
        (b".symtab", SYMTAB, symbols, 4, SYMBOL.size),
        (b".strtab", STRTAB, names, 0, 0),
    ]
    titles = Strings()
    places = [titles.place(it[0]) for it in parts] + [titles.place(b".shstrtab")]
    parts.append((b".shstrtab", STRTAB, titles.content, 0, 0))
    content, rows = b"", []
    for place, (_, kind, body, link, size) in zip(places, parts):
        at = HEADER.size + len(content)
        rows.append(SECTION.pack(place, kind, 0, 0, at, len(body), link, 1, 1, size))
        content += body + b"\0" * (-len(body) % 8)
    magic = b"\x7fELF\x02\x01\x01" + bytes(9)
    table, last = HEADER.size + len(content), len(parts) - 1
    header = HEADER.pack(magic, 1, 62, 1, 0, 0, table, 0, HEADER.size, 0, 0, SECTION.size, len(parts), last)
    return header + content + b"".join(rows)
