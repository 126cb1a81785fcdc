"""Whether the header, src/numbers.rt and specs/Numbers.antt give each number one meaning. From 40 on a number is the header's
alone: the exports of the crate answer none, and its inline functions do."""

import re
import sys
from pathlib import Path

CRATE = Path(__file__).resolve().parent.parent.parent / "crates/gourzhiel"
FIRST_OF_HEADER = 40


def upper(name):
    return re.sub(r"(?<!^)([A-Z])", r"_\1", name).upper()


def main():
    header = dict(re.findall(r"^ {4}GZ_(\w+) = (\d+)", (CRATE / "include/gourzhiel.h").read_text(), re.M))
    code = dict(re.findall(r"^pub const (\w+): u32 = (\d+);", (CRATE / "src/numbers.rt").read_text(), re.M))
    specs = (CRATE / "specs/Numbers.antt").read_text()
    meant = {upper(name): number for number, name in re.findall(r"number == (\d+) then Some \(?(?:state\.)?([A-Z]\w+)", specs)}
    faults = {"bad": "BAD_LINE", "too_many": "TOO_MANY_MODULES"}
    for number, name in re.findall(r"number == (\d+) then Some ([a-z]\w+)(?!\.)\b(?!\.)", specs):
        meant[faults.get(name, name.upper())] = number
    meant |= {name.upper(): number for name, number in re.findall(r"^([a-z_]+) = (\d+)$", specs, re.M)}
    own = {name: number for name, number in header.items() if int(number) >= FIRST_OF_HEADER}
    if not own or any(int(number) >= FIRST_OF_HEADER for number in [*code.values(), *meant.values()]):
        sys.exit(f"from {FIRST_OF_HEADER} on the header has {own}, and the code or the definitions have some too")
    for name in sorted((header.keys() - own) | code.keys() | meant.keys()):
        found = {header.get(name), code.get(name), meant.get(name)}
        if len(found) != 1:
            sys.exit(f"{name}: header {header.get(name)}, code {code.get(name)}, definitions {meant.get(name)}")
    if len(set(header.values())) != len(header):
        sys.exit("a number stands twice")
    print(f"{len(header)} numbers")


if __name__ == "__main__":
    main()
