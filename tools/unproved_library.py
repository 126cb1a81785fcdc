#!/usr/bin/env python3
"""What tools/libgourzhiel --unproved makes of the crate's texts: a program that calls each function for C, which `rt try` builds,
and then of the program's module, as LLVM's text, one in which these functions are seen from outside and main is not.

unproved_library.py program CRATE    adds src/main.rt to the crate's copy, in the place of src/lib.rt
unproved_library.py module FILE      writes the file anew
"""

import re
import sys
from pathlib import Path

FUNCTION = re.compile(r'^#\[unsafe\(no_mangle\)\]\npub extern "C" fn (\w+)\(([^)]*)\)', re.M)
# (the call is compiled and never made, so its arguments come from a function that does not return)
MAIN = """
/// No value: it does not return.
fn made<T>() -> T {{
    made()
}}

fn main() {{
{calls}}}
"""


def make_program(crate):
    functions = [it for path in sorted(crate.glob("src/*.rt")) for it in FUNCTION.findall(path.read_text())]
    calls = ""
    for name, parameters in functions:
        count = sum(1 for it in parameters.split(",") if it.strip())
        calls += f"    {name}({', '.join(['made()'] * count)});\n"
    library = crate / "src/lib.rt"
    (crate / "src/main.rt").write_text(library.read_text() + MAIN.format(calls=calls))
    library.unlink()


def show_functions(file):
    text = file.read_text()
    for path, name in set(re.findall(r'@("gourzhiel::[\w:]*::(gz_\w+)")', text)):
        text = text.replace(f"@{path}", f"@{name}")
    text = re.sub(r"^define internal (.*@gz_)", r"define \1", text, flags=re.M)
    file.write_text(text.replace("define i32 @main(", "define internal i32 @main("))


def main():
    what, place = sys.argv[1:]
    {"program": make_program, "module": show_functions}[what](Path(place))


if __name__ == "__main__":
    main()
