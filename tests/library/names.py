"""Whether each call has one name, with one signature: names.py LIBRARY COMPILER.

The library's exports are the calls that the headers declare, which its sources define, and the inline functions of the headers.
They are the calls of gourzhiel(3), with the same parameters. Each other name of older headers is marked and tested. Those of
them that the library exported it still exports, with the parameters that they have there.
"""

import re
import subprocess
import sys
from pathlib import Path

HERE = Path(__file__).resolve().parent
CRATE = HERE.parent.parent / "crates/gourzhiel"
PAGE = HERE.parent.parent / "docs/man/gourzhiel.3"

# What the types of the sources are in C. Memory comes from malloc, so an export has no parameter for it.
TYPES = {
    "Global": [],
    "usize": ["size_t"],
    "u32": ["uint32_t"],
    "bool": ["bool"],
    "&mut usize": ["size_t *"],
    "&mut u32": ["uint32_t *"],
    "&[u8]": ["const void *", "size_t"],
    "&[usize]": ["const size_t *", "size_t"],
    "&mut [u8]": ["void *", "size_t"],
}
for kind in ("Catalogue", "Book", "Leaf", "Reader", "Caller", "Teller"):
    handle = f"gz_{kind.lower()}"
    TYPES |= {f"Gz{kind}": [handle], f"&mut Gz{kind}": [f"{handle} *"], f"&mut [Gz{kind}]": [f"{handle} *", "size_t"]}

RESULT = r"(gz_number|uint32_t|size_t|bool|void|const char \*) ?"


def texts(folder, pattern):
    return "\n".join(path.read_text() for path in sorted((CRATE / folder).glob(pattern)))


def signatures(pattern, text):
    """Of each function that a pattern finds its result, and its parameters with their names."""
    found = {}
    for result, name, words in re.findall(pattern, text, re.M):
        found[name] = (result.strip(), [] if words == "void" else [" ".join(word.split()) for word in words.split(",")])
    return found


def types_of(signature):
    result, parameters = signature
    return "uint32_t" if result == "gz_number" else result, [re.sub(r"\w+$", "", it).strip() for it in parameters]


def defined_in_sources():
    """The exports in the crate's sources, as C sees them: of each its result and the types of its parameters."""
    found = {}
    for name, words, result in re.findall(r'^pub extern "C" fn (gz_\w+)\((.*?)\)(?: -> (\w+))?$', texts("src", "*.rt"), re.M | re.S):
        types = [word.split(":", 1)[1].strip() for word in re.split(r",\s*", words) if ":" in word]
        found[name] = (TYPES[result][0] if result else "void", [it for word in types for it in TYPES[word]])
    return found


def manual():
    """The calls of the manual's synopsis, and the names of calls in its text."""
    synopsis, text = PAGE.read_text().split("\n.Sh DESCRIPTION\n")
    calls = {}
    for result, name, words in re.findall(r'^\.Ft "?(.*?)"?\n\.Fn (gz_\w+)(.*)$', synopsis, re.M):
        parameters = re.findall(r'"([^"]*)"', words)
        calls[name] = (result, [] if parameters == ["void"] else parameters)
    return calls, set(re.findall(r"^\.Fn (gz_\w+)$|^\.Fn (gz_\w+) ", text, re.M))


def answer(*words):
    done = subprocess.run(words, capture_output=True, text=True)
    if done.returncode:
        sys.exit(f"{' '.join(words)} ended with {done.returncode}:\n{done.stderr}")
    return done


def compare(one, other, found, wanted):
    """Ends if two lists of calls differ."""
    for name in sorted(found.keys() | wanted.keys()):
        if found.get(name) != wanted.get(name):
            sys.exit(f"{name}: {one} {found.get(name)}, {other} {wanted.get(name)}")


def main():
    library, compiler = sys.argv[1:]
    header = texts("include", "*.h")
    declared = signatures(rf"^{RESULT}(gz_\w+)\(([^{{}}]*?)\);", header)
    inline = signatures(rf"^GZ_INLINE {RESULT}(gz_\w+)\(([^{{}}]*?)\)\n\{{", header)
    by_hand = signatures(rf"^{RESULT}(gz_\w+)\(([^{{}}]*?)\)\n\{{", texts("inline", "*.c"))
    sources = defined_in_sources() | {name: types_of(it) for name, it in by_hand.items()}
    deprecated = texts("include", "gourzhiel_deprecated.h")
    marked = signatures(rf"^GZ_NOW\(\w+\) (?:static inline|GZ_INLINE) {RESULT}(gz_\w+)\(([^{{}}]*?)\)\n\{{", deprecated)
    kept = sources.keys() & marked.keys()
    compare("header", "source", {name: types_of(it) for name, it in (declared | {it: marked[it] for it in kept}).items()}, sources)
    kept |= set(re.findall(r"^GZ_NOW\(\w+\) GZ_INLINE \w+ (gz_\w+)\(", deprecated, re.M))
    calls, named = manual()
    compare("header", "gourzhiel.3", declared | inline, {name: it for name, it in calls.items() if name != "gz_work"})
    exported = set(re.findall(r" T (\w+)$", answer("nm", "-D", "--defined-only", library).stdout, re.M))
    if exported != set(declared | inline) | kept:
        sys.exit(f"exported or declared alone: {' '.join(sorted(exported ^ (set(declared | inline) | kept)))}")
    said = answer(compiler, "-fsyntax-only", f"-I{CRATE}/include", str(HERE / "deprecated.c")).stderr
    tested = set(re.findall(r"(gz_\w+)\W+ is deprecated: use gz_", said))
    if set(marked) != tested:
        sys.exit(f"not marked, or not tested: {' '.join(sorted(set(marked) ^ tested))}")
    unknown = {name for pair in named for name in pair if name} - exported - set(marked) - {"gz_work"}
    if unknown:
        sys.exit(f"gourzhiel.3 names what is not there: {' '.join(sorted(unknown))}")
    print(f"{len(calls) - 1} calls, {len(inline)} of them inline in C, {len(marked)} deprecated names, {len(kept)} of them exported")


if __name__ == "__main__":
    main()
