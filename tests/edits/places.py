"""Must-fail edits: their texts, and the functions whose bodies they change."""

import re
from dataclasses import dataclass, field
from pathlib import Path

PARTS = ("src", "specs", "proofs")
FUNCTION_HEAD = re.compile(r'( {4})?(?:pub(?:\([a-z]+\))? )?(?:const )?(?:unsafe )?(?:extern "C" )?fn (\w+)')
IMPL_HEAD = re.compile(r"impl(?P<any><.*?>)? (?:(?P<trait>.+) for )?(?P<type>\w+)(?:<(?P<one>[A-Z]\w*)>)?")


class BadEdit(Exception):
    """An edit that cannot be applied, or whose function cannot be told."""


@dataclass
class Crate:
    """A crate's folder, its line of crates.txt, what it uses, and the libraries of the repository below it, lowest first."""

    name: str
    line: str
    uses: list
    folder: Path
    below: list = field(default_factory=list)

    def texts(self):
        """The texts of the crate, by their paths."""
        files = [file for part in PARTS for file in (self.folder / part).rglob("*") if file.is_file()]
        return {file.relative_to(self.folder).as_posix(): file.read_text(encoding="utf-8") for file in files}


@dataclass(frozen=True)
class Pair:
    """A text of one file, and what stands in its place."""

    path: str
    old: str
    new: str

    def is_import(self):
        return self.old.startswith("use ") and self.new.startswith("use ")


@dataclass
class Edit:
    """An edit, and the full paths of the functions that it changes. It has none if it changes anything else."""

    label: str
    pairs: list
    functions: frozenset = frozenset()


def crates_of(root):
    """The crates of crates.txt, by name."""
    crates = {}
    for line in (root / "crates.txt").read_text(encoding="utf-8").splitlines():
        if line.strip() and not line.startswith("#"):
            head, _, uses = line.partition(":")
            name = head.split()[0]
            crates[name] = Crate(name, line, uses.split(), root / "crates" / name)
    below = {name: all_below(crates, name) for name in crates}
    for name, crate in crates.items():
        crate.below = sorted(below[name], key=lambda it: len(below[it]))
    return crates


def all_below(crates, name):
    uses = {it for it in crates[name].uses if it in crates}
    return uses.union(*(all_below(crates, it) for it in uses))


def read_edit(crate, texts, file):
    """Reads an edit of the crate, and finds its functions."""
    edit = Edit(f"{crate.name}/{file.stem}", pairs_of(file.read_text(encoding="utf-8")))
    changed = applied_in_turn(texts, edit)
    pairs = [it for it in edit.pairs if not it.is_import()]
    if all(texts[it.path].count(it.old) == 1 for it in edit.pairs) and applied_together(texts, [edit]) == changed:
        functions = [function_at(crate, texts, it.path, texts[it.path].index(it.old)) for it in pairs]
        edit.functions = frozenset(functions if all(functions) else ())
    return edit


def pairs_of(text):
    pairs, path, old = [], "", ""
    for line in text.splitlines():
        word, _, rest = line.partition(":")
        if word == "file":
            path = rest.strip()
        elif word == "old":
            old = rest[1:]
        elif word == "new":
            pairs.append(Pair(path, old, rest[1:]))
    return pairs


def applied_in_turn(texts, edit):
    """The files that the edit changes, each pair applied to what the earlier ones made."""
    changed = {}
    for pair in edit.pairs:
        text = changed.get(pair.path, texts.get(pair.path, ""))
        times = text.count(pair.old) if pair.old else 0
        if times != 1:
            raise BadEdit(f"an 'old:' text is in {pair.path} {times} times, and not once")
        changed[pair.path] = text.replace(pair.old, pair.new)
    if not changed:
        raise BadEdit("it has no 'old:' and 'new:' pair")
    return changed


def applied_together(texts, edits):
    """The files that the edits change, each pair applied at its place in the unchanged text."""
    changed = {}
    pairs = [pair for edit in edits for pair in edit.pairs]
    for pair in sorted(pairs, key=lambda it: texts[it.path].index(it.old), reverse=True):
        at = texts[pair.path].index(pair.old)
        text = changed.get(pair.path, texts[pair.path])
        changed[pair.path] = text[:at] + pair.new + text[at + len(pair.old) :]
    return changed


def function_at(crate, texts, path, place):
    """The full path of the function whose body has this place, as the prover prints it, or None outside of bodies."""
    lines = texts[path].split("\n")
    row = texts[path].count("\n", 0, place)
    heads = [at for at in range(row + 1) if FUNCTION_HEAD.match(lines[at])]
    if not path.startswith("src/") or not heads:
        return None
    start, end = body_of(lines, heads[-1])
    if not start <= row <= end:
        return None
    indent, name = FUNCTION_HEAD.match(lines[heads[-1]]).groups()
    if not indent:
        return f"{module_of(crate, path)}::{name}"
    block = next(lines[at] for at in range(heads[-1], -1, -1) if re.match(r"\w", lines[at]))
    return f"{owner_of(crate, texts, path, block)}::{name}"


def body_of(lines, head):
    """The first and the last line of the body of the function whose head stands there, in the layout of rt fmt."""
    indent = re.match(" *", lines[head])[0]
    opens = re.compile(indent + r"(?! ).*\{\}?")
    start = next((at for at in range(head, len(lines)) if opens.fullmatch(lines[at])), len(lines))
    if start < len(lines) and lines[start].endswith("{}"):
        return start, start
    return start, next((at for at in range(start, len(lines)) if lines[at] == indent + "}"), -1)


def module_of(crate, path):
    """The module that a file of src holds."""
    parts = Path(path).with_suffix("").parts[1:]
    return "::".join([crate.name, *(part for part in parts if part not in ("lib", "main", "mod"))])


def owner_of(crate, texts, path, block):
    """The full path of an impl block: of its type, or where the block stands, of its type and its trait in one word."""
    found = IMPL_HEAD.match(block)
    if not found:
        raise BadEdit(f"{path}: no impl block begins with {block!r}")
    if found["trait"]:
        return f"{module_of(crate, path)}::{found['type']}{trait_word(found['trait'])}"
    if found["one"] and not found["any"]:
        # (an impl of one kind of a generic type, as NamedLines<TextLine>)
        return f"{module_of(crate, path)}::{found['type']}+{found['one']}"
    declares = re.compile(rf"(?m)^(?:pub(?:\([a-z]+\))? )?(?:struct|enum|union) {found['type']}\b")
    homes = [it for it, text in texts.items() if it.startswith("src/") and declares.search(text)]
    home = [path] if path in homes else homes
    if len(home) != 1:
        raise BadEdit(f"{path}: {len(home)} files declare the type {found['type']}")
    return f"{module_of(crate, home[0])}::{found['type']}"


def trait_word(trait):
    """A trait and its arguments in one word, as FromAllocFailed for From<AllocFailed<T>>."""
    name, _, arguments = trait.rpartition("::")[2].partition("<")
    return name + "".join(re.findall(r"\w+", arguments.partition("<")[0]))
