"""A crate of which some functions stay as they are, and the others keep their contracts alone."""

import re
import shutil

from edits.places import FUNCTION_HEAD, BadEdit, body_of, function_at

PROOF = """use Rattle.{crate}.proofs.{module}.Statement.{{statement}}

pub {name}_spec : {{M : Type 1}} → statement M
{name}_spec = ?
"""


def cut_others(crate, folder, texts, kept):
    """Takes away the bodies and the proofs of the functions in the folder, a copy of the crate with these texts, but of those
    kept. Each has a hole for its proof, so that its callers are checked over its contract."""
    for path in (it for it in texts if it.startswith("src/")):
        lines = texts[path].split("\n")
        for start, end, name in reversed(list(bodies_in(crate, texts, path))):
            if name not in kept:
                lines[start + 1 : end] = [lines[end][:-1] + "    unreachable!()"]
                leave_hole(folder, *name.split("::"))
        (folder / path).write_text("\n".join(lines), encoding="utf-8")


def leave_hole(folder, crate, *path):
    proof = folder.joinpath("proofs", *path)
    shutil.rmtree(proof, ignore_errors=True)
    proof.mkdir(parents=True)
    text = PROOF.format(crate=crate, module=".".join(path), name=path[-1])
    (proof / "Proof.antt").write_text(text, encoding="utf-8")


def bodies_in(crate, texts, path):
    """The first and the last line, and the full path, of each function of a file that can be cut, in their order."""
    lines = texts[path].split("\n")
    for at, line in enumerate(lines):
        if not is_plain(lines, at):
            continue
        start, end = body_of(lines, at)
        name = end > start and name_at(crate, texts, path, lines, start)
        if name:
            yield start, end, name


def name_at(crate, texts, path, lines, row):
    try:
        return function_at(crate, texts, path, sum(len(it) + 1 for it in lines[: row + 1]))
    except BadEdit:
        return None


def is_plain(lines, at):
    """Whether a function with a body begins in this line, of a module or of an impl, that has no attribute that names its proof."""
    head = FUNCTION_HEAD.match(lines[at])
    if not head or "const fn" in lines[at] or "extern" in lines[at]:
        return False
    if "{" in lines[at] and not lines[at].endswith(("{", "{}")):
        # (an edit begins the body in the same line)
        return False
    above = at
    while lines[above - 1].strip().startswith(("#[", "///")):
        above -= 1
    if any(word in line for line in lines[above:at] for word in ("#[cycle", "#[test")):
        return False
    block = next(line for line in reversed(lines[: at + 1]) if re.match(r"\w", line)) if head[1] else ""
    # (the prover knows a drop by its type alone)
    return not block or block.startswith("impl") and " Drop for " not in block
