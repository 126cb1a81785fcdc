"""All that can be asked over the folder of a whole kernel package."""

import os
import sys
from pathlib import Path

from .judge import files_below
from .world import CONFIGURED, concrete_text

FLAGS = ([b"-D"], [b"-D", b"-b"], [b"-n", b"-v", b"-i"], [b"-R", b"-q"])
SEVERAL = 1000


def normal(path):
    return path.rsplit(b"/", 1)[-1].split(b".", 1)[0].replace(b"-", b"_")


def names_of(folder):
    """The modules, the built-ins and one text for each alias of a folder of modules."""
    modules = [normal(it.split(b":")[0]) for it in (folder / "modules.dep").read_bytes().splitlines()]
    builtins = [normal(it) for it in (folder / "modules.builtin").read_bytes().splitlines()]
    aliases = [it.split()[1] for it in (folder / "modules.alias").read_bytes().splitlines() if it.startswith(b"alias ")]
    for entry in (folder / "modules.builtin.modinfo").read_bytes().split(b"\0"):
        name, _, value = entry.partition(b"=")
        aliases += [value] if name.endswith(b".alias") else []
    symbols = [it.split()[1] for it in (folder / "modules.symbols").read_bytes().splitlines()[1::50]]
    return list(dict.fromkeys(modules + builtins + [concrete_text(it) for it in aliases] + symbols))


def files_of(root, version):
    """The files of the tree. Of a module only its name counts, so it is empty."""
    place = f"/lib/modules/{version}"
    folder = Path(f"{root}{place}")
    files = {b"/dev/null": b"", b"/proc/cmdline": b"root=/dev/sda1 quiet\n"}
    for file in folder.glob("modules.*"):
        files[os.fsencode(f"{place}/{file.name}")] = file.read_bytes()
    for line in (folder / "modules.dep").read_bytes().splitlines():
        files[os.fsencode(place) + b"/" + line.split(b":")[0]] = b""
    return files


def configuration(root):
    files = {}
    for it in CONFIGURED:
        folder = os.fsencode(root) + it
        files.update({it + path: content for path, content in files_below(folder).items()} if os.path.isdir(folder) else {})
    return files


def compare_all(judge, flags, names):
    """Asks for many names at once, and for each alone if the answers differ."""
    for at in range(0, len(names), SEVERAL):
        part = names[at : at + SEVERAL]
        if judge.alike([*flags, b"-a", b"--", *part]):
            judge.same += len(part)
        else:
            for name in part:
                judge.compare([*flags, b"--", name])


def ask(judge, stage, how):
    """Asks over the tree, with four sets of options, without its configuration and with it."""
    root, version = how.tree
    folder = Path(root, "lib/modules", version)
    if not (folder / "modules.dep.bin").is_file():
        print(f"tests/kmod: {folder} has no modules.dep.bin: run depmod -b {root} {version}", file=sys.stderr)
        raise SystemExit(2)
    names = names_of(folder)[:: how.every]
    for settings in ({}, configuration(root)):
        judge.enter(f"{version} with {len(settings)} files of configuration", {**files_of(root, version), **settings})
        for flags in FLAGS:
            compare_all(judge, [b"-S", os.fsencode(version), *flags], names)
            print(f"{judge.name}, {b' '.join(flags).decode()}: {len(names)} names", flush=True)
