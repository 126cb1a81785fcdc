"""The queries of kmod's own test-suite, by its source: what its tests of modprobe ask, and what they want."""

import os
import re
import shutil
from dataclasses import dataclass
from pathlib import Path

from .stage import write_files

FUNCTION = re.compile(r"static noreturn int (\w+)\((.*?)EXEC_MODPROBE\((.*?)\);", re.S)
FOLDER = re.compile(r'chdir\("([^"]+)"\)')
TEST = re.compile(r"DEFINE_TEST(?:_WITH_FUNC\((\w+),\s*(\w+)|\((\w+)),")
ROOT = re.compile(r'TC_ROOTFS\] = TESTSUITE_ROOTFS "([^"]+)"')
OUTPUT = re.compile(r'\.out = TESTSUITE_ROOTFS "([^"]+)"')
LOADED = re.compile(r'\.modules_loaded = "([^"]+)"')
# What gz-modprobe refuses (the files of modules are not read), and what runs a command.
LEFT_OUT = ("modprobe_show_exports", "modprobe_install_cmd_loop")
RELEASES = Path("lib/modules")


@dataclass(frozen=True)
class Test:
    """A test: its words, the root over which they are asked, the folder, and the output or the modules that it wants."""

    name: str
    words: list
    root: Path
    folder: bytes
    output: Path | None
    loaded: list | None


def tests_of(source):
    """The tests that ask, or load by names."""
    text = (source / "testsuite/test-modprobe.c").read_text()
    roots = source / "testsuite/rootfs-pristine"
    words = {name: re.findall(r'"([^"]*)"', it) for name, _, it in FUNCTION.findall(text)}
    folders = {name: FOLDER.search(it) for name, it, _ in FUNCTION.findall(text)}
    heads = list(TEST.finditer(text))
    for head, after in zip(heads, [it.start() for it in heads[1:]] + [len(text)]):
        block, name = text[head.start() : after], head[1] or head[3]
        output, loaded = OUTPUT.search(block), LOADED.search(block)
        if name not in LEFT_OUT and (output or loaded):
            root = roots / ROOT.search(block)[1]
            wanted = roots / output[1] if output else None
            function = head[2] or head[3]
            folder = folders[function][1].encode() if folders[function] else b"/"
            yield Test(name, words[function], root, folder, wanted, loaded[1].split(",") if loaded else None)


def modules_of(output):
    """The modules of insmod lines; one may stand there twice."""
    return {it.split()[1].rsplit("/", 1)[-1].split(".")[0] for it in output.decode("latin1").splitlines() if it.startswith("insmod ")}


def passes(judge, test):
    """Whether gz-modprobe answers as a test wants."""
    releases = test.root / RELEASES
    release = sorted(it.name for it in releases.iterdir())[0] if releases.is_dir() else "4.4.4"
    words = [it.encode() for it in ["-S", release, *test.words]]
    if test.output:
        return judge.ours(words, folder=test.folder).output == test.output.read_bytes()
    return modules_of(judge.ours([b"-n", b"-v", *words], folder=test.folder).output) == set(test.loaded)


def add_file(stage, test):
    """Writes the file that a path names, empty: the suite compiles its modules."""
    word = test.words[-1].encode()
    if word.startswith((b"/", b"./")):
        path = os.path.join(test.folder, word)
        write_files(stage.root, {path: b""})


def ask(judge, stage, source):
    """Asks each test, and prints how many pass."""
    passed, failed = 0, []
    for test in tests_of(Path(source)):
        stage.clear()
        shutil.copytree(test.root, stage.root, symlinks=True, dirs_exist_ok=True)
        add_file(stage, test)
        if passes(judge, test):
            passed += 1
        else:
            failed.append(test.name)
    for name in failed:
        print(f"kmod's test {name} fails")
    print(f"kmod {judge.version}, its test-suite: {passed} pass, {len(failed)} fail", flush=True)
    return 1 if failed else 0
