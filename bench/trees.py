"""Measures sessions of modsh over all modules of a kernel: reading, a tour through all, and look-ups of devices."""
import os
import pathlib
import shutil
import subprocess
import tempfile
import time

TOP = pathlib.Path(__file__).resolve().parent.parent
MODSH = TOP / "crates/modsh/out/modsh"
DEVICES = TOP / "bench/coldplug.modalias"
NAMES = ("coldplug", "tree")
TURNS = 20


class Missing(Exception):
    """Why there is nothing to measure."""


def build():
    ran = subprocess.run(["rt", "run"], cwd=TOP / "crates/modsh", stdin=subprocess.DEVNULL, capture_output=True)
    if not MODSH.exists():
        raise Missing(f"modsh was not built: {ran.stderr.decode()[-200:]}")


class Tree:
    """The modules of a release: their folder, their catalogue, and the words by which modsh reads them."""

    def __init__(self, root, release, room):
        self.folder = root / "lib/modules" / release
        self.catalogue = room / "catalogue"
        with open(self.catalogue, "wb") as out:
            words = [TOP / "tools/host-catalogue", "--root", root, "--release", release]
            ran = subprocess.run(words, stdout=out, stderr=subprocess.PIPE, text=True)
        if ran.returncode:
            raise Missing(ran.stderr.split("\n")[0])
        kinds = (("alias", "modules.alias"), ("dep", "modules.dep"), ("conf", "modules.softdep"))
        there = [(kind, self.folder / file) for kind, file in kinds if (self.folder / file).exists()]
        self.words = [f"catalogue={self.catalogue}", *(f"{kind}={path}" for kind, path in there)]

    def names(self):
        lines = self.catalogue.read_text().splitlines()
        return [line.split()[1] for line in lines if line.startswith("module ")]

    def run(self, commands):
        """How many nanoseconds a session of these commands takes, and how many KiB of memory."""
        with tempfile.TemporaryFile() as session:
            session.write("".join(f"{it}\n" for it in ("%session", *commands)).encode())
            session.seek(0)
            begin = time.monotonic_ns()
            child = subprocess.Popen([MODSH, *self.words], stdin=session, stdout=subprocess.DEVNULL)
            _, status, used = os.wait4(child.pid, 0)
            child.returncode = status
            if status:
                raise Missing(f"modsh ended with {status}")
            return time.monotonic_ns() - begin, used.ru_maxrss


def tour(names):
    """Loads every module in turn, lists them, and removes all that can go."""
    loads, removals = ([f"modprobe {it}" for it in names], [f"modprobe -r {it}" for it in reversed(names)])
    return [*loads, "lsmod", "proc", *removals]


def tree_round(tree):
    """The figures of a round of `tree`."""
    reading, _ = tree.run([])
    whole, memory = tree.run(tour(tree.names()))
    figures = {("tree_read", "us"): reading / 1000, ("tree_session", "us"): (whole - reading) / 1000}
    return figures | {("tree_memory", "KiB"): memory}, {}


def libkmod_figure(tree, room):
    """What the C program beside this says, nothing if it cannot be built or run."""
    program = room / "coldplug"
    build = [os.environ.get("CC", "cc"), "-O2", "-Wall", "-o", program, TOP / "bench/coldplug.c", "-lkmod"]
    if not program.exists() and subprocess.run(build, capture_output=True).returncode:
        return {}
    with open(DEVICES) as devices:
        ran = subprocess.run([program, tree.folder, str(TURNS)], stdin=devices, capture_output=True, text=True)
    if ran.returncode:
        return {}
    name, value, unit = ran.stdout.split("\n")[0].split()
    return {(name, unit): float(value)}


def coldplug_round(tree, room):
    """The figures of a round of `coldplug`, and those of libkmod."""
    texts = DEVICES.read_text().split()
    reading, _ = tree.run([])
    whole, _ = tree.run([f"plan {it}" for it in texts] * TURNS)
    each = (whole - reading) / (TURNS * len(texts))
    return {("coldplug", "ns"): each}, libkmod_figure(tree, room)


def rounds_of(name, rounds, root, release):
    """For each round our figures and those of the baselines."""
    build()
    room = pathlib.Path(tempfile.mkdtemp(prefix="tree-"))
    try:
        tree = Tree(root, release, room)
        for _ in range(rounds):
            yield tree_round(tree) if name == "tree" else coldplug_round(tree, room)
    finally:
        shutil.rmtree(room)
