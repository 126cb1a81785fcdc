"""A change of root in which programs are asked over the files of a world."""

import ctypes
import os
import pickle
import re
import resource
import shutil
import signal
import struct
import subprocess
import time
from dataclasses import dataclass
from pathlib import Path

CAP_SYS_MODULE, PR_CAPBSET_DROP = 16, 24
SECONDS = 10
# What the stage has of its own. All else is a world's.
OWN = (b"run-by", b"lib64", b"out")
PLACES = {"modprobe": b"/run-by/modprobe", "ours": b"/run-by/gz-modprobe"}
STACKS = {PLACES["modprobe"]: 1 << 18, PLACES["ours"]: 1 << 23}


@dataclass(frozen=True)
class Link:
    """A symbolic link of a world."""

    target: bytes


FOLDER = None


@dataclass(frozen=True)
class Said:
    """How a program ended: its status (below zero: a signal), and its two outputs."""

    status: int
    output: bytes
    errors: bytes


def libraries(program):
    """The shared libraries of a program, the loader among them. None for a static one."""
    ran = subprocess.run(["ldd", program], capture_output=True, text=True)
    return re.findall(r"(/\S+) \(0x", ran.stdout)


def put(source, target):
    target.parent.mkdir(parents=True, exist_ok=True)
    if not target.exists():
        shutil.copyfile(os.path.realpath(source), target)
        target.chmod(0o755)


def write_files(root, files):
    """Writes a world's files below a root: bytes, a Link, or FOLDER for an empty folder."""
    for path, content in files.items():
        target = os.fsencode(root) + path
        os.makedirs(target if content is FOLDER else os.path.dirname(target), exist_ok=True)
        if isinstance(content, Link):
            os.symlink(content.target, target)
        elif content is not FOLDER:
            with open(target, "wb") as file:
                file.write(content)


class Stage:
    """A root with the two programs, and a process within that runs them. It cannot load a module."""

    def __init__(self, room, ours, theirs="/usr/sbin/modprobe"):
        self.root = Path(room)
        self.lib = self.root / "run-by/lib"
        for name, program in {"modprobe": theirs, "gz-modprobe": ours}.items():
            if program is None:
                continue
            put(program, self.root / "run-by" / name)
            for library in libraries(program):
                loader = library.startswith("/lib64/")
                put(library, self.root / library[1:] if loader else self.lib / Path(library).name)
        (self.root / "out").mkdir(exist_ok=True)
        self.pipes = os.pipe(), os.pipe()
        self.child = os.fork()
        if self.child == 0:
            try:
                self.serve()
            finally:
                os._exit(1)
        os.close(self.pipes[0][0])
        os.close(self.pipes[1][1])

    def serve(self):
        """Answers requests until there are no more."""
        os.close(self.pipes[0][1])
        os.close(self.pipes[1][0])
        libc = ctypes.CDLL(None, use_errno=True)
        if libc.prctl(PR_CAPBSET_DROP, CAP_SYS_MODULE, 0, 0, 0) != 0:
            raise OSError(ctypes.get_errno(), "the right to load modules stays")
        os.chroot(self.root)
        resource.setrlimit(resource.RLIMIT_CORE, (0, 0))
        while (request := receive(self.pipes[0][0])) is not None:
            send(self.pipes[1][1], run(*request))

    def ask(self, who, words, environment=(), folder=b"/", called=b"modprobe"):
        """How `modprobe` or `ours` ends with these words (bytes), which don't have the program's name. By its name kmod is
        another program too."""
        send(self.pipes[0][1], (PLACES[who], [called, *words], dict(environment), folder))
        return receive(self.pipes[1][0])

    def clear(self):
        """Takes the files of the last world away."""
        for name in os.listdir(os.fsencode(self.root)):
            path = os.path.join(os.fsencode(self.root), name)
            if name in OWN:
                continue
            if os.path.isdir(path) and not os.path.islink(path):
                shutil.rmtree(path)
            else:
                os.unlink(path)

    def close(self):
        os.close(self.pipes[0][1])
        os.kill(self.child, signal.SIGKILL)
        os.waitpid(self.child, 0)


def run(program, words, environment, folder):
    """Runs a program in the changed root."""
    os.chdir(folder)
    # (kmod can recurse until its stack ends: see faults.ENDLESS)
    stack = STACKS[program], resource.getrlimit(resource.RLIMIT_STACK)[1]
    resource.setrlimit(resource.RLIMIT_STACK, stack)
    # (this process has the limit too, and is asked so often that it would meet it itself)
    seconds = int(time.process_time()) + SECONDS
    resource.setrlimit(resource.RLIMIT_CPU, (seconds, resource.getrlimit(resource.RLIMIT_CPU)[1]))
    flags = os.O_WRONLY | os.O_CREAT | os.O_TRUNC
    actions = [
        (os.POSIX_SPAWN_OPEN, 0, b"/out/in", os.O_RDONLY | os.O_CREAT, 0o600),
        (os.POSIX_SPAWN_OPEN, 1, b"/out/output", flags, 0o600),
        (os.POSIX_SPAWN_OPEN, 2, b"/out/errors", flags, 0o600),
    ]
    environment = {b"LD_LIBRARY_PATH": b"/run-by/lib", **environment}
    child = os.posix_spawn(program, words, environment, file_actions=actions)
    status = os.waitstatus_to_exitcode(os.waitpid(child, 0)[1])
    return Said(status, *(Path(f"/out/{it}").read_bytes() for it in ("output", "errors")))


def send(pipe, value):
    content = pickle.dumps(value)
    content = struct.pack("<I", len(content)) + content
    while content:
        content = content[os.write(pipe, content) :]


def receive(pipe):
    size = read_all(pipe, 4)
    return None if size is None else pickle.loads(read_all(pipe, struct.unpack("<I", size)[0]))


def read_all(pipe, size):
    content = b""
    while len(content) < size:
        part = os.read(pipe, size - len(content))
        if not part:
            return None
        content += part
    return content
