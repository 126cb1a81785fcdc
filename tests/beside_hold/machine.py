"""A machine that is played by a folder, for gz-hold."""

import os
import shutil
import signal
import subprocess
from pathlib import Path

TOP = Path(__file__).resolve().parents[2]
GZ_HOLD = TOP / "tools/gz-hold"
STAND_INS = TOP / "examples/stand_ins"
VERSION = "6.1.0"
DEPENDENCIES = """\
kernel/fs/overlay.ko:
kernel/net/llc.ko:
kernel/net/stp.ko: kernel/net/llc.ko
kernel/net/bridge.ko: kernel/net/stp.ko kernel/net/llc.ko
kernel/net/br-netfilter.ko: kernel/net/bridge.ko kernel/net/stp.ko kernel/net/llc.ko
kernel/drivers/loop.ko:
kernel/drivers/installed.ko:
kernel/drivers/soft.ko:
"""
ALIASES = "alias pci:v00001AF4d*sv* loop\nalias net-pf-26 llc\n"
BUILT_IN = "kernel/fs/ext4.ko\n"
MODULES = ["overlay", "llc", "stp", "bridge", "br_netfilter", "loop"]


def line_of(shell):
    """The line by which a shell runs gz-hold. That of busybox has its own insmod and rmmod: functions call the stand-ins there."""
    if "busybox" not in shell:
        return f'exec {" ".join(shell)} {GZ_HOLD} "$@"'
    functions = "".join(f'{name}() {{ {STAND_INS}/{name} "$@"; }}; ' for name in ("insmod", "rmmod"))
    return f"exec {' '.join(shell)} -c '{functions}. {GZ_HOLD}' gz-hold \"$@\""


class Machine:
    """A folder that plays a machine: the texts of its modules, its kernel's list, its table. A shell of these words runs gz-hold."""

    def __init__(self, room, programs, shell=("/bin/sh",)):
        self.room, self.modules, self.shell = room, room / "modules", shell
        # The machine's files, as words of gz-table create.
        self.origin = ["-S", VERSION, f"--root={room}"]
        room.mkdir()
        self.modules.write_text("")
        texts = room / f"lib/modules/{VERSION}"
        texts.mkdir(parents=True)
        for name, text in (("dep", DEPENDENCIES), ("alias", ALIASES), ("builtin", BUILT_IN), ("symbols", ""), ("softdep", ""), ("builtin.modinfo", "")):
            (texts / f"modules.{name}").write_text(text)
        (room / "etc/modprobe.d").mkdir(parents=True)
        (room / "etc/modprobe.d/some.conf").write_text("install installed /bin/true\nsoftdep soft pre: overlay\n")
        path = room / "path"
        path.mkdir()
        for name, program in programs.items():
            (path / name).symlink_to(program)
        self.script(path / "gz-hold", line_of(shell))
        # A command that has the name of one of gz-hold's own.
        self.script(path / "remove", "echo a command")
        self.surroundings = {
            "PATH": f"{path}:{STAND_INS}:{os.environ.get('PATH', os.defpath)}",
            "GZ_TABLE": str(room / "table"),
            "GZ_HOLD_MODULES": str(self.modules),
            "GZ_HOLD_ROOT": str(room),
            "MODPROBE_OPTIONS": f"--root={room} -S {VERSION}",
        }

    def script(self, path, text):
        path.write_text(f"#!/bin/sh\n{text}\n")
        path.chmod(0o755)

    def begin(self, *words, **how):
        return subprocess.Popen(words, stdin=subprocess.DEVNULL, stdout=subprocess.PIPE, text=True, env=self.surroundings, **how)

    def run(self, *words):
        """What a call writes, and its status."""
        process = self.begin(*words, stderr=subprocess.DEVNULL)
        output, _ = process.communicate(timeout=60)
        return output, process.returncode

    def call(self, *words, **how):
        """What a call writes, its status, and what it says as errors, line by line."""
        process = self.begin(*words, stderr=subprocess.PIPE, **how)
        output, errors = process.communicate(timeout=600)
        return output, process.returncode, errors.splitlines()

    def hold(self, words, wait=10):
        """The same of a call of gz-hold."""
        return self.call("env", f"GZ_HOLD_WAIT={wait}", "gz-hold", *(words.split() if isinstance(words, str) else words))

    def locks(self):
        """The names of the locks that there are."""
        return sorted(it.name for it in (self.room / "table/hold").glob("*"))

    def bans(self):
        """The files that keep others from modules, each with its text."""
        return {it.name: it.read_text() for it in (self.room / "run/modprobe.d").glob("gz-hold.*")}

    def anew(self):
        """Nothing is loaded or held."""
        for folder in ("table", "run"):
            shutil.rmtree(self.room / folder, ignore_errors=True)
        self.modules.write_text("")
        self.run("gz-table", "create", "--host", *self.origin)

    def kill_at(self, killers, at, when, words):
        """Makes a call that is killed at this place. False if it does not come there."""
        counter = self.room / "counter"
        counter.write_text("")
        surroundings = {**self.surroundings, "PATH": f"{killers}:{self.surroundings['PATH']}"}
        surroundings |= {"KILL_COUNT": str(counter), "KILL_AT": str(at), "KILL_WHEN": when}
        ran = subprocess.run(words.split(), env=surroundings, stdin=subprocess.DEVNULL, capture_output=True, start_new_session=True, timeout=60)
        return ran.returncode == -signal.SIGKILL

    def there(self):
        """The modules that are there, oldest first."""
        return [line.split()[0] for line in reversed(self.modules.read_text().splitlines())]
