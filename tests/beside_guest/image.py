"""A guest: an initramfs with programs, texts and modules, which qemu boots."""

import gzip
import os
import shutil
import subprocess
from pathlib import Path

from beside_kmod.stage import libraries


def missing(root, version, programs):
    """What is not there, or None."""
    if shutil.which("qemu-system-x86_64") is None:
        return "qemu is missing: apt-get install qemu-system-x86"
    if shutil.which("busybox") is None or libraries(shutil.which("busybox")):
        return "a static busybox is missing: apt-get install busybox-static"
    for it in (root / f"boot/vmlinuz-{version}", root / f"lib/modules/{version}/modules.dep", *programs):
        if not it.exists():
            return f"{it} is missing"
    return None


def cpio(files):
    """An archive of pairs of a name and its mode and content, in the form newc."""
    out = b""
    for number, (name, (mode, content)) in enumerate([*files.items(), ("TRAILER!!!", (0, b""))], 1):
        fields = [number, mode, 0, 0, 1, 0, len(content), 0, 0, 0, 0, len(name) + 1, 0]
        head = b"070701" + b"".join(b"%08X" % it for it in fields) + name.encode() + b"\0"
        out += head + b"\0" * (-len(head) % 4) + content + b"\0" * (-len(content) % 4)
    return out


class Image:
    """What a guest's initramfs has: busybox under the names of some tools, and what is added."""

    def __init__(self, tools):
        self.files = {}
        for path in ("proc", "sys", "dev", "tmp", "run", "mnt"):
            self.files[path] = (0o40755, b"")
        self.add("bin/busybox", Path(shutil.which("busybox")).read_bytes(), 0o100755)
        for tool in tools:
            self.add(f"bin/{tool}", b"busybox", 0o120777)

    def add(self, path, content, mode=0o100644):
        for at in range(1, path.count("/") + 1):
            self.files.setdefault("/".join(path.split("/")[:at]), (0o40755, b""))
        self.files[path] = (mode, content)

    def add_program(self, path, file):
        """A program, and the libraries that it is linked with."""
        self.add(path, Path(file).read_bytes(), 0o100755)
        for library in libraries(file):
            self.add(library[1:], Path(os.path.realpath(library)).read_bytes(), 0o100755)

    def boot(self, room, kernel, command_line, seconds, disk=None):
        """What the guest says, line by line. It ends by itself, or after so many seconds. It may have a disk."""
        image = Path(room, "initramfs")
        image.write_bytes(gzip.compress(cpio(self.files), 1))
        words = ["qemu-system-x86_64", "-smp", "2", "-m", "1024", "-cpu", "max"]
        words += ["-nographic", "-no-reboot", "-nodefaults", "-serial", "stdio", "-kernel", kernel, "-initrd", image]
        words += ["-drive", f"file={disk},if=virtio,format=raw"] if disk else []
        # (on a busy machine the kernel's test of its timer may fail)
        words += ["-append", f"{command_line} no_timer_check"]
        try:
            ran = subprocess.run(words, stdin=subprocess.DEVNULL, capture_output=True, timeout=seconds)
            said, late = ran.stdout + ran.stderr, []
        except subprocess.TimeoutExpired as slow:
            said, late = slow.stdout or b"", [f"ended after {seconds} seconds"]
        return said.decode(errors="replace").replace("\r", "").splitlines() + late


def parts(lines):
    """What the guest says, by the marks before it."""
    found, title = {}, None
    for line in lines:
        if line.startswith("== "):
            title = line[3:]
            found[title] = []
        elif title is not None:
            found[title].append(line)
    return found
