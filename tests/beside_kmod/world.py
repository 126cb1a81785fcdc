"""Random folders of modules with their configuration, states and words for queries."""

import lzma
import os
import random
import re
from dataclasses import dataclass, field

from .config import Writer
from .elf import module_file
from .stage import FOLDER, Link

STEMS = b"a b snd snd-pcm snd_timer snd-hda-intel e1000e crc32c-intel dm-mod dm_crypt md4 cmac usb-storage uas x_ -y Q".split()
STEMS += b"i2c-i801 ext4".split()
SIGNS = rb"pci:v00008086d0000*sv* usb:v1D6Bp*d* acpi*:PNP0C0A:* fs-ext4 char-major-10-* of:N*T*Cx-y crypto-md4 net-pf-?".split()
SIGNS += rb"[ab]* dev[0-9]-x [!a] x-[a-c-]y * a] q[ e\*e ? [[:alpha:]]z net-pf-[1-3]-*".split()
SETS = {b"[ab]": b"a", b"[0-9]": b"7", b"[!a]": b"w", b"[a-c-]": b"-", b"[1-3]": b"2", b"[[:alpha:]]": b"k"}
FOLDERS = (b"kernel/drivers/net", b"kernel/fs", b"kernel", b"updates", b"extra", b"kernel/sound/pci/hda")
CONFIGURED = (b"/etc/modprobe.d", b"/run/modprobe.d", b"/usr/local/lib/modprobe.d", b"/lib/modprobe.d", b"/usr/lib/modprobe.d")
FILES = (b"a.conf", b"b.conf", b"blacklist.conf", b"modules.conf", b"modules.softdep.conf", b"n.conf", b"m.alias", b"Z.conf", "é.conf".encode(), b"dist.conf")
ODD_FILES = (b"\xe9.conf", b".hidden.conf", b".h.alias", b".alias", b"x.aliases", b"x.conf~", b".conf", b"x.con", b"x", b"modules.softdep", b"c.conf.conf")


@dataclass
class World:
    """Files below a root, the release, and words that queries may use."""

    files: dict = field(default_factory=dict)
    version: bytes = b"6.1.0"
    words: list = field(default_factory=list)
    modules: list = field(default_factory=list)

    @property
    def folder(self):
        return b"/lib/modules/" + self.version


def spelled(dice, name):
    """A name as people may write it: with - or _."""
    return bytes(dice.choice(b"-_") if it in b"-_" and dice.random() < 0.3 else it for it in name)


def concrete(dice, pattern):
    """A text that the pattern may match."""
    for it, text in SETS.items():
        pattern = pattern.replace(it, text)
    stars = (b"", b"0", b"x-y", b"168")
    return b"".join(dice.choice(stars) if it == 42 else b"z" if it == 63 else bytes([it]) for it in pattern)


def concrete_text(pattern):
    """One text that the pattern matches: no byte for *, one byte for ? and [..]."""
    return re.sub(rb"\[(!?)(.)[^]]*\]", lambda it: b"~" if it[1] else it[2], pattern.replace(b"*", b"")).replace(b"?", b"x")


class Maker:
    """Makes one world from a seed."""

    def __init__(self, seed):
        self.dice = random.Random(seed)
        self.world = World()

    def chance(self, often):
        return self.dice.random() < often

    def some(self, values, most):
        return self.dice.sample(values, min(len(values), self.dice.randrange(most + 1)))

    def make(self):
        dice, world = self.dice, self.world
        world.version = dice.choice((b"6.1.0", b"6.1.0", b"6.1.0-50-amd64", b"6.12-rc1+"))
        world.modules = dice.sample(STEMS, dice.randrange(1, 11))
        if self.chance(0.1):
            world.modules.append(spelled(dice, dice.choice(world.modules)))
        # (a built-in that is a module too: there kmod's answer depends on the order in which it met them)
        self.builtins = [it for it in self.some(STEMS, 4) if it not in world.modules]
        self.known = world.modules + self.builtins + [dice.choice(STEMS), b"nothing"]
        self.write_modules()
        self.write_builtins()
        self.write_configuration()
        self.write_machine()
        self.write_paths()
        world.words += [b"nothing", b"", b"a/b", b"./a.ko", b"a]", b"a[", b"[a-c]", b"symbol:", b"symbol:no"]
        return world

    def write_modules(self):
        """The modules: each may need symbols of those before it, so that there is no cycle."""
        dice, world = self.dice, self.world
        dense = dice.choice((0, 0.2, 0.6))
        normal = [it.replace(b"-", b"_") for it in world.modules]
        for at, name in enumerate(world.modules):
            needs = [b"of_" + it for it in normal[:at] if it not in normal[at:] and self.chance(dense)]
            info = [b"license=GPL"]
            info += [b"alias=" + it for it in self.signs(2)]
            if self.chance(0.3):
                info.append(b"softdep=" + Writer(self.dice, self.known).soft_items(0.05))
            exports = [b"of_" + normal[at]]
            file = name + dice.choice((b".ko",) * 12 + (b".x.ko", b".ko.xz"))
            content = module_file(info, exports, needs + self.some((b"printk",), 1))
            path = world.folder + b"/" + dice.choice(FOLDERS) + b"/" + file
            world.files[path] = lzma.compress(content) if file.endswith(b".xz") else content
            world.words += [spelled(dice, name)] * 3 + [b"symbol:" + exports[0]]

    def write_paths(self):
        """Files of modules elsewhere. Their paths, those of the folder's own files, and odd ones are words of queries."""
        dice, world = self.dice, self.world
        own = [path for path in world.files if path.startswith(world.folder) and b".ko" in path]
        for name in self.some(self.known, 3):
            file = b"/home/" + spelled(dice, name) + dice.choice((b".ko", b".ko.xz", b"", b".x.ko"))
            world.files[file] = b""
            own.append(file)
        odd = [b"/own", b"/own.d/", b"./", b"/", b"/home/no.ko", b"/own/one.conf/x", b"./.", b"home/a.ko", b"../a.ko"]
        words = self.some(own, 3) + self.some(odd, 1)
        world.words += [b"." + it if it.startswith(b"/") and self.chance(0.4) else it for it in words]

    def signs(self, most):
        """Aliases of a module, and texts that they match become words of queries."""
        found = [it if self.chance(0.8) else spelled(self.dice, self.dice.choice(self.known)) for it in self.some(SIGNS, most)]
        found = [it for it in found if it != b"*" or self.chance(0.1)]
        self.world.words += [concrete(self.dice, it) for it in found]
        return found

    def write_builtins(self):
        dice, world = self.dice, self.world
        has_names = self.chance(0.85)
        if has_names:
            world.files[world.folder + b"/modules.builtin"] = b"".join(dice.choice(FOLDERS) + b"/" + it + b".ko\n" for it in self.builtins)
        # (without modules.builtin kmod reads its tables in another way, and turns the order of equal aliases)
        if has_names and self.chance(0.8):
            entries = []
            for name in self.builtins:
                entries += [name.replace(b"-", b"_") + b".alias=" + it for it in self.signs(2)] + [name + b".license=GPL"]
            if self.chance(0.1):
                entries += [b"odd", b".alias=x", b"a.alias", b"a.alias=", b"a.b.alias=c", b"b.parm=x:y"]
            world.files[world.folder + b"/modules.builtin.modinfo"] = b"".join(it + b"\0" for it in entries)
        world.words += [spelled(dice, it) for it in self.builtins]

    def write_configuration(self):
        """Folders with files that shadow each other, and what -C may name."""
        dice, world = self.dice, self.world
        writer = Writer(dice, self.known)
        for folder in CONFIGURED:
            if self.chance(0.3):
                continue
            if self.chance(0.03):
                world.files[folder] = self.dice.choice((Link(b"/own.d"), writer.text(3)))
                continue
            names = self.some(FILES, 3) + (self.some(ODD_FILES, 2) if self.chance(0.3) else [])
            for name in names:
                world.files[folder + b"/" + name] = self.file_of(writer, folder, name)
        if self.chance(0.4):
            world.files[world.folder + b"/modules.weakdep"] = self.weakdeps(writer)
        world.files[b"/own/one.conf"] = writer.text(6)
        world.files[b"/own.d/b.conf"] = writer.text(4)
        world.files[b"/own.d/a"] = writer.text(2)
        world.words += [concrete(dice, it) for it in writer.named] + [concrete(dice, spelled(dice, it)) for it in writer.named]

    def weakdeps(self, writer):
        """A text as depmod writes modules.weakdep, which kmod 30 has not, and now and then other lines."""
        lines = [b"weakdep %b %b\n" % (self.dice.choice(self.known), writer.weak_items()) for _ in range(self.dice.randrange(4))]
        return b"# Weak dependencies extracted from modules themselves.\n" + b"".join(lines) + (writer.text(2) if self.chance(0.1) else b"")

    def file_of(self, writer, folder, name):
        """Mostly a text. Else a link to nothing, to another file, or a folder in the place of a file."""
        odd = self.dice.random()
        if odd < 0.04:
            return Link(b"/dev/null")
        # (gz-modprobe opens no file whose name is no UTF-8, and a link's target would have to be left out with it)
        if odd < 0.05 and name.decode(errors="replace").encode() == name:
            return Link(self.dice.choice((b"/own/one.conf", b"missing", b"a.conf")))
        if odd < 0.06:
            return FOLDER
        return writer.text(self.dice.choice((1, 3, 8)))

    def write_others(self):
        """Now and then more names than fit into what is read of a folder at once, as real machines have them."""
        if self.chance(0.3):
            for number in range(self.dice.randrange(200)):
                self.world.files[b"/sys/module/other_%d/parameters/x" % number] = b"1\n"
        folder = self.dice.choice(CONFIGURED)
        if self.chance(0.2) and not isinstance(self.world.files.get(folder), (bytes, Link)):
            for number in range(self.dice.randrange(100)):
                self.world.files[folder + b"/other-%d.conf" % number] = b"options other x=%d\n" % number

    def write_machine(self):
        """What the kernel says: the release, its command line, the modules that are loaded."""
        dice, world = self.dice, self.world
        world.files[b"/dev/null"] = b""
        world.files[b"/proc/sys/kernel/osrelease"] = os.uname().release.encode() + b"\n"
        if self.chance(0.7):
            before = dice.choice((b"", b"", b"", b"", b"z" * 4060 + b" "))
            world.files[b"/proc/cmdline"] = before + Writer(dice, self.known).command_line()
        self.write_others()
        loaded = dice.choice((0, 0.3, 0.9))
        for name in world.modules + self.builtins + [b"nothing"]:
            if self.chance(loaded):
                folder = b"/sys/module/" + name.replace(b"-", b"_")
                state = dice.choice((b"live\n",) * 12 + (b"coming\n", b"going\n", b"live", b"odd\n", b"", b"builtin\n", None))
                if state is None or self.chance(0.03):
                    world.files[folder + b"/parameters/x"] = b"1\n"
                if state is not None:
                    world.files[folder + b"/initstate"] = state
                if self.chance(0.9):
                    world.files[folder + b"/refcnt"] = dice.choice((b"0\n",) * 6 + (b"1\n", b"3\n", b"-1\n", b"0", b"", b"x\n"))
