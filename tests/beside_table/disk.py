"""A disk that may lose what was not synced: it follows a program's calls, and says what a power cut may leave of a folder."""

import os.path
import re
from dataclasses import dataclass, field

CALL = re.compile(r"^(\w+)\((.*)\) += (-?\d+)")
# What strace(1) shows: each call with a path or a descriptor.
CALLS = "%file,%desc"
# Calls that change nothing of what files and folders hold, nor the place in a file.
HARMLESS = set("execve access faccessat2 stat lstat fstat newfstatat statx readlink chmod fchmod lchown fchown".split())
HARMLESS |= set("fchownat flock pread64 getdents64 fadvise64".split())


class Unfollowed(Exception):
    """A call that changes the folder, or may, and is not followed here."""


def strings(arguments):
    """The texts of a call's arguments, as strace -xx writes them."""
    return [bytes.fromhex(it.replace("\\x", "")) for it in re.findall(r'"((?:\\x[0-9a-f]{2})*)"', arguments)]


@dataclass
class File:
    """What the disk has of a file for sure, what a reader sees, and the changes in between: a place and bytes, or a length."""

    kept: bytes = b""
    seen: bytes = b""
    pending: list = field(default_factory=list)

    def change(self, change):
        self.pending.append(change)
        self.seen = changed(self.seen, change)

    def sync(self):
        self.kept, self.pending = self.seen, []

    def left(self, rng):
        """What a power cut may leave: of each change all, nothing, or a part."""
        content = self.kept
        for place, data in self.pending:
            how = rng.randrange(4)
            if how == 0:
                continue
            if data is not None and how == 1:
                data = data[: rng.randrange(len(data) + 1)]
            if data is not None and how == 2:
                cut = rng.randrange(len(data) + 1)
                place, data = place + cut, data[cut:]
            content = changed(content, (place, data))
        return content


def changed(content, change):
    place, data = change
    if data is None:
        return content[:place].ljust(place, b"\0")
    return content.ljust(place, b"\0")[:place] + data + content[place + len(data) :]


@dataclass
class Folder:
    """What has a name in a folder, what had it when the names were synced last, and what changed since. A power cut leaves of
    each change all or nothing."""

    names: dict = field(default_factory=dict)
    kept: dict = field(default_factory=dict)
    changes: list = field(default_factory=list)

    def put(self, change):
        """Gives names to files or folders, or to none, all at once."""
        self.changes.append(change)
        self.names |= change

    def sync(self):
        self.kept, self.changes = dict(self.names), []

    def left(self, rng):
        """What a power cut may leave, by its names."""
        chosen = dict(self.kept)
        for change in self.changes:
            chosen |= change if rng.randrange(2) else {}
        return {name: what.left(rng) for name, what in chosen.items() if what is not None}


class Disk:
    """One folder, with its files, in the folder above it, of which nothing else is followed."""

    def __init__(self, folder, files=None, unsynced=None):
        """The folder is not there, or it is, with these files, all on the disk. Syncs of the name `unsynced` are not followed."""
        self.folder, self.above, self.open, self.unsynced = str(folder), Folder(), {}, unsynced
        if files is not None:
            own = Folder({name: File(content, content) for name, content in files.items()})
            own.sync()
            self.above.put({os.path.basename(folder): own})
            self.above.sync()

    def place_of(self, path):
        """The folder that a path's last name stands in, and that name; None if it is not followed."""
        path = os.path.abspath(path.decode())
        above, name = os.path.split(path)
        if path == self.folder:
            return self.above, name
        if above == self.folder:
            return self.above.names.get(os.path.basename(above)), name
        return None

    def follow(self, line):
        """One line of strace. Returns the bytes that were written to standard output by it."""
        if line.startswith(("---", "+++")):
            return b""
        call = CALL.match(line)
        if not call:
            raise Unfollowed(line)
        name, arguments, result = call[1], call[2], int(call[3])
        if result < 0 or name in HARMLESS:
            return b""
        texts = strings(arguments)
        if name == "write" and arguments.startswith("1,"):
            return texts[0][:result]
        if how := getattr(self, f"at_{name}", None):
            how(arguments, texts, result)
        elif any(map(self.place_of, texts)) or any(int(it) in self.open for it in re.findall(r"\b\d+\b", arguments)):
            raise Unfollowed(line)
        return b""

    def at_openat(self, arguments, texts, descriptor):
        if not arguments.startswith("AT_FDCWD,"):
            raise Unfollowed(f"openat({arguments})")
        if os.path.abspath(texts[0].decode()) == os.path.dirname(self.folder):
            self.open[descriptor] = [self.above, 0, "above"]
            return
        place = self.place_of(texts[0])
        if place is None:
            return
        folder, name = place
        if folder.names.get(name) is None:
            folder.put({name: File()})
        what = folder.names[name]
        if "O_TRUNC" in arguments and what.seen:
            what.change((0, None))
        self.open[descriptor] = [what, len(what.seen) if "O_APPEND" in arguments else 0, name]

    def at_close(self, arguments, _, __):
        self.open.pop(int(arguments), None)

    def at_mkdir(self, _, texts, __):
        if place := self.place_of(texts[0]):
            place[0].put({place[1]: Folder()})

    def at_rename(self, _, texts, __):
        places = [self.place_of(it) for it in texts]
        if None in places:
            raise Unfollowed(f"rename({texts})")
        (folder, source), (target_folder, target) = places
        if target_folder is not folder:
            raise Unfollowed(f"rename({texts})")
        folder.put({target: folder.names[source], source: None})

    def at_unlink(self, _, texts, __):
        if place := self.place_of(texts[0]):
            place[0].put({place[1]: None})

    def at_fsync(self, arguments, _, __):
        opened = self.open.get(int(arguments))
        if opened and opened[2] != self.unsynced:
            opened[0].sync()

    at_fdatasync = at_fsync

    def at_lseek(self, arguments, _, result):
        if opened := self.open.get(int(arguments.split(",")[0])):
            opened[1] = result

    def at_read(self, arguments, _, result):
        if opened := self.open.get(int(arguments.split(",")[0])):
            opened[1] += result

    def at_write(self, arguments, texts, result):
        if opened := self.open.get(int(arguments.split(",")[0])):
            opened[0].change((opened[1], texts[0][:result]))
            opened[1] += result

    def at_ftruncate(self, arguments, _, __):
        descriptor, length = arguments.split(", ")
        if opened := self.open.get(int(descriptor)):
            opened[0].change((int(length), None))

    def left(self, rng):
        """The files that a power cut may leave in the folder, by their names; None if it leaves no folder."""
        return self.above.left(rng).get(os.path.basename(self.folder))

    def content(self, name):
        """What a reader sees of a file in the folder; nothing if it is not there."""
        file = self.above.names[os.path.basename(self.folder)].names.get(name)
        return file.seen if file else b""
