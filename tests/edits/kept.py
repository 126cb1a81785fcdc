"""Which edits of the gate earlier runs on this machine refused, by the sums of all that a try reads."""

import contextlib
import hashlib
import os
import tempfile
import time
from pathlib import Path

from edits.places import PARTS
from edits.room import library_of

DAYS = 30
STORE = Path(os.environ.get("XDG_CACHE_HOME") or Path.home() / ".cache") / "gourzhiel-edits"


class Kept:
    """The lines with which a crate's edits were refused, as long as nothing that they were tried over has changed."""

    def __init__(self, root, crates, kit):
        self.root, self.crates = root, crates
        self.always = [kit / "KIT-ID", root / "tests/more_edits", *sorted((root / "tests/edits").glob("*.py"))]

    def file(self, crate, edits):
        """Where the lines of a crate with these files of edits are kept, over the libraries that stand below it now."""
        folders = [crate.folder / part for part in PARTS] + [library_of(self.crates[name]) for name in crate.below]
        texts = sorted(file for folder in folders for file in folder.rglob("*") if file.is_file())
        sums = hashlib.sha256(crate.line.encode())
        for file in [*self.always, *edits, *texts]:
            path = file.relative_to(self.root) if file.is_relative_to(self.root) else file.name
            sums.update(f"{path} {hashlib.sha256(file.read_bytes()).hexdigest()}\n".encode())
        return STORE / f"{crate.name}-{sums.hexdigest()}"

    def lines(self, file):
        """The lines of an earlier run, or none."""
        try:
            return file.read_text(encoding="utf-8").splitlines()
        except OSError:
            return []

    def keep(self, file, lines):
        """Keeps the lines for some days, in a file that is whole or not there. If that cannot be done, the next run tries the
        edits again."""
        with contextlib.suppress(OSError):
            STORE.mkdir(mode=0o700, parents=True, exist_ok=True)
            with tempfile.NamedTemporaryFile("w", dir=STORE, delete=False, encoding="utf-8") as it:
                it.write("".join(f"{line}\n" for line in lines))
            os.replace(it.name, file)
            for old in STORE.iterdir():
                if old.stat().st_mtime < time.time() - DAYS * 86400:
                    old.unlink()
