"""What is said on standard error: refusals, progress, what is left out."""

import contextlib
import sys
from collections.abc import Iterator

PROGRAM = "host-catalogue"

# How names and strings are read and written, so that every byte stays as it is.
TEXT = ("utf-8", "surrogateescape")


class Refusal(Exception):
    """Why there is no catalogue, a line for each reason."""

    def __init__(self, *reasons: str):
        super().__init__(*reasons)
        self.reasons = reasons


class Notes:
    """What is left out: files, each with why, and the rest by its sort."""

    def __init__(self) -> None:
        self.files: list[str] = []
        self.found: dict[str, list[str]] = {}

    def add_file(self, path_and_why: str) -> None:
        self.files.append(path_and_why)

    def add(self, sort: str, which: str) -> None:
        self.found.setdefault(sort, []).append(which)

    def lines(self, is_in_full: bool) -> Iterator[str]:
        """A line for each file, for each sort how many there are, and in full which."""
        yield from (f"left out {it}" for it in self.files)
        for sort, which in sorted(self.found.items()):
            yield f"left out {sort}: {len(which)}"
            yield from (f"  {it}" for it in which if is_in_full)


class Progress:
    """How many files were read, if standard error is a terminal."""

    def __init__(self, total: int):
        self.total = total
        self.is_shown = sys.stderr is not None and sys.stderr.isatty()

    def show(self, done: int) -> None:
        if self.is_shown and (done % 50 == 0 or done == self.total):
            print(f"\r{PROGRAM}: {done} of {self.total} files", end="", file=sys.stderr, flush=True)

    def wipe(self) -> None:
        if self.is_shown:
            print("\r\033[K", end="", file=sys.stderr, flush=True)


def escaped(text: str) -> str:
    """The text with the bytes of each character that does not print, as \\x1b, so that no terminal obeys them."""
    if text.isprintable():
        return text
    return "".join(it if it.isprintable() else "".join(f"\\x{byte:02x}" for byte in it.encode(*TEXT)) for it in text)


def say(line: str) -> None:
    """Writes a line to standard error, if there is one."""
    if sys.stderr is not None:
        with contextlib.suppress(OSError):
            print(f"{PROGRAM}: {escaped(line)}", file=sys.stderr)
