"""What files hold that may be compressed. What they take of memory and time is bounded."""

import lzma
import stat
import subprocess
import zlib
from collections.abc import Callable, Iterator
from contextlib import closing
from functools import partial
from pathlib import Path
from typing import BinaryIO, Union

from .elf import Unreadable
from .report import TEXT

MEBIBYTE = 2**20
# The second bounds the time: a file may have a stream or a block every dozen bytes.
UNPACKED = 256 * MEBIBYTE
PACKED = 48 * MEBIBYTE
TEXTS = 16 * MEBIBYTE
# What xz takes beside what it unpacks. Modules want some MiB, and `xz -9` 65.
MEMORY_OF_XZ = 128 * MEBIBYTE
STREAMS = 10_000
STEP = 2**17
WHY = "not to be unpacked"


class Gzip:
    """A stream of gzip, unpacked step by step."""

    def __init__(self) -> None:
        self.inner = zlib.decompressobj(wbits=16 + zlib.MAX_WBITS)

    def step(self, packed: bytes) -> bytes:
        return self.inner.decompress(self.inner.unconsumed_tail + packed, STEP)

    @property
    def is_over(self) -> bool:
        return self.inner.eof

    @property
    def wants_more(self) -> bool:
        return not self.inner.unconsumed_tail

    def next_stream(self, file: BinaryIO) -> bytes:
        """How the next stream begins. Zeros may stand before it, or at the end."""
        rest = self.inner.unused_data.lstrip(b"\0")
        while not rest:
            more = file.read(STEP)
            if not more:
                break
            rest = more.lstrip(b"\0")
        return rest


class Xz:
    """A stream of xz, unpacked step by step."""

    BEGIN = b"\xfd7zXZ\0"

    def __init__(self) -> None:
        self.inner = lzma.LZMADecompressor(memlimit=MEMORY_OF_XZ)

    def step(self, packed: bytes) -> bytes:
        return self.inner.decompress(packed, STEP)

    @property
    def is_over(self) -> bool:
        return self.inner.eof

    @property
    def wants_more(self) -> bool:
        return self.inner.needs_input

    def next_stream(self, file: BinaryIO) -> bytes:
        """How the next stream begins. What is no stream ends the file."""
        rest = self.inner.unused_data
        if len(rest) < len(self.BEGIN):
            rest += file.read(STEP)
        return rest if rest.startswith(self.BEGIN) else b""


Stream = Union[Gzip, Xz]


def parts_of_stream(stream: Stream, packed: bytes, file: BinaryIO) -> Iterator[bytes]:
    """What a stream holds that begins with these bytes and goes on in the file."""
    while True:
        part = stream.step(packed)
        yield part
        if stream.is_over:
            return
        packed = file.read(STEP) if stream.wants_more else b""
        if stream.wants_more and not packed and not part:
            raise Unreadable(WHY)


def parts_of_streams(first: Callable[[], Stream], file: BinaryIO) -> Iterator[bytes]:
    """What the streams of a file hold, one after the other."""
    packed = file.read(STEP)
    for _ in range(STREAMS):
        stream = first()
        yield from parts_of_stream(stream, packed, file)
        packed = stream.next_stream(file)
        if not packed:
            return
    raise Unreadable(f"{WHY}: more than {STREAMS} streams")


def parts_by_zstd(file: BinaryIO) -> Iterator[bytes]:
    """What the command zstd unpacks. If no more of it is wanted it ends, since nobody reads it."""
    with subprocess.Popen(["zstd", "-dcq"], stdin=file, stdout=subprocess.PIPE, stderr=subprocess.DEVNULL) as zstd:
        yield from parts_of_file(zstd.stdout)
        if zstd.wait():
            raise Unreadable(WHY)


def parts_of_file(file: BinaryIO) -> Iterator[bytes]:
    yield from iter(lambda: file.read(STEP), b"")


UNPACK: dict[str, Callable[[BinaryIO], Iterator[bytes]]] = {
    ".ko": parts_of_file,
    ".gz": partial(parts_of_streams, Gzip),
    ".xz": partial(parts_of_streams, Xz),
    ".zst": parts_by_zstd,
}


def joined(parts: Iterator[bytes], limit: int) -> bytearray:
    content = bytearray()
    for part in parts:
        if len(content) + len(part) > limit:
            raise Unreadable(f"more than {limit // MEBIBYTE} MiB")
        content += part
    return content


def unpacked(path: Path) -> bytearray:
    """What a file of a module holds, of which the name says how it is compressed."""
    limit, sort = (UNPACKED, "") if path.suffix == ".ko" else (PACKED, " of packed bytes")
    try:
        found = path.stat()
        if not stat.S_ISREG(found.st_mode):
            raise Unreadable("no regular file")
        if found.st_size > limit:
            raise Unreadable(f"more than {limit // MEBIBYTE} MiB{sort}")
        with open(path, "rb") as file, closing(UNPACK[path.suffix](file)) as parts:
            return joined(parts, UNPACKED)
    except (lzma.LZMAError, zlib.error) as cause:
        is_of_memory = str(cause) == "Memory usage limit exceeded"
        raise Unreadable(f"{WHY} with {MEMORY_OF_XZ // MEBIBYTE} MiB" if is_of_memory else WHY) from cause
    except OSError as cause:
        raise Unreadable(cause.strerror or str(cause)) from cause


def text_in(path: Path) -> str:
    """A text beside the modules, or in /proc."""
    try:
        with open(path, "rb") as file:
            return joined(parts_of_file(file), TEXTS).decode(*TEXT)
    except OSError as cause:
        raise Unreadable(cause.strerror or str(cause)) from cause
