"""The table from Python, by ctypes: table.py [libgourzhiel.so]"""

import ctypes
import sys
from ctypes import POINTER, Structure, byref, c_bool, c_char_p, c_size_t, c_uint32, c_void_p

TEXT = b"module snd\nexports snd_card_new\nmodule snd-pcm\nneeds snd_card_new\n"

(DONE, NOT_LIVE, NEED_NOT_LIVE, NEEDED_BY, IN_USE, YES, NO, LIVE, OUT_OF_RANGE) = (0, 1, 6, 9, 11, 13, 14, 18, 33)


class Handle(Structure):
    """Empty, or full: a pointer that only the library reads."""

    _fields_ = [("at", c_void_p)]


class Library:
    """The library's calls. Each takes a handle's place, and those that free take the handle itself."""

    def __init__(self, path):
        self.calls = ctypes.CDLL(path)
        size, number, handle = c_size_t, c_uint32, POINTER(Handle)
        self.declare("gz_catalogue_read", number, c_char_p, size, handle, POINTER(size))
        self.declare("gz_catalogue_slot", number, handle, c_char_p, size, POINTER(size))
        self.declare("gz_table_new", number, handle, handle, handle, size, handle, size)
        self.declare("gz_leaf_get", number, handle, size, c_uint32)
        self.declare("gz_leaf_put", number, handle, size)
        self.declare("gz_reader_in_use", number, handle, size)
        self.declare("gz_book_begin_load", number, handle, size, POINTER(size))
        self.declare("gz_book_end_load", number, handle, size, c_bool)
        self.declare("gz_book_begin_remove", number, handle, size)
        self.declare("gz_book_end_remove", number, handle, size)
        self.declare("gz_book_state", number, handle, size)
        for kind in ("catalogue", "leaf", "reader", "book"):
            self.declare(f"gz_{kind}_free", None, Handle)

    def declare(self, name, result, *arguments):
        call = getattr(self.calls, name)
        call.restype, call.argtypes = result, arguments

    def call(self, name, handle, *arguments):
        return getattr(self.calls, f"gz_{name}")(byref(handle), *arguments)


def expect(what, number, wanted):
    print(f"{what}: {number}")
    if number != wanted:
        sys.exit(f"{what} answered {number}, and not {wanted}")


def main():
    gz = Library(sys.argv[1] if len(sys.argv) > 1 else "libgourzhiel.so")
    catalogue, book, reader = Handle(), Handle(), Handle()
    leaves, line, slot = (Handle * 2)(), c_size_t(), c_size_t()
    expect("read", gz.calls.gz_catalogue_read(TEXT, len(TEXT), byref(catalogue), byref(line)), DONE)
    expect("slot of snd_pcm", gz.call("catalogue_slot", catalogue, b"snd_pcm", 7, byref(slot)), DONE)
    pcm, snd = slot.value, 0
    made = gz.calls.gz_table_new(byref(catalogue), byref(book), leaves, 2, byref(reader), 1)
    expect("new", made, DONE)
    leaf = leaves[0]
    expect("get of an absent module", gz.call("leaf_get", leaf, snd, 1), NOT_LIVE)
    expect("load of snd_pcm", gz.call("book_begin_load", book, pcm, byref(slot)), NEED_NOT_LIVE)
    expect("what it needs", slot.value, snd)
    for module in (snd, pcm):
        expect("load", gz.call("book_begin_load", book, module, byref(slot)), DONE)
        expect("its end", gz.call("book_end_load", book, module, True), DONE)
    expect("state", gz.call("book_state", book, pcm), LIVE)
    expect("get", gz.call("leaf_get", leaf, pcm, 1), DONE)
    expect("in use", gz.call("reader_in_use", reader, pcm), YES)
    expect("removal of a module in use", gz.call("book_begin_remove", book, pcm), IN_USE)
    expect("removal of a module that is needed", gz.call("book_begin_remove", book, snd), NEEDED_BY)
    expect("put", gz.call("leaf_put", leaf, pcm), DONE)
    expect("in use", gz.call("reader_in_use", reader, pcm), NO)
    for module in (pcm, snd):
        expect("removal", gz.call("book_begin_remove", book, module), DONE)
        expect("its end", gz.call("book_end_remove", book, module), DONE)
    expect("get outside", gz.call("leaf_get", leaf, 2, 1), OUT_OF_RANGE)
    for kind, handles in (("leaf", leaves), ("reader", [reader]), ("book", [book]), ("catalogue", [catalogue])):
        for handle in handles:
            getattr(gz.calls, f"gz_{kind}_free")(handle)


if __name__ == "__main__":
    main()
