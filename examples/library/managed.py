"""Managed calls from Python threads, by ctypes: managed.py [libgourzhiel.so]

Each thread has a caller, and calls for whichever worker it is told. No thread owns a worker. One thread loads a plugin and
unloads it for real: only once nobody holds it, and before the table says that it is absent. At last a teller carries the
order of a removal to a get, which finds the module gone.
"""

import ctypes
import sys
from concurrent.futures import ThreadPoolExecutor
from ctypes import CFUNCTYPE, POINTER, Structure, byref, c_bool, c_char_p, c_int, c_size_t, c_uint32, c_uint64, c_void_p

TEXT = b"module snd\nexports snd_card_new\nmodule snd-pcm\nneeds snd_card_new\n"
SND, PCM, WORKERS, THREADS, JOBS = 0, 1, 2, 4, 400
SHORT, LONG = 20, 5000  # milliseconds
(DONE, NOT_LIVE, NOT_HELD, NEEDED_BY, ABSENT, TIMED_OUT, WORK_FAILED) = (0, 1, 3, 9, 16, 40, 41)

Work = CFUNCTYPE(c_bool, c_void_p, c_size_t)


class Handle(Structure):
    """Empty, or full: a pointer that only the library reads."""

    _fields_ = [("at", c_void_p)]


def declared(path):
    """The library, with the form of each call that is used here."""
    gz = ctypes.CDLL(path)
    size, number, handle = c_size_t, c_uint32, POINTER(Handle)
    for name, result, *arguments in (
        ("strerror", c_char_p, number),
        ("catalogue_read", number, c_char_p, size, handle, POINTER(size)),
        ("catalogue_clear", None, handle),
        ("managed_tellers_new", number, handle, handle, size, handle),
        ("caller_new", number, handle, handle),
        ("caller_get_blocking", number, handle, size, size),
        ("caller_put_blocking", number, handle, size, size),
        ("caller_get_all_blocking", number, handle, size, POINTER(size), size, POINTER(size)),
        ("caller_held_by_blocking", number, handle, size, size, POINTER(size), POINTER(c_uint32)),
        ("caller_put_all_blocking", number, handle, size),
        ("caller_references", number, handle, size, POINTER(c_uint64)),
        ("caller_load", number, handle, size, Work, c_void_p),
        ("caller_load_with_needs_for", number, handle, handle, size, Work, c_void_p, POINTER(size), c_int),
        ("caller_remove_with_needs", number, handle, handle, size, Work, c_void_p),
        ("caller_begin_drain_blocking", number, handle, size),
        ("caller_begin_remove_blocking", number, handle, size),
        ("caller_end_remove_blocking", number, handle, size),
        ("caller_wait_unheld", number, handle, size, c_int),
        ("caller_wait_removed_for", number, handle, size, c_int),
        ("caller_state_blocking", number, handle, size),
        ("caller_meet_leaf_blocking", number, handle, size, handle),
        ("caller_meet_book_blocking", number, handle, handle),
        ("teller_clear", None, handle),
        ("caller_clear", None, handle),
    ):
        call = getattr(gz, f"gz_{name}")
        call.restype, call.argtypes = result, arguments
    return gz


class Caller:
    """One thread's caller."""

    def __init__(self, gz, handle):
        self.gz, self.handle = gz, handle

    def call(self, name, *arguments):
        return getattr(self.gz, f"gz_caller_{name}")(byref(self.handle), *arguments)

    def expect(self, wanted, name, *arguments):
        """Makes a call, and ends the program if it answers none of the wanted numbers."""
        number = self.call(name, *arguments)
        if number not in wanted:
            sys.exit(f"{name} answered {number}: {self.gz.gz_strerror(number).decode()}")
        return number

    def further(self):
        handle = Handle()
        self.expect([DONE], "new", byref(handle))
        return Caller(self.gz, handle)


class Plugins:
    """What the modules have: whether each is there."""

    def __init__(self):
        self.there = [False, False]
        self.load = Work(lambda _, slot: self.set(slot, True))
        self.unload = Work(lambda _, slot: self.set(slot, False))
        self.stay = Work(lambda _, slot: False)

    def set(self, slot, there):
        self.there[slot] = there
        return True


def use(caller, worker, plugins):
    """Takes the module for a worker and gives it back, many times. How often it was had."""
    had = 0
    for _ in range(JOBS):
        if caller.expect([DONE, NOT_LIVE], "get_blocking", worker, SND) == DONE:
            if not plugins.there[SND]:
                sys.exit("the plugin went while it was held")
            caller.expect([DONE], "put_blocking", worker, SND)
            had += 1
    return had


def unload(caller, plugins):
    """Unloads the plugin for real: after its last user, and before it may be loaded again."""
    caller.expect([DONE], "begin_drain_blocking", SND)
    caller.expect([DONE], "wait_unheld", SND, LONG)
    plugins.set(SND, False)
    caller.expect([DONE], "end_remove_blocking", SND)


def limits(caller, plugins):
    """A wait for a worker that holds the module ends in time, and the module drains on. Nobody else loads now, so that the
    plugin may go after its module."""
    caller.expect([DONE], "get_blocking", 1, SND)
    caller.expect([DONE], "begin_drain_blocking", SND)
    caller.expect([TIMED_OUT], "wait_unheld", SND, SHORT)
    caller.expect([DONE], "put_blocking", 1, SND)
    caller.expect([DONE], "wait_removed_for", SND, LONG)
    plugins.set(SND, False)


def holder_gone(caller, plugins):
    """What a holder that is gone had is looked through, and given back at once."""
    slot, count = c_size_t(), c_uint32()
    caller.expect([DONE], "load", SND, plugins.load, None)
    for _ in range(3):
        caller.expect([DONE], "get_blocking", 1, SND)
    caller.expect([DONE], "held_by_blocking", 1, 0, byref(slot), byref(count))
    if (slot.value, count.value) != (SND, 3):
        sys.exit(f"the holder had slot {slot.value} {count.value} times")
    caller.expect([NOT_HELD], "held_by_blocking", 1, slot.value + 1, byref(slot), byref(count))
    caller.expect([DONE], "put_all_blocking", 1)
    unload(caller, plugins)


def with_needs(caller, catalogue, plugins):
    """Loads two modules, and removes them: first with a plugin that stays, whose module is live again."""
    at = c_size_t()
    caller.expect([DONE], "load_with_needs_for", byref(catalogue), PCM, plugins.load, None, byref(at), LONG)
    caller.expect([NEEDED_BY], "begin_remove_blocking", SND)
    caller.expect([WORK_FAILED], "remove_with_needs", byref(catalogue), PCM, plugins.stay, None)
    caller.expect([DONE], "remove_with_needs", byref(catalogue), PCM, plugins.unload, None)


def all_or_none(caller, plugins):
    """Of two modules one is absent, so that none is taken."""
    slots, at = (c_size_t * 2)(SND, PCM), c_size_t()
    caller.expect([DONE], "load", SND, plugins.load, None)
    caller.expect([NOT_LIVE], "get_all_blocking", 0, slots, 2, byref(at))
    if slots[at.value] != PCM:
        sys.exit(f"the slot {slots[at.value]} was refused")
    unload(caller, plugins)


def tell(remover, user, teller):
    """The user's next get for worker 0 comes after what the remover did: it was told of it."""
    remover.expect([DONE], "meet_book_blocking", byref(teller))
    user.expect([DONE], "meet_leaf_blocking", 0, byref(teller))
    user.expect([NOT_LIVE], "get_blocking", 0, SND)


def main():
    gz = declared(sys.argv[1] if len(sys.argv) > 1 else "libgourzhiel.so")
    catalogue, first, line, tellers, sum_of = Handle(), Handle(), c_size_t(), (Handle * WORKERS)(), c_uint64()
    if gz.gz_catalogue_read(TEXT, len(TEXT), byref(catalogue), byref(line)) != DONE:
        sys.exit(f"no catalogue: line {line.value}")
    if gz.gz_managed_tellers_new(byref(catalogue), tellers, WORKERS, byref(first)) != DONE:
        sys.exit("no table")
    loader, plugins = Caller(gz, first), Plugins()
    loader.expect([DONE], "load", SND, plugins.load, None)
    callers = [loader.further() for _ in range(THREADS)]
    with ThreadPoolExecutor(THREADS) as pool:
        users = [pool.submit(use, caller, number % WORKERS, plugins) for number, caller in enumerate(callers)]
        for _ in range(20):
            unload(loader, plugins)
            loader.expect([DONE], "load", SND, plugins.load, None)
        had = sum(user.result() for user in users)
    loader.expect([DONE], "references", SND, byref(sum_of))
    if sum_of.value:
        sys.exit(f"{sum_of.value} references are left")
    limits(loader, plugins)
    holder_gone(loader, plugins)
    with_needs(loader, catalogue, plugins)
    all_or_none(loader, plugins)
    loader.expect([ABSENT], "state_blocking", SND)
    tell(loader, callers[0], tellers[0])
    print(f"{THREADS} threads had the module {had} times for {WORKERS} workers, and none is left")
    for teller in tellers:
        gz.gz_teller_clear(byref(teller))
    for caller in [*callers, loader]:
        caller.call("clear")
    gz.gz_catalogue_clear(byref(catalogue))


if __name__ == "__main__":
    main()
