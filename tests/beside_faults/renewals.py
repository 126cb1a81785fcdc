"""A table that gets another setup: by names it is the same, whatever cuts the renewal off."""

import os
import signal
from pathlib import Path

from beside_faults.anew import begun_to_ask, head_of, name_of, rest_of
from beside_faults.room import CATALOGUE, sound

REFUSED = (
    "disk/table: by the new setup the modules of the table would be others: one of them is not in it, or needs a module there that"
    " is not live, or came later; nothing was changed"
)
RENEW = "disk/table renew catalogue=more.catalogue"
# The calls of the system within which a renewal is killed.
CALLS = ["openat", "write", "fsync", "rename", "flock", "close"]


def faults_of_renewals(room):
    with sound():
        catalogues()
        another_setup(room)
        beneath_a_run_that_stays(room)
    with sound():
        catalogues()
        a_setup_that_lacks_a_module(room)
        a_next_setup_that_is_cut(room)
    for call in CALLS:
        killed_within(room, call)


def catalogues():
    """One with a module more, and one without those that are there."""
    Path("more.catalogue").write_text(CATALOGUE.read_text() + "module zfs\n")
    Path("less.catalogue").write_text("module zfs\n")


def seen(room):
    """What is the same by names: who holds what, and which modules are there in which order."""
    return room.asks("held"), room.asks("proc"), room.asks("lsmod")


def is_whole(room):
    """Whether the journal names the setup, and nothing is left of a renewal."""
    return head_of("table").split()[3] == name_of("table") and not os.path.lexists("disk/table/setup.next")


def another_setup(room):
    before, known = seen(room), room.asks("query zfs")
    room.finds("a renewal", room.runs(RENEW), (0, "", ""))
    room.finds("the table after it", seen(room), before)
    room.finds("a module that the old setup had not", (known[0], room.asks("query zfs")), (10, (1, "no\n")))
    room.finds("it is loaded", room.asks("modprobe zfs"), (0, "ok\n"))
    room.sees(is_whole(room), "the files after it", os.listdir("disk/table"))
    room.sees(room.asks("check")[0] == 0, "what check says", room.asks("check"))


def beneath_a_run_that_stays(room):
    """It does nothing by the setup that it has read."""
    staying, first = begun_to_ask(room, "disk/table")
    room.runs(RENEW)
    output, errors, status = rest_of(staying, "get web1 snd\n")
    room.sees((output, status) == ("", 3) and "was made anew" in errors, "a renewal beneath a run that stays", first, output, errors)


def a_setup_that_lacks_a_module(room):
    before = seen(room), Path("disk/table/setup").read_bytes(), Path("disk/table/journal").read_bytes()
    room.tries("renew catalogue=less.catalogue", 2, REFUSED)
    after = seen(room), Path("disk/table/setup").read_bytes(), Path("disk/table/journal").read_bytes()
    room.finds("a table that was not renewed", after, before)
    room.sees(not os.path.lexists("disk/table/setup.next"), "what is left of it", os.listdir("disk/table"))


def a_next_setup_that_is_cut(room):
    """A crash may leave one: it is taken away."""
    Path("disk/table/setup.next").write_text("%catalogue\nmodule zf")
    before = room.asks("held")
    room.finds("a next setup that is cut", (before[0], os.path.lexists("disk/table/setup.next")), (0, False))


def killed_within(room, call):
    """A renewal is killed at each of these calls. The next call finds a whole table, of one of the two setups."""
    for number in range(1, 100):
        with sound():
            catalogues()
            before = seen(room)
            status, _ = room.under_strace(f"-e inject={call}:signal=KILL:when={number}", RENEW)
            found = seen(room), is_whole(room) or head_of("table").split()[3] == "-"
            room.finds(f"a renewal that is killed at {call} {number}", found, (before, True))
            room.finds(f"the renewal after {call} {number}", (room.runs(RENEW), seen(room), is_whole(room)), ((0, "", ""), before, True))
            if status != -signal.SIGKILL and status != 128 + signal.SIGKILL:
                return
