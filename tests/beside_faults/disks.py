"""Streams and disks that take nothing more, half a line, and a limit of a file's size."""

import os
import resource
import signal
import subprocess
from contextlib import contextmanager
from pathlib import Path

from beside_faults.room import GET, SECONDS, sound

FULL = "the disk is full; free some room and ask again: what was answered is kept"


def faults_of_streams(room):
    with sound():
        # The writer of the last line may have been killed within it.
        Path("half").write_text("put web17 snd_hda")
        room.tries("<half", 2, "the last line has no line feed, and was refused, since it may be half of one: end it with a line feed")
        unwritten = "standard output was not written; changes until then are made: see lsmod and held"
        room.tries("lsmod >/dev/full", 3, unwritten)
        room.tries(f"{GET} >/dev/full", 3, unwritten, changes=True)
        # A module has so many references at most.
        os.system(f"yes {GET} 2>/dev/null | head -n 65535 | {room.program} --no-sync disk/table >replies 2>&1")
        room.tries(GET, 18, "error TOOMANY snd")


def faults_of_limits(room):
    """A limit of a file's size kills a writer, as any program that does not take its signal. The table is as it was."""
    with sound():
        before, size = room.asks("held"), os.path.getsize("disk/table/journal")
        for more in (0, 10):
            limit = (size + more, size + more)
            ran = subprocess.run([room.program, "disk/table", "get", "web19", "snd"], preexec_fn=lambda: resource.setrlimit(resource.RLIMIT_FSIZE, limit), timeout=SECONDS)
            room.finds(f"a limit {more} bytes behind the journal", (ran.returncode, room.asks("held")), (-signal.SIGXFSZ, before))
        room.sees(room.asks(GET)[0] == 0, "the next change", room.asks("held"))


@contextmanager
def small_disk():
    """The table lies on a tmpfs of 64 KiB, if one can be mounted."""
    is_mounted = os.system("mv disk/table table; mount -t tmpfs -o size=64k none disk 2>/dev/null; mv table disk/table; mountpoint -q disk") == 0
    yield is_mounted
    if is_mounted:
        os.system("umount disk")


def faults_of_disks(room):
    with sound(), small_disk() as is_mounted:
        if is_mounted:
            fill(room)
            nothing_fits(room)
            something_is_given_back(room)
            what_a_killed_run_left_is_not_kept(room)
            the_disk_is_read_only(room)
        elif os.geteuid():
            os.system("chmod a-w disk/table disk/table/journal")
            room.tries(GET, 3, "disk/table: cannot open the journal: not allowed; run it as one who may write to the journal and to the folder")
            os.system("chmod u+w disk/table")
        else:
            print("no disk was full: none was mounted")


def fill(room):
    """The journal ends with a page, and no other page is free."""
    line = "get web17 snd".ljust(4096 - os.path.getsize("disk/table/journal") - 19)
    os.system(f"echo '{line}' | {room.program} disk/table >/dev/null; cat /dev/zero >disk/rest 2>/dev/null")


def nothing_fits(room):
    for words, file in ((GET, "the journal"), ("compact", "the new journal")):
        room.tries(words, 3, f"disk/table: cannot write {file}: {FULL}")


def something_is_given_back(room):
    """What a change wrote that found no room is cut off again."""
    os.truncate("disk/rest", os.path.getsize("disk/rest") - 4096)
    Path("wide").write_text("get web17 snd".ljust(9000) + "\n")
    room.tries("<wide", 3, f"disk/table: cannot write the journal: {FULL}")
    room.tries("put web17 snd", 0, "ok", changes=True)
    # So is what a sync found no room for, as where room is taken late.
    os.system("cat /dev/zero >>disk/rest 2>/dev/null")
    room.under_strace("-e inject=fsync:error=ENOSPC:when=2", f"disk/table {GET}")
    room.tries("get web17 snd", 0, "ok", changes=True)


def what_a_killed_run_left_is_not_kept(room):
    """It is cut off all the same, though there is no room to keep it."""
    with open("disk/table/journal", "ab") as journal:
        journal.write(b"rel")
    unkept = "disk/table/journal.cut has no room for them, since the disk is full"
    room.tries("put web17 snd", 0, f"disk/table/journal: a crash left 4 bytes after its lines, which are cut off; {unkept}", changes=True)


def the_disk_is_read_only(room):
    os.system("mount -o remount,ro disk")
    room.tries(GET, 3, "disk/table: cannot open the journal: the file system is read-only; mount it for writing, or make the table in another folder")
