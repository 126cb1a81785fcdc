"""A lock that others have, and who waits for it."""

import fcntl
import os
import re
import signal
import time
from contextlib import contextmanager
from pathlib import Path

from beside_faults.room import GET, SECONDS, sound


@contextmanager
def locked(folder="disk/table", *kinds):
    """Others have the lock of a table, each of them a lock of its kind."""
    files = [open(f"{folder}/lock") for _ in kinds]
    for file, kind in zip(files, kinds):
        fcntl.flock(file, kind)
    yield files
    for file in files:
        file.close()


def faults_of_locks(room):
    with sound():
        own = f"{os.getpid()} ({Path('/proc/self/comm').read_text().strip()})"
        tells_who_has_it(room, own)
        tells_how_many_have_it(room, own)
        one_is_killed_and_one_is_stopped(room)


def tells_who_has_it(room, own):
    held = "disk/table: another process has held the table for 0 seconds"
    for words, kind in ((GET, fcntl.LOCK_EX), ("held", fcntl.LOCK_EX), (GET, fcntl.LOCK_SH)):
        before = room.asks("check")
        with locked("disk/table", kind):
            found = room.asks(words)
        wanted = (4, f"{held}: {own}; ask again, or wait longer with --wait\n"), before
        room.finds(f"`{words}` beside a lock", (found, room.asks("check")), wanted)
    # If the system does not tell, that another has it is all that is said.
    with locked("disk/table", fcntl.LOCK_EX):
        found = room.under_strace("-P /proc/locks -e inject=openat:error=ENOENT", "--wait 0 disk/table held")
    room.finds("a lock, and no /proc/locks", found[1], f"gz-table: {held}; ask again, or wait longer with --wait\n")


def tells_how_many_have_it(room, own):
    with locked("disk/table", fcntl.LOCK_SH, fcntl.LOCK_SH):
        found = room.asks(GET)
    room.sees(f"for 0 seconds: {own} and 1 more; ask again" in found[1], "a lock that two have", found)


def opened_by(process):
    """What a process has open. What it closes meanwhile is left out."""
    folder = f"/proc/{process.pid}/fd"
    for number in os.listdir(folder):
        try:
            yield os.readlink(f"{folder}/{number}")
        except FileNotFoundError:
            pass


def has_open(process, name):
    """Waits until a process has opened a file of this name."""
    for _ in range(1000):
        if any(opened.endswith(name) for opened in opened_by(process)):
            return
        time.sleep(0.01)


def pauses(room, words):
    """How many nanoseconds the program sleeps each time."""
    room.under_strace("-e trace=clock_nanosleep", words)
    slept = re.findall(r"tv_sec=(\d+), tv_nsec=(\d+)}, 0x", Path("trace").read_text())
    return [10**9 * int(seconds) + int(rest) for seconds, rest in slept]


def ended(process):
    return (*process.communicate(timeout=SECONDS), process.returncode)


def one_is_killed_and_one_is_stopped(room):
    """Of three that wait for the lock: the third one has it next. Whoever has waited for long tries often."""
    room.asks(GET)
    with locked("disk/table", fcntl.LOCK_EX) as (lock,):
        killed, stopped, third = (room.begun(["--wait", "30", "disk/table", it, "web19", "snd"]) for it in ("get", "get", "put"))
        for waiting in (killed, stopped, third):
            has_open(waiting, "table/lock")
        slept = pauses(room, "--wait 1 disk/table held")
        killed.kill()
        stopped.send_signal(signal.SIGSTOP)
        fcntl.flock(lock, fcntl.LOCK_UN)
        found = [ended(third)]
        stopped.send_signal(signal.SIGCONT)
        found += [ended(stopped), killed.wait(SECONDS)]
    room.finds("of three that wait one is killed and one is stopped", found, [("ok\n", "", 0), ("ok\n", "", 0), -signal.SIGKILL])
    room.sees(slept[-1:] == [625_000] and max(slept) <= 10**7, "how long one pauses who waits", slept[:4], slept[-4:])
