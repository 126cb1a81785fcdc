"""What is on the disk before others find it, and before what tells of it; and a sync that fails."""

import os
import re
from pathlib import Path

from beside_faults.room import CATALOGUE, sound


def faults_of_syncs(room):
    with sound():
        what_is_renamed_is_synced(room)
        each_thing_is_synced_before_what_tells_of_it(room)
        a_failed_sync_is_written_again(room)


def renamed(room, words):
    """Which files a call renames that waits for no change, and whether each of them was synced before."""
    calls = room.traced(f"--no-sync {words}")
    names = [(at, call.removeprefix("rename ")) for at, call in enumerate(calls) if call.startswith("rename ")]
    return [(name, f"fsync {name}" in calls[:at]) for at, name in names]


def what_is_renamed_is_synced(room):
    """What is made anew is on the disk before others find it, also if the changes of the call need not be."""
    room.finds("compact --no-sync: renamed, and whether on the disk", renamed(room, "disk/table compact"), [("journal.new", True)])
    made = renamed(room, f"disk/other create catalogue={CATALOGUE}")
    room.finds("create --no-sync: renamed, and whether on the disk", made, [("journal.new", True), ("setup.new", True)])


def does(room, words, *wanted):
    """Whether these calls are among those of the program, in this order."""
    calls = iter(found := room.traced(words))
    room.sees(all(it in calls for it in wanted), f"{words}: the order of its calls", found)


def each_thing_is_synced_before_what_tells_of_it(room):
    """Who changes something has the lock alone, and who asks shares it."""
    anew = [f"{call} {name}" for name in ("journal.new", "setup.new") for call in ("write", "fsync", "rename")]
    anew = [*anew[:3], "fsync fresh", *anew[3:], "fsync fresh"]
    does(room, f"disk/fresh create catalogue={CATALOGUE}", "mkdir fresh", "fsync disk", "flock LOCK_EX", *anew)
    group = ["write journal", "fsync journal"] * 2
    does(room, "disk/fresh insmod snd", "flock LOCK_EX", *group, "write the reply")
    with open("disk/fresh/journal", "ab") as journal:
        journal.write(b"torn")
    kept = ["write journal.cut", "fsync journal.cut", "fsync fresh"]
    does(room, "disk/fresh check --repair", "flock LOCK_EX", *kept, "ftruncate journal", "fsync journal")
    room.finds("what was cut off", Path("disk/fresh/journal.cut").read_bytes(), b" torn\n")
    does(room, "disk/fresh query snd", "flock LOCK_SH", "write the reply")


def a_failed_sync_is_written_again(room):
    """So that the next one, of any run, does not succeed for nothing."""
    for number in (1, 2, 3):
        status, _ = room.under_strace(f"-f -y -e trace=write,fsync -e inject=fsync:error=EIO:when={number}", "disk/table get web18 snd")
        behind, size = Path("trace").read_text().partition("(INJECTED)")[2], os.path.getsize("disk/table/journal")
        is_written = re.search(rf"write\(\d+<[^>]*/journal>, .*, {size}\) = {size}\n", behind) is not None
        room.finds(f"fsync {number} fails: the status, and whether the journal is written again", (status, is_written), (3, True))
