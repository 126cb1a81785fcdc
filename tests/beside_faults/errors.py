"""What the system refuses, in its words; and who uses a module that cannot be removed."""

import subprocess

from beside_faults.room import CATALOGUE, GET, SECONDS, sound

INPUT_OUTPUT = "Input/output error (os error 5)"
# The call that fails, of which file, by which error, and what is told.
FAILING = [
    ("openat", "journal", "EMFILE", "disk/table: cannot open the journal: Too many open files (os error 24)"),
    ("read", "journal", "EIO", f"disk/table: cannot read the journal: {INPUT_OUTPUT}"),
    ("openat", "lock", "ENOLCK", "disk/table: cannot lock the lock: No locks available (os error 37)"),
    ("read", "setup", "EIO", f"cannot read disk/table/setup: {INPUT_OUTPUT}"),
]


def faults_of_errors(room):
    with sound():
        files_that_fail(room)
        files_that_words_name(room)
    with sound():
        users_of_a_module(room)


def files_that_fail(room):
    for call, file, error, said in FAILING:
        status, errors = room.under_strace(f"-P disk/table/{file} -e inject={call}:error={error}", f"disk/table {GET}")
        room.finds(f"{call} of {file} fails", (status, errors.splitlines()[-1:]), (3, [f"gz-table: {said}"]))


def files_that_words_name(room):
    """One that cannot be read is not asked for rightly. The setup of a table is, and has failed."""
    create = f"disk/unmade create catalogue={CATALOGUE}"
    for inject, why in (("openat:error=EACCES", "permission denied"), ("read:error=EIO", INPUT_OUTPUT)):
        found = room.under_strace(f"-P {CATALOGUE} -e inject={inject}", create)
        room.finds(f"a catalogue: {why}", found, (2, f"gz-table: cannot read {CATALOGUE}: {why}\n"))
    status, errors = room.under_strace("-P disk/table/setup -e inject=openat:error=EACCES", "disk/table held")
    wanted = 3, ["gz-table: cannot read disk/table/setup: permission denied"]
    room.finds("a setup that may not be read", (status, errors.splitlines()[-1:]), wanted)
    _, errors = room.under_strace("-e inject=mkdir:error=EIO", create)
    room.finds("a folder that is not made", errors, f"gz-table: cannot make the folder disk/unmade: {INPUT_OUTPUT}\n")


def users_of_a_module(room):
    """They are told to who asks by words, of many the first three. Lines of standard input are answered alone."""
    room.makes("used")
    room.runs("disk/used modprobe snd_hda")
    for count, said in ((1, "web1"), (3, "web1, web2, web3"), (5, "web1, web2, web3 and 2 more")):
        lines = "".join(f"hold web{number + 1} snd\n" for number in range(count))
        subprocess.run([room.program, "disk/used"], input=lines, stdout=subprocess.DEVNULL, text=True, timeout=SECONDS)
        errors = f"gz-table: snd is held by {said}\ngz-table: snd is needed by snd_hda, snd_pcm\n"
        room.finds(f"a module that {count} hold", room.runs("disk/used rmmod snd"), (11, "error EWOULDBLOCK snd\n", errors))
    found = room.runs("disk/used", input="rmmod snd\n")
    room.finds("a line about a module that is held", found, (11, "error EWOULDBLOCK snd\n", ""))
