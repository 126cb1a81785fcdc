"""A table that is made anew beneath a run, two that are made at once, and files of two tables in one folder."""

import fcntl
import os
import subprocess
import time
from contextlib import contextmanager
from pathlib import Path

from beside_faults.locks import ended, has_open
from beside_faults.room import CATALOGUE, SECONDS, SOUND, sound

REFUSED = ("held", "hold web18 snd", "check", "check --repair", "compact", "adopt - </dev/null", "<line", "<question")


def faults_of_tables_made_anew(room):
    with sound(), others():
        beneath_a_run_that_stays(room)
        beneath_a_run_that_waits(room)
    with sound():
        two_make_one_table(room)


def faults_of_mixed_files(room):
    with sound(), others():
        for folder, catalogue in (("one", CATALOGUE), ("two", "other.catalogue"), ("three", "small.catalogue")):
            room.makes(folder, catalogue)
            room.finds(f"{folder}: the first line", head_of(folder), f"+gourzhiel journal 2 {name_of(folder)} -")
        room.runs("disk/two modprobe alt")
        os.system(f"printf 'insmod snd\\nhold web17 snd\\n' | {room.program} disk/one >/dev/null; cp -r disk/one whole")
        another_setup(room)
        another_journal(room)
        another_journal_beneath_a_run(room)
    with sound(), others():
        journals_that_name_no_setup(room)
        a_journal_that_a_create_left(room)


@contextmanager
def others():
    """Catalogues of other modules, and texts that ask."""
    Path("other.catalogue").write_text(CATALOGUE.read_text().replace("snd", "alt"))
    Path("small.catalogue").write_text("module snd\nexports snd_card_new\n")
    Path("line").write_text("hold web18 snd\n")
    Path("question").write_text("held\n")
    yield


def name_of(folder):
    """The name of a folder's setup: what its last line says."""
    length, total = Path(f"disk/{folder}/setup").read_text().splitlines()[-1].split()[1:]
    return f"{length}:{total}"


def head_of(folder):
    """The first line of a folder's journal, with its gate."""
    return Path(f"disk/{folder}/journal").read_text().split("\n")[0]


def is_made_anew():
    """The table's folder is moved, and another table, of other modules, lies in its place."""
    os.system("rm -rf disk/old; mv disk/table disk/old; mv disk/new disk/table")


def begun_to_ask(room, folder):
    """A run that stays, and its first reply."""
    staying = room.begun([folder])
    staying.stdin.write("query snd\n")
    staying.stdin.flush()
    return staying, staying.stdout.readline()


def rest_of(staying, line):
    return (*staying.communicate(line, timeout=SECONDS), staying.returncode)


def beneath_a_run_that_stays(room):
    """It does nothing by the setup that it has read."""
    room.makes("new", "other.catalogue")
    staying, first = begun_to_ask(room, "disk/table")
    is_made_anew()
    anew = "gz-table: disk/table: the table was made anew, or taken away, since this run read its setup; what has no reply was not done: ask again\n"
    room.finds("a table made anew beneath a run that stays", (first, rest_of(staying, "insmod overlay\n")), ("yes\n", ("", anew, 3)))
    room.finds("the table that was made anew", room.asks("proc"), (0, ""))


def beneath_a_run_that_waits(room):
    """The table is answered that is there when the wait ends, under its own lock."""
    os.system("mv disk/old disk/new")
    with open("disk/table/lock") as lock, open("disk/new/lock") as next_lock:
        fcntl.flock(lock, fcntl.LOCK_EX)
        fcntl.flock(next_lock, fcntl.LOCK_EX)
        waiting = room.begun(["--wait", "30", "disk/table", "put", "web17", "snd_hda"])
        has_open(waiting, "table/lock")
        is_made_anew()
        fcntl.flock(lock, fcntl.LOCK_UN)
        time.sleep(0.2)
        is_waiting = waiting.poll() is None
        fcntl.flock(next_lock, fcntl.LOCK_UN)
        found = ended(waiting)
    room.finds("a table made anew beneath a run that waits", (is_waiting, found), (True, ("ok\n", "", 0)))


def two_make_one_table(room):
    """The one that comes late to its folder finds a table there."""
    words = [room.program, "disk/raced", "create", f"catalogue={CATALOGUE}"]
    strace = ["strace", "-o", "trace", "-e", "inject=mkdir:delay_enter=1000000"]
    late = subprocess.Popen([*strace, *words], stderr=subprocess.PIPE, text=True)
    for _ in range(1000):
        if Path("trace").is_file() and "mkdir(" in Path("trace").read_text():
            break
        time.sleep(0.01)
    room.makes("raced")
    told = "gz-table: disk/raced has a table already: name another folder, or remove its files first\n"
    room.finds("a table that two make at once", (late.communicate(timeout=SECONDS)[1], late.returncode), (told, 13))


def is_refused(room, what, named, found):
    """No call answers by a journal of one setup and another setup, and none writes anything."""
    mixed = f"disk/one/journal is of the setup {named}, and disk/one/setup is {found}: one of the two is of another table, or older"
    told = f"gz-table: {mixed}; nothing was done: restore the one that goes with the other, or make the table in another folder\n"
    before = Path("disk/one/journal").read_bytes()
    for words in REFUSED:
        room.finds(f"{what}: {words}", room.runs(f"disk/one {words}"), (2, "", told))
    left = Path("disk/one/journal").read_bytes(), sorted(os.listdir("disk/one"))
    room.finds(f"{what}: what was written", left, (before, ["journal", "lock", "setup"]))


def another_setup(room):
    """That of another table, and an older one, of which each name is one of this."""
    own = name_of("one")
    for what, folder in (("the setup of another table", "two"), ("an older setup", "three")):
        os.system(f"cp disk/{folder}/setup disk/one/setup")
        is_refused(room, what, own, name_of(folder))
        os.system("cp whole/setup disk/one/setup")


def another_journal(room):
    os.system("cp disk/two/journal disk/one/journal")
    is_refused(room, "the journal of another table", name_of("two"), name_of("one"))
    os.system("cp whole/journal disk/one/journal")
    room.finds("the files of one table again", room.runs("disk/one held"), (0, "web17 snd 1\n", ""))


def another_journal_beneath_a_run(room):
    """A run that stays looks at the journal that is put in the place of its own."""
    staying, first = begun_to_ask(room, "disk/one")
    os.system("cp disk/two/journal disk/next; mv disk/next disk/one/journal")
    output, errors, status = rest_of(staying, "query snd\n")
    is_told = f"is of the setup {name_of('two')}, and" in errors
    room.finds("another journal beneath a run that stays", (first, output, status, is_told), ("yes\n", "", 2, True))


def journals_that_name_no_setup(room):
    """Such a journal is of any. Written anew, also since it has become long, it names that of its folder."""
    Path("many").write_text("get web19 snd\nput web19 snd\n" * 2000)
    for what, words in (("written anew", "disk/one compact"), ("that has become long", "--no-sync disk/one <many")):
        os.system(f"rm -rf disk/one; cp -r {SOUND} disk/one")
        room.runs(words)
        room.finds(f"a journal that named none, {what}", head_of("one"), f"+gourzhiel journal 2 {name_of('one')} -")


def a_journal_that_a_create_left(room):
    """A journal without commands that a killed create left is that of the next one."""
    room.makes("three", "small.catalogue")
    os.remove("disk/three/setup")
    room.makes("three", "other.catalogue")
    room.makes("two", "other.catalogue")
    room.finds("a journal that a create left", head_of("three"), f"+gourzhiel journal 2 {name_of('two')} -")
