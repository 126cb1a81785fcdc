"""Whose a table is, who may write its journal anew, and links in the place of its files."""

import os
from pathlib import Path

from beside_faults.room import CATALOGUE, sound

OWNER = "run it as root, or as the journal's owner, who may write to the folder"
LISTS = "run it as one who may list the folder, and write to it"
ANOTHER = "setpriv --reuid 65534 --regid 65533 --clear-groups ./program"


def faults_of_owners(room):
    with sound():
        the_owner_alone(room)
        a_folder_keeps_its_mode(room)
        a_link_is_not_followed(room)
    if not os.geteuid():
        with sound():
            root_writes_for_the_owner(room)
        with sound():
            others_write(room)


def owned(name):
    """Whose a file of the table is, and what others may do."""
    found = os.lstat(f"disk/table/{name}")
    return found.st_uid, found.st_gid, found.st_mode & 0o7777


def modes(folder):
    """Who may use a folder, and the files of its table."""
    return [oct(os.lstat(f"{folder}/{name}").st_mode & 0o7777) for name in (".", "setup", "journal", "lock")]


def the_owner_alone(room):
    """A table is its owner's alone, unless words say more, whatever the umask is."""
    for umask, mode, folder, file in (("0", "", "700", "600"), ("022", "", "700", "600"), ("777", "755", "755", "644"), ("022", "770", "770", "660")):
        words = f"create --mode={mode}" if mode else "create"
        os.system("rm -rf disk/fresh")
        for call in (f"{words} catalogue={CATALOGUE}", "insmod snd", "compact"):
            os.system(f"umask {umask}; {room.program} disk/fresh {call} >/dev/null")
        room.finds(f"the modes of {words}, umask {umask}", modes("disk/fresh"), [f"0o{folder}", *[f"0o{file}"] * 3])


def a_folder_keeps_its_mode(room):
    os.system("rm -rf disk/fresh; mkdir -m 1711 disk/fresh")
    room.makes("fresh", words="create --mode=755")
    room.finds("the modes of a folder that was there", modes("disk/fresh"), ["0o1711", *["0o644"] * 3])


def a_link_is_not_followed(room):
    os.system("echo kept >other; ln -s ../../other disk/table/journal.new")
    status, _ = room.asks("compact")
    is_kept = Path("other").read_text() == "kept\n" and not os.path.islink("disk/table/journal")
    room.finds("compact, beside a journal.new that is a link", (status, is_kept), (0, True))


def root_writes_for_the_owner(room):
    """A journal that root writes anew stays its owner's, without the right to run it as another. So does what root cuts off."""
    os.system("echo kept >other; chown 65534:65534 disk/table/journal; chmod 4600 disk/table/journal")
    room.finds("compact by root", (room.asks("compact")[0], owned("journal")), (0, (65534, 65534, 0o600)))
    os.system("ln -s ../../other disk/table/journal.cut; printf torn >>disk/table/journal")
    told = room.asks("get web19 snd")
    found = Path("other").read_text(), owned("journal.cut"), told[0], Path("disk/table/journal.cut").read_text()[-5:]
    room.finds("a cut by root", found, ("kept\n", (65534, 65534, 0o600), 0, "torn\n"))


def others_write(room):
    """Who is not the owner, and not root."""
    root = room.program
    os.system(f"cp {root} program; chmod 711 . disk; chown -R 65534 disk/table; chmod 333 disk/table")
    room.program = ANOTHER
    # Who may not list the folder cannot bring a name to the disk: nothing is begun.
    room.tries("compact", 3, f"disk/table: cannot open the folder: not allowed; {LISTS}")
    os.system("chmod 777 disk/table")
    # Who cannot keep the owner or the group writes a journal anew if others, or the group, may do as much.
    compacts(room, "65533:65533", "664", (65534, 65533, 0o664))
    compacts(room, "65533:65532", "666", (65534, 65533, 0o666))
    compacts(room, "65534:65532", "644", (65534, 65533, 0o644))
    for owner, mode in (("65533:65533", "764"), ("65534:65532", "640")):
        may_not_compact(room, owner, mode)
    room.program = root


def give(owner, mode):
    os.system(f"chown {owner} disk/table/journal; chmod {mode} disk/table/journal")


def compacts(room, owner, mode, after):
    """The journal of an owner and group, with these rights, which others write anew."""
    give(owner, mode)
    room.finds(f"compact of {owner} {mode}", (room.asks("compact")[0], owned("journal")), (0, after))


def may_not_compact(room, owner, mode):
    give(owner, mode)
    room.tries("compact", 3, f"disk/table: cannot write the new journal: not allowed; {OWNER}")
    room.sees(not os.path.lexists("disk/table/journal.new"), "what was written of a new journal is left")
    # A crash stops nobody who may write the journal.
    os.system("rm -f disk/table/journal.cut; printf torn >>disk/table/journal")
    status, _ = room.asks("get web19 snd")
    room.finds("a cut by another", (status, owned("journal.cut")), (0, (65534, 65533, 0o600)))
