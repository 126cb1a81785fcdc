"""Nothing that is asked is too much while there is memory: words of a line, holders, lines of a group or of a journal."""

from pathlib import Path

from beside_faults.room import sound

NAMES = [f"m{number}" for number in range(200)]
# What is asked in one call, and the replies.
ASKED = [
    ("200 modules", [f"insmod {name}" for name in NAMES], ["ok"] * 200),
    ("a line of 202 words", [f"hold web {' '.join(NAMES)}"], [f"ok {' '.join(NAMES)}"]),
    ("2000 holders", [f"get web{number} m7" for number in range(2000)], ["ok"] * 2000),
    ("a journal of 22000 lines", ["get web7 m7"] * 20000, ["ok"] * 20000),
    ("a question over it", ["query m7"], ["yes"]),
]


def faults_of_sizes(room):
    with sound():
        Path("many.catalogue").write_text("version 3\n" + "".join(f"module {name}\n" for name in NAMES))
        room.makes("many", "many.catalogue")
        for what, lines, replies in ASKED:
            status, output, errors = room.runs("--no-sync disk/many", input="".join(f"{line}\n" for line in lines))
            is_right = (status, output.splitlines(), errors) == (0, replies, "")
            room.sees(is_right, what, status, output[-200:], errors)
