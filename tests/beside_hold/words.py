"""Words that are refused, and programs that are missing: what gz-hold says, and that nothing is left behind."""

import os
import shutil
from dataclasses import dataclass

from beside_hold.machine import GZ_HOLD

LONG = "x" * 300
# What cannot stand in a line of words.
WORDS = {"EMPTY": "", "BLANK": "two words", "CONTROL": "web\x01", "LINES": "web\n17", "LONG": LONG}


@dataclass
class Refused:
    """A call of gz-hold: its words, its status, what it writes, and the lines that it says as errors after its own name."""

    words: str
    status: int
    output: str
    errors: list[str]


def no_holder(process):
    return [f"pid:{process} is no holder: a process is named pid:PID or pid:PID:START"]


INSTALLED = ["installed has an install line in modprobe.d: load it by modprobe(8), and run gz-hold mend"]
SECONDS = "a number of seconds, 999999999 at most"
REFUSED = [
    Refused("get EMPTY overlay", 2, "", ["an empty word is no holder"]),
    Refused("get -x overlay", 2, "", ["-x is no holder: a holder does not begin with -"]),
    Refused("get LONG overlay", 2, "", ["a holder has 255 bytes at most"]),
    Refused("put LONG", 2, "", ["a holder has 255 bytes at most"]),
    Refused("get CONTROL overlay", 2, "", ["a holder has no blanks and no control bytes"]),
    Refused("get LINES overlay", 2, "", ["a holder has no blanks and no control bytes"]),
    Refused("put BLANK", 2, "", ["a holder has no blanks and no control bytes"]),
    Refused("get web17 EMPTY", 2, "", ["an empty word is no name"]),
    Refused("get web17 overlay -x", 2, "", ["-x is no name: a name does not begin with -"]),
    Refused("put web17 -x", 2, "", ["-x is no name: a name does not begin with -"]),
    Refused("run web17 BLANK -- true", 2, "", ["two words is no name: a name has no blanks"]),
    Refused("get pid: overlay", 2, "", no_holder("")),
    Refused("get pid:abc overlay", 2, "", no_holder("abc")),
    Refused("get pid:1:2:3 overlay", 2, "", no_holder("1:2:3")),
    Refused("get pid:1: overlay", 2, "", no_holder("1:")),
    Refused("put pid:007", 2, "", no_holder("007")),
    Refused("get pid:999999999 overlay", 2, "", ["no living process has the number 999999999; gz-hold reap gives back what was held by one that is gone"]),
    Refused("run web17 overlay -- /dev/null", 127, "", ["/dev/null is no program, and nothing was done"]),
    Refused("upgrade overlay -- check", 127, "", ["check is no program, and nothing was done"]),
    # What only a shell knows.
    Refused("run web17 overlay -- export", 127, "", ["export is no program, and nothing was done"]),
    Refused("upgrade overlay -- if", 127, "", ["if is no program, and nothing was done"]),
    Refused("upgrade overlay -- -v", 127, "", ["-v is no program, and nothing was done"]),
    Refused("run web17 overlay -- EMPTY", 127, "", [" is no program, and nothing was done"]),
    Refused("upgrade overlay --wait x", 2, "", [f"--wait takes {SECONDS}; gz-hold --help says more"]),
    Refused("upgrade --wait 1000000000 overlay", 2, "", [f"--wait takes {SECONDS}; gz-hold --help says more"]),
    Refused("get", 2, "", ["a holder is missing; gz-hold --help says more"]),
    Refused("put --all web17", 2, "", ["put --all takes no other words; gz-hold --help says more"]),
    Refused("put --remove --all", 2, "", ["--all is no holder: a holder does not begin with -"]),
    Refused("list --json overlay", 2, "", ["list takes no words; gz-hold --help says more"]),
    Refused("mend --json", 2, "", ["mend takes no words; gz-hold --help says more"]),
    Refused("who --json", 2, "", ["who takes a name; gz-hold --help says more"]),
    Refused("keep", 2, "", ["keep takes names; gz-hold --help says more"]),
    Refused("keep -x", 2, "", ["-x is no name: a name does not begin with -"]),
    Refused("wait", 2, "", ["wait takes a name, and perhaps a number of seconds; gz-hold --help says more"]),
    Refused("wait --live", 2, "", ["wait takes a name, and perhaps a number of seconds; gz-hold --help says more"]),
    Refused("wait overlay 1.5", 2, "", [f"wait takes {SECONDS}; gz-hold --help says more"]),
    Refused("wait -x", 2, "", ["-x is no name: a name does not begin with -"]),
    Refused("who", 2, "", ["who takes a name; gz-hold --help says more"]),
    Refused("who overlay loop", 2, "", ["who takes a name; gz-hold --help says more"]),
    Refused("who -x", 2, "", ["-x is no name: a name does not begin with -"]),
    Refused("frob", 2, "", ["no such command: frob; gz-hold --help says more"]),
    Refused("remove EMPTY", 2, "", ["an empty word is no name"]),
    Refused("remove -x", 2, "", ["-x is no name: a name does not begin with -"]),
    Refused("upgrade EMPTY", 2, "", ["an empty word is no name"]),
    Refused("remove .", 10, "error ENOENT .\n", []),
    Refused("remove .. nosuch", 10, "error ENOENT ..\nerror ENOENT nosuch\n", []),
    Refused("remove LONG", 10, f"error ENOENT {LONG}\n", []),
    # The path of a file is no name.
    Refused("remove x/overlay.ko overlay.ko", 10, "error ENOENT x/overlay.ko\nerror ENOENT overlay.ko\n", []),
    Refused("upgrade x/overlay.ko -- true", 10, "error ENOENT x/overlay.ko\n", []),
    Refused("upgrade ovrelay -- true", 10, "error ENOENT ovrelay\n", []),
    Refused("get web17 ovrelay", 10, "error ENOENT ovrelay\n", []),
    # Once, though the holder asks for it again, and though the name stands again.
    Refused("get web17 installed", 12, "error NOTLIVE installed\n", INSTALLED),
    Refused("get web17 installed installed", 12, "error NOTLIVE installed\n", INSTALLED),
    Refused("run web17 installed installed -- true", 12, "error NOTLIVE installed\n", INSTALLED),
    Refused("remove nosuch . nosuch", 10, "error ENOENT nosuch\nerror ENOENT .\n", []),
]
# The programs that a call needs. Those of the kernel's modules are stand-ins, which need STAND_INS_NEED.
TABLE_NEEDS = "awk flock grep gz-table mkdir rm sed sleep tr wc".split()
NEEDED = {
    "get one overlay": ["gz-modprobe", "insmod", *TABLE_NEEDS],
    "check": TABLE_NEEDS,
    "put --remove one": ["rmmod", *TABLE_NEEDS],
    "put one": TABLE_NEEDS,
    "who overlay": TABLE_NEEDS,
    "guard overlay": ["awk", "gz-table", "mkdir", "mv", "rm", "tr"],
    "reap": ["awk", "flock", "grep", "gz-table", "sed", "sleep"],
    "list": ["gz-table"],
    "list --json": ["awk", "gz-table"],
    "create --if-missing": ["gz-table"],
    "-h": ["cat"],
    "--version": ["gz-table", "sed"],
}
STAND_INS_NEED = ["basename", "cat", "mv"]


def faults_of_words(machine):
    """What differs, each as a line."""
    machine.anew()
    faults = []
    for case in REFUSED:
        found = machine.hold([WORDS.get(it, it) for it in case.words.split()])
        wanted = (case.output, case.status, [f"gz-hold: {it}" for it in case.errors])
        if found != wanted:
            faults.append(f"`{case.words}`: wanted {wanted}, found {found}")
    if machine.locks() or machine.hold("list")[0]:
        faults.append(f"refused words left {machine.locks()} and {machine.hold('list')}")
    return faults + faults_of_seconds(machine) + faults_of_lists(machine) + faults_of_missing(machine)


def faults_of_seconds(machine):
    """How long others are waited for is a number within its limit."""
    faults = []
    for wait, refused in (("08", False), ("999999999", False), ("1000000000", True), ("1.5", True)):
        found = machine.hold("list", wait=wait)
        if found != (("", 2, [f"gz-hold: GZ_HOLD_WAIT is {SECONDS}"]) if refused else ("", 0, [])):
            faults.append(f"with GZ_HOLD_WAIT={wait}: {found}")
    return faults


def faults_of_lists(machine):
    """A text that is no list of the kernel's modules is not shown, and nothing is done by it."""
    faults, list_of_kernel = [], machine.modules.read_text()
    machine.modules.write_text("loop 16384 0 - Live 0x0000000000000000\nroot:x:0:0:of the machine:/root:/bin/sh and more\n")
    for words in ("check", "mend", "get web17 overlay", "remove loop"):
        found = machine.hold(words)
        if found != ("", 2, [f"gz-hold: line 2 of {machine.modules} is none of /proc/modules, and nothing was done"]):
            faults.append(f"`{words}` over another text: {found}")
    machine.modules.write_text(list_of_kernel)
    return faults


def faults_of_needs(machine, words, programs):
    """What differs if a call has these programs alone, and if it has each but one."""
    few = machine.room / f"needs of {words.split()[0]}"
    few.mkdir()
    for program in {*programs, *STAND_INS_NEED}:
        (few / program).symlink_to(shutil.which(program, path=machine.surroundings["PATH"]))

    def call():
        return machine.call("env", f"PATH={few}", shutil.which(machine.shell[0]), GZ_HOLD, *words.split())

    faults = []
    for program in programs:
        target = os.readlink(few / program)
        (few / program).unlink()
        found = call()
        (few / program).symlink_to(target)
        if found != ("", 3, [f"gz-hold: {program} is not on the path, and nothing was done"]):
            faults.append(f"`{words}` without {program}: {found}")
    found = call()
    if found[1] != 0 or found[2]:
        faults.append(f"`{words}` with few programs: {found}")
    shutil.rmtree(few)
    return faults


def faults_of_missing(machine):
    """A program that is missing is named before anything is done, and no other is needed. The shell of busybox has most of them."""
    if machine.shell[0] == "busybox":
        return []
    machine.anew()
    return [fault for words, programs in NEEDED.items() for fault in faults_of_needs(machine, words, programs)]
