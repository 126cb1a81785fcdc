"""Others that remove at the same moment, modules that only the kernel knows, and what a command gets of its caller."""

import json
import os
import re
from contextlib import contextmanager

from beside_hold.machine import GZ_HOLD, STAND_INS, VERSION

# How often a need is taken away: more often than gz-hold tries at the least.
TAKEN_AWAY = 4
ODD = "a\n'b' \"c\" $d `e` \\ *\n"
# Where a script assigns a variable.
ASSIGNED = re.compile(r"(?:^|[\s;({])([a-z_]+)=|\bfor ([a-z_]+)\b")
LOADED = "gz-hold: others have loaded {} meanwhile, perhaps from the old file"
NEWER = "gz-hold: newer is a module of the machine, and not of the table, which was made before: gz-hold renew takes it in"
KERNEL_ALONE = "gz-hold: the kernel alone has stp; gz-hold mend tells the table"


@contextmanager
def before_table(machine, lines):
    """Before gz-table answers, these lines of a shell are run, where $table is the program."""
    program = machine.room / "path/gz-table"
    target = os.readlink(program)
    program.unlink()
    machine.script(program, f'table={target}\n{lines}\nexec $table "$@"')
    yield
    program.unlink()
    program.symlink_to(target)


def faults_of_needs(machine):
    """What a module needs is removed just before the module is loaded: it is tried again, but not for ever."""
    folder, left = machine.room / "table", machine.room / "left"
    take_away = f"$table {folder} begin_remove llc && rmmod llc && $table {folder} end_remove llc"
    lines = f'case "$*" in *"begin_load stp") [ ! -s {left} ] || {{ sed -i 1d {left}; {take_away}; }} >/dev/null ;; esac'
    machine.anew()
    faults = []
    with before_table(machine, lines):
        for words, times, wait, wanted in (
            ("get one stp", TAKEN_AWAY, 600, ("ok stp\n", 0, [])),
            ("put one", 0, 600, ("ok\n", 0, [])),
            ("upgrade stp -- true", TAKEN_AWAY, 600, ("", 0, [])),
            ("remove stp", 0, 600, ("ok\n", 0, [])),
            ("get one stp", 1000, 1, ("error NOTLIVE stp\n", 12, [])),
        ):
            left.write_text("\n" * times)
            found = machine.hold(words, wait=wait)
            if found != wanted:
                faults.append(f"`{words}` while a need is removed {times} times: {found}")
    return faults


def faults_of_slow_tries(machine):
    """An upgrade waits for seconds, however long a try takes."""
    machine.anew()
    machine.hold("get one loop")
    tries = machine.room / "tries"
    # A try is a line of standard input, and nothing else of an upgrade is.
    with before_table(machine, f'sleep 0.5; case "$*" in *" {machine.room}/table") echo >>{tries} ;; esac'):
        found = machine.hold("upgrade loop --wait 2")
    count = len(tries.read_text())
    return [] if found == ("error EWOULDBLOCK loop\n", 11, []) and count in (1, 2) else [f"slow tries of an upgrade: {count}, {found}"]


def faults_of_kernel_alone(machine):
    """A module that was loaded by hand with what it needs is not in the table, which is said."""
    machine.anew()
    machine.run("insmod", "llc.ko")
    machine.run("insmod", "stp.ko")
    wanted = {
        "remove stp": ("error ENOENT stp\n", 10, [KERNEL_ALONE]),
        "upgrade stp -- true": ("error ENOENT stp\n", 10, [KERNEL_ALONE]),
        "mend": ("", 0, []),
        "upgrade stp": ("", 0, []),
    }
    found = {words: machine.hold(words) for words in wanted}
    return [f"of a module that only the kernel had, `{words}`: {found[words]}" for words in wanted if found[words] != wanted[words]]


def faults_of_loaded(machine):
    """Others load a module that is upgraded, while its command runs and when it is about to be loaded again: that is said."""
    folder, left = machine.room / "table", machine.room / "left"
    take_away = f"$table {folder} begin_remove llc && rmmod llc && $table {folder} end_remove llc"
    faults = []
    for name, at, command in (
        ("overlay", "nothing", [STAND_INS / "insmod", "overlay.ko"]),
        ("overlay", "begin_load overlay", ["true"]),
        ("overlay", "begin_load overlay", ["false"]),
        # What it needs was removed: that is loaded first, and meanwhile nobody has the module's lock.
        ("stp", "begin_load stp", ["true"]),
        ("stp", "begin_load llc", ["true"]),
    ):
        machine.anew()
        machine.hold(f"get one {name}")
        machine.hold("put one")
        left.write_text("\n" if name == "stp" else "")
        comes = f'case "$*" in *" {at}") grep -q "^{name} " {machine.modules} || insmod {name}.ko ;; esac'
        goes = f'case "$*" in *" begin_load stp") : >{left}; {{ {take_away}; }} >/dev/null ;; esac'
        with before_table(machine, f"if [ -s {left} ]; then {goes}; else {comes}; fi"):
            found = machine.hold(["upgrade", name, "--", *map(str, command)])
        failed = ["gz-hold: the command ended with status 1"] if command == ["false"] else []
        said = [it for it in found[2] if not it.startswith("insmod: ")]
        if (*found[:2], said) != (f"error EEXIST {name}\n", 13, [*failed, LOADED.format(name)]):
            faults.append(f"others load {name} before {at}, with {command[0]}: {found}")
        if (after := machine.hold("check")) != ("", 0, []) or name not in machine.there():
            faults.append(f"after others loaded {name} before {at}, with {command[0]}: {after}, {machine.there()}")
    return faults


def faults_of_who(machine):
    """What the kernel says of a module, as /proc/modules has it."""
    machine.anew()
    machine.hold("get web17 stp")
    machine.modules.write_text("stp 16384 1 - Live 0x0\nllc 16384 2 stp,bridge, Live 0x0\nloop 16384 0 - Unloading 0x0\n")
    wanted = {
        "who stp": "held web17 1\nkernel Live 1\n",
        "who llc": "needed stp\nkernel Live 2 stp bridge\n",
        "who loop": "kernel Unloading 0\n",
    }
    users = {"module": "llc", "held": [], "needed": ["stp"], "kernel": "Live", "uses": 2, "users": ["stp", "bridge"]}
    wanted["who --json llc"] = json.dumps(users, separators=(",", ":")) + "\n"
    found = {words: machine.hold(words) for words in wanted}
    return [f"`{words}`: {found[words]}" for words in wanted if found[words] != (wanted[words], 0, [])]


def faults_of_environment(machine):
    """A command gets its caller's variables, though the script has some of their names."""
    machine.anew()
    names = sorted({one or other for one, other in ASSIGNED.findall(GZ_HOLD.read_text())})
    given = [f"{name}={ODD}" for name in names]
    faults = []
    for words in (["run", "job", "loop", "--"], ["upgrade", "loop", "--"]):
        output, status, errors = machine.call("env", *given, "gz-hold", *words, "cat", "/proc/self/environ")
        lost = sorted(set(given) - set(output.split("\0")))
        if lost or status or errors:
            faults.append(f"`{' '.join(words)}` changed {lost}: {status}, {errors}")
    file = machine.room / "given"
    machine.call("sh", "-c", f"name=given gz-hold run job loop -- sh -c 'echo $name >{file}' >&- 2>&-")
    return faults + ["without outputs, a command's variable was changed"] * (file.read_text() != "given\n")


def faults_of_aliens(machine):
    """A module that the table cannot have is listed, and is no fault of a mend."""
    machine.anew()
    machine.run("insmod", "alien.ko")
    line, lost = "alien: Absent in the table, Live in the kernel\n", "overlay: Live in the table, Absent in the kernel\n"
    found = machine.hold("check"), machine.hold("mend"), machine.hold("get one overlay")
    machine.run("rmmod", "overlay")
    found += machine.hold("mend"), machine.hold("put one"), machine.hold("mend")
    wanted = ((line, 1, []), (line, 0, []), ("ok overlay\n", 0, []), (line + lost, 1, []), ("ok\n", 0, []), (line, 0, []))
    return [] if found == wanted else [f"a module that the table cannot have: {found}"]


def faults_of_newer(machine):
    """A module that came to the machine after its table was made is refused, and it is said why."""
    machine.anew()
    texts = machine.room / f"lib/modules/{VERSION}/modules.dep"
    before = texts.read_text()
    texts.write_text(before + "kernel/fs/newer.ko: kernel/fs/overlay.ko\n")
    found = machine.hold("get web17 overlay newer nosuch"), machine.hold("get web17 nosuch"), machine.hold("list")
    texts.write_text(before)
    wanted = (("error ENOENT newer\n", 10, [NEWER]), ("error ENOENT nosuch\n", 10, []), ("", 0, []))
    return [] if found == wanted else [f"a module that is newer than the table: {found}"]


def faults_of_others(machine):
    """What is wrong, each as a line."""
    parts = [faults_of_needs, faults_of_slow_tries, faults_of_kernel_alone, faults_of_loaded, faults_of_aliens, faults_of_newer, faults_of_who, faults_of_environment]
    return [fault for part in parts for fault in part(machine)]
