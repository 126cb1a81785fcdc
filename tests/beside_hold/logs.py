"""The log of a table that has one: who asked for what."""

import os
import re

from beside_hold.machine import VERSION

LONG = 1 << 20
CALLS = {
    "get web17 overlay loop": ": 0",
    # It becomes gz-table, whose status is not known before.
    "put web17": "",
    "put web17 -x": ": 2",
    "remove overlay loop": ": 0",
    "get web17 nosuch": ": 10",
    "run web17 overlay -- false": ": 1",
    "keep loop": ": 0",
    "upgrade loop -- true": ": 0",
    "get pid:1:1 loop": ": 0",
    "remove loop": ": 11",
    "reap": ": 0",
    "mend": ": 0",
    "put --all": ": 0",
}
# What only asks is not noted.
QUIET = ("list", "check", "who loop", "wait loop 0", "log", "guard loop", "frob", "-V")


def faults_of_logs(machine):
    """What is wrong, each as a line."""
    machine.anew()
    log = machine.room / "table/log"
    none = f"gz-hold: {machine.room}/table has no log that may be read; gz-hold create --if-missing --log makes one"
    faults = [f"without a log: {it}" for it in [machine.hold("log")] if it != ("", 2, [none])]
    machine.hold("get web17 overlay")
    machine.hold("put --remove web17")
    made = log.exists(), machine.hold("create --if-missing --log"), log.exists() and log.read_text(), log.stat().st_mode & 0o777
    if made != (False, ("", 0, []), "", 0o600):
        faults.append(f"a log is made: {made}")
    for words in (*CALLS, *QUIET):
        machine.hold(words)
    machine.hold(["get", "odd\nname", "loop"])
    text, status, errors = machine.hold("log")
    lines = [re.fullmatch(r"[0-9]{4}(?:-[0-9]{2}){2}T[0-9]{2}(?::[0-9]{2}){2}Z \S+ .+\[([0-9]+)\] (.*)", it) for it in text.splitlines()]
    found = [it[2] for it in lines if it]
    wanted = [f"{words.split(' -- ')[0]}{end}" for words, end in CALLS.items()] + ["get odd?name loop: 2"]
    if (len(found), found, status, errors) != (len(lines), wanted, 0, []) or {int(it[1]) for it in lines if it} != {os.getpid()}:
        faults.append(f"the log has {text}")
    # A long one is begun anew, and the one before is kept.
    log.write_text("x" * LONG + "\n")
    machine.hold("reap")
    machine.hold("mend")
    lines = machine.hold("log")[0].splitlines()
    sizes = log.stat().st_size < LONG < (machine.room / "table/log.last").stat().st_size
    if not sizes or len(lines) != 3 or not lines[1].endswith(" reap: 0") or not lines[2].endswith(" mend: 0"):
        faults.append(f"a long log: {[it[:80] for it in lines]}")
    log.unlink()
    machine.hold("reap")
    faults += ["a log that was taken away is there"] * log.exists()
    # With a new table.
    words = ["create", "--log", "-S", VERSION, f"--root={machine.room}"]
    machine.call("rm", "-r", machine.room / "table")
    made = machine.hold(words), log.exists(), machine.hold(words)
    return faults + [f"a table with a log: {made}"] * (made[:2] != (("", 0, []), True) or made[2][1] != 13)
