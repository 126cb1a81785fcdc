"""Upgrades that let nobody get their module any more until nobody holds it."""

import signal
import time

from beside_hold.processes import begin_beside, until

WAITED = "gz-hold: overlay: another gz-hold has been at work for 1 seconds; ask again, or set GZ_HOLD_WAIT"


def begin(machine, *words):
    """An upgrade that drains overlay, which one holder holds, with the file that its command makes. False if it does not drain."""
    machine.anew()
    machine.hold("get one overlay")
    file = machine.room / "upgraded"
    file.unlink(missing_ok=True)
    upgrade = begin_beside(machine, ["upgrade", "--drain", *words, "overlay", "--", "touch", str(file)])
    drains = until(lambda: " Unloading " in machine.run("gz-table", "proc")[0])
    return upgrade, file, drains


def faults_of_turn(machine):
    """Others wait meanwhile, and get the module after it."""
    upgrade, file, drains = begin(machine, "--wait", "60")
    refused = machine.hold("get two overlay", wait=1)
    waiting = begin_beside(machine, ["get", "three", "overlay"])
    time.sleep(1)
    found = (drains, refused, waiting.poll(), upgrade.poll(), file.exists(), machine.hold("list")[0])
    machine.hold("put one")
    found += (upgrade.wait(60), waiting.wait(60), file.exists(), machine.hold("list")[0], machine.hold("check"), machine.there())
    wanted = (True, ("", 4, [WAITED]), None, None, False, "one overlay 1\n", 0, 0, True, "three overlay 1\n", ("", 0, []), ["overlay"])
    return [] if found == wanted else [f"an upgrade that drains: {found}"]


def faults_of_end(machine, words, number, status):
    """An upgrade that drains ends in vain, by itself or by a signal: others get the module."""
    upgrade, file, drains = begin(machine, *words)
    if number:
        upgrade.send_signal(number)
    ended = upgrade.wait(60)
    listed = machine.hold("check")
    found = (drains, ended, machine.hold("get two overlay"), file.exists(), machine.hold("list"), machine.hold("check"))
    left = number == signal.SIGKILL
    wanted = (True, status, ("ok overlay\n", 0, []), False, ("one overlay 1\ntwo overlay 1\n", 0, []), ("", 0, []))
    faults = [] if found == wanted else [f"an upgrade that drained in vain, with signal {number}: {found}"]
    if listed != (("overlay: Unloading in the table, Live in the kernel\n", 1, []) if left else ("", 0, [])):
        faults.append(f"check after an upgrade that drained in vain, with signal {number}: {listed}")
    return faults


def faults_of_mend(machine):
    """A mend calls off what a killed upgrade has left, also if the kernel has lost the module."""
    faults = []
    for lost in (False, True):
        upgrade, _, drains = begin(machine, "--wait", "60")
        upgrade.kill()
        upgrade.wait()
        if lost:
            machine.run("rmmod", "overlay")
        found = (drains, machine.hold("mend"), machine.hold("get two overlay"), machine.hold("check"), machine.there())
        line = ("overlay: Live in the table, Absent in the kernel\n", 1, []) if lost else ("", 0, [])
        if found != (True, line, ("ok overlay\n", 0, []), ("", 0, []), ["overlay"]):
            faults.append(f"a mend after an upgrade that drained was killed: {found}")
    return faults


def faults_of_free(machine):
    """A module that nobody holds is upgraded at once; one that another needs, or that the kernel keeps, is refused and live."""
    machine.anew()
    machine.hold("get one stp loop")
    machine.hold("put one")
    used = machine.room / "modules.used"
    used.write_text("loop\n")
    wanted = {
        "upgrade stp --drain -- true": ("", 0, []),
        "upgrade --drain llc --wait 0": ("error EWOULDBLOCK llc\n", 11, []),
        "upgrade --drain nosuch": ("error ENOENT nosuch\n", 10, []),
        "check": ("", 0, []),
    }
    found = {words: machine.hold(words) for words in wanted}
    kept = machine.hold("upgrade loop --drain --wait 0")[:2], machine.hold("get one loop stp llc"), machine.hold("check")
    used.unlink()
    faults = [f"`{words}`: {found[words]}" for words in wanted if found[words] != wanted[words]]
    return faults + [f"a module that the kernel keeps: {kept}"] * (kept != (("error KEPT loop\n", 1), ("ok loop stp llc\n", 0, []), ("", 0, [])))


def faults_of_drains(machine):
    """What is wrong, each as a line."""
    faults = faults_of_turn(machine) + faults_of_mend(machine) + faults_of_free(machine)
    for words, number, status in (
        (["--wait", "1"], None, 11),
        (["--wait", "60"], signal.SIGTERM, 143),
        (["--wait", "60"], signal.SIGINT, 143),
        (["--wait", "60"], signal.SIGKILL, -signal.SIGKILL),
    ):
        faults += faults_of_end(machine, words, number, status)
    return faults
