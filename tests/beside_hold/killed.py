"""Calls that are killed while their gz-table waits: what is answered later is not undone by it."""

import fcntl
import os
import signal
import time
from contextlib import contextmanager
from pathlib import Path

from beside_hold.others import before_table
from beside_hold.processes import begin_beside, until

ENDS = (signal.SIGKILL, signal.SIGTERM, signal.SIGINT, signal.SIGHUP)
# How long something is waited for that must not happen.
QUIET = 1
# A call that is killed, and one that must wait for its gz-table, with its reply; then one holder holds a module.
TURNS = [
    (["put", "--remove", "one"], ["get", "one", "overlay"], "ok overlay\n"),
    (["put", "--all"], ["get", "one", "overlay"], "ok overlay\n"),
    (["get", "two", "overlay"], ["put", "two"], "ok\n"),
    (["run", "two", "overlay", "--", "true"], ["put", "two"], "ok\n"),
]


@contextmanager
def table_locked(machine):
    """Another process has the table."""
    with open(machine.room / "table/lock") as lock:
        fcntl.flock(lock, fcntl.LOCK_EX)
        yield


def tables_of(group):
    """The numbers of each gz-table of a group of processes."""
    found = []
    for stat in Path("/proc").glob("[0-9]*/stat"):
        try:
            name, _, fields = stat.read_bytes().decode(errors="replace").partition("(")[2].rpartition(") ")
        except OSError:
            continue
        if name == "gz-table" and int(fields.split()[2]) == group and fields[0] != "Z":
            found.append(int(stat.parent.name))
    return found


def faults_of_put(machine):
    """A put is killed while it waits for the table. Then its holder gets the module: the hold stands."""
    faults = []
    for number in ENDS:
        machine.anew()
        machine.hold("get one overlay")
        with table_locked(machine):
            process = begin_beside(machine, ["put", "one"])
            waited = until(lambda: tables_of(process.pid))
            process.send_signal(number)
            ended = process.wait()
            left = tables_of(process.pid)
            for writer in left:
                os.kill(writer, signal.SIGSTOP)
        got = machine.hold("get one overlay", wait=1)
        for writer in left:
            os.kill(writer, signal.SIGCONT)
        time.sleep(QUIET)
        found = (waited, ended, left, got, machine.hold("list"))
        if found != (True, -number, [], ("ok overlay\n", 0, []), ("one overlay 1\n", 0, [])):
            faults.append(f"a put that got signal {number} while it waited: {found}")
    return faults


class Gate:
    """The next gz-table that may change who holds what waits until it is let through."""

    def __init__(self, machine):
        self.closed, self.reached = machine.room / "closed", machine.room / "reached"
        waits = f"if mv {self.closed} {self.reached} 2>/dev/null; then while [ -e {self.reached} ]; do sleep 0.05; done; fi"
        self.lines = f'case "$*" in *" release "* | *" {machine.room}/table") {waits} ;; esac'

    def begin(self, machine, words):
        """A call whose gz-table waits."""
        self.closed.touch()
        process = begin_beside(machine, words)
        until(self.reached.exists)
        return process

    def let_through(self):
        self.reached.unlink()


def faults_of_turns(machine):
    """gz-hold alone is killed by SIGKILL while its gz-table waits: who comes later is answered once that has ended."""
    faults, gate = [], Gate(machine)
    with before_table(machine, gate.lines):
        for words, later, reply in TURNS:
            machine.anew()
            machine.hold("get one overlay")
            killed = gate.begin(machine, words)
            killed.kill()
            killed.wait()
            beside = machine.begin("gz-hold", *later)
            time.sleep(QUIET)
            early = beside.poll()
            gate.let_through()
            written = beside.communicate(timeout=60)[0]
            time.sleep(QUIET)
            found = (early, written, beside.returncode, machine.hold("list"))
            if found != (None, reply, 0, ("one overlay 1\n", 0, [])):
                faults.append(f"`{' '.join(later)}` after `{' '.join(words)}` was killed: {found}")
    return faults


def faults_of_get(machine):
    """A get that is told to end while its gz-table waits ends after that, and holds nothing."""
    faults, gate = [], Gate(machine)
    with before_table(machine, gate.lines):
        for number in ENDS[1:]:
            machine.anew()
            machine.hold("get one overlay")
            process = gate.begin(machine, ["get", "two", "overlay"])
            process.send_signal(number)
            time.sleep(QUIET)
            early = process.poll()
            gate.let_through()
            found = (early, process.wait(), machine.hold("list"))
            if found != (None, -number, ("one overlay 1\n", 0, [])):
                faults.append(f"a get that got signal {number} while it waited: {found}")
    return faults


def faults_of_run(machine):
    """A run that cannot give back says so, and does not end with 0."""
    faults = []
    begun, may_end = machine.room / "begun", machine.room / "may_end"
    for command, status in (("true", 4), ("exit 7", 7)):
        machine.anew()
        for file in (begun, may_end):
            file.unlink(missing_ok=True)
        words = f"echo >{begun}; until [ -e {may_end} ]; do sleep 0.05; done; {command}"
        process = machine.begin("env", "GZ_HOLD_WAIT=1", "gz-hold", "run", "job", "overlay", "--", "sh", "-c", words, stderr=-1)
        until(begun.exists)
        with table_locked(machine):
            may_end.touch()
            _, errors = process.communicate(timeout=60)
        said = [it for it in errors.splitlines() if it.startswith("gz-hold: ")]
        found = (process.returncode, said, machine.hold("list"))
        if found != (status, ["gz-hold: job still holds overlay; gz-hold put gives it back"], ("job overlay 1\n", 0, [])):
            faults.append(f"a run that cannot give back: {found}")
    return faults


def faults_of_killed_calls(machine):
    """What is wrong, each as a line."""
    return [fault for part in (faults_of_put, faults_of_turns, faults_of_get, faults_of_run) for fault in part(machine)]
