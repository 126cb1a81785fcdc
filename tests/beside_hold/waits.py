"""Waits for a module to be free or live, and holds that end with who has the other end of a pipe."""

import re
import signal
import subprocess
import time

SOON = 20


def faults_of_ends(machine):
    """A module or a need is waited for until it is so, and not before."""
    machine.anew()
    faults = []

    def tries(words, *wanted):
        found = machine.hold(words)
        if found != wanted:
            faults.append(f"`{words}`: wanted {wanted}, found {found}")

    def waits(words, then):
        """A wait that ends once this is done, and not before."""
        process = machine.begin("gz-hold", *words.split(), str(SOON))
        time.sleep(1)
        early = process.poll()
        machine.hold(then)
        begun = time.monotonic()
        found = early, process.communicate(timeout=2 * SOON)[0], process.returncode
        if found != (None, "ok\n", 0) or time.monotonic() - begun > SOON / 2:
            faults.append(f"`{words}` before `{then}`: {found}, after {time.monotonic() - begun:.1f} seconds")

    # What is not loaded is free.
    tries("wait stp", "ok\n", 0, [])
    tries("wait --live stp 0", "error NOTLIVE stp\n", 12, [])
    waits("wait --live br-netfilter", "get web17 br_netfilter")
    tries("wait --live stp 0", "ok\n", 0, [])
    tries("wait br-netfilter 0", "error EWOULDBLOCK br_netfilter\n", 11, [])
    # A module that another one needs is not free.
    tries("wait stp 1", "error EWOULDBLOCK stp\n", 11, [])
    waits("wait br_netfilter", "put web17")
    tries("wait stp 0", "error EWOULDBLOCK stp\n", 11, [])
    waits("wait stp", "remove br_netfilter bridge")
    # Nor is one half of which is done, and what the kernel has lost is not live.
    machine.run("gz-table", "begin_load", "overlay")
    tries("wait overlay 0", "error EWOULDBLOCK overlay\n", 11, [])
    machine.run("gz-table", "end_load", "overlay", "ok")
    tries("wait overlay 0", "ok\n", 0, [])
    tries("wait --live overlay 0", "error NOTLIVE overlay\n", 12, [])
    tries("wait nosuch", "error ENOENT nosuch\n", 10, [])
    return faults


def kept(machine):
    """What is held, without the numbers of processes."""
    return re.sub("pid:[0-9]+:[0-9]+", "pid", machine.hold("list")[0])


def faults_of_keep(machine):
    """A keep holds until its standard input ends, also by a kill of who writes it, or until a signal ends it."""
    faults = []
    for end in ("closed", "killed", signal.SIGTERM, signal.SIGINT, signal.SIGKILL):
        machine.anew()
        writer = subprocess.Popen(["sleep", "60"], stdin=subprocess.DEVNULL, stdout=subprocess.PIPE)
        words = {"env": machine.surroundings, "stdin": writer.stdout, "stdout": subprocess.PIPE, "text": True, "start_new_session": True}
        process = subprocess.Popen(["gz-hold", "keep", "br-netfilter", "overlay"], **words)
        writer.stdout.close()
        found = process.stdout.readline(), kept(machine), process.poll()
        if end in ("closed", "killed"):
            writer.send_signal(signal.SIGTERM if end == "closed" else signal.SIGKILL)
        else:
            process.send_signal(end)
        found += process.wait(SOON), kept(machine), re.sub("[0-9]+", "N", machine.hold("reap")[0]), kept(machine)
        writer.kill()
        writer.wait()
        held = "pid overlay 1\npid br_netfilter 1\n"
        wanted = ("ok br_netfilter overlay\n", held, None)
        wanted += {"closed": (0, "", "", ""), "killed": (0, "", "", ""), signal.SIGKILL: (-9, held, "pid:N:N ok\n", "")}.get(end, (143, "", "", ""))
        if found != wanted:
            faults.append(f"a keep that is ended by {end}: wanted {wanted}, found {found}")
    return faults + [f"a keep of no module: {it}" for it in [machine.hold("keep nosuch")] if it != ("error ENOENT nosuch\n", 10, [])]


def faults_of_waits(machine):
    """What is wrong, each as a line."""
    return faults_of_ends(machine) + faults_of_keep(machine)
