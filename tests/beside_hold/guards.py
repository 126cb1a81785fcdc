"""What `gz-hold guard` writes, so that modprobe -r asks the table."""

import shutil

HEAD = "# By gz-hold guard: so modprobe -r asks the table of gz-hold(8).\n"


def lines_of(*names):
    return HEAD + "".join(f"remove {it} gz-hold remove {it}\n" for it in names)


def faults_of_guards(machine):
    """What is wrong, each as a line."""
    machine.anew()
    file = machine.room / "etc/modprobe.d/gz-hold.conf"
    others = sorted(it.name for it in file.parent.iterdir())
    faults = []

    def tries(words, wanted, text):
        found = machine.hold(words)
        written = file.read_text() if file.exists() else None
        left = sorted(it.name for it in file.parent.iterdir() if it != file)
        if (found, written, left) != (wanted, text, others):
            faults.append(f"`{words}`: wanted {wanted} and {text!r}, found {found}, {written!r} and {left}")

    tries("guard --off", ("", 0, []), None)
    tries("guard", ("", 0, []), HEAD)
    machine.hold("get web17 br-netfilter overlay")
    machine.hold("get web18 overlay")
    tries("guard", ("", 0, []), lines_of("overlay", "br_netfilter"))
    # (whatever umask(2) is)
    machine.call("sh", "-c", "umask 077; gz-hold guard loop br-netfilter br_netfilter")
    if file.stat().st_mode & 0o777 != 0o644:
        faults.append(f"the mode of {file} is {file.stat().st_mode:o}")
    tries("guard nosuch", ("error ENOENT nosuch\n", 10, []), lines_of("loop", "br_netfilter"))
    tries("guard -x", ("", 2, ["gz-hold: -x is no name: a name does not begin with -"]), lines_of("loop", "br_netfilter"))
    tries("guard --off loop", ("", 2, ["gz-hold: guard --off takes no names; gz-hold --help says more"]), lines_of("loop", "br_netfilter"))
    tries("guard overlay", ("", 0, []), lines_of("overlay"))
    # Who asks modprobe is answered by the table. gz-hold itself is not kept from anything.
    line = machine.run("gz-modprobe", "-rnv", "overlay")
    command = machine.call("sh", "-c", line[0].removeprefix("remove "))
    if (line[0], command[:2]) != ("remove gz-hold remove overlay\n", ("error EWOULDBLOCK overlay\n", 11)):
        faults.append(f"modprobe -r of a module that is held: {line}, {command}")
    machine.hold("put web17")
    tries("put --remove web18", ("ok\n", 0, []), lines_of("overlay"))
    tries("get web17 overlay", ("ok overlay\n", 0, []), lines_of("overlay"))
    tries("guard --off", ("", 0, []), None)
    tries("guard a;b", ("error ENOENT a;b\n", 10, []), None)
    return faults + faults_of_places(machine, file)


def faults_of_places(machine, file):
    """A folder that is not there is made. A file that cannot be written or removed is told."""
    shutil.rmtree(file.parent)
    made = (machine.hold("guard loop"), file.exists() and file.read_text())
    shutil.rmtree(file.parent)
    file.parent.write_text("")
    refused = machine.hold("guard loop")
    file.parent.unlink()
    (file / "x").mkdir(parents=True)
    kept = machine.hold("guard --off")
    shutil.rmtree(file.parent)
    wanted = (("", 0, []), lines_of("loop")), *(("", 3, [f"gz-hold: cannot {it} {file}, and nothing was done"]) for it in ("write", "remove"))
    found = (made, refused, kept)
    return [] if found == wanted else [f"guard where a file cannot be: wanted {wanted}, found {found}"]
