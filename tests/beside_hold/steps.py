"""Steps: each is one call of gz-hold, and what it must do."""

import json
from dataclasses import dataclass

from beside_hold.machine import VERSION


@dataclass
class Step:
    """One call: its words, what it must write, its status, and the modules that are there after it."""

    words: str
    output: str
    status: int
    there: str


# Objects that are written, an object a line.
WHO_STP = '{"module":"stp","held":[],"needed":["br_netfilter","bridge"],"kernel":"Live","uses":0,"users":[]}\n'
WHO_NETFILTER = '{"module":"br_netfilter","held":[{"holder":"web18","count":1}],"needed":[],"kernel":"Live","uses":0,"users":[]}\n'
WHO_SOFT = '{"module":"soft","held":[],"needed":[],"kernel":"Absent","users":[]}\n'
CHECK = '{"module":"installed","table":"Absent","kernel":"Live"}\n'
HELD = [("web18", "overlay"), ("web18", "br_netfilter"), ('a"b\\c', "loop")]
LIST = "".join(json.dumps({"holder": holder, "module": module, "count": 1}, separators=(",", ":")) + "\n" for holder, module in HELD)
STEPS = [
    Step("gz-hold check", "", 2, ""),
    Step("gz-hold mend", "", 2, ""),
    Step("gz-hold create --if-missing --root=ROOM --frob", "", 2, ""),
    Step("gz-hold create --if-missing -S VERSION --root=ROOM", "", 0, ""),
    Step("gz-hold create --if-missing -S VERSION --root=ROOM", "", 0, ""),
    Step("gz-hold create -S VERSION --root=ROOM", "", 13, ""),
    Step("gz-hold check", "", 0, ""),
    Step("gz-hold list", "", 0, ""),
    # What is needed is loaded first, and a device's alias stands for its module.
    Step("gz-hold get web17 br-netfilter", "ok br_netfilter\n", 0, "llc stp bridge br_netfilter"),
    Step("gz-hold get web18 overlay pci:v00001AF4d00001000sv00", "ok overlay loop\n", 0, "llc stp bridge br_netfilter overlay loop"),
    Step("gz-hold get web17 br-netfilter", "ok br_netfilter\n", 0, "llc stp bridge br_netfilter overlay loop"),
    Step("gz-hold list", "web17 br_netfilter 1\nweb18 overlay 1\nweb18 loop 1\n", 0, "llc stp bridge br_netfilter overlay loop"),
    # A module that the machine got since is taken in, and nobody loses what he holds.
    Step("sh -c NEW_MODULE", "", 0, "llc stp bridge br_netfilter overlay loop"),
    Step("gz-hold get web17 late", "error ENOENT late\n", 10, "llc stp bridge br_netfilter overlay loop"),
    Step("gz-hold renew -S VERSION --root=ROOM", "", 0, "llc stp bridge br_netfilter overlay loop"),
    Step("gz-hold list", "web17 br_netfilter 1\nweb18 overlay 1\nweb18 loop 1\n", 0, "llc stp bridge br_netfilter overlay loop"),
    Step("gz-hold get web17 late", "ok late\n", 0, "llc stp bridge br_netfilter overlay loop late"),
    Step("gz-hold put --remove web17 late", "ok\n", 0, "llc stp bridge br_netfilter overlay loop"),
    Step("gz-hold check", "", 0, "llc stp bridge br_netfilter overlay loop"),
    # What is held stays, and what it needs.
    Step("gz-hold remove overlay", "error EWOULDBLOCK overlay\n", 11, "llc stp bridge br_netfilter overlay loop"),
    Step("gz-hold remove llc", "error EWOULDBLOCK llc\n", 11, "llc stp bridge br_netfilter overlay loop"),
    Step("gz-hold upgrade overlay --wait 1", "error EWOULDBLOCK overlay\n", 11, "llc stp bridge br_netfilter overlay loop"),
    Step("gz-hold check", "", 0, "llc stp bridge br_netfilter overlay loop"),
    # Given back, it is removed.
    Step("gz-hold put web18 overlay", "ok\n", 0, "llc stp bridge br_netfilter overlay loop"),
    Step("gz-hold put web18 overlay", "error NOTHELD overlay\n", 15, "llc stp bridge br_netfilter overlay loop"),
    Step("gz-hold remove overlay", "ok\n", 0, "llc stp bridge br_netfilter loop"),
    Step("gz-hold put --remove web18", "ok\n", 0, "llc stp bridge br_netfilter"),
    # With what it needed and nobody needs any more, but for what somebody holds or the kernel uses itself.
    Step("gz-hold put --remove web17", "ok\n", 0, ""),
    Step("gz-hold get web17 br-netfilter", "ok br_netfilter\n", 0, "llc stp bridge br_netfilter"),
    Step("gz-hold get web18 stp", "ok stp\n", 0, "llc stp bridge br_netfilter"),
    Step("gz-hold put --remove web17", "ok\n", 0, "llc stp"),
    Step("gz-hold get web17 br-netfilter bridge", "ok br_netfilter bridge\n", 0, "llc stp bridge br_netfilter"),
    Step("gz-hold put --remove web18", "ok\n", 0, "llc stp bridge br_netfilter"),
    Step("gz-hold put --remove web17 br_netfilter", "ok\n", 0, "llc stp bridge"),
    Step("sh -c STP_USED", "", 0, "llc stp bridge"),
    Step("gz-hold put --remove web17", "ok\n", 0, "llc stp"),
    Step("sh -c STP_UNUSED", "", 0, "llc stp"),
    Step("gz-hold get web17 bridge", "ok bridge\n", 0, "llc stp bridge"),
    Step("gz-hold put web17", "ok\n", 0, "llc stp bridge"),
    # It is held for a command's life, whose status is that of gz-hold.
    Step("gz-hold run job overlay loop -- gz-hold list", "job overlay 1\njob loop 1\n", 0, "llc stp bridge overlay loop"),
    Step("gz-hold run job overlay -- gz-hold run job overlay -- gz-hold list", "job overlay 2\n", 0, "llc stp bridge overlay loop"),
    Step("gz-hold run job overlay -- sh -c false", "", 1, "llc stp bridge overlay loop"),
    Step("gz-hold list", "", 0, "llc stp bridge overlay loop"),
    Step("gz-hold upgrade loop -- env -u GZ_TABLE gz-table TABLE hold x loop", "error NOTLIVE loop\n", 1, "llc stp bridge overlay loop"),
    Step("gz-hold upgrade loop -- true", "", 0, "llc stp bridge overlay loop"),
    Step("gz-hold upgrade loop", "", 0, "llc stp bridge overlay loop"),
    Step("gz-hold upgrade --wait 1 loop -- true", "", 0, "llc stp bridge overlay loop"),
    Step("gz-hold upgrade --wait 1", "", 2, "llc stp bridge overlay loop"),
    Step("gz-hold upgrade stp --wait 0", "error EWOULDBLOCK stp\n", 11, "llc stp bridge overlay loop"),
    # Without the table's knowledge: a module goes, and one comes.
    Step("rmmod overlay", "", 0, "llc stp bridge loop"),
    Step("gz-hold check", "overlay: Live in the table, Absent in the kernel\n", 1, "llc stp bridge loop"),
    Step("gz-hold get web17 overlay", "ok overlay\n", 0, "llc stp bridge loop overlay"),
    Step("rmmod overlay", "", 0, "llc stp bridge loop"),
    Step("gz-hold mend", "overlay: Live in the table, Absent in the kernel\n", 1, "llc stp bridge loop"),
    Step("gz-hold get web18 overlay", "ok overlay\n", 0, "llc stp bridge loop overlay"),
    Step("gz-hold put web18", "ok\n", 0, "llc stp bridge loop overlay"),
    Step("gz-hold put --remove web17", "ok\n", 0, "llc stp bridge loop"),
    Step("insmod installed.ko", "", 0, "llc stp bridge loop installed"),
    Step("gz-hold check", "installed: Absent in the table, Live in the kernel\n", 1, "llc stp bridge loop installed"),
    Step("gz-hold mend", "", 0, "llc stp bridge loop installed"),
    Step("gz-hold remove installed", "ok\n", 0, "llc stp bridge loop"),
    Step("gz-hold get web17 installed", "error NOTLIVE installed\n", 12, "llc stp bridge loop"),
    # Halves without their ends.
    Step("gz-table TABLE begin_load overlay", "ok\n", 0, "llc stp bridge loop"),
    Step("gz-hold check", "overlay: Loading in the table, Absent in the kernel\n", 1, "llc stp bridge loop"),
    Step("gz-hold get web17 overlay", "ok overlay\n", 0, "llc stp bridge loop overlay"),
    Step("gz-hold put web17", "ok\n", 0, "llc stp bridge loop overlay"),
    Step("gz-table TABLE begin_remove overlay", "ok\n", 0, "llc stp bridge loop overlay"),
    Step("gz-hold mend", "", 0, "llc stp bridge loop overlay"),
    Step("gz-hold remove overlay loop overlay", "ok\nok\n", 0, "llc stp bridge"),
    # What is no module, no command, no holder; what is built in needs no hold.
    Step("gz-hold get web17 nosuch", "error ENOENT nosuch\n", 10, "llc stp bridge"),
    Step("gz-hold get web17 ext4", "ok\n", 0, "llc stp bridge"),
    Step("gz-hold get web17 ext4 loop", "ok loop\n", 0, "llc stp bridge loop"),
    Step("gz-hold remove nosuch", "error ENOENT nosuch\n", 10, "llc stp bridge loop"),
    Step("gz-hold upgrade overlay -- false", "error ENOENT overlay\n", 10, "llc stp bridge loop"),
    Step("gz-hold get web17", "", 2, "llc stp bridge loop"),
    Step("gz-hold frob", "", 2, "llc stp bridge loop"),
    Step("gz-hold", "", 2, "llc stp bridge loop"),
    # The kernel keeps a module that it uses itself.
    Step("gz-hold put web17", "ok\n", 0, "llc stp bridge loop"),
    Step("sh -c USED", "", 0, "llc stp bridge loop"),
    Step("gz-hold remove loop", "error KEPT loop\n", 1, "llc stp bridge loop"),
    Step("gz-hold upgrade loop --wait 1", "error KEPT loop\n", 1, "llc stp bridge loop"),
    Step("gz-hold check", "", 0, "llc stp bridge loop"),
    # The kernel removes it meanwhile: the half stays until that has ended, or was given up.
    Step("sh -c UNLOADING", "", 0, "llc stp bridge loop"),
    Step("gz-hold remove loop", "error KEPT loop\n", 1, "llc stp bridge loop"),
    Step("gz-hold remove loop", "error EBUSY loop\n", 12, "llc stp bridge loop"),
    Step("gz-hold check", "", 0, "llc stp bridge loop"),
    Step("sh -c LIVE", "", 0, "llc stp bridge loop"),
    Step("gz-hold check", "loop: Unloading in the table, Live in the kernel\n", 1, "llc stp bridge loop"),
    Step("gz-hold remove loop", "error KEPT loop\n", 1, "llc stp bridge loop"),
    Step("gz-hold check", "", 0, "llc stp bridge loop"),
    # A process that is gone holds nothing any more.
    Step("gz-hold get pid:1:1 overlay", "ok overlay\n", 0, "llc stp bridge loop overlay"),
    Step("gz-hold reap", "pid:1:1 ok\n", 0, "llc stp bridge loop overlay"),
    Step("gz-hold list", "", 0, "llc stp bridge loop overlay"),
    # A process is named by its number, and holds as long as it is there.
    Step("sh -c OWN", "ok overlay\nPROCESS overlay 1\n", 0, "llc stp bridge loop overlay"),
    Step("sh -c REAP", "pid:N:N ok\n", 0, "llc stp bridge loop overlay"),
    Step("gz-hold list", "", 0, "llc stp bridge loop overlay"),
    # What the kernel keeps after a put is said.
    Step("gz-hold get web17 loop overlay", "ok loop overlay\n", 0, "llc stp bridge loop overlay"),
    Step("gz-hold put --remove web17", "ok\nerror KEPT loop\n", 1, "llc stp bridge loop"),
    # What the kernel refuses is named, and nothing is held. A soft dependency may be refused.
    Step("sh -c REFUSED", "", 0, "llc stp bridge loop"),
    Step("gz-hold get web17 loop overlay", "error NOTLIVE overlay\n", 12, "llc stp bridge loop"),
    Step("gz-hold get web17 overlay br_netfilter", "error NOTLIVE overlay\n", 12, "llc stp bridge loop br_netfilter"),
    Step("gz-hold list", "", 0, "llc stp bridge loop br_netfilter"),
    Step("gz-hold get web17 soft", "ok soft\n", 0, "llc stp bridge loop br_netfilter soft"),
    Step("gz-hold put --remove web17", "ok\n", 0, "llc stp bridge loop br_netfilter"),
    # A holder that gets what is lost holds what it held before.
    Step("sh -c ACCEPTED", "", 0, "llc stp bridge loop br_netfilter"),
    Step("gz-hold get web18 overlay", "ok overlay\n", 0, "llc stp bridge loop br_netfilter overlay"),
    Step("rmmod overlay", "", 0, "llc stp bridge loop br_netfilter"),
    Step("sh -c REFUSED", "", 0, "llc stp bridge loop br_netfilter"),
    Step("gz-hold get web17 loop overlay", "error LOST overlay\n", 1, "llc stp bridge loop br_netfilter"),
    Step("gz-hold get web18 loop overlay", "error LOST overlay\n", 1, "llc stp bridge loop br_netfilter"),
    Step("gz-hold run job loop overlay -- gz-hold list", "error LOST overlay\n", 1, "llc stp bridge loop br_netfilter"),
    Step("gz-hold list", "web18 overlay 1\n", 0, "llc stp bridge loop br_netfilter"),
    Step("sh -c ACCEPTED", "", 0, "llc stp bridge loop br_netfilter"),
    Step("gz-hold run job overlay -- gz-hold list", "web18 overlay 1\njob overlay 1\n", 0, "llc stp bridge loop br_netfilter overlay"),
    Step("gz-hold list", "web18 overlay 1\n", 0, "llc stp bridge loop br_netfilter overlay"),
    # A command is a program, whatever its name.
    Step("gz-hold run job overlay -- remove", "a command\n", 0, "llc stp bridge loop br_netfilter overlay"),
    Step("gz-hold upgrade br-netfilter -- remove", "a command\n", 0, "llc stp bridge loop overlay br_netfilter"),
    Step("gz-hold upgrade br_netfilter --wait 08 -- sh -c false", "", 1, "llc stp bridge loop overlay br_netfilter"),
    Step("gz-hold upgrade overlay -- nosuch", "", 127, "llc stp bridge loop overlay br_netfilter"),
    Step("gz-hold run job overlay -- ./nosuch", "", 127, "llc stp bridge loop overlay br_netfilter"),
    # A module that is named twice is one, however it is spelled.
    Step("gz-hold remove br-netfilter br_netfilter", "ok\n", 0, "llc stp bridge loop overlay"),
    Step("gz-hold get web18 br-netfilter br_netfilter", "ok br_netfilter\n", 0, "llc stp bridge loop overlay br_netfilter"),
    Step("gz-hold check", "", 0, "llc stp bridge loop overlay br_netfilter"),
    # Who holds a module, which modules need it, and what the kernel says.
    Step("gz-hold who stp", "needed br_netfilter\nneeded bridge\nkernel Live 0\n", 0, "llc stp bridge loop overlay br_netfilter"),
    Step("gz-hold who br-netfilter", "held web18 1\nkernel Live 0\n", 0, "llc stp bridge loop overlay br_netfilter"),
    Step("gz-hold who soft", "kernel Absent\n", 0, "llc stp bridge loop overlay br_netfilter"),
    # The same as objects.
    Step("gz-hold who --json stp", WHO_STP, 0, "llc stp bridge loop overlay br_netfilter"),
    Step("gz-hold who --json br-netfilter", WHO_NETFILTER, 0, "llc stp bridge loop overlay br_netfilter"),
    Step("gz-hold who --json soft", WHO_SOFT, 0, "llc stp bridge loop overlay br_netfilter"),
    Step("gz-hold who --json nosuch", "error ENOENT nosuch\n", 10, "llc stp bridge loop overlay br_netfilter"),
    Step('gz-hold get a"b\\c loop', "ok loop\n", 0, "llc stp bridge loop overlay br_netfilter"),
    Step("gz-hold list --json", LIST, 0, "llc stp bridge loop overlay br_netfilter"),
    Step('gz-hold put a"b\\c', "ok\n", 0, "llc stp bridge loop overlay br_netfilter"),
    Step("gz-hold check --json", "", 0, "llc stp bridge loop overlay br_netfilter"),
    Step("insmod installed.ko", "", 0, "llc stp bridge loop overlay br_netfilter installed"),
    Step("gz-hold check --json", CHECK, 1, "llc stp bridge loop overlay br_netfilter installed"),
    Step("rmmod installed", "", 0, "llc stp bridge loop overlay br_netfilter"),
    Step("gz-hold who nosuch", "error ENOENT nosuch\n", 10, "llc stp bridge loop overlay br_netfilter"),
    # All is given back.
    Step("gz-hold get web19 overlay", "ok overlay\n", 0, "llc stp bridge loop overlay br_netfilter"),
    Step("gz-hold put --all web18", "", 2, "llc stp bridge loop overlay br_netfilter"),
    Step("gz-hold list", "web18 overlay 1\nweb18 br_netfilter 1\nweb19 overlay 1\n", 0, "llc stp bridge loop overlay br_netfilter"),
    Step("gz-hold put --all", "web18 ok\nweb19 ok\n", 0, "llc stp bridge loop overlay br_netfilter"),
    Step("gz-hold put --all", "", 0, "llc stp bridge loop overlay br_netfilter"),
    Step("gz-hold list", "", 0, "llc stp bridge loop overlay br_netfilter"),
    # What needs others is removed first, whatever order the words have, and what is not loaded comes last.
    Step("gz-hold remove llc nosuch bridge stp br-netfilter", "ok\nok\nok\nok\nerror ENOENT nosuch\n", 10, "loop overlay"),
]
# What the steps have a shell do, with the file that plays /proc/modules.
COMMANDS = {
    "USED": "echo loop >{}.used",
    "NEW_MODULE": "printf 'kernel/net/late.ko:\\n' >>$(dirname {})/lib/modules/6.1.0/modules.dep",
    "STP_USED": "sed -i '/^stp /s/16384 0/16384 1/' {}",
    "STP_UNUSED": "sed -i s/16384.1/16384\\ 0/ {}",
    "UNLOADING": "sed -i '/^loop /s/Live/Unloading/' {}",
    "LIVE": "sed -i s/Unloading/Live/ {}",
    "REFUSED": "echo overlay >{}.refused",
    "ACCEPTED": "rm {}.refused",
    "OWN": "gz-hold get pid:$$ overlay && gz-hold reap && gz-hold list | sed s/pid:$$:[1-9][0-9]*/PROCESS/",
    "REAP": "gz-hold reap | sed 's/[0-9][0-9]*/N/g'",
}


def faults_of_steps(machine):
    """What differs, each as a line; the steps after the first that differs are not made."""
    words = {"TABLE": machine.surroundings["GZ_TABLE"], "VERSION": VERSION}
    words |= {name: command.format(machine.modules) for name, command in COMMANDS.items()}
    for step in STEPS:
        asked = [it if it != "--root=ROOM" else f"--root={machine.room}" for it in step.words.split()]
        asked = [words.get(it, it) for it in asked]
        # (gz-table is given its folder by its words here)
        ran = machine.run(*(["env", "-u", "GZ_TABLE"] if asked[0] == "gz-table" else []), *asked)
        wanted = (step.output, step.status, step.there.split())
        if (*ran, machine.there()) != wanted:
            return [f"`{step.words}`: wanted {wanted}, found {(*ran, machine.there())}"]
    return []
