"""Processes beside each other: holders that are processes, gz-hold killed alone, and a mend's turn."""

import fcntl
import os
import shutil
import signal
import subprocess
import sys
import threading
import time
from pathlib import Path

from beside_hold.machine import VERSION

# A command's name with what /proc/PID/stat has around it, and a byte that is no text.
ODD_NAME = os.fsdecode(b"a) Z 1 (\n\xff")
WAITERS = 6
MENDS = 12
# At how many moments a call gets signals.
MOMENTS = 6
# What keeps others from a module, and a name of another by what only an alias leads to.
BANS = {"gz-hold.overlay.conf": "blacklist overlay\ninstall overlay /bin/false\n"}
DEVICE = "pci:v00001AF4d00001000sv00"
SIGNALS = (signal.SIGTERM, signal.SIGINT, signal.SIGHUP, signal.SIGQUIT)
# Words by which root runs others as nobody, and as root from whom processes of nobody can be hidden.
NOBODY = ["setpriv", "--reuid=65534", "--regid=65534", "--clear-groups"]
ALMOST_ROOT = ["setpriv", "--regid=65534", "--clear-groups", "--inh-caps=-sys_ptrace,-kill", "--bounding-set=-sys_ptrace,-kill"]
# A command that makes a file, waits for one, and makes another. It is no shell: that of busybox ignores SIGQUIT.
COMMAND = """import sys, time
from pathlib import Path
begun, may_end, ended = map(Path, sys.argv[1:])
begun.touch()
while not may_end.exists():
    time.sleep(0.05)
ended.touch()"""


def until(holds, seconds=20):
    """Waits until it holds. False if it does not in time."""
    end = time.monotonic() + seconds
    while not holds():
        if time.monotonic() > end:
            return False
        time.sleep(0.02)
    return True


def fields(process):
    """The fields of /proc/PID/stat after the command's name."""
    return Path(f"/proc/{process.pid}/stat").read_bytes().rpartition(b") ")[2].decode().split()


def faults_of_holders(machine):
    """A process holds by its number, whatever its command's name, and until it has ended."""
    machine.anew()
    faults = []
    command = machine.room / ODD_NAME
    shutil.copy(shutil.which("sleep"), command)
    process = subprocess.Popen([command, "60"], stdin=subprocess.DEVNULL)
    until(lambda: os.readlink(f"/proc/{process.pid}/exe") == str(command))
    own = f"pid:{process.pid}"
    named = f"{own}:{fields(process)[19]}"
    gone = f"gz-hold: no living process has the number {process.pid}; gz-hold reap gives back what was held by one that is gone"

    def tries(words, *wanted):
        found = machine.hold(words)
        if found != wanted:
            faults.append(f"`{words}`: wanted {wanted}, found {found}")

    tries(f"get {own} loop", "ok loop\n", 0, [])
    tries("list", f"{named} loop 1\n", 0, [])
    tries("reap", "", 0, [])
    tries(f"put {own} loop", "ok\n", 0, [])
    tries("list", "", 0, [])
    tries(f"run {own} loop -- gz-hold list", f"{named} loop 1\n", 0, [])
    tries(f"get {named} loop", "ok loop\n", 0, [])
    # It has ended, and nobody has asked how.
    process.kill()
    until(lambda: fields(process)[0] == "Z")
    tries(f"get {own} loop", "", 2, [gone])
    tries("reap", f"{named} ok\n", 0, [])
    process.wait()
    tries("reap", "", 0, [])
    tries("list", "", 0, [])
    return faults


def unshared(*words):
    """The words by which root runs others within new namespaces. None if that cannot be done here."""
    return ["unshare", *words] if not subprocess.run(["unshare", *words, "true"], capture_output=True).returncode else None


def faults_of_hidden(machine):
    """A process that /proc hides is none that is gone, also if kill(2) may not reach it."""
    unseen = unshared("--mount")
    if unseen is None or subprocess.run([*ALMOST_ROOT, "true"], capture_output=True).returncode:
        print("not tried: processes that /proc hides, which wants root, unshare and setpriv")
        return []
    machine.anew()
    process = subprocess.Popen([*NOBODY, "sleep", "60"], stdin=subprocess.DEVNULL)
    until(lambda: Path(f"/proc/{process.pid}").stat().st_uid == 65534)
    got = machine.hold(f"get pid:{process.pid} loop")
    held = f"pid:{process.pid}:{fields(process)[19]} loop 1\n"
    faults = []
    for hides in ("hidepid=1", "hidepid=2"):
        hidden = [*unseen, "sh", "-c", f'mount -t proc -o {hides} proc /proc && exec "$@"', "sh", *ALMOST_ROOT]
        found = (got, machine.call(*hidden, "gz-hold", "reap"), machine.hold("list"))
        if found != (("ok loop\n", 0, []), ("", 0, []), (held, 0, [])):
            faults.append(f"reap of a process that /proc hides by {hides}: {found}")
    process.kill()
    process.wait()
    found = machine.call(*hidden, "gz-hold", "reap")
    return faults + ["reap where /proc hides processes"] * (found != (held.replace("loop 1", "ok"), 0, []))


def faults_of_numbers(machine):
    """Where /proc is that of another pid namespace, no process is named, and none is taken for one that is gone."""
    within = unshared("--pid", "--fork")
    if within is None:
        print("not tried: another pid namespace, which wants root and unshare")
        return []
    machine.anew()
    machine.hold("get pid:1:1 loop")
    wanted = {"reap": "given back", "get pid:1 loop": "done"}
    said = "gz-hold: /proc has other numbers of processes than gz-hold, and nothing was {}"
    found = {words: machine.call(*within, "gz-hold", *words.split()) for words in wanted}
    wanted = {words: ("", 3, [said.format(end)]) for words, end in wanted.items()}
    faults = [f"`{words}` in another pid namespace: {found[words]}" for words in wanted if found[words] != wanted[words]]
    return faults + [it for it in [machine.hold("list")] if it != ("pid:1:1 loop 1\n", 0, [])]


def faults_of_namespaces(machine):
    """In another pid namespace with a /proc of its own, processes that were named elsewhere are not taken for gone."""
    within = unshared("--pid", "--fork", "--mount-proc")
    if within is None:
        print("not tried: another pid namespace with its own /proc, which wants root and unshare")
        return []
    machine.anew()
    own = f"pid:{os.getpid()}"
    held = f"{own}:{Path('/proc/self/stat').read_text().rpartition(') ')[2].split()[19]} loop 1\n"
    elsewhere = "gz-hold: processes that hold were named in another pid namespace, where numbers are others, and nothing was given back"
    others = "gz-hold: processes of another pid namespace hold modules, whose numbers are others, and nothing was done"
    steps = [
        ([], f"get {own} loop", ("ok loop\n", 0, [])),
        (within, "reap", ("", 3, [elsewhere])),
        (within, "get pid:1 overlay", ("", 3, [others])),
        (within, "get web17 overlay", ("ok overlay\n", 0, [])),
        ([], "list", (f"{held}web17 overlay 1\n", 0, [])),
        ([], "reap", ("", 0, [])),
        ([], f"put {own}", ("ok\n", 0, [])),
        # Once none of them holds, others may be named.
        (within, "get pid:1 overlay", ("ok overlay\n", 0, [])),
        ([], "reap", ("", 3, [elsewhere])),
        ([], "put --all", None),
        ([], f"get {own} loop", ("ok loop\n", 0, [])),
        ([], "reap", ("", 0, [])),
    ]
    found = [(words, wanted, machine.call(*front, "gz-hold", *words.split())) for front, words, wanted in steps]
    return [f"in two pid namespaces, `{words}`: {it}" for words, wanted, it in found if wanted not in (None, it)]


def begin_beside(machine, words):
    """A call of gz-hold that runs beside, with a group of its own."""
    how = {"stdin": subprocess.DEVNULL, "stdout": subprocess.DEVNULL, "stderr": subprocess.DEVNULL}
    return subprocess.Popen(["gz-hold", *words], env=machine.surroundings, start_new_session=True, **how)


def begin_upgrade(machine, words):
    return begin_beside(machine, ["upgrade", "overlay", *words])


def faults_of_command(machine):
    """gz-hold alone is killed while an upgrade's command runs: until that has ended, nobody loads the module."""
    machine.anew()
    machine.hold("get one overlay")
    machine.hold("put one")
    begun, ended = machine.room / "begun", machine.room / "ended"
    upgrade = begin_upgrade(machine, ["--", "sh", "-c", f"echo >{begun}; sleep 2; echo >{ended}"])
    if not until(begun.exists):
        return ["an upgrade has not begun"]
    upgrade.kill()
    upgrade.wait()
    early, was_ended = machine.hold("get one overlay", wait=0), ended.exists()
    late = machine.hold("get one overlay")
    faults = []
    if early[:2] != ("", 4) and not was_ended:
        faults.append(f"a get while an upgrade's command ran: {early}")
    if late != ("ok overlay\n", 0, []) or not ended.exists():
        faults.append(f"a get after an upgrade's command: {late}, and it had {'' if ended.exists() else 'not '}ended")
    return faults + [f"after it, {it}" for it in [machine.hold("check")] if it != ("", 0, [])]


def faults_of_signal(machine, number, send):
    """An upgrade that gets a signal while its command runs waits for the command, and loads the module again."""
    machine.anew()
    machine.hold("get one overlay")
    machine.hold("put one")
    begun, may_end, ended = files = [machine.room / name for name in ("begun", "may_end", "ended")]
    for file in files:
        file.unlink(missing_ok=True)
    upgrade = begin_upgrade(machine, ["--", sys.executable, "-c", COMMAND, *map(str, files)])
    if not until(begun.exists):
        return ["an upgrade has not begun"]
    send(upgrade.pid, number)
    # The command gets the signal too if it is for all of the group.
    gets_it = send is os.killpg
    if gets_it:
        until(lambda: upgrade.poll() is not None)
    may_end.touch()
    wanted = (143, not gets_it, ["overlay"], {}, ("", 0, []))
    found = (upgrade.wait(), ended.exists(), machine.there(), machine.bans(), machine.hold("check"))
    return [] if found == wanted else [f"an upgrade that got signal {number} by {send.__name__}: {found}"]


def faults_of_signals(machine):
    """Each signal, to gz-hold alone and to all of its group."""
    # (in the background of a shell two of them, and below nohup(1) one would be ignored, also by what is called)
    signal.signal(signal.SIGINT, signal.default_int_handler)
    signal.signal(signal.SIGHUP, signal.SIG_DFL)
    signal.signal(signal.SIGQUIT, signal.SIG_DFL)
    return [it for number in SIGNALS for send in (os.kill, os.killpg) for it in faults_of_signal(machine, number, send)]


def faults_of_moments(machine):
    """All of the group get two signals, at any moment of a call whose gz-table is slow: all is then as it was before."""
    program, slow = machine.room / "path/gz-table", machine.room / "slow"
    target = os.readlink(program)
    program.unlink()
    machine.script(program, f'{target} "$@"; status=$?; [ ! -e {slow} ] || sleep 0.1; exit $status')
    faults = []
    for words in (["upgrade", "overlay", "--", "sleep", "0.2"], ["run", "job", "overlay", "--", "sleep", "0.2"]):
        for moment in range(MOMENTS):
            machine.anew()
            machine.hold("get one overlay")
            machine.hold("put one")
            slow.touch()
            process = begin_beside(machine, words)
            for wait in (0.15 * moment, 0.05):
                time.sleep(wait)
                os.killpg(process.pid, SIGNALS[1 + moment % 3])
            process.wait()
            slow.unlink()
            found = (machine.there(), machine.bans(), machine.hold("list"), machine.hold("check"))
            if found != (["overlay"], {}, ("", 0, []), ("", 0, [])):
                faults.append(f"after signals at moment {moment} of `{' '.join(words)}`: {found}")
    program.unlink()
    program.symlink_to(target)
    return faults


def killed_upgrade(machine):
    """All of an upgrade is killed while its command runs. False if that has not begun."""
    machine.anew()
    machine.hold("get one overlay")
    machine.hold("put one")
    begun = machine.room / "begun"
    begun.unlink(missing_ok=True)
    upgrade = begin_upgrade(machine, ["--", "sh", "-c", f"echo >{begun}; sleep 60"])
    has_begun = until(begun.exists)
    os.killpg(upgrade.pid, signal.SIGKILL)
    upgrade.wait()
    return has_begun


def faults_of_killed(machine):
    """All of an upgrade is killed while its command runs: what is left is listed, and what is to be done is said."""
    if not killed_upgrade(machine):
        return ["an upgrade has not begun"]
    wanted = {
        "check": ("overlay: Unloading in the table, Absent in the kernel\n", 1, []),
        "upgrade overlay": ("error ENOENT overlay\n", 10, ["gz-hold: overlay is not loaded, and nothing was done; gz-hold get loads it"]),
        "mend": ("", 0, []),
        "get two overlay": ("ok overlay\n", 0, []),
    }
    found = {words: machine.hold(words) for words in wanted}
    return [f"after an upgrade was killed, `{words}`: {found[words]}" for words in wanted if found[words] != wanted[words]]


def faults_of_bans_left(machine):
    """An upgrade that was killed has left the file that keeps others from the module: who has the module's lock next takes it away."""
    faults = []
    for words in ("mend", "get two overlay", "remove overlay"):
        begun = killed_upgrade(machine)
        left = machine.bans()
        found = (begun, left, machine.hold(words)[2], machine.bans())
        if found != (True, BANS, [], {}):
            faults.append(f"`{words}` after an upgrade was killed: {found}")
    return faults


def faults_of_bans(machine):
    """While an upgrade's command runs, modprobe does not load the module. gz-hold waits, also by an alias, and then finds it."""
    machine.anew()
    machine.hold("get one loop overlay")
    machine.hold("put one")
    begun, may_end, ended = files = [machine.room / name for name in ("begun", "may_end", "ended")]
    for file in files:
        file.unlink(missing_ok=True)
    upgrade = begin_beside(machine, ["upgrade", "loop", "--", sys.executable, "-c", COMMAND, *map(str, files)])
    if not until(begun.exists):
        return ["an upgrade has not begun"]
    plans = [machine.run("gz-modprobe", "--show-depends", name) for name in ("loop", DEVICE)]
    (machine.room / "run/modprobe.d/some-other.conf").write_text("install llc /bin/true\n")
    beside = [machine.hold("get two overlay"), machine.hold("get two llc")]
    waiting = begin_beside(machine, ["get", "two", DEVICE])
    time.sleep(2)
    found = (plans, beside[0], beside[1][:2], waiting.poll(), machine.there())
    may_end.touch()
    found += (waiting.wait(), upgrade.wait(), machine.hold("list")[0], machine.there(), machine.bans())
    wanted = ([("install /bin/false \n", 0), ("", 0)], ("ok overlay\n", 0, []), ("error NOTLIVE llc\n", 12), None, ["overlay"])
    wanted += (0, 0, "two overlay 1\ntwo loop 1\n", ["overlay", "loop"], {})
    return [] if found == wanted else [f"while others are kept from a module: {found}"]


def faults_of_no_bans(machine):
    """If a file cannot be written that keeps others from a module, that is said, and the upgrade goes on."""
    machine.anew()
    machine.hold("get one overlay")
    machine.hold("put one")
    (machine.room / "run").write_text("")
    found = (machine.hold("upgrade overlay -- true"), machine.there())
    (machine.room / "run").unlink()
    file = machine.room / "run/modprobe.d/gz-hold.overlay.conf"
    wanted = (("", 0, [f"gz-hold: cannot write {file}, and others may load overlay meanwhile"]), ["overlay"])
    return [] if found == wanted else [f"where others cannot be kept from a module: {found}"]


def faults_of_wait(machine):
    """gz-hold alone is ended while an upgrade waits: nothing is removed later."""
    faults = []
    for number, status in ((signal.SIGKILL, -signal.SIGKILL), (signal.SIGTERM, 143)):
        machine.anew()
        machine.hold("get one overlay")
        upgrade = begin_upgrade(machine, ["--wait", "30", "--", "touch", str(machine.room / "upgraded")])
        time.sleep(1)
        upgrade.send_signal(number)
        ended = upgrade.wait(10)
        machine.hold("put one")
        time.sleep(2.5)
        if ended != status or machine.there() != ["overlay"] or (machine.room / "upgraded").exists():
            faults.append(f"an upgrade that got signal {number} while it waited ended with {ended}, and was perhaps done")
    return faults


def faults_of_waiting(machine):
    """While an upgrade waits, others load, remove and mend."""
    machine.anew()
    machine.hold("get one overlay")
    upgrade = begin_upgrade(machine, ["--wait", "60"])
    time.sleep(0.5)
    wanted = {
        "remove overlay": ("error EWOULDBLOCK overlay\n", 11, []),
        "mend": ("", 0, []),
        "get two overlay": ("ok overlay\n", 0, []),
        "put --remove one": ("ok\n", 0, []),
        "put two": ("ok\n", 0, []),
    }
    found = {words: machine.hold(words, wait=5) for words in wanted}
    found["upgrade"], wanted["upgrade"] = upgrade.wait(60), 0
    return [f"while an upgrade waited, `{words}`: {found[words]}" for words in wanted if found[words] != wanted[words]]


def faults_of_plain_flock(machine):
    """A flock that does not wait, as that of busybox, serves too."""
    plain = machine.room / "path/flock"
    machine.script(plain, f'case $1 in -w) exit 1 ;; --help) exit ;; *) exec {shutil.which("flock")} "$@" ;; esac')
    faults = faults_of_patience(machine)
    plain.unlink()
    return [f"with a flock that does not wait, {it}" for it in faults]


def faults_of_patience(machine):
    """Another one is waited for as long as is said, and no longer."""
    machine.anew()
    machine.hold("get one loop")
    faults = []
    with open(machine.room / "table/hold/loop", "a") as lock:
        fcntl.flock(lock, fcntl.LOCK_EX)
        for wait in (0, 1):
            begun = time.monotonic()
            found = machine.hold("upgrade loop", wait=wait)
            wanted = f"gz-hold: loop: another gz-hold has been at work for {wait} seconds; ask again, or set GZ_HOLD_WAIT"
            if found != ("", 4, [wanted]) or not wait <= time.monotonic() - begun < wait + 10:
                faults.append(f"a lock that another one has, for {wait} seconds: {found} after {time.monotonic() - begun:.1f}")
        threading.Timer(1, fcntl.flock, (lock, fcntl.LOCK_UN)).start()
        late = machine.hold("upgrade loop --wait 0", wait=20)
    wanted = ("error EWOULDBLOCK loop\n", 11, [])
    return faults + [f"a lock that is given back: {it}" for it in [late] if it != wanted]


def faults_of_turns(machine):
    """While others load and remove, each mend has its turn, and leaves no difference."""
    machine.anew()
    ended, faults = threading.Event(), []

    def work(worker):
        name = ["overlay", "loop", "br_netfilter"][worker % 3]
        while not ended.is_set():
            machine.run("gz-hold", "get", f"h{worker}", name)
            machine.run("gz-hold", "put", "--remove", f"h{worker}")

    threads = [threading.Thread(target=work, args=(worker,)) for worker in range(WAITERS)]
    for thread in threads:
        thread.start()
    found = [machine.hold("mend") for _ in range(MENDS)]
    ended.set()
    for thread in threads:
        thread.join()
    faults += [f"a mend while others were at work: {it}" for it in found if it != ("", 0, [])]
    return faults


def faults_of_creates(machine):
    """Some make the table at once, if it is missing: it is made once, and each is told that it is there."""
    machine.anew()
    shutil.rmtree(machine.room / "table")
    words = ["create", "--if-missing", "-S", VERSION, f"--root={machine.room}"]
    found = [it.wait() for it in [begin_beside(machine, words) for _ in range(WAITERS)]]
    found += [machine.hold("check")]
    return [] if found == [*[0] * WAITERS, ("", 0, [])] else [f"tables that are made at once: {found}"]


def faults_of_mend_in_vain(machine):
    """A mend that cannot have its turn says so."""
    machine.anew()
    machine.hold("get one loop")
    with open(machine.room / "table/hold/.all", "a") as lock:
        fcntl.flock(lock, fcntl.LOCK_SH)
        found = machine.hold("mend", wait=1)
    wanted = "gz-hold: other gz-hold have been at work for 1 seconds; ask again, or set GZ_HOLD_WAIT"
    return [] if found == ("", 4, [wanted]) else [f"a mend in vain: {found}"]


def faults_of_processes(machine):
    """What is wrong, each as a line."""
    parts = [faults_of_holders, faults_of_hidden, faults_of_numbers, faults_of_namespaces, faults_of_command, faults_of_signals, faults_of_moments]
    parts += [faults_of_killed, faults_of_wait, faults_of_waiting]
    parts += [faults_of_creates, faults_of_bans, faults_of_bans_left, faults_of_no_bans]
    parts += [faults_of_patience, faults_of_plain_flock, faults_of_turns, faults_of_mend_in_vain]
    return [fault for part in parts for fault in part(machine)]
