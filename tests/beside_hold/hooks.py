"""gz-hold as a hook of a container's runtime, which writes the container's state to its standard input."""

import json
import os
import shutil
import subprocess
from pathlib import Path

MODULES = "org.gourzhiel.modules"
# What else a state may have, by the runtime specification.
ODD = {"x": 'a "quoted" \\ text', "y": "é\u2028\t", "nested": [{"id": "other", "annotations": {MODULES: "llc"}}], "n": -1.5e3, "none": None, "no": False}
# The folders of programs that a container gets.
PROGRAMS = ("/bin", "/lib", "/lib64", "/usr")


def state(status, modules=None, **more):
    """A container's state."""
    annotations = {**({MODULES: modules} if modules else {}), "note": ODD["x"]}
    return json.dumps({"ociVersion": "1.0.2", **ODD, "id": "web17", "status": status, "pid": 1, "bundle": "/b", "annotations": annotations, **more})


def call(machine, words, text):
    """What a hook writes that gets this state, its status, and what it says."""
    ran = subprocess.run(["gz-hold", "oci", *words.split()], input=text, env=machine.surroundings, capture_output=True, text=True, timeout=60)
    return ran.stdout, ran.returncode, ran.stderr.splitlines()


def faults_of_stages(machine):
    """A container holds modules from its making to its end."""
    machine.anew()
    faults = []

    def tries(words, text, wanted, held, there):
        found = call(machine, words, text), machine.hold("list")[0], machine.there()
        if found != (wanted, held, there.split()):
            faults.append(f"`oci {words}` of {text}: {found}")

    both = "web17 overlay 1\nweb17 loop 1\n"
    tries("", state("creating", "overlay, loop"), ("ok overlay loop\n", 0, []), both, "overlay loop")
    tries("", state("created", "overlay\nloop"), ("ok overlay loop\n", 0, []), both, "overlay loop")
    tries("", state("stopped", "overlay"), ("ok\n", 0, []), "", "overlay loop")
    # Nothing is to be held, and nothing was.
    tries("", state("creating"), ("", 0, []), "", "overlay loop")
    tries("", state("stopped"), ("ok\n", 0, []), "", "overlay loop")
    tries("loop", state("running", "overlay"), ("ok loop overlay\n", 0, []), both, "overlay loop")
    tries("--remove loop", state("stopped"), ("ok\n", 0, []), "", "")
    tries("", state("creating", "loop nosuch"), ("error ENOENT nosuch\n", 10, []), "", "")
    escaped = state("creating", "loop").replace("loop", "\\u006coop").replace("web17", "web\\/17")
    tries("", escaped, ("ok loop\n", 0, []), "web/17 loop 1\n", "loop")
    return faults


def faults_of_states(machine):
    """What is no state of a container is refused, and nothing is done."""
    machine.anew()
    cannot = "gz-hold: standard input is no state of a container that gz-hold reads, and nothing was done: {}"
    good = state("creating", "loop")
    wanted = {
        "": cannot.format("it is no JSON, or a part of it"),
        good[:-1]: cannot.format("it is no JSON, or a part of it"),
        good + "x": cannot.format("it is no JSON"),
        good.replace("null", "nul"): cannot.format("it is no JSON"),
        good.replace("-1500.0", "01"): cannot.format("it is no JSON"),
        good.replace("note", "no\te"): cannot.format("it is no JSON"),
        good.replace("note", "no\\qe"): cannot.format("it is no JSON"),
        good.replace(', "none"', '; "none"'): cannot.format("it is no JSON"),
        good.replace('"web17"', "17"): cannot.format("its id is no text"),
        good.replace('"loop"', '["loop"]'): cannot.format("its annotation org.gourzhiel.modules is no text"),
        good.replace("web17", "w\\u00e917"): cannot.format("its id has a letter by an escape that gz-hold does not know"),
        good.replace('"web17"', '"web17", "i\\u0064": "web18"'): cannot.format("it has two of id"),
        state("paused", "loop"): "gz-hold: the state of the container web17 has no status that gz-hold knows, and nothing was done: paused",
        good.replace('"status"', '"stage"'): "gz-hold: the state of the container web17 has no status that gz-hold knows, and nothing was done: none",
        "[1]": "gz-hold: the state of a container has no id, and nothing was done",
        state("creating", "loop", id="pid:1:1"): "gz-hold: the container pid:1:1 is no holder: pid: begins the name of a process",
        state("creating", "loop", id="web 17"): "gz-hold: a holder has no blanks and no control bytes",
        state("creating", "-x"): "gz-hold: -x is no name: a name does not begin with -",
    }
    found = {text: call(machine, "", text) for text in wanted}
    faults = [f"`oci` of {text}: {found[text]}" for text in wanted if found[text] != ("", 2, [wanted[text]])]
    return faults + [f"refused states left {it}" for it in [machine.hold("list")[0] + " ".join(machine.there())] if it]


def bundle(machine, hooks):
    """A folder with a container of runc that runs true, with these hooks."""
    folder = machine.room / "bundle"
    shutil.rmtree(folder, ignore_errors=True)
    (folder / "rootfs").mkdir(parents=True)
    subprocess.run(["runc", "spec"], cwd=folder, check=True)
    config = json.loads((folder / "config.json").read_text())
    config["process"] |= {"terminal": False, "args": ["/bin/true"]}
    for place in filter(os.path.isdir, PROGRAMS):
        config["mounts"].append({"destination": place, "type": "bind", "source": os.path.realpath(place), "options": ["rbind", "ro"]})
    config["annotations"] = {MODULES: "overlay br_netfilter"}
    config["hooks"] = hooks
    (folder / "config.json").write_text(json.dumps(config))
    return folder


def run_container(machine, folder):
    """The status of a container, and what its runtime says."""
    words = ["runc", "--root", machine.room / "runc", "run", "--bundle", folder, "web17"]
    ran = subprocess.run(words, stdin=subprocess.DEVNULL, capture_output=True, text=True, timeout=60)
    return ran.returncode, ran.stderr


def faults_of_runc(machine):
    """A container of runc holds its modules while it runs. One whose modules are refused does not begin."""
    machine.anew()
    if shutil.which("runc") is None or run_container(machine, bundle(machine, {}))[0]:
        print("not tried: hooks of runc, which runs no container here")
        return []
    environment = [f"{name}={value}" for name, value in machine.surroundings.items()]
    program, seen = machine.room / "path/gz-hold", machine.room / "seen"
    hook = {"path": str(program), "args": ["gz-hold", "oci"], "env": environment}
    looks = {"path": "/bin/sh", "args": ["sh", "-c", f"gz-hold list >{seen}"], "env": environment}
    folder = bundle(machine, {"createRuntime": [hook, looks], "poststop": [hook]})
    found = run_container(machine, folder), seen.read_text(), machine.hold("list")
    faults = []
    if found != ((0, ""), "web17 overlay 1\nweb17 br_netfilter 1\n", ("", 0, [])):
        faults.append(f"a container of runc: {found}")
    Path(f"{machine.modules}.refused").write_text("overlay\n")
    machine.run("rmmod", "overlay")
    status, said = run_container(machine, folder)
    Path(f"{machine.modules}.refused").unlink()
    if status == 0 or "error NOTLIVE overlay" not in said or machine.hold("list") != ("", 0, []):
        faults.append(f"a container of runc whose module is refused: {status}, {said}, {machine.hold('list')}")
    return faults


def faults_of_hooks(machine):
    """What is wrong, each as a line."""
    return [fault for part in (faults_of_stages, faults_of_states, faults_of_runc) for fault in part(machine)]
