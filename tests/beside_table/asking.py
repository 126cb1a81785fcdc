"""What scripts ask of a table, and what they see of it."""

import subprocess
import time

from beside_table import model
from beside_table.history import Asked


def command(rng, holder, number):
    """One line of what scripts ask. No two numbers give the same text."""
    name, other = (model.spelled(rng.choice(list(model.NEEDS)), number) for _ in range(2))
    return rng.choice(
        [
            f"get {holder} {name}",
            f"get {holder} {name}",
            f"put {holder} {name}",
            f"hold {holder} {name} {other}",
            f"hold --again {holder} {name}",
            f"release {holder} {name}",
            f"insmod {name}",
            f"modprobe {name}",
            f"modprobe {name}",
            f"modprobe -r {name}",
            f"rmmod {name}",
            f"drain {name}",
            f"begin_load {name}",
            f"end_load {name} {rng.choice(['ok', 'fail'])}",
            f"begin_remove {name}",
            f"end_remove {name}",
            f"cancel_remove {name}",
            f"query {name}",
        ]
    )


def release_all(holder, number):
    """A line that names no module: its blanks at the end make it another text."""
    return f"release {holder}" + "".join(" \t"[number >> bit & 1] for bit in range(model.TAIL))


def talk(process, line, index, meanwhile=lambda: None):
    """Gives a line to a process that stays, as which of its lines, and waits for the reply. Until then something else may be done."""
    begun, reply = time.monotonic(), b""
    try:
        process.stdin.write(f"{line}\n".encode())
        process.stdin.flush()
        meanwhile()
        reply = process.stdout.readline()
    except BrokenPipeError:
        process.wait()
    seen = reply.decode()[:-1] if reply.endswith(b"\n") else None
    return Asked(line, process.pid, index, begun, time.monotonic(), seen)


def view(table):
    """What the listings show of a table: who holds what, how often, and the states of modules."""
    held = sorted(f"{holder} {model.spelled(name)} {times}" for (holder, name), times in table.held.items() if times)
    return held, {model.spelled(name): "Unloading" if state == model.DRAINING else state for name, state in table.states.items()}


def found_in(program, folder):
    """What a fresh process finds: the view of a table, or the status and the message of a refusal."""
    listings = []
    for words in ("held", "proc"):
        ran = subprocess.run([program, folder, words], stdin=subprocess.DEVNULL, capture_output=True, timeout=60)
        if ran.returncode:
            return ran.returncode, ran.stderr.decode()
        listings.append(ran.stdout.decode().splitlines())
    held, modules = listings
    return sorted(held), {it.split()[0]: it.split()[4] for it in modules}
