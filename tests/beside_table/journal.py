"""The journal as gourzhiel(5) tells it: which lines count, and the commands in them."""

import hashlib
import os
import re
import threading
import time
from contextlib import contextmanager

from beside_table.model import Table

# The first line: behind its format and version stand two words.
FIRST = re.compile("gourzhiel journal 2 [^ ]+ [^ ]+")


def counted(data):
    """The lines that count: those before the first whose gate is not open, or that does not end."""
    lines = []
    for line in data.split(b"\n")[:-1]:
        if line[:1] != b"+":
            break
        lines.append(line[1:].decode())
    return lines


def sum_of(link, command):
    """The sum of a command behind a line that tells this link: its own sum, or all of it if it is the first."""
    return hashlib.sha256((link + command).encode()).hexdigest()[:16]


def first_changed(lines):
    """The number of the first line that does not continue the chain, if there is one."""
    link = lines[0]
    for number, line in enumerate(lines[1:], 2):
        if line[:17] != sum_of(link, line[17:]) + " ":
            return number
        link = line[:16]
    return None


def commands_of(data):
    """The commands of a journal, and what is wrong with its lines."""
    lines = counted(data)
    if not (lines and FIRST.fullmatch(lines[0])):
        return [], [f"the journal begins with {lines[:1]}"]
    changed = first_changed(lines)
    return [line[17:] for line in lines[1:]], [f"line {changed} does not continue the chain"] * (changed is not None)


def end_of(data):
    """Where the lines that count end."""
    return sum(len(line.encode()) + 2 for line in counted(data))


def has_open_gate_behind(data):
    """Whether an open gate stands after the lines that count."""
    rest = data[end_of(data) :]
    return rest.startswith(b"+") or b"\n+" in rest


def without_snapshot(commands, table):
    """The commands after those that make a table from nothing; None if no beginning of them makes it."""
    made = Table()
    for at in range(len(commands) + 1):
        if made == table:
            return commands[at:]
        if at < len(commands):
            made.answer(commands[at])
    return None


def joined(journals):
    """The commands of journals, each by its name, of which each took the place of the one before it; and which of them does not
    begin with the table that was left."""
    commands, faults, table = [], [], Table()
    for name, own in journals:
        rest = without_snapshot(own, table)
        if rest is None:
            faults.append(f"{name} does not begin with the table that was left before it")
            rest = own
        for line in rest:
            table.answer(line)
        commands += rest
    return commands, faults


class Kept:
    """Keeps what a journal was before it was written anew: a link to each file that had its name."""

    def __init__(self, journal, room):
        self.journal, self.room, self.links, self.ended = journal, room, [], threading.Event()
        self.looking, self.compacting = threading.Lock(), threading.Lock()
        self.thread = threading.Thread(target=self.watch)

    def watch(self):
        while not self.ended.is_set():
            self.look()
            time.sleep(0.001)

    def look(self):
        with self.looking:
            if not self.links or os.stat(self.journal).st_ino != os.stat(self.links[-1]).st_ino:
                link = self.room / f"journal{len(self.links)}"
                os.link(self.journal, link)
                self.links.append(link)

    @contextmanager
    def one_at_a_time(self):
        """Within it nobody else writes the journal anew, so that none is missed, however slowly it is watched."""
        with self.compacting:
            yield
            self.look()

    def __enter__(self):
        self.look()
        self.thread.start()
        return self

    def __exit__(self, *_):
        self.ended.set()
        self.thread.join()
        self.look()

    @property
    def anew(self):
        return len(self.links) - 1

    def commands(self):
        """The commands of all, one after another, and what is wrong with the journals."""
        found = [(link.name, *commands_of(link.read_bytes())) for link in self.links]
        commands, faults = joined((name, own) for name, own, _ in found)
        return commands, [fault for _, _, wrong in found for fault in wrong] + faults
