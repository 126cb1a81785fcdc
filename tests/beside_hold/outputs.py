"""Standard output that cannot be written: what gz-hold says then, and what it has done."""

import os
from dataclasses import dataclass

LOST = "gz-hold: standard output could not be written"
DONE = f"{LOST}; what was asked was done"
# A put ends as gz-table, which says it.
MADE = "gz-table: standard output was not written; changes until then are made: see lsmod and held"
# How a shell calls gz-hold so that nothing can be written. Descriptor 9 is a pipe that nobody reads.
OUTPUTS = (">/dev/full", ">&-", ">&9")


@dataclass
class Unwritten:
    """A call: what is called before it, its words, what it says, and then the modules that are there and what list writes."""

    before: list[str]
    words: str
    error: str
    there: str
    held: str


UNWRITTEN = [
    Unwritten([], "-h", LOST, "", ""),
    Unwritten([], "get one overlay", DONE, "overlay", "one overlay 1\n"),
    Unwritten([], "get one nosuch", LOST, "", ""),
    Unwritten([], "upgrade nosuch", LOST, "", ""),
    Unwritten(["gz-hold get one overlay"], "list", LOST, "overlay", "one overlay 1\n"),
    Unwritten(["gz-hold get one overlay"], "put one", MADE, "overlay", ""),
    Unwritten(["gz-hold get one overlay loop"], "put --remove one", DONE, "", ""),
    Unwritten(["gz-hold get one overlay loop"], "put --all", DONE, "overlay loop", ""),
    Unwritten(["gz-hold get one overlay"], "who overlay", LOST, "overlay", "one overlay 1\n"),
    Unwritten(["gz-hold get one overlay loop", "gz-hold put one"], "remove overlay loop", DONE, "", ""),
    Unwritten(["gz-hold get one overlay"], "remove overlay nosuch", LOST, "overlay", "one overlay 1\n"),
    Unwritten(["gz-hold get pid:1:1 overlay"], "reap", DONE, "overlay", ""),
    Unwritten(["gz-hold get one overlay", "rmmod overlay"], "check", LOST, "", "one overlay 1\n"),
    Unwritten(["gz-hold get one overlay", "rmmod overlay"], "mend", DONE, "", "one overlay 1\n"),
]


def faults_of_outputs(machine):
    """What differs, each as a line."""
    faults = []
    reader, writer = os.pipe()
    os.close(reader)
    for case in UNWRITTEN:
        for output in OUTPUTS:
            machine.anew()
            for words in case.before:
                machine.run(*words.split())
            found = (*machine.call("sh", "-c", f"gz-hold {case.words} {output}", close_fds=False, preexec_fn=lambda: os.dup2(writer, 9)), machine.there(), machine.run("gz-hold", "list")[0])
            wanted = ("", 3, [case.error], case.there.split(), case.held)
            if found != wanted:
                faults.append(f"`{case.words} {output}`: wanted {wanted}, found {found}")
    os.close(writer)
    return faults
