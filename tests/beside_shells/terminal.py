"""A program that runs on a terminal of its own, as if somebody typed."""

import os
import pty
import select
import time
from pathlib import Path

SECONDS = 20


class Terminal:
    """A running program. What it writes between << and >> is what it answers."""

    def __init__(self, words, environment, folder):
        self.process, self.descriptor = pty.fork()
        if self.process == 0:
            os.chdir(folder)
            os.execvpe(words[0], words, {**environment, "TERM": "dumb"})
        self.unread = b""
        self.said = ""

    def type(self, text):
        os.write(self.descriptor, text.encode())

    def answer(self):
        """The next answer. What was written before it is what was said."""
        self.said = self.read_past(b"<<").decode(errors="replace")
        return self.read_past(b">>").decode().replace("\r\n", "\n")

    def read_past(self, mark):
        """What comes before a mark."""
        end = time.monotonic() + SECONDS
        while mark not in self.unread:
            if not select.select([self.descriptor], [], [], max(0, end - time.monotonic()))[0]:
                raise TimeoutError(f"it wrote {self.unread[-200:]!r}, and no {mark.decode()}")
            self.unread += os.read(self.descriptor, 65536)
        text, _, self.unread = self.unread.partition(mark)
        return text

    def processor(self):
        """How many milliseconds of a processor the program and those that it ran have had."""
        fields = Path(f"/proc/{self.process}/stat").read_text().rpartition(")")[2].split()
        return sum(int(it) for it in fields[11:15]) * 1000 / os.sysconf("SC_CLK_TCK")

    def close(self):
        os.close(self.descriptor)
        os.waitpid(self.process, 0)
