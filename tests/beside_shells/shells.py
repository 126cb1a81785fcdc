"""What shells offer for the last word of a line. Each is driven as people drive it, on a terminal, or asked itself (fish)."""

import re
import shutil
import subprocess
from dataclasses import dataclass
from pathlib import Path
from resource import RUSAGE_CHILDREN, getrusage

from beside_shells.terminal import Terminal

PACKAGE = Path("/usr/share/bash-completion/bash_completion")
# A key inserts all that is offered, and another one shows the line.
BASH = """\
bind 'set enable-bracketed-paste off'
bind '"\\C-xa": insert-completions'
bind -x '"\\C-xp": printf "<""<%s>>" "$READLINE_LINE"'
printf '<''<ready>>'
"""
# A key completes the line and shows what compadd was given that fits. Nothing is listed.
ZSH = """\
PROMPT= fpath=(COMPLETIONS $fpath)
setopt no_auto_list no_auto_menu no_beep
autoload -U compinit && compinit -u -D
compadd() {
  [[ ${@[1,(i)(-|--)]} != *-(O|A|D)\\ * ]] || { builtin compadd "$@"; return }
  local -a __hits
  builtin compadd -A __hits "$@"
  __offered+=($__hits)
  builtin compadd "$@"
}
show_offered() {
  typeset -ga __offered=()
  zle complete-word
  print -rn -- "<""<${(F)__offered}>>"
}
zle -N show_offered
bindkey '^Xp' show_offered
print -n '<''<ready>>'
"""


@dataclass(frozen=True)
class Offer:
    """The words that are offered, for how many milliseconds of a processor, and what was written besides."""

    words: set[str]
    milliseconds: float
    said: str


class Bash:
    """bash, with its package of completions, which loads them, or without."""

    def __init__(self, folder, has_package):
        self.folder, self.has_package = folder / "bash", has_package
        self.name = "bash with bash-completion" if has_package else "bash"

    def missing(self):
        if shutil.which("bash") is None:
            return "bash is not there"
        return "the package bash-completion is not there" if self.has_package and not PACKAGE.is_file() else None

    def ask(self, lines, environment, room):
        """What is offered for each line."""
        if self.has_package:
            user = room / "user"
            user.mkdir(exist_ok=True)
            if not (user / "completions").exists():
                (user / "completions").symlink_to(self.folder)
            environment = {**environment, "BASH_COMPLETION_USER_DIR": str(user)}
            setup = f". {PACKAGE}\n"
        else:
            setup = f"for file in {self.folder}/*; do . $file; done\n"
        terminal = Terminal(["bash", "--norc", "--noprofile", "-i"], environment, room)
        terminal.type(setup + BASH)
        terminal.answer()
        answers = []
        for line in lines:
            before = terminal.processor()
            terminal.type(f"{line}\x18a\x18p")
            shown = terminal.answer()
            # Each stands in the place of what follows the last blank, = or :.
            front = re.search(r"[^\s=:]*$", line).start()
            kept = re.search(r"[^\s=]*$", line[:front]).group()
            words = set() if shown == line else {kept + it for it in shown[front:].split()}
            answers.append(Offer(words, terminal.processor() - before, terminal.said))
            terminal.type("\x15")
        terminal.close()
        return answers


class Zsh:
    name = "zsh"

    def __init__(self, folder):
        self.folder = folder / "zsh"

    def missing(self):
        return "zsh is not there" if shutil.which("zsh") is None else None

    def ask(self, lines, environment, room):
        """What is offered for each line."""
        terminal = Terminal(["zsh", "-f", "-i"], environment, room)
        terminal.type(ZSH.replace("COMPLETIONS", str(self.folder)))
        terminal.answer()
        answers = []
        for line in lines:
            before = terminal.processor()
            terminal.type(f"{line}\x18p")
            # (what would have a meaning for the shell has a backslash before it)
            words = {re.sub(r"\\(.)", r"\1", it) for it in terminal.answer().split("\n")} - {""}
            answers.append(Offer(words, terminal.processor() - before, terminal.said))
            terminal.type("\x15")
        terminal.close()
        return answers


class Fish:
    name = "fish"

    def __init__(self, folder):
        self.folder = folder / "fish"

    def missing(self):
        return "fish is not there" if shutil.which("fish") is None else None

    def ask(self, lines, environment, room):
        """What is offered for each line. The time is the mean of all."""
        empty, _ = self.run([], environment, room)
        whole, ran = self.run(lines, environment, room)
        offers = []
        for line, offered in zip(lines, ran.stdout.split("\f")):
            # The word that is completed stands before the last = of each.
            front = re.search(r"\S*=|$", line.rpartition(" ")[2]).group()
            words = {it.partition("\t")[0].removeprefix(front) for it in offered.splitlines()}
            offers.append(Offer(words - {""}, (whole - empty) / len(lines), ran.stderr))
        return offers

    def run(self, lines, environment, room):
        """Asks fish itself. Returns for how many milliseconds of a processor it ran, and what it wrote."""
        script = f"set -p fish_complete_path {self.folder}; for line in $argv; complete -C $line; printf '\\f'; end"
        before = getrusage(RUSAGE_CHILDREN)
        ran = subprocess.run(["fish", "-c", script, *lines], capture_output=True, text=True, env=environment, cwd=room)
        after = getrusage(RUSAGE_CHILDREN)
        return (after.ru_utime + after.ru_stime - before.ru_utime - before.ru_stime) * 1000, ran


def shells(folder):
    """All that are tried, over a folder of completions."""
    return [Bash(folder, True), Bash(folder, False), Zsh(folder), Fish(folder)]
