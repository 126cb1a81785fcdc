"""The table as its manual tells it: what a line is answered, and what it leaves. It is written from gz-table(8) alone."""

from collections import Counter

# A chain, a diamond and two that stand alone: each module with those that it needs.
NEEDS = {
    "base": [],
    "middle": ["base"],
    "top": ["middle", "base"],
    "left": ["base"],
    "right": ["base"],
    "roof": ["left", "right", "base"],
    "alone": [],
    "kept": [],
}
PERMANENT = {"kept"}

# Each name has a tail, in which `-` and `_` are the same: so one command has many texts.
TAIL = 12

LIVE, LOADING, UNLOADING, DRAINING = "Live", "Loading", "Unloading", "Draining"


def spelled(name, number=0):
    """A name with the tail of this number, below 4096."""
    return name + "".join("-" if number >> bit & 1 else "_" for bit in range(TAIL))


def plain(word):
    """A name without its tail, and any other word as it is."""
    return word.rstrip("-_") or word


def catalogue():
    """The text of the catalogue."""
    lines = []
    for name, needs in NEEDS.items():
        lines += [f"module {spelled(name)}", "size 4096", f"exports of_{name}"]
        lines += [f"needs {' '.join(f'of_{it}' for it in needs)}"] if needs else []
        lines += ["permanent"] if name in PERMANENT else []
    return "".join(line + "\n" for line in lines)


class Refused(Exception):
    """A line is refused with this code and name."""


class Table:
    """The modules that are not absent with their states, oldest first, and who holds what, how often."""

    def __init__(self):
        self.states = {}
        self.held = Counter()

    def copy(self):
        other = Table()
        other.states, other.held = dict(self.states), Counter(self.held)
        return other

    def __eq__(self, other):
        return (list(self.states.items()), +self.held) == (list(other.states.items()), +other.held)

    def holds(self, name):
        return sum(count for (_, held), count in self.held.items() if held == name)

    def is_needed(self, name):
        return any(name in NEEDS[it] for it in self.states)

    def answer(self, line):
        """The reply, whose line feed is left out. A reply that is refused leaves the table as the parts that went well made it."""
        words = [plain(word) for word in line.split()]
        try:
            reply = getattr(self, "do_" + words[0])(*words[1:]) or "ok"
        except Refused as why:
            reply = "error " + str(why)
        return " ".join(spelled(word) if word in NEEDS else word for word in reply.split(" "))

    # One module, by the halves of a load and a removal.

    def do_begin_load(self, name):
        if name in self.states:
            raise Refused(f"EEXIST {name}")
        for need in NEEDS[name]:
            if self.states.get(need) != LIVE:
                raise Refused(f"NEEDNOTLIVE {need}")
        self.states[name] = LOADING

    def do_end_load(self, name, how):
        if self.states.get(name) != LOADING:
            raise Refused(f"EBUSY {name}")
        if how == "ok":
            self.states[name] = LIVE
        else:
            del self.states[name]

    def test_removal(self, name):
        if name not in self.states:
            raise Refused(f"ENOENT {name}")
        if self.is_needed(name):
            raise Refused(f"EWOULDBLOCK {name}")
        if self.states[name] != LIVE or name in PERMANENT:
            raise Refused(f"EBUSY {name}")

    def do_drain(self, name):
        self.test_removal(name)
        self.states[name] = DRAINING

    def do_begin_remove(self, name):
        self.test_removal(name)
        if self.holds(name):
            raise Refused(f"EWOULDBLOCK {name}")
        self.states[name] = UNLOADING

    def do_end_remove(self, name):
        state = self.states.get(name)
        if state not in (UNLOADING, DRAINING):
            raise Refused(f"EBUSY {name}")
        if state == DRAINING and self.holds(name):
            raise Refused(f"EWOULDBLOCK {name}")
        del self.states[name]

    def do_cancel_remove(self, name):
        if self.states.get(name) not in (UNLOADING, DRAINING):
            raise Refused(f"EBUSY {name}")
        self.states[name] = LIVE

    def do_insmod(self, name):
        self.do_begin_load(name)
        self.do_end_load(name, "ok")

    def do_rmmod(self, name):
        if self.states.get(name) != DRAINING:
            self.do_begin_remove(name)
        self.do_end_remove(name)

    # With what it needs.

    def do_modprobe(self, *words):
        if words[0] == "-r":
            return self.remove_all(words[1])
        if self.states.get(words[0]) == LIVE:
            return
        for name in [*plan(words[0]), words[0]]:
            if self.states.get(name) != LIVE:
                self.do_insmod(name)

    def remove_all(self, name):
        if name not in self.states:
            return
        self.do_rmmod(name)
        for need in reversed(plan(name)):
            try:
                self.do_rmmod(need)
            except Refused:
                pass

    # Holders.

    def take(self, holder, name):
        if self.states.get(name) != LIVE:
            raise Refused(f"NOTLIVE {name}")
        self.held[holder, name] += 1

    def do_get(self, holder, name):
        self.take(holder, name)

    def do_put(self, holder, name):
        if not self.held[holder, name]:
            raise Refused(f"NOTHELD {name}")
        self.held[holder, name] -= 1

    def do_hold(self, holder, *names):
        before = Counter(self.held)
        again = holder == "--again"
        if again:
            holder, names = names[0], names[1:]
        unique = list(dict.fromkeys(names))
        try:
            for name in unique:
                if again or not before[holder, name]:
                    self.take(holder, name)
        except Refused:
            self.held = before
            raise
        return "ok " + " ".join(unique)

    def do_release(self, holder, *names):
        for name in names:
            if not self.held[holder, name]:
                raise Refused(f"NOTHELD {name}")
        for key in list(self.held):
            if key[0] == holder and (not names or key[1] in names):
                del self.held[key]

    # Questions.

    def do_query(self, name):
        return "yes" if self.holds(name) else "no"


def plan(name):
    """What is loaded before a module, each once, in the order in which its needs ask for them."""
    order = []
    for need in NEEDS[name]:
        for it in [*plan(need), need]:
            if it not in order:
                order.append(it)
    return order


def table_after(lines):
    table = Table()
    for line in lines:
        table.answer(line)
    return table
