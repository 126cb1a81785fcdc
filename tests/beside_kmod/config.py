"""Random texts of modprobe.d, and of the kernel's command line."""

VALUES = (b"x=1", b"x=2", b'name="a b"', b"w", b"a=b=c", b"index=1,2", b"l=a:b", b'q="', b"dash-ed=1", b"h=#", b"y='1 2'", b"")
COMMANDS = (b"/bin/true", b"/sbin/modprobe --ignore-install snd && echo $CMDLINE_OPTS", b"a;b", b"/bin/false # no", b"x  y")
PATTERNS = rb"foo foo-* eth? pci:v*d* [a-c]x net-pf-* snd* * a* ? f[oo x] char-major-10-[0-9] foo\* []x] [a- md4".split()
BAD = (
    *(b"alias", b"alias foo", b"alias  ", b"alias a[ b", b"alias a b]", b"blacklist", b"blacklist x["),
    *(b"options", b"options a", b"options a\t", b"options a] x=1", b"install", b"install x", b"install a ", b"remove"),
    *(b"softdep", b"softdep a", b"softdep x] pre: a", b"include x", b"config all", b"Alias a b", b"a b c", b"\xff\xfe"),
    *(b"weakdep", b"weakdep a", b"weakdep a ", b"weakdep x] a", b"Weakdep a b"),
)
KINDS = b"alias alias alias alias options options options options softdep softdep softdep blacklist blacklist".split()
KINDS += b"install remove weakdep bad comment".split()
# Words of the command line for a module.
PARAMETERS = (
    *(b"NAME.x=1", b"NAME.flag", b'NAME.s="a b"', b'"NAME.s=a b"', b"NAME.", b"NAME.x.y=1", b".x=1", b"NAME=1", b'NAME.x="'),
    *(b"NAME.x=a.b", b"a].x=1", b'"NAME.x', b'NAME."x=1', b'NAME.x="1"', b"NAME.x=\xff", b"[a-b].x=1", b"*.x=1", b"modprobe.x=1"),
    *(b"modprobe.blacklist=NAME,OTHER", b"modprobe.blacklist=", b"modprobe.blacklist=NAME,", b"modprobe.Blacklist=a"),
)
LINE_FEED, BACKSLASH = b"\n", b"\\"


class Writer:
    """Writes texts over known names of modules."""

    def __init__(self, dice, known):
        self.dice, self.known = dice, known
        self.named = []

    def chance(self, often):
        return self.dice.random() < often

    def name(self):
        """The name of a module as people write it."""
        name = self.dice.choice(self.known)
        return bytes(self.dice.choice(b"-_") if it in b"-_" and self.chance(0.3) else it for it in name)

    def pattern(self):
        """A name, or a pattern."""
        return self.name() if self.chance(0.5) else self.dice.choice(PATTERNS)

    def blank(self, often=0.1):
        return self.dice.choice((b"\t", b"  ", b" \t", b"\t\t", b"   ")) if self.chance(often) else b" "

    def soft_items(self, odd=0.15):
        """pre: and post: with words, now and then with odd blanks and marks."""
        marks = self.dice.choice(((b"pre:",), (b"post:",), (b"pre:", b"post:"), (b"pre:", b"post:")))
        if self.chance(odd):
            marks = self.dice.choice(((), (b"post:", b"pre:"), (b"pre:", b"post:", b"pre:"), (b"pre:", b"pre:"), (b"Pre:", b"post")))
        words = [self.name()] if self.chance(odd / 2) else []
        for mark in marks:
            words.append(mark)
            words += [self.pattern() if self.chance(0.2) else self.name() for _ in range(self.dice.randrange(4 if self.chance(odd) else 1, 5))]
        return b"".join(it + self.blank(odd / 3) for it in words).rstrip(b" " if self.chance(0.8) else b"")

    def weak_items(self):
        """Names, now and then with odd blanks."""
        words = [self.pattern() if self.chance(0.2) else self.name() for _ in range(self.dice.randrange(1, 5))]
        return b"".join(it + self.blank(0.05) for it in words).rstrip(b" " if self.chance(0.8) else b"")

    def options(self):
        return b" ".join(self.dice.choice(VALUES) for _ in range(self.dice.randrange(1, 4)))

    def line(self):
        """A line of one kind, or one that has none."""
        kind = self.dice.choice(KINDS)
        if kind == b"comment":
            return self.dice.choice((b"# alias a b", b" # blacklist a", b"", b" ", b"\t", b"#", b"#softdep a pre: b"))
        if kind == b"bad":
            return self.dice.choice(BAD)
        name = self.pattern() if kind == b"alias" or self.chance(0.1) else self.name()
        self.named.append(name)
        rest = {
            b"alias": lambda: self.name(),
            b"options": self.options,
            b"blacklist": lambda: b"",
            b"install": lambda: self.dice.choice(COMMANDS),
            b"remove": lambda: self.dice.choice(COMMANDS),
            b"softdep": self.soft_items,
            b"weakdep": self.weak_items,
        }[kind]()
        more = self.dice.choice((b" ", b"  # why", b"\t", b" x y", b"\r")) if self.chance(0.08) else b""
        before = self.dice.choice((b" ", b"\t", b"  ")) if self.chance(0.05) else b""
        return before + kind + self.blank(0.05) + name + (self.blank(0.06) + rest if rest else b"") + more

    def mangled(self, line):
        """The line with a continuation, a backslash or an odd byte somewhere."""
        at = self.dice.randrange(len(line) + 1)
        return line[:at] + self.dice.choice((b"\\\n", b"\\\n", b"\\\n ", b"\\", b"\\\\", b"\0", b"\r", b"\f", b"\v", b"\xa0")) + line[at:]

    def text(self, most):
        """A file of some lines."""
        odd = 0.15 if self.chance(0.2) else 0.01
        lines = [self.line() for _ in range(self.dice.randrange(most + 1))]
        lines = [self.mangled(it) if self.chance(odd) else it for it in lines]
        text = b"".join(it + LINE_FEED for it in lines)
        return text if self.chance(0.9) else text[:-1] + self.dice.choice((b"", b"", BACKSLASH, b"\0"))

    def command_line(self):
        """Words of the kernel's command line, some for modules."""
        words = [b"root=/dev/sda1", b"quiet", b"BOOT_IMAGE=/vmlinuz-6.1"]
        for _ in range(self.dice.randrange(6)):
            name = self.name()
            words.append(self.dice.choice(PARAMETERS).replace(b"NAME", name).replace(b"OTHER", self.name()))
        self.dice.shuffle(words)
        text = b"".join(it + (b" " if self.chance(0.95) else b"  ") for it in words)
        return text + self.dice.choice((b"\n",) * 8 + (b"", b"\nsnd.x=2\n", b"\0", b"\t\n"))
