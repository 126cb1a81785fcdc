"""Random command lines of modprobe that ask, and load nothing."""

from dataclasses import dataclass, field

LONG = {
    b"D": (b"--show-depends", b"--show-d"),
    b"n": (b"--dry-run", b"--show", b"--dry", b"--dr"),
    b"v": (b"--verbose", b"--verb"),
    b"R": (b"--resolve-alias", b"--res"),
    b"c": (b"--showconfig", b"--show-config", b"--showc"),
    b"a": (b"--all", b"--al"),
    b"b": (b"--use-blacklist", b"--use"),
    b"i": (b"--ignore-install", b"--ignore-remove"),
    b"q": (b"--quiet", b"--qu"),
    b"r": (b"--remove",),
}
# What changes nothing of a query, and what getopt_long refuses.
IDLE = ([b"-f"], [b"--force"], [b"--force-vermagic"], [b"-w", b"10"], [b"-w0x1F"], [b"--wait=7"], [b"-w", b" 07"], [b"--force-m"])
REFUSED = ([b"-y"], [b"-nz"], [b"--zork"], [b"--re"], [b"--rem"], [b"--sho"], [b"--all=x"], [b"--show-depends=1"], [b"-w", b"x"], [b"-w", b"08"], [b"-"])
FIRST = (b"--first-time", b"--first")
PARAMETERS = (b"x=1", b"y=a b", b'z="q r"', b"w", b"=", b"a= b", b"", b"b='c d'", b"c=d=e f", b"sp ace", b"t=\t", b"\xff=1", b"k=v ")


@dataclass
class Query:
    """The words of a call without the program's name, and its environment."""

    words: list = field(default_factory=list)
    environment: dict = field(default_factory=dict)


def letters_of(dice):
    """What is asked: letters of modprobe(8), F for --first-time."""
    ask = dice.choice((b"D", b"D", b"D", b"D", b"nv", b"nv", b"nv", b"n", b"R", b"R", b"c", b"nr", b"nrv", b"nrv", b"nrv"))
    extra = bytes(it for it in b"abiqFv" if dice.random() < 0.2)
    if dice.random() < 0.02:
        extra += dice.choice((b"D", b"R", b"r", b"c", b"n"))
    if b"r" in ask + extra and b"n" not in ask + extra:
        extra += b"n"
    if dice.random() < 0.03:
        return ask.replace(b"c", b"n") + extra + b"v" * dice.randrange(1, 6)
    return bytes(dict.fromkeys(ask + extra))


def option_words(dice, letters):
    """The letters as words: joined, alone or long, in any order."""
    words, joined = [], b""
    for it in dice.sample([letters[at : at + 1] for at in range(len(letters))], len(letters)):
        if it == b"F":
            words.append([dice.choice(FIRST)])
        elif dice.random() < 0.4:
            joined += it
        else:
            words.append([b"-" + it if dice.random() < 0.4 else dice.choice(LONG[it])])
    return words + ([[b"-" + joined]] if joined else [])


def valued(dice, short, long, value):
    """An option with a value, in one of its forms."""
    forms = [[b"-" + short, value], [b"-" + short + value], [b"--" + long, value], [b"--" + long + b"=" + value]]
    return dice.choice(forms if value else [forms[0], *forms[2:]])


def query_of(dice, world):
    """A query over a world."""
    letters = letters_of(dice)
    words = option_words(dice, letters)
    if dice.random() < 0.97:
        words.append(valued(dice, b"S", b"set-version", world.version if dice.random() < 0.98 else b"0"))
    for _ in range(dice.choice((0,) * 30 + (1, 1, 2))):
        words.append(valued(dice, b"C", b"config", dice.choice((b"/own/one.conf", b"/own.d", b"/own.d/", b"/no", b"own.d", b"/own", b""))))
    if dice.random() < 0.06:
        words.append(valued(dice, b"d", b"dirname", dice.choice((b"/", b"", b"/own", b".", b"//", b"/lib/.."))))
    if dice.random() < 0.04:
        words.append(list(dice.choice(IDLE)))
    if dice.random() < 0.02:
        words.append(list(dice.choice(REFUSED)))
    several = b"a" in letters or b"r" in letters
    count = dice.choice((0, 1, 2, 3, 5) if several else (1,) * 12 + (0,)) if dice.random() < 0.5 else 1
    names = [dice.choice(world.words) for _ in range(count)]
    if not several and dice.random() < 0.3:
        names += [dice.choice(PARAMETERS) for _ in range(dice.randrange(1, 4))]
    words, environment = arranged(dice, words, names)
    if dice.random() < 0.005 and b"--" not in words:
        words.append(dice.choice((b"-S", b"--config", b"-d")))
    return Query(words, environment)


def varied(dice, words):
    """Words as a variable's text, some in quotes, now and then with an odd blank or quote."""
    words = [dice.choice((b'"%b"', b"'%b'")) % it if dice.random() < 0.1 else it for it in words]
    text = b" ".join(words)
    return dice.choice((b" " + text, text + b" ", text + b"  -v", text + b' "-v" -v', text + b' -v"v"', text + b' "')) if dice.random() < 0.2 else text


def arranged(dice, options, names):
    """Options among the names, as getopt_long permits, some of them in MODPROBE_OPTIONS."""
    environment = {}
    dice.shuffle(options)
    if options and dice.random() < 0.05 and all(it and not set(it) & set(b" \"'") for it in options[-1]):
        environment[b"MODPROBE_OPTIONS"] = varied(dice, options.pop())
    if dice.random() < 0.1:
        places = sorted(dice.randrange(len(options) + 1) for _ in names)
        for at, name in zip(reversed(places), reversed(names)):
            options.insert(at, [name])
        return [it for words in options for it in words], environment
    words = [it for words in options for it in words]
    return words + ([b"--"] if dice.random() < 0.05 or any(it.startswith(b"-") for it in names) else []) + names, environment
