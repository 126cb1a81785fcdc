"""The faults of kmod that gz-modprobe does not copy, and how they are recognised."""

import re

SOFTDEP = "soft or weak items are read or shown wrong"
ENDLESS = "a removal never ends"
NOT_UTF8 = "a file of modprobe.d whose name is no UTF-8 is not read"
WAIT = "a removal with --wait passes over what is in use"
OVERWRITTEN = "MODPROBE_OPTIONS with several words in quotes is overwritten"
CUT = "a name of an install or remove line is cut as that of a file"
FOUND_TWICE = "a soft dependency is found twice by its ? or *"
# (since kmod 31)
OTHER_PATH = "what needs the module of a path that was given forgets all that it needs"
BLANKS = b" \t\n\v\f\r"


def logical_lines(text, version):
    """Pairs of a line as it stands and as modprobe reads it: a backslash joins lines or is dropped, and kmod 30 reads one that ends the text as the byte 255."""
    end = b"\xff" if version < 34 else b""
    lines, raw, read, at = [], b"", b"", 0
    while at < len(text):
        letter = text[at : at + 1]
        raw += letter
        at += 1
        if letter == b"\\":
            raw += text[at : at + 1]
            read += text[at : at + 1].replace(b"\n", b"") if at < len(text) else end
            at += 1
        elif letter == b"\n":
            lines.append((raw, read))
            raw = read = b""
        else:
            read += letter
    return lines + ([(raw, read)] if raw else [])


def items_of(rest):
    """The words after pre: and after post:."""
    found, mark = {b"pre:": [], b"post:": []}, None
    for word in re.split(b"[%b]+" % BLANKS, rest):
        if word in found:
            mark = word
        elif word and mark:
            found[mark].append(word)
    return found


def mended_line(raw, read):
    """A softdep or weakdep line with single blanks and marks in order, so that no fault of kmod can be met. Others as they are."""
    read = read.split(b"\0")[0]
    weak = re.fullmatch(rb"[ \t]*weakdep[ \t]+([^ \t]+)[ \t](.+)", read, re.S)
    if weak is not None:
        return b"weakdep " + b" ".join([weak[1], *(list(filter(None, re.split(b"[%b]+" % BLANKS, weak[2]))) or [b" "])]).replace(b"\\", b"\\\\") + b"\n"
    parts = re.fullmatch(rb"[ \t]*softdep[ \t]+([^ \t]+)[ \t](.+)", read, re.S)
    if parts is None:
        return raw
    words = [parts[1]]
    for mark, items in items_of(parts[2]).items():
        words += [mark, *items] if items else []
    words += [] if len(words) > 1 else [b"pre:"]
    return b"softdep " + b" ".join(words).replace(b"\\", b"\\\\") + b"\n"


def mended(text, version):
    return b"".join(mended_line(*it) for it in logical_lines(text, version))


def is_configuration(path):
    return path.endswith((b".conf", b".alias", b"/modules.softdep", b"/modules.weakdep", b"/modprobe.d")) or path.startswith(b"/own")


def changed(files, mend):
    """The files of the configuration that change when each text is mended."""
    texts = {path: it for path, it in files.items() if is_configuration(path) and isinstance(it, bytes)}
    return {path: text for path, it in texts.items() if (text := mend(it)) != it}


def with_right_softdeps(files, version):
    """The files that change when the faults of soft items are mended."""
    return changed(files, lambda text: mended(text, version))


def without_odd_names(files, version):
    """The files that gz-modprobe can't open by their names, empty."""
    return {path: b"" for path, it in files.items() if it and isinstance(it, bytes) and not path.decode(errors="replace").encode() == path}


def with_both(files, version):
    return {**with_right_softdeps(files, version), **without_odd_names(files, version)}


def modules_of_patterns(files):
    """The patterns of modules.alias that have a ? or a *, with the module of each."""
    texts = [it for path, it in files.items() if path.endswith(b"/modules.alias") and isinstance(it, bytes)]
    return dict(re.findall(rb"^alias (\S*[?*]\S*) (\S+)$", b"\n".join(texts), flags=re.M))


def with_modules(line, modules):
    """The line, in which modules stand in the place of soft items that are patterns."""
    if not line.lstrip(b" \t").startswith(b"softdep"):
        return line
    return b"".join(modules.get(word, word) for word in re.split(rb"([ \t]+)", line))


def found_once(files, version):
    """The files that change when each soft item that is a pattern of modules.alias is its module."""
    modules = modules_of_patterns(files)
    return changed(files, lambda text: b"\n".join(with_modules(line, modules) for line in text.split(b"\n")))


# What kmod is asked over once more, and what is known if it then answers as gz-modprobe does.
MENDS = ((SOFTDEP, with_right_softdeps), (NOT_UTF8, without_odd_names), (NOT_UTF8, with_both), (FOUND_TWICE, found_once))


def shown_right(output):
    """kmod's configuration with the blank before post: that it forgets."""
    return re.sub(rb"^(softdep [^ \n]+ pre: .*\S)(?<! )post: ", rb"\1 post: ", output, flags=re.M)


def command_names(files, version):
    """The names of install and remove lines, with _ for each - outside [..]."""
    texts = [it for path, it in files.items() if is_configuration(path) and isinstance(it, bytes)]
    lines = [read for text in texts for _, read in logical_lines(text, version)]
    named = [re.match(rb"[ \t]*(?:install|remove)[ \t]+([^ \t\n]+)", it) for it in lines]
    return {re.sub(rb"\[[^]]*\]|-", lambda it: b"_" if it[0] == b"-" else it[0], it[1]) for it in named if it}


def with_cut_names(files, version, output):
    """Names as kmod has them that takes those of install and remove lines for names of files."""
    names = command_names(files, version)
    lines = [it.split(b".")[0].replace(b"-", b"_") if it in names else it for it in output.split(b"\n")]
    return b"\n".join(lines)


def words_of_variable(text):
    """The words of MODPROBE_OPTIONS: single blanks divide them, and a word that begins with a quote ends at its closing one."""
    words, word, at = [], b"", 0
    while at < len(text):
        letter = text[at : at + 1]
        close = text.find(letter, at + 1) if letter in b"\"'" else at
        if letter == b" " or (close > at and not word):
            words.append(word or text[at + 1 : close])
            word = b""
        elif close < 0:
            word, close = word + text[at:], len(text)
        else:
            word += text[at + 1 : close] if close > at else letter
        at = close + 1
    return words + ([word] if word else [])


def without_variable(words, environment):
    """The words with those of MODPROBE_OPTIONS before them, if kmod has no room for so many and overwrites their text. Else None."""
    text = environment.get(b"MODPROBE_OPTIONS", b"")
    before = words_of_variable(text)
    return [*before, *words] if len(before) > text.count(b" ") + 2 else None


def has_other_path(theirs):
    """Whether kmod met a module of whose file another path was given."""
    return b"already exists with different path" in theirs.errors


def told(words):
    """The words with enough -v at their end for each message to be shown."""
    at = words.index(b"--") if b"--" in words else len(words)
    return [*words[:at], b"-vvvvvvvv", *words[at:]]


def without_waiting(words):
    """The words with a last --wait whose number is 0: kmod then asks who uses a module that it removes."""
    at = words.index(b"--") if b"--" in words else len(words)
    return [*words[:at], b"--wait=0", *words[at:]]
