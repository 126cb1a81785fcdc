"""What modules need of each other, and the catalogue's text."""

import re
from collections.abc import Iterable, Iterator
from fnmatch import fnmatchcase
from typing import NamedTuple

from .format import Format, is_name, normal
from .modules import Module
from .report import TEXT, Notes, Refusal

WIDTH = 120
# How much is tried to find the modules of soft dependencies, in bytes.
EFFORT = 1_000_000


class Alias(NamedTuple):
    """An alias of a module, and its place among all."""

    place: int
    pattern: str
    name: str


def plain(pattern: str) -> str:
    """A pattern as fnmatch reads it, in normal form outside of sets."""
    return re.sub(r"\[[^]]*\]|-", lambda it: "_" if it[0] == "-" else it[0].replace("[^", "[!", 1), pattern)


class Aliases:
    """The aliases of modules: those without wildcards, and the others by how they begin before their first."""

    def __init__(self, modules: Iterable[Module]):
        self.words: dict[str, set[Alias]] = {}
        self.patterns: dict[str, list[Alias]] = {}
        self.effort = 0
        pairs = dict.fromkeys((plain(it), module.name) for module in modules for it in module.aliases)
        for place, (pattern, name) in enumerate(pairs):
            begin = re.split(r"[*?[]", pattern, maxsplit=1)[0]
            if begin == pattern:
                self.words.setdefault(pattern, set()).add(Alias(place, pattern, name))
            else:
                self.patterns.setdefault(begin, []).append(Alias(place, pattern, name))
        self.sizes = sorted({len(it) for it in self.patterns})

    def targets(self, word: str) -> list[str]:
        """The modules with an alias that matches, each once, in the order of the aliases."""
        begins = (word[:size] for size in self.sizes if size <= len(word))
        tried = (alias for begin in begins for alias in self.patterns.get(begin, []))
        found = self.words.get(word, set()).union(it for it in tried if self.matches(it.pattern, word))
        return list(dict.fromkeys(it.name for it in sorted(found)))

    def matches(self, pattern: str, word: str) -> bool:
        # (of a kernel's modules next to none are tried)
        self.effort += 50 + len(pattern) + len(word)
        if self.effort > EFFORT:
            raise Refusal("soft dependencies: too many aliases begin as they do")
        try:
            return fnmatchcase(word, pattern)
        except re.error:
            return False


class Tree:
    """The modules of a release, by their names: who exports what, and what an alias stands for."""

    def __init__(self, modules: dict[str, Module]):
        self.modules = modules
        self.exporters: dict[str, str] = {}
        for module in modules.values():
            for symbol in module.exports:
                self.exporters.setdefault(symbol, module.name)
        self.aliases = Aliases(it for it in modules.values() if not it.is_builtin)
        self.builtin_aliases = Aliases(it for it in modules.values() if it.is_builtin)
        self.targets: dict[str, list[str]] = {}

    def exports(self, module: Module) -> list[str]:
        """Its symbols but for those of which an earlier module is the exporter."""
        return [it for it in module.exports if self.exporters[it] == module.name]

    def needs(self, module: Module) -> list[str]:
        """Its open symbols that another module exports. The others are the kernel's."""
        return [it for it in dict.fromkeys(module.open_symbols) if self.exporters.get(it, module.name) != module.name]

    def found(self, item: str) -> list[str]:
        """The modules that a soft dependency stands for: the one of that name, else those with an alias that matches."""
        word = normal(item)
        if word not in self.targets:
            self.targets[word] = self.look_up(word)
        return self.targets[word]

    def look_up(self, word: str) -> list[str]:
        """As kmod does: modules that are built in come last."""
        named = self.modules.get(word)
        if named and not named.is_builtin:
            return [word]
        return self.aliases.targets(word) or ([word] if named else self.builtin_aliases.targets(word))

    def soft_needs(self, module: Module, items: Iterable[str]) -> list[str]:
        """The modules that soft dependencies of a module stand for, each once and without the module itself."""
        return [it for it in dict.fromkeys(name for item in items for name in self.found(item)) if it != module.name]

    def closure(self, names: Iterable[str]) -> list[Module]:
        """The modules of these names and all that they need, also softly, in the order of their names."""
        wanted: set[str] = set()
        left = list(names)
        while left:
            module = self.modules[left.pop()]
            if module.name not in wanted:
                wanted.add(module.name)
                left += [self.exporters[it] for it in self.needs(module)]
                left += self.soft_needs(module, module.soft_before + module.soft_after)
        return [self.modules[it] for it in sorted(wanted)]


def selected(tree: Tree, names: list[str], form: Format) -> list[Module]:
    """The modules of these names and what they need; all modules if there are no names. A catalogue has to hold them."""
    found = tree.closure(map(normal, names)) if names else list(tree.modules.values())
    if len(found) > form.modules:
        advice = "name fewer" if names else "name those that are wanted"
        raise Refusal(f"{len(found)} modules, and a catalogue of version {form.version} holds {form.modules}: {advice}")
    return found


def params_of(module: Module, form: Format, notes: Notes) -> Iterator[str]:
    """The parameters that a catalogue can hold, each as a name and a kind. The others are noted."""
    kinds: dict[str, str] = {}
    for name, kind in module.params:
        kinds.setdefault(normal(name), kind)
    for name, kind in kinds.items():
        if kind not in form.kinds:
            notes.add(f"parameters of type {kind!r}", f"{module.name}: {name}")
        elif not is_name(name):
            notes.add("parameters with a name that a catalogue cannot hold", f"{module.name}: {name!r}")
        else:
            yield f"{name} {form.kinds[kind]}"


def note_left_out(tree: Tree, module: Module, notes: Notes) -> None:
    """Notes exports and soft dependencies that a catalogue cannot hold."""
    for symbol in module.exports:
        if tree.exporters[symbol] != module.name:
            notes.add("second exports of a symbol", f"{module.name}: {symbol}")
    for item in module.soft_before:
        if not tree.found(item):
            notes.add("soft dependencies that no module stands for", f"{module.name}: {item}")
    for item in module.soft_after:
        notes.add("soft dependencies that go after their module", f"{module.name}: {item}")


def lines_of(directive: str, words: Iterable[str]) -> Iterator[str]:
    """A directive with its words, on as many lines as they fill; none if there are no words."""
    line = directive
    for word in words:
        if line != directive and len(line) + 1 + len(word) > WIDTH:
            yield line
            line = directive
        line = f"{line} {word}"
    if line != directive:
        yield line


def description(tree: Tree, module: Module, form: Format, notes: Notes) -> Iterator[str]:
    """The lines of a module."""
    yield f"module {module.name}"
    yield f"size {module.size}"
    yield from lines_of("exports", tree.exports(module))
    yield from lines_of("needs", tree.needs(module))
    yield from lines_of("softneeds", tree.soft_needs(module, module.soft_before))
    yield from (f"param {it}" for it in params_of(module, form, notes))
    if module.is_permanent:
        yield "permanent"


def catalogue(tree: Tree, modules: list[Module], form: Format, notes: Notes) -> Iterator[str]:
    """The lines of a catalogue of these modules. What it cannot hold is noted."""
    yield f"version {form.version}"
    for module in modules:
        yield from description(tree, module, form, notes)
        note_left_out(tree, module, notes)
    if form.has_end:
        yield f"end {len(modules)}"


def session(tree: Tree, modules: list[Module], form: Format, notes: Notes) -> Iterator[str]:
    """The beginning of a session over these modules, in which those that are built in are live."""
    yield "%catalogue"
    yield from catalogue(tree, modules, form, notes)
    yield "%session"
    yield from (f"insmod {it.name}" for it in modules if it.is_builtin)


def bytes_of(lines: Iterable[str]) -> bytes:
    return "".join(f"{it}\n" for it in lines).encode(*TEXT)
