"""The lines of `installable --why`, checked by what the packages of a small universe need and exclude:
docs/FORMAT.md, section 11, read once more.
"""
import re
from typing import Dict, Iterator, List, NamedTuple, Optional, Tuple

from laws.universes import BUILT_WITH, BUILT_WITHOUT, EXCLUDING, IMPLIED, Alternative, Package, Universe

HEAD = re.compile(rb"(\w+) (\d+) [^\n]*\n((?: [^\n]*\n)*)")
SPELLED = {b"<": b"<=", b">": b">="}


class Need(NamedTuple):
    """A set that contains the package has to contain one of these."""

    member: int
    candidates: Tuple[int, ...]

    def respects(self, members) -> bool:
        """Whether a set does."""
        return self.member not in members or any(it in members for it in self.candidates)


class Exclusion(NamedTuple):
    """No set contains both."""

    member: int
    other: int

    def respects(self, members) -> bool:
        """Whether a set doesn't."""
        return not {self.member, self.other} <= members


def canonical(wanted: Alternative) -> bytes:
    """The canonical text of an alternative."""
    text = wanted.name + b":" * bool(wanted.qualifier) + wanted.qualifier
    if wanted.bound:
        operator, version = wanted.bound
        text += b" (%s %s)" % (SPELLED.get(operator, operator), version)
    if wanted.names:
        sign, names = wanted.names
        text += b" [%s]" % b" ".join(sorted(sign + name for name in names))
    return b" ".join([text, *sorted(re.findall(rb"<[^>]*>", wanted.formula))])


def some(numbers) -> bytes:
    """Numbers, each after a space."""
    return b"".join(b" %d" % it for it in numbers) or b" none"


class Explained:
    """The lines that are true of the packages of a universe, or of one source package that is built with
    them, and what each says. Packages have their numbers, and the source package has the number 0."""

    def __init__(self, asked: Universe, source: Optional[Package] = None, number: int = 0):
        self.asked = asked
        self.source = source
        self.true: Dict[bytes, object] = {}
        for at, it in enumerate(asked.packages, 1):
            words = b" %d %s %s %s" % (at, it.name, it.version, it.architecture)
            target = it.target(asked.native)
            self.add_needs(at, words, target, it, asked.needed)
            self.add_terms(at, words, it)
            self.add_exclusions(at, words, target, it, EXCLUDING)
            self.add_duplicates(at, words, it)
        if source:
            words = b" %d %s %s source" % (number, source.name, source.version)
            self.add_group(0, words, asked.native, (IMPLIED,))
            self.add_needs(0, words, asked.native, source, BUILT_WITH)
            self.add_exclusions(0, words, asked.native, source, BUILT_WITHOUT)

    def those(self, are) -> List[int]:
        """The numbers of the packages for which a test holds."""
        return [at for at, it in enumerate(self.asked.packages, 1) if are(it)]

    def words(self, number: int) -> bytes:
        """The package with a number, as after `excludes`."""
        it = self.asked.packages[number - 1]
        return b"%d %s %s %s" % (number, it.name, it.version, it.architecture)

    def readings(self, wanted: Alternative, target: bytes) -> List[bool]:
        """Whether an alternative applies, in both readings of its list."""
        return [wanted.applies(target, holds, self.asked.nocheck) for holds in (False, True)]

    def add_group(self, at: int, words: bytes, target: bytes, group):
        """Adds a need, if an alternative of the group surely applies."""
        if not any(all(self.readings(it, target)) for it in group):
            return
        candidates: List[int] = []
        for wanted in group:
            if any(self.readings(wanted, target)):
                candidates += self.those(lambda it, one=wanted: it.fits(one, target, self.asked.native))
        text = b" | ".join(map(canonical, group))
        self.true[b"%s needs %s:%s\n" % (words, text, some(candidates))] = Need(at, tuple(candidates))

    def add_needs(self, at: int, words: bytes, target: bytes, it: Package, names):
        """Adds the needs of these fields."""
        for name in names:
            for group in it.relations.get(name, ()):
                self.add_group(at, words, target, group)

    def add_terms(self, at: int, words: bytes, it: Package):
        """Adds that a package is left out, and that it needs the essential ones."""
        if it.name in self.asked.without:
            self.true[words + b" is left out\n"] = Need(at, ())
        for name in self.asked.essential_names():
            candidates = self.those(lambda other, name=name: other.name == name)
            line = b"%s needs %s (Essential):%s\n" % (words, name, some(candidates))
            self.true[line] = Need(at, tuple(candidates))

    def add_exclusions(self, at: int, words: bytes, target: bytes, it: Package, names):
        """Adds the packages that an alternative of these fields excludes, if it surely applies. A source
        package has no name among packages."""
        for name in names:
            for group in it.relations.get(name, ()):
                for unwanted in group:
                    if all(self.readings(unwanted, target)):
                        self.add_excluded(at, words, it, unwanted)

    def add_excluded(self, at: int, words: bytes, it: Package, unwanted: Alternative):
        """Adds the packages that an alternative excludes."""
        asking = it if at else Package(b"", it.version, it.architecture, b"", [])
        for other in self.those(lambda one: asking.excludes(unwanted, one, self.asked.native)):
            self.true[b"%s excludes %s\n" % (words, self.words(other))] = Exclusion(at, other)

    def add_duplicates(self, at: int, words: bytes, it: Package):
        """Adds later packages of one name that can't be in a set with this one."""
        for other in range(at + 1, len(self.asked.packages) + 1):
            later = self.asked.packages[other - 1]
            if later.name == it.name and not it.is_beside(later, self.asked.native):
                self.true[b"%s excludes %s\n" % (words, self.words(other))] = Exclusion(at, other)

    def wrong(self, number: int, lines: List[bytes]) -> Iterator[str]:
        """What is wrong with the lines of the package, or of the source package, that has this number."""
        false = [line for line in lines if line not in self.true]
        if false or not lines:
            yield f"package {number} has the lines {lines!r}, but {false!r} aren't true"
            return
        facts = [self.true[line] for line in lines]
        asked = {0 if self.source else number}
        if has_set(facts, asked):
            yield f"{lines!r} don't rule package {number} out"
        for at, line in enumerate(lines):
            if not has_set(facts[:at] + facts[at + 1 :], asked):
                yield f"{lines!r} rule package {number} out, also without {line!r}"
        kinds = [isinstance(it, Exclusion) for it in facts]
        if kinds != sorted(kinds):
            yield f"an exclusion comes before a need: {lines!r}"


def has_set(facts, members) -> bool:
    """Whether a set that contains these respects the facts."""
    if not all(it.respects(members) for it in facts if isinstance(it, Exclusion)):
        return False
    open_needs = (it for it in facts if isinstance(it, Need) and not it.respects(members))
    need = next(open_needs, None)
    return need is None or any(has_set(facts, members | {it}) for it in need.candidates)


def cut(out: bytes) -> Tuple[bytes, Dict[int, List[bytes]]]:
    """The lines of `installable`, and those below each `uninstallable`, by its number. Other lines have
    none below them."""
    heads, below = [], {}
    for it in HEAD.finditer(out):
        heads.append(it[0][: it.start(3) - it.start()])
        if it[1] == b"uninstallable" or it[3]:
            below[int(it[2])] = it[3].splitlines(keepends=True)
    return b"".join(heads), below
