"""Small sets of packages for the fuzzer, and which of them can be installed; and source packages, and
which of them can be built: docs/FORMAT.md, section 11, read once more, by trying each subset in each
reading of its lists. Nothing here follows the code of the crates.
"""
import re
from dataclasses import dataclass, field, replace
from itertools import product
from typing import Dict, Iterator, List, NamedTuple, Optional, Set, Tuple

from laws.documents import OPERATORS

NAMES = (b"aa", b"bb", b"cc", b"dd", b"ee")
PROVIDED = (b"vv", b"ww")
# Their canonical texts are these.
VERSIONS = (b"1", b"1.0", b"1.0~rc1-1", b"2.10-3", b"1:0", b"1.0+b1")
LISTS = (b"amd64", b"i386", b"linux-any", b"any", b"linux-i386")
# Each formula, and whether it holds: without profiles, and with nocheck.
FORMULAS = {
    b"": (True, True), b" <nocheck>": (False, True), b" <!nocheck>": (True, False),
    b" <nocheck> <!stage1 !x>": (True, True),
}
# How many lists may be read in two ways.
MOST_OPEN = 3
NEEDED = (b"Pre-Depends", b"Depends")
EXCLUDING = (b"Conflicts", b"Breaks")
# How many groups a package has in each field.
COUNTS = {
    b"Depends": (0, 1, 1, 2), b"Pre-Depends": (0, 0, 0, 1), b"Recommends": (0, 0, 0, 1),
    b"Conflicts": (0, 0, 0, 1, 1, 2), b"Breaks": (0, 0, 0, 1),
}
# The same of a source package.
BUILT_WITH = {
    b"Build-Depends": (0, 1, 1, 1, 2), b"Build-Depends-Arch": (0, 0, 0, 1),
    b"Build-Depends-Indep": (0, 0, 0, 1),
}
BUILT_WITHOUT = {
    b"Build-Conflicts": (0, 0, 1), b"Build-Conflicts-Arch": (0, 0, 0, 0, 1),
    b"Build-Conflicts-Indep": (0, 0, 0, 0, 1),
}
PART = re.compile(rb"([^0-9]*)([0-9]*)")
END = ((0,), 0)


class Alternative(NamedTuple):
    """An alternative: its bound and its list may be missing; the list has a sign and names."""

    name: bytes
    qualifier: bytes
    bound: Optional[Tuple[bytes, bytes]]
    names: Optional[Tuple[bytes, Tuple[bytes, ...]]]
    formula: bytes

    @property
    def text(self) -> bytes:
        """It as a relation has it."""
        text = self.name + b":" * bool(self.qualifier) + self.qualifier
        if self.bound:
            text += b" (%s %s)" % self.bound
        if self.names:
            sign, names = self.names
            text += b" [%s]" % b" ".join(sign + name for name in names)
        return text + self.formula

    def applies(self, target: bytes, holds: bool, nocheck: bool) -> bool:
        """Whether it applies, if its list holds the target where that is open."""
        is_meant = FORMULAS[self.formula][nocheck]
        if not self.names:
            return is_meant
        sign, names = self.names
        is_named = target in names or (self.is_open(target) and holds)
        return is_meant and is_named != (sign == b"!")

    def is_open(self, target: bytes) -> bool:
        """Whether its list may be read as holding the target or not."""
        names = self.names[1] if self.names else ()
        return target not in names and any(name == b"any" or b"-" in name for name in names)


# What each source package needs, though it doesn't say so.
IMPLIED = Alternative(b"build-essential", b"native", None, None, b"")


@dataclass
class Package:
    """A package, with the groups of its relations by the names of the fields."""

    name: bytes
    version: bytes
    architecture: bytes
    multi_arch: bytes
    provides: List[Tuple[bytes, bytes]]
    relations: Dict[bytes, List[Tuple[Alternative, ...]]] = field(default_factory=dict)
    essential: bytes = b""

    def paragraph(self, *more: bytes) -> bytes:
        """Its paragraph, with more lines."""
        provided = [name + b" (= %s)" % version * bool(version) for name, version in self.provides]
        fields = [(b"Provides", b", ".join(provided))] if provided else []
        if self.multi_arch:
            fields.append((b"Multi-Arch", self.multi_arch))
        if self.essential:
            fields.append((b"Essential", self.essential))
        for name, groups in self.relations.items():
            fields.append((name, b", ".join(b" | ".join(it.text for it in group) for group in groups)))
        lines = [b"Package: " + self.name, b"Version: " + self.version]
        lines += [b"Architecture: " + self.architecture, *more]
        return b"\n".join([*lines, *(b"%s: %s" % it for it in fields)]) + b"\n"

    def target(self, native: bytes) -> bytes:
        """The architecture that its lists and its needs are read for."""
        return self.architecture if self.architecture in (b"amd64", b"i386") else native

    def counts_as(self, native: bytes) -> bytes:
        """The architecture that it counts as."""
        return native if self.architecture == b"all" else self.architecture

    def has(self, wanted: Alternative) -> bool:
        """Whether it meets an alternative by name."""
        own = self.name == wanted.name and meets(self.version, wanted.bound)
        return own or any(
            name == wanted.name and (not wanted.bound or bool(version) and meets(version, wanted.bound))
            for name, version in self.provides
        )

    def fits(self, wanted: Alternative, target: bytes, native: bytes) -> bool:
        """Whether it meets a need of a package with this target."""
        if not self.has(wanted):
            return False
        if wanted.qualifier == b"any":
            return self.multi_arch == b"allowed"
        if wanted.qualifier not in (b"", b"native"):
            return self.counts_as(native) == wanted.qualifier
        is_foreign = not wanted.qualifier and self.multi_arch == b"foreign"
        return is_foreign or self.counts_as(native) == target

    def excludes(self, unwanted: Alternative, other: "Package", native: bytes) -> bool:
        """Whether an alternative of its Conflicts or Breaks, if it applies, excludes another one."""
        architectures = {b"": None, b"any": None, b"native": native}
        wanted = architectures.get(unwanted.qualifier, unwanted.qualifier)
        is_meant = wanted is None or other.counts_as(native) == wanted
        return other.name != self.name and other.has(unwanted) and is_meant

    def is_beside(self, other: "Package", native: bytes) -> bool:
        """Whether a set may have it and another one of its name."""
        return (
            self.multi_arch == other.multi_arch == b"same"
            and self.counts_as(native) != other.counts_as(native)
            and order_of(self.version) == order_of(other.version)
        )


def order_of(version: bytes):
    """What sorts as a version does."""
    epoch, colon, rest = version.partition(b":")
    upstream, hyphen, revision = (rest if colon else version).rpartition(b"-")
    parts = [upstream, revision] if hyphen else [revision, b"0"]
    return (int(epoch) if colon else 0, *map(part_order, parts))


def part_order(text: bytes):
    """What sorts as an upstream version or a revision does."""
    found = [(text_order(it[1]), int(it[2] or b"0")) for it in PART.finditer(text) if it[0]]
    while len(found) > 1 and found[-1] == END:
        found.pop()
    return (*(found or [END]), END)


def text_order(text: bytes):
    """What sorts as the text of a part does: a tilde comes before its end, and letters before the
    other bytes."""
    ranks = (-1 if it == ord("~") else it if chr(it).isalpha() else it + 256 for it in text)
    return (*ranks, 0)


def meets(version: bytes, bound: Optional[Tuple[bytes, bytes]]) -> bool:
    """Whether a version meets a bound, if there is one."""
    if not bound:
        return True
    own, other = order_of(version), order_of(bound[1])
    return {
        b"<<": own < other, b"<=": own <= other, b"=": own == other, b">=": own >= other,
        b">>": own > other, b"<": own <= other, b">": own >= other,
    }[bound[0]]


@dataclass
class Universe:
    """Packages, and the architecture, the fields and the profile that are asked; and whether a set has to
    contain the essential packages, and the names that it may not contain."""

    packages: List[Package]
    native: bytes
    recommends: bool
    nocheck: bool = False
    essential: bool = False
    without: Tuple[bytes, ...] = ()

    @property
    def text(self) -> bytes:
        """It as an index."""
        return b"\n".join(it.paragraph() for it in self.packages)

    @property
    def words(self) -> List[str]:
        """The options that ask for it."""
        return ["--arch", self.native.decode(), *["--recommends"] * self.recommends]

    @property
    def terms(self) -> List[str]:
        """The options that `installable` alone has."""
        names = b",".join(self.without).decode()
        return [*["--essential"] * self.essential, *["--without", names] * bool(names)]

    @property
    def needed(self) -> Tuple[bytes, ...]:
        """The fields that a package needs."""
        return (*NEEDED, *[b"Recommends"] * self.recommends)

    def open_lists(self) -> List[Tuple[int, bytes, int, int]]:
        """Where the lists are that may be read in two ways."""
        return [it for number, one in enumerate(self.packages) for it in self.open_in(number, one)]

    def open_in(self, number: int, package: Package) -> List[Tuple[int, bytes, int, int]]:
        """Where those of a package with this number are."""
        return [
            (number, name, at, nth)
            for name, groups in package.relations.items()
            for at, group in enumerate(groups)
            for nth, it in enumerate(group)
            if it.is_open(package.target(self.native))
        ]

    def healthy_sets(self, held) -> Iterator[int]:
        """The sets that are healthy if these open lists hold the target, each as the sum of the
        powers of two of its packages."""
        needs, exclusions = [], []
        for number, package in enumerate(self.packages):
            needs.append([*self.needs(number, package, self.needed, held)])
            exclusions.append(self.exclusions(number, package, held))
        for them in range(1 << len(self.packages)):
            members = [it for it in range(len(self.packages)) if them >> it & 1]
            if all(not exclusions[it] & them for it in members):
                if all(mask & them for it in members for mask in needs[it]):
                    yield them

    def applying(self, number: int, package: Package, name: bytes, held):
        """The alternatives of each group in a field that apply."""
        target = package.target(self.native)
        for at, group in enumerate(package.relations.get(name, ())):
            places = ((number, name, at, nth) for nth in range(len(group)))
            yield [it for it, place in zip(group, places) if it.applies(target, place in held, self.nocheck)]

    def needs(self, number: int, package: Package, names, held) -> Iterator[int]:
        """The packages that meet each group in these fields of a package that isn't ignored."""
        target = package.target(self.native)
        for name in names:
            for group in self.applying(number, package, name, held):
                if group:
                    yield self.those(lambda it: any(it.fits(one, target, self.native) for one in group))

    def needed_by(self, members) -> Set[int]:
        """The packages that meet a group of one of these, in some reading."""
        needed = 0
        for held in readings(self.open_lists()):
            for at in members:
                for mask in self.needs(at, self.packages[at], self.needed, held):
                    needed |= mask
        return {at for at in range(len(self.packages)) if needed >> at & 1}

    def exclusions(self, number: int, package: Package, held) -> int:
        """The packages that can't be in a set with a package because of it."""
        same_name = self.those(lambda it: it.name == package.name and not package.is_beside(it, self.native))
        return self.excluded(number, package, EXCLUDING, held) | same_name & ~(1 << number)

    def excluded(self, number: int, package: Package, names, held) -> int:
        """The packages that these fields of a package exclude."""
        unwanted = [
            it for name in names for group in self.applying(number, package, name, held) for it in group
        ]
        return self.those(lambda it: any(package.excludes(one, it, self.native) for one in unwanted))

    def those(self, are) -> int:
        """The packages for which a test holds."""
        return sum(1 << at for at, it in enumerate(self.packages) if are(it))

    def essential_names(self) -> List[bytes]:
        """The names of which a set has to contain a package."""
        return [
            it.name for it in self.packages
            if self.essential and it.essential == b"yes" and it.name not in self.without
            and it.architecture in (b"all", self.native)
        ]

    def found(self) -> Tuple[Set[int], Set[int]]:
        """The sets that are healthy in every reading, and those that are in one. They contain what is asked
        for, and nothing that is left out."""
        wanted = [self.those(lambda it, name=name: it.name == name) for name in self.essential_names()]
        unwanted = self.those(lambda it: it.name in self.without)
        found = [
            {
                them for them in self.healthy_sets(held)
                if not them & unwanted and all(it & them for it in wanted)
            }
            for held in readings(self.open_lists())
        ]
        return set.intersection(*found), set.union(*found)

    def solved(self) -> Tuple[List[bytes], bool]:
        """The word of each package, which is empty if it can be installed or is left out, and whether all
        of them are a healthy set."""
        in_every, in_one = self.found()
        words = [
            b"" if it.name in self.without or any(them >> at & 1 for them in in_every)
            else b"unsure" if any(them >> at & 1 for them in in_one)
            else b"uninstallable"
            for at, it in enumerate(self.packages)
        ]
        return words, (1 << len(self.packages)) - 1 in in_every

    def lines(self, words: List[bytes]) -> bytes:
        """The lines of packages with these words."""
        return b"".join(
            b"%s %d %s %s %s\n" % (word, number, it.name, it.version, it.architecture)
            for number, (word, it) in enumerate(zip(words, self.packages), 1)
            if word
        )


def readings(places) -> List[set]:
    """The open lists that hold the target, in each reading of those at these places."""
    return [
        {place for place, holds in zip(places, choice) if holds}
        for choice in product((False, True), repeat=len(places))
    ]


@dataclass
class Sources:
    """Source packages, and those with which they are built."""

    sources: List[Package]
    universe: Universe

    @property
    def text(self) -> bytes:
        """They as an index of source packages."""
        return b"\n".join(it.paragraph().replace(b"Architecture: source\n", b"") for it in self.sources)

    @property
    def words(self) -> List[str]:
        """The options that ask for them; the index comes next, and then their file."""
        profiles = ["--profiles", "nocheck"] * self.universe.nocheck
        arch = self.universe.native.decode()
        return ["--arch", arch, *self.universe.terms, *profiles, "--kind", "sources", "--index"]

    def sets_with(self, source: Package, sets: Set[int], held) -> Set[int]:
        """Those of some sets that can build a source package, if these open lists hold the target. It
        has no name among packages."""
        asked, native = self.universe, self.universe.native
        needs = [asked.those(lambda it: it.fits(IMPLIED, native, native))]
        needs += asked.needs(-1, source, BUILT_WITH, held)
        excluded = asked.excluded(-1, replace(source, name=b""), BUILT_WITHOUT, held)
        return {them for them in sets if not excluded & them and all(mask & them for mask in needs)}

    def solved(self) -> List[bytes]:
        """The word of each source package, which is empty if it can be built."""
        in_every, in_one = self.universe.found()
        words = []
        for source in self.sources:
            places = readings(self.universe.open_in(-1, source))
            found = [self.sets_with(source, in_one, held) for held in places]
            is_sure = in_every.intersection(*found)
            words.append(b"" if is_sure else b"unsure" if set.union(*found) else b"uninstallable")
        return words

    def lines(self, words: List[bytes]) -> bytes:
        """The lines of source packages with these words."""
        return Universe(self.sources, self.universe.native, False).lines(words)


def universe(random) -> Universe:
    """A universe."""
    native = random.choice((b"amd64", b"amd64", b"i386"))
    made = Universe([], native, random.random() < 0.3)
    names = random.sample(NAMES, random.randint(2, len(NAMES)))
    for _ in range(random.choice((1, 2, 3, 4, 5, 6, 7, 8, 9, 10))):
        made.packages.append(package(random, names))
        if len(made.open_lists()) > MOST_OPEN:
            made.packages.pop()
    return made


def package(random, names: List[bytes]) -> Package:
    """A package of one of these names, which speaks of them too."""
    provided = [
        (random.choice((*PROVIDED, *names)), random.choice((b"", b"", *VERSIONS)))
        for _ in range(random.choice((0, 0, 0, 1, 1, 2)))
    ]
    made = Package(
        random.choice(names),
        random.choice(VERSIONS),
        random.choice((*[b"all"] * 4, *[b"amd64"] * 8, *[b"i386"] * 3, b"linux-any")),
        random.choice((b"", b"", b"no", b"same", b"same", b"foreign", b"allowed")),
        provided,
    )
    made.relations = relations(random, names, COUNTS)
    made.essential = random.choice((*[b""] * 12, b"yes", b"yes", b"no"))
    return made


def relations(random, names: List[bytes], all_counts) -> Dict[bytes, List[Tuple[Alternative, ...]]]:
    """Fields that speak of these names, each with as many groups as one of its counts."""
    made = {}
    for name, counts in all_counts.items():
        groups = []
        for _ in range(random.choice(counts)):
            is_alone = name in EXCLUDING or name in BUILT_WITHOUT
            count = 1 if is_alone else random.choice((1, 1, 2, 2, 3))
            groups.append(tuple(alternative(random, names) for _ in range(count)))
        if groups:
            made[name] = groups
    return made


def sources(random) -> Sources:
    """Source packages, for which build-essential is mostly there, with what it needs."""
    made = universe(random)
    names = [*sorted({it.name for it in made.packages}), b"build-essential"]
    made.recommends, made.nocheck = False, random.random() < 0.3
    few = {b"Depends": (0, 0, 0, 0, 1), b"Breaks": (0, 0, 0, 0, 1)}
    for _ in range(random.choice((0, 1, 1, 1, 1, 1, 1, 1, 2))):
        one = replace(package(random, names), name=b"build-essential")
        one.architecture = random.choice((b"all", b"amd64", b"amd64", b"i386", made.native, made.native))
        one.relations = relations(random, names, few)
        made.packages.insert(random.randint(0, len(made.packages)), one)
        if len(made.open_lists()) > MOST_OPEN:
            made.packages.remove(one)
    asked = []
    for _ in range(random.choice((0, 1, 2, 3, 4))):
        one = Package(random.choice(names), random.choice(VERSIONS), b"source", b"", [])
        one.relations = relations(random, names, {**BUILT_WITH, **BUILT_WITHOUT})
        if len(made.open_in(-1, one)) <= MOST_OPEN:
            asked.append(one)
    return Sources(asked, made)


def alternative(random, names: List[bytes]) -> Alternative:
    """An alternative, mostly of one of these names."""
    signed = (random.choice((b"", b"!")), tuple(random.sample(LISTS, random.choice((1, 1, 2)))))
    return Alternative(
        random.choice((*names * 5, *PROVIDED, b"zz")),
        random.choice((*[b""] * 10, b"any", b"native", b"amd64", b"i386")),
        (random.choice(OPERATORS), random.choice(VERSIONS)) if random.random() < 0.2 else None,
        signed if random.random() < 0.12 else None,
        random.choice((*[b""] * 20, *FORMULAS)),
    )
