"""Files of control data, and questions to an index of packages."""

import functools
import operator
from typing import Iterable, List, NamedTuple, Tuple

from ._explanations import answered_file, explain_all
from ._library import (
    NO_KIND, REFUSED, YES, Answer, Kind, Text, canonical_room, kind_of, lib, lines_room, text_of,
    texts_of, written,
)
from ._refusals import Refused
from ._rows import (
    Change, Group, HealthReason, NotInstallable, NumberedPackage, UnmetGroup, changes_of, groups_of,
    health_reasons_of, not_installable_of, packages_of, unmet_groups_of,
)

_PACKAGES = 1
_REPORT_ROOM = 1 << 18


class AllChecked(NamedTuple):
    """What a whole file has: the number of paragraphs that pass, and its refusals in file order."""

    passed: int
    refused: List[Refused]


class Report(NamedTuple):
    """The report on a relation, which is true if no group is unmet, and its text."""

    met: bool
    text: str

    def __bool__(self) -> bool:
        return self.met

    @property
    def groups(self) -> List[Group]:
        """The groups of the relation, in the order of the text."""
        return groups_of(self.text)


class UnmetReport(NamedTuple):
    """The report on the relations of a file, which is true if no group is unmet, and its text."""

    met: bool
    text: str

    def __bool__(self) -> bool:
        return self.met

    @property
    def groups(self) -> List[UnmetGroup]:
        """The groups that are unmet, or may be, in the order of the text."""
        return unmet_groups_of(self.text)


class HealthReport(NamedTuple):
    """The report on a set of packages, which is true if the set is healthy, and its text."""

    healthy: bool
    text: str

    def __bool__(self) -> bool:
        return self.healthy

    @property
    def reasons(self) -> List[HealthReason]:
        """Why the set isn't healthy, in the order of the text."""
        return health_reasons_of(self.text)


class InstallReport(NamedTuple):
    """The report on which packages can't be installed, which is true if each can, and its text."""

    installable: bool
    text: str

    def __bool__(self) -> bool:
        return self.installable

    @property
    def packages(self) -> List[NotInstallable]:
        """The packages that can't be installed, or may not be, in the order of the text."""
        return not_installable_of(self.text)


class WitnessReport(NamedTuple):
    """The report on a search for a healthy set of packages, which is true if one is found, and its
    text."""

    found: bool
    text: str

    def __bool__(self) -> bool:
        return self.found

    @property
    def packages(self) -> List[NumberedPackage]:
        """The packages of the set, in the order of the text; none, if no set is found."""
        return packages_of(self.text) if self.found else []

    @property
    def not_installable(self) -> List[NotInstallable]:
        """If no set is found, the packages for which the search finds none, in the order of the
        text."""
        return [] if self.found else not_installable_of(self.text)


class BuildReport(NamedTuple):
    """The report on which source packages can't be built, which is true if each can, and its text.
    """

    buildable: bool
    text: str

    def __bool__(self) -> bool:
        return self.buildable

    @property
    def packages(self) -> List[NotInstallable]:
        """The source packages that can't be built, or may not be, in the order of the text."""
        return not_installable_of(self.text)


def check(text: Text, kind: Kind = "packages") -> int:
    """Returns the number of paragraphs of a file that is accepted as a document of this kind:
    `packages`, `binary`, `source`, `sources`, `status` or `any`.

    Raises Refused if it is refused.
    """
    number, (data, length) = kind_of(kind), text_of(text)
    answer: Answer = lib.deb_check(number, data, length)
    return answered_file(answer, number, data).count


def check_all(text: Text, kind: Kind = "packages") -> AllChecked:
    """Checks all of a file as a document of this kind, where `check` ends at the first refusal, and
    returns the number of paragraphs that pass and the refusals in file order: those that the
    program `debctl check --all` prints. It raises no Refused.

        >>> import debctl
        >>> text = "Package: aa\\nSize: 1k\\n\\nPackage: bb\\nVersion: 1-\\n"
        >>> for refused in debctl.check_all(text).refused:
        ...     print(refused.line, refused.name, refused.field)
        2 BadNumber Size
        5 BadVersion Version

    What follows lines that are refused is checked as if these lines were blank.
    """
    found = explain_all(text, kind)
    return AllChecked(found.passed, [why.refusal for why in found.refused if why.refusal])


def normalise(text: Text, kind: Kind = "packages") -> bytes:
    """Returns the canonical text of a file, as bytes that can be written to one: two accepted files
    mean the same if and only if theirs are the same.

    Raises Refused if the file is refused.
    """
    number, (data, length) = kind_of(kind), text_of(text)
    call = functools.partial(lib.deb_normalise, number, data, length)
    answer, canonical = written(canonical_room(length), call)
    answered_file(answer, number, data)
    return canonical


def same(text: Text, other: Text, kind: Kind = "packages") -> bool:
    """Returns whether two files mean the same.

    Raises Refused if one of them is refused; its `second` says which.
    """
    number, (data, length), (second, size) = kind_of(kind), text_of(text), text_of(other)
    answer: Answer = lib.deb_same(number, data, length, second, size)
    return answered_file(answer, number, data, second).status == YES


def diff(old: Text, new: Text, kind: Kind = "packages", values: bool = False) -> List[Change]:
    """Returns what changed in meaning between two files of this kind: each paragraph that was
    removed, added, changed, upgraded or downgraded, in the order of the lines that the program
    `debctl diff` writes. With `values` a change has the lines of the fields that differ.

        >>> import debctl
        >>> old = "Package: hello\\nVersion: 1\\nArchitecture: all\\n"
        >>> for change in debctl.diff(old, old.replace("1", "2"), values=True):
        ...     print(change)
        ...     print(change.kind, change.fields, change.old, change.new_version)
        upgraded 1 hello 1 2 all Version
         -Version: 1
         +Version: 2
        upgraded ('Version',) ('Version: 1',) 2

    Raises Refused if one of them is refused; its `second` says which. Raises ValueError for the
    kind `any`.
    """
    number, (data, length), (second, size) = kind_of(kind), text_of(old), text_of(new)
    call = functools.partial(lib.deb_diff, number, bool(values), data, length, second, size)
    answer, lines = written(lines_room(2 * (length + size)), call)
    if answer.status == NO_KIND:
        raise ValueError(f"files of {kind!r} aren't compared")
    answered_file(answer, number, data, second)
    return changes_of(lines.decode())


def query(
    relation: Text, index: Text, arch: Text, profiles: Iterable[Text] = (), why: bool = False
) -> Report:
    """Finds the packages of an index that meet a relation, for this architecture and these build
    profiles. With `why` the report has the reasons why a group isn't met.

        >>> import debctl
        >>> index = "Package: hello\\nVersion: 2\\nArchitecture: all\\n"
        >>> report = debctl.query("hello (>= 3)", index, "amd64", why=True)
        >>> for group in report.groups:
        ...     print(bool(report), group.verdict, group.text, group.reasons[0].reason)
        False unmet hello (>= 3) is earlier

    Raises Refused if one of these is refused, and TypeError if the profiles are a single text.
    """
    active, (data, length) = texts_of(profiles), text_of(index)
    call = functools.partial(
        lib.deb_query_why if why else lib.deb_query, *text_of(arch), active, len(active),
        *text_of(relation), data, length,
    )
    answer, report = written(_REPORT_ROOM, call)
    return Report(answered_file(answer, _PACKAGES, data).status == YES, report.decode())


def unmet(
    index: Text,
    file: Text,
    arch: Text,
    profiles: Iterable[Text] = (),
    kind: Kind = "packages",
    recommends: bool = False,
) -> UnmetReport:
    """Finds the relations of a file that no package of an index meets, for this architecture and
    these build profiles: the lines that the program `debctl unmet` writes. `kind` is that of the
    file. Of `packages` and `binary` Pre-Depends and Depends are asked, with `recommends` Recommends
    too; of `sources` and `source` the three fields Build-Depends of the packages that are built for
    the architecture. `Index.unmet` has more options.

    Raises Refused if the architecture, a profile, the index or the file is refused; its `second`
    is true if the file is. Raises ValueError for another kind, or if Recommends is asked of
    sources.
    """
    number, active = kind_of(kind), texts_of(profiles)
    (data, length), (text, size) = text_of(index), text_of(file)
    call = functools.partial(
        lib.deb_unmet, number, bool(recommends), *text_of(arch), active, len(active), data, length,
        text, size,
    )
    answered = written(size + _REPORT_ROOM, call)
    return unmet_report(answered, (kind, recommends), data, text)


def unmet_report(
    answered: Tuple[Answer, bytes], asked: Tuple[Kind, bool], index: bytes, file: bytes
) -> UnmetReport:
    """Returns the report of a call that finds unmet relations, or raises the exception of its
    answer.
    """
    (answer, lines), (kind, recommends) = answered, asked
    if answer.status == NO_KIND:
        is_source = kind in ("source", "sources")
        what = "Recommends of sources" if is_source else f"relations of {kind!r}"
        raise ValueError(f"there are no {what}")
    refused_as = _PACKAGES if answer.status == REFUSED else kind_of(kind)
    met = answered_file(answer, refused_as, index, file).status == YES
    return UnmetReport(met, lines.decode())


def healthy(
    index: Text, arch: Text, *, kind: Kind = "packages", recommends: bool = False
) -> HealthReport:
    """Finds why a set of packages isn't consistent, for this architecture: the lines that the
    program `debctl healthy` writes. `kind` is that of the file: of `packages` the set is all
    packages of an index, and of `status` the installed packages of a status file of dpkg; then a
    package that is neither installed nor removed is a reason, too. Pre-Depends and Depends are
    asked, with `recommends` Recommends too.

        >>> import debctl
        >>> aa = "Package: aa\\nVersion: 1\\nArchitecture: all\\nConflicts: bb\\n\\n"
        >>> bb = "Package: bb\\nVersion: 1\\nArchitecture: all\\n"
        >>> report = debctl.healthy(aa + bb, "amd64")
        >>> print(bool(report), report.text, end="")
        False conflict 1 aa 1 all Conflicts bb by 2 bb 1 all
        >>> [(it.verdict, it.package.name, it.group, it.by.number) for it in report.reasons]
        [('conflict', 'aa', 'bb', 2)]
        >>> removed = "Status: deinstall ok config-files\\n" + aa
        >>> installed = "Status: install ok installed\\n" + bb
        >>> bool(debctl.healthy(removed + installed, "amd64", kind="status"))
        True
        >>> half = installed.replace("ok installed", "ok half-installed")
        >>> report = debctl.healthy(removed + half, "amd64", kind="status")
        >>> [(it.verdict, it.package.number, it.status) for it in report.reasons]
        [('state', 2, 'half-installed')]

    Raises Refused if the architecture or the file is refused, and ValueError for another kind.
    """
    number, (data, length) = kind_of(kind), text_of(index)
    call = functools.partial(
        lib.deb_healthy, number, bool(recommends), *text_of(arch), data, length
    )
    answer, lines = written(length + _REPORT_ROOM, call)
    if answer.status == NO_KIND:
        raise ValueError(f"there are no sets of {kind!r}")
    return HealthReport(answered_file(answer, number, data).status == YES, lines.decode())


def installable(
    index: Text,
    arch: Text,
    *,
    kind: Kind = "packages",
    recommends: bool = False,
    essential: bool = False,
    without: Iterable[Text] = (),
    why: bool = False,
    budget: int = 100_000,
) -> InstallReport:
    """Finds which packages of a file can't be installed, for this architecture: no set of packages
    of the file that is healthy, as `healthy` has it, contains them. Its lines are those that the
    program `debctl installable` writes. `kind` and `recommends` are those of `healthy`.

    With `essential`, a set must have a package of each name that a package of the architecture, or
    of all, has with `Essential: yes`. No package with a name of `without` is in a set, essential,
    or has a line, but numbers count it. With `why`, lines that begin with a space say after an
    uninstallable package why it is.

        >>> import debctl
        >>> aa = "Package: aa\\nVersion: 1\\nArchitecture: all\\nDepends: bb\\nConflicts: cc\\n\\n"
        >>> bb = "Package: bb\\nVersion: 1\\nArchitecture: all\\nDepends: cc\\n\\n"
        >>> cc = "Package: cc\\nVersion: 1\\nArchitecture: all\\n"
        >>> report = debctl.installable(aa + bb + cc, "amd64")
        >>> print(bool(report), report.text, end="")
        False uninstallable 1 aa 1 all
        >>> [(it.verdict, it.number, it.package) for it in report.packages]
        [('uninstallable', 1, 'aa')]
        >>> print(debctl.installable(bb + cc, "amd64", without=["cc"], why=True).text, end="")
        uninstallable 1 bb 1 all
         1 bb 1 all needs cc: 2
         2 cc 1 all is left out

    The search for one package takes at most `budget` steps, from 1 to 4294967295, and all searches
    take at most so many, and 100 for each package.

    Raises Refused if the architecture or the file is refused, and ValueError for another kind or
    budget.
    """
    number, (data, length), steps = kind_of(kind), text_of(index), _steps_of(budget)
    names = texts_of(without, "names")
    call = functools.partial(
        lib.deb_installable, number, bool(recommends), bool(essential), bool(why), steps,
        *text_of(arch), names, len(names), data, length,
    )
    answer, lines = written(_search_room(length, why), call)
    if answer.status == NO_KIND:
        raise ValueError(f"there are no sets of {kind!r}")
    return InstallReport(answered_file(answer, number, data).status == YES, lines.decode())


def witness(
    name: Text,
    index: Text,
    arch: Text,
    *,
    kind: Kind = "packages",
    recommends: bool = False,
    essential: bool = False,
    without: Iterable[Text] = (),
    why: bool = False,
    budget: int = 100_000,
) -> WitnessReport:
    """Finds a set of packages of a file that contains a package with this name and is healthy, as
    `healthy` has it, for this architecture: that of the first package with the name for which the
    search finds one. No architecture wildcard decides whether it is healthy. The lines are those
    that the program `debctl installable --witness` writes: those of the set or, if none is found,
    those that `installable` has for the packages with the name. `kind`, `recommends`, `essential`,
    `without`, `why` and `budget` are those of `installable`.

        >>> import debctl
        >>> aa = "Package: aa\\nVersion: 1\\nArchitecture: all\\nDepends: bb | cc\\n\\n"
        >>> bb = "Package: bb\\nVersion: 1\\nArchitecture: all\\nConflicts: aa\\n\\n"
        >>> cc = "Package: cc\\nVersion: 1\\nArchitecture: all\\n"
        >>> report = debctl.witness("aa", aa + bb + cc, "amd64")
        >>> print(bool(report), report.text, end="")
        True  1 aa 1 all
         3 cc 1 all
        >>> [(it.number, it.name) for it in report.packages]
        [(1, 'aa'), (3, 'cc')]
        >>> report = debctl.witness("aa", aa + bb, "amd64")
        >>> [(it.verdict, it.package) for it in report.not_installable]
        [('uninstallable', 'aa')]

    Raises Refused if the architecture or the file is refused, and ValueError for another kind or
    budget.
    """
    number, (data, length), steps = kind_of(kind), text_of(index), _steps_of(budget)
    names = texts_of(without, "names")
    call = functools.partial(
        lib.deb_witness, number, bool(recommends), bool(essential), bool(why), steps,
        *text_of(arch), *text_of(name), names, len(names), data, length,
    )
    answer, lines = written(_search_room(length, why), call)
    if answer.status == NO_KIND:
        raise ValueError(f"there are no sets of {kind!r}")
    return WitnessReport(answered_file(answer, number, data).status == YES, lines.decode())


def buildable(
    index: Text,
    file: Text,
    arch: Text,
    profiles: Iterable[Text] = (),
    *,
    kind: Kind = "sources",
    essential: bool = False,
    without: Iterable[Text] = (),
    why: bool = False,
    budget: int = 100_000,
) -> BuildReport:
    """Finds which source packages of a file can't be built with the packages of an index, for this
    architecture and these build profiles: no healthy set of these packages has build-essential and
    what the Build-Depends fields need, and none that the Build-Conflicts fields exclude. Each
    source package is asked by itself. The lines are those that the program
    `debctl installable --kind sources` writes. `kind` is that of the file, `sources` or `source`.

        >>> import debctl
        >>> index = "Package: build-essential\\nVersion: 1\\nArchitecture: amd64\\n"
        >>> sources = "Package: ss\\nVersion: 1\\nBuild-Depends: bb <!nocheck>\\n"
        >>> report = debctl.buildable(index, sources, "amd64")
        >>> print(bool(report), report.text, end="")
        False uninstallable 1 ss 1 source
        >>> [(it.verdict, it.package, it.architecture) for it in report.packages]
        [('uninstallable', 'ss', 'source')]
        >>> bool(debctl.buildable(index, sources, "amd64", ["nocheck"]))
        True

    `essential`, `without` and `why` are those of `installable`, and `budget` too, for the search
    for one source package.

    Raises Refused if the architecture, a profile, the index or the file is refused; its `second`
    is true if the file is. Raises ValueError for another kind or budget.
    """
    number, active, steps = kind_of(kind), texts_of(profiles), _steps_of(budget)
    (data, length), (text, size) = text_of(index), text_of(file)
    names = texts_of(without, "names")
    call = functools.partial(
        lib.deb_buildable, number, bool(essential), bool(why), steps, *text_of(arch), active,
        len(active), names, len(names), data, length, text, size,
    )
    answer, lines = written(_search_room(2 * size + 63, why), call)
    if answer.status == NO_KIND:
        raise ValueError(f"there are no source packages of {kind!r}")
    refused_as = _PACKAGES if answer.status == REFUSED else number
    return BuildReport(answered_file(answer, refused_as, data, text).status == YES, lines.decode())


def _search_room(length: int, why: bool) -> int:
    """Returns room for the lines of a search, of that length, and for reasons, which are longer."""
    return lines_room(8 * length) if why else length + 1


def _steps_of(budget: int) -> int:
    """Returns a budget as the library takes it."""
    steps = operator.index(budget)
    if not 0 < steps < 1 << 32:
        raise ValueError(f"no budget: {budget!r}")
    return steps
