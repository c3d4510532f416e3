"""What the lines of a text that the library wrote say, as objects."""

import functools
import struct
from typing import Dict, Iterator, List, Literal, NamedTuple, Optional, Tuple, Union

from ._library import YES, lib, tables

REPORT, UNMET_LINES, DIFF_LINES, EXPLANATION, HEALTH_LINES, INSTALLABLE_LINES = range(6)
(
    MET, UNMET, IGNORED, PACKAGE, REASON, PACKAGE_REASON, UNMET_GROUP, UNSURE_GROUP, REMOVED,
    CHANGED, UPGRADED, ADDED, OLD_LINE, NEW_LINE, KEY, END, OK, SUMMARY, VALID,
    DOWNGRADED, UNMET_NEED, UNSURE_NEED, CONFLICT, UNSURE_CONFLICT, DUPLICATE, STATE, UNINSTALLABLE,
    UNSURE, UNDECIDED, NEED, EXCLUSION, LEFT_OUT, PACKAGE_OF_FILE, PACKAGE_REASON_OF_FILE,
) = range(34)
_ROW = struct.Struct("@BB6x20N")  # its kind, how many cells it has, and where they are

Row = Tuple[int, List[str]]
Verdict = Literal["met", "unmet", "ignored"]
_VERDICTS: Dict[int, Verdict] = {MET: "met", UNMET: "unmet", IGNORED: "ignored"}
_WORDS: Dict[int, Literal["changed", "upgraded", "downgraded"]] = {
    CHANGED: "changed", UPGRADED: "upgraded", DOWNGRADED: "downgraded"
}

_HEALTH: Dict[int, Literal["unmet", "conflict", "unsure"]] = {
    UNMET_NEED: "unmet", UNSURE_NEED: "unsure", CONFLICT: "conflict", UNSURE_CONFLICT: "unsure"
}
_INSTALLABLE: Dict[int, Literal["uninstallable", "unsure", "undecided"]] = {
    UNINSTALLABLE: "uninstallable", UNSURE: "unsure", UNDECIDED: "undecided"
}


def rows_of(form: int, text: str) -> Iterator[Row]:
    """Yields the kind and the cells of each line of a text of this form."""
    data = text.encode()
    call = functools.partial(lib.deb_rows, form, data, len(data))
    answer, (rows,) = tables([_ROW.size], [data.count(b"\n") + 1], call)
    if answer.status != YES:
        raise AssertionError(f"a text of form {form}")
    for kind, count, *spans in _ROW.iter_unpack(rows):
        yield kind, [
            data[spans[at] : spans[at] + spans[at + 1]].decode() for at in range(0, 2 * count, 2)
        ]


class NumberedPackage(NamedTuple):
    """A package of a file: its number, its name, its canonical version and its architecture. In the
    report of an index that was read of several files, `file` is that of the package, from 1."""

    number: int
    name: str
    version: str
    architecture: str
    file: Optional[int] = None


class Reason(NamedTuple):
    """Why an alternative isn't met: by a package that has or provides its name, or by any."""

    alternative: str
    reason: str
    package: Optional[NumberedPackage]


class Group(NamedTuple):
    """The report on a group of a relation: its canonical text, the packages that meet it and, if
    they were asked for, the reasons why it isn't met."""

    verdict: Verdict
    text: str
    packages: Tuple[NumberedPackage, ...]
    reasons: Tuple[Reason, ...]


class UnmetGroup(NamedTuple):
    """A group that is unmet, or may be: the number of its paragraph in the file, the package, the
    name of its field, and its canonical text."""

    verdict: Literal["unmet", "unsure"]
    number: int
    package: str
    version: str
    architecture: str
    field: str
    group: str


class HealthReason(NamedTuple):
    """Why a set of packages isn't healthy: a package, and the name of its field and the canonical
    text of a group that no package of the set meets or, if there is a package `by`, that excludes
    it. A duplicate has no field and no group; `by` is then a later package of the same name.

    A state has only a package of a status file, which is neither installed nor removed, and its
    `status`, such as "half-installed". The number of the package then counts all paragraphs of the
    file. A version, an architecture or a status that the paragraph lacks is "-", as in the text, so
    that a package has the same types everywhere; "-" is no version and no architecture.
    """

    verdict: Literal["unmet", "conflict", "unsure", "duplicate", "state"]
    package: NumberedPackage
    field: Optional[str]
    group: Optional[str]
    by: Optional[NumberedPackage]
    status: Optional[str] = None


class Need(NamedTuple):
    """That a package needs a group: the canonical text of it, and the numbers of the packages that
    meet it. If every package needs one with an essential name, `group` is this name and
    " (Essential)", as in the text."""

    number: int
    package: str
    version: str
    architecture: str
    group: str
    candidates: Tuple[int, ...]


class Exclusion(NamedTuple):
    """That a package and another one, `excluded`, aren't in one set."""

    number: int
    package: str
    version: str
    architecture: str
    excluded: NumberedPackage


class LeftOut(NamedTuple):
    """That no set contains a package, as it was asked to be left out."""

    number: int
    package: str
    version: str
    architecture: str


InstallReason = Union[Need, Exclusion, LeftOut]


class NotInstallable(NamedTuple):
    """A package that can't be installed, or may not be: its number, its name, its canonical version
    and its architecture; or a source package that can't be built, or may not be, whose
    `architecture` is "source". An architecture wildcard decides about one that is "unsure"; of one that
    is "undecided" the search took all its steps. `reasons` say together why one that is
    "uninstallable" is so, if they were asked for."""

    verdict: Literal["uninstallable", "unsure", "undecided"]
    number: int
    package: str
    version: str
    architecture: str
    reasons: Tuple[InstallReason, ...] = ()


class Change(NamedTuple):
    """What became of a paragraph: the number that it has in the old file or, if it was added, in
    the new one; its versions, canonical; the names of the fields that differ. `old` and `new` are
    the lines of these fields, if values were asked for. As a `str` it is the lines that the
    program prints.
    """

    kind: Literal["removed", "changed", "upgraded", "downgraded", "added"]
    number: int
    package: str
    old_version: Optional[str]
    new_version: Optional[str]
    architecture: str
    fields: Tuple[str, ...]
    old: Tuple[str, ...]
    new: Tuple[str, ...]
    text: str

    def __str__(self) -> str:
        return self.text


def _package(cells: List[str]) -> NumberedPackage:
    name, version, architecture = cells[1:4]
    return NumberedPackage(int(cells[0]), name, version, architecture)


def _file(cells: List[str]) -> Optional[int]:
    """Returns the file that the last cell is, if there is one."""
    return int(cells[0]) if cells else None


def groups_of(text: str) -> List[Group]:
    """Returns the groups of a report."""
    verdicts: List[Tuple[Verdict, str]] = []
    packages: List[List[NumberedPackage]] = []
    reasons: List[List[Reason]] = []
    for kind, cells in rows_of(REPORT, text):
        if kind in (PACKAGE, PACKAGE_OF_FILE):
            packages[-1].append(_package(cells)._replace(file=_file(cells[4:])))
        elif kind == REASON:
            reasons[-1].append(Reason(cells[0], cells[1], None))
        elif kind in (PACKAGE_REASON, PACKAGE_REASON_OF_FILE):
            package = _package(cells[1:])._replace(file=_file(cells[6:]))
            reasons[-1].append(Reason(cells[0], cells[5], package))
        else:
            verdicts.append((_VERDICTS[kind], cells[0]))
            packages.append([])
            reasons.append([])
    return [
        Group(*verdict, tuple(found), tuple(why))
        for verdict, found, why in zip(verdicts, packages, reasons)
    ]


def packages_of(text: str) -> List[NumberedPackage]:
    """Returns the packages of a set."""
    return [_package(cells) for _, cells in rows_of(REPORT, text)]


def unmet_groups_of(text: str) -> List[UnmetGroup]:
    """Returns the groups of a report on a file."""
    return [
        UnmetGroup("unmet" if kind == UNMET_GROUP else "unsure", int(cells[0]), *cells[1:])
        for kind, cells in rows_of(UNMET_LINES, text)
    ]


def _health_reason(kind: int, cells: List[str]) -> HealthReason:
    """Returns the reason that a row is."""
    package = _package(cells)
    if kind == DUPLICATE:
        later = _package([cells[4], package.name, *cells[5:]])
        return HealthReason("duplicate", package, None, None, later)
    if kind == STATE:
        return HealthReason("state", package, None, None, None, cells[4])
    by = _package(cells[6:]) if kind in (CONFLICT, UNSURE_CONFLICT) else None
    return HealthReason(_HEALTH[kind], package, cells[4], cells[5], by)


def health_reasons_of(text: str) -> List[HealthReason]:
    """Returns the reasons of a report on a set of packages."""
    return [_health_reason(kind, cells) for kind, cells in rows_of(HEALTH_LINES, text)]


def _install_reason(kind: int, cells: List[str]) -> InstallReason:
    """Returns the reason that a row is."""
    number, (package, version, architecture) = int(cells[0]), cells[1:4]
    if kind == NEED:
        candidates = () if cells[5] == "none" else tuple(map(int, cells[5].split(" ")))
        return Need(number, package, version, architecture, cells[4], candidates)
    if kind == EXCLUSION:
        return Exclusion(number, package, version, architecture, _package(cells[4:]))
    return LeftOut(number, package, version, architecture)


def not_installable_of(text: str) -> List[NotInstallable]:
    """Returns the packages of a report on which ones can't be installed, or built."""
    packages: List[NotInstallable] = []
    reasons: List[List[InstallReason]] = []
    for kind, cells in rows_of(INSTALLABLE_LINES, text):
        if kind in _INSTALLABLE:
            number, (package, version, architecture) = int(cells[0]), cells[1:]
            packages.append(
                NotInstallable(_INSTALLABLE[kind], number, package, version, architecture)
            )
            reasons.append([])
        else:
            reasons[-1].append(_install_reason(kind, cells))
    return [it._replace(reasons=tuple(why)) for it, why in zip(packages, reasons)]


def _change(head: Row, below: List[Row], text: str) -> Change:
    """Returns the change of a paragraph: the row of it, the rows below, and their lines."""
    kind, cells = head
    old = tuple(cells[0] for kind, cells in below if kind == OLD_LINE)
    new = tuple(cells[0] for kind, cells in below if kind == NEW_LINE)
    number, package = int(cells[0]), cells[1]
    if kind == REMOVED:
        return Change("removed", number, package, cells[2], None, cells[3], (), old, new, text)
    if kind == ADDED:
        return Change("added", number, package, None, cells[2], cells[3], (), old, new, text)
    versions, fields = (cells[2], cells[-3]), tuple(cells[-1].split(" "))
    return Change(_WORDS[kind], number, package, *versions, cells[-2], fields, old, new, text)


def changes_of(text: str) -> List[Change]:
    """Returns the changes in the lines of a comparison."""
    heads: List[Row] = []
    below: List[List[Row]] = []
    lines: List[List[str]] = []
    for row, line in zip(rows_of(DIFF_LINES, text), text.split("\n")):
        if row[0] in (OLD_LINE, NEW_LINE):
            below[-1].append(row)
            lines[-1].append(line)
        else:
            heads.append(row)
            below.append([])
            lines.append([line])
    return [_change(row, more, "\n".join(text)) for row, more, text in zip(heads, below, lines)]
