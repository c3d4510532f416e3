"""Relations: their groups and alternatives."""

import functools
import struct
from typing import Iterable, List, Mapping, NamedTuple, Optional, Tuple, Union

from ._files import query
from ._library import Text, answered, canonical_room, given, lib, tables, text_of

# The number of its group, and the offset and the length of its name, qualifier, operator, version,
# architectures and formula.
_PARTS = struct.Struct("@13N")
_BLANKS = bytes.maketrans(b"\t\n", b"  ")


class Alternative(NamedTuple):
    """One alternative of a group of a relation.

    An architecture, and an item of a list of profiles, may have `!` before it.
    """

    name: str
    qualifier: Optional[str]
    operator: Optional[str]
    version: Optional[str]
    architectures: Tuple[str, ...]
    profiles: Tuple[Tuple[str, ...], ...]

    def __str__(self) -> str:
        return "".join([
            self.name,
            f":{self.qualifier}" if self.qualifier else "",
            f" ({self.operator} {self.version})" if self.operator else "",
            f" [{' '.join(self.architectures)}]" if self.architectures else "",
            *(f" <{' '.join(items)}>" for items in self.profiles),
        ])


def _items(text: bytes) -> Tuple[str, ...]:
    """Returns the items of a list: between two is a space, a tab or a newline, or several of
    these."""
    return tuple(it.decode() for it in text.translate(_BLANKS).split(b" ") if it) if text else ()


def _alternative(data: bytes, row: Tuple[int, ...]) -> Alternative:
    _, name, size, *spans, lists, length = row

    def part(at: int) -> Optional[str]:
        start, size = spans[at], spans[at + 1]
        return data[start : start + size].decode() if size else None

    architectures = data[spans[6] : spans[6] + spans[7]] if spans[7] else b""
    formula = data[lists : lists + length].split(b">")[:-1] if length else []
    return Alternative(
        data[name : name + size].decode(), part(0), part(2), part(4), _items(architectures),
        tuple(_items(it.partition(b"<")[2]) for it in formula),
    )


def relations(relation: Text, spelled: bool = False) -> List[List[Alternative]]:
    """Returns the groups of a relation, each with its alternatives: those of its canonical text,
    each once; with `spelled` those of the text itself, with the operator and the version as they
    are there.

        >>> import debctl
        >>> text = "bb (< 1.01), aa | cc"
        >>> [[str(one) for one in group] for group in debctl.relations(text)]
        [['aa', 'cc'], ['bb (<= 1.1)']]
        >>> [[str(one) for one in group] for group in debctl.relations(text, spelled=True)]
        [['bb (< 1.01)'], ['aa', 'cc']]

    Raises Refused if it isn't a relation.
    """
    data, length = text_of(relation)
    if not spelled:
        call = functools.partial(lib.deb_relation_canonical, data, length)
        data = given(canonical_room(length), call)[1]
    call = functools.partial(lib.deb_relation_parts, data, len(data))
    room = data.count(b",") + data.count(b"|") + 1
    answer, (rows,) = tables([_PARTS.size], [room], call)
    answered(answer)
    groups: List[List[Alternative]] = []
    for row in _PARTS.iter_unpack(rows):
        if row[0] > len(groups):
            groups.append([])
        groups[-1].append(_alternative(data, row))
    return groups


def text_of_fields(fields: Mapping[str, str]) -> bytes:
    """Returns the text of a paragraph with these fields, which is no longer than any other."""
    return "\n".join(f"{name}:{value}" for name, value in fields.items()).encode()


def _one(alternative: Union[Text, Alternative]) -> Alternative:
    if isinstance(alternative, Alternative):
        return alternative
    groups = relations(alternative)
    if len(groups) != 1 or len(groups[0]) != 1:
        raise ValueError(f"not one alternative: {alternative!r}")
    return groups[0][0]


def satisfies(
    alternative: Union[Text, Alternative], package: Union[Text, Mapping[str, str]], arch: Text
) -> bool:
    """Returns whether a package meets an alternative for this architecture, wherever that applies:
    by its name or what it provides, its version and its architecture. It is what `query` finds in
    an index of this package alone, which is a paragraph or its text.

        >>> import debctl
        >>> text = "Package: mailer\\nVersion: 2\\nArchitecture: all\\nProvides: mta\\n"
        >>> (mailer,) = debctl.paragraphs(text)
        >>> [debctl.satisfies(it, mailer, "amd64") for it in ("mailer (>= 2)", "mta", "mta (>= 1)")]
        [True, True, False]

    Raises Refused if one of these is refused, and ValueError if a text isn't one alternative.
    """
    wanted = str(_one(alternative)._replace(architectures=(), profiles=()))
    text = text_of_fields(package) if isinstance(package, Mapping) else package
    return query(wanted, text, arch).met


def applies(
    alternative: Union[Text, Alternative], arch: Text, profiles: Iterable[Text] = ()
) -> bool:
    """Returns whether an alternative applies to this architecture and these build profiles.

        >>> import debctl
        >>> debctl.applies("aa [amd64]", "amd64"), debctl.applies("aa <!nodoc>", "amd64", ["nodoc"])
        (True, False)

    Raises Refused if one of these is refused, and ValueError if a text isn't one alternative.
    """
    (group,) = query(str(_one(alternative)), b"", arch, profiles).groups
    return group.verdict != "ignored"
