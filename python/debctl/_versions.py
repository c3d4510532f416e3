"""Versions: their order, their canonical text and their keys."""

import ctypes
import functools
from typing import Any, List, NamedTuple, Optional, Tuple, Union

from ._library import (
    NO_ROOM, Answer, Comparison, Text, VersionParts, answered, bytes_of, given, lib, text_of,
)
from ._refusals import Refused

_ROOM = 256
_TEXTS = (str, bytes, bytearray, memoryview)
# Buffers that no call uses: a call takes one out for as long as it uses it, since a signal handler
# or another thread may call in between.
_spare: List[Tuple[Any, Any, Any]] = []


def compare(left: Text, right: Text) -> int:
    """Returns the order of two versions, in Debian's order: -1, 0 or 1.

    Raises Refused if one of them isn't a version.
    """
    answer: Comparison = lib.deb_version_compare(*text_of(left), *text_of(right))
    return answered(answer).order


def canonical(version: Text) -> str:
    """Returns the canonical text of a version: two are equal if and only if theirs are the same.

    Raises Refused if it isn't a version.
    """
    data, length = text_of(version)
    call = functools.partial(lib.deb_version_canonical, data, length)
    return given(length + 1, call)[1].decode()


def _buffer() -> Tuple[Any, Any, Any]:
    """Returns a buffer, its length, and the pointer to that."""
    length = ctypes.c_size_t()
    return ctypes.create_string_buffer(_ROOM), length, ctypes.byref(length)


def key(version: Text) -> bytes:
    """Returns the key of a version: bytes whose order is Debian's order of versions. Two versions
    are equal if and only if their keys are the same, so a database can sort and index keys. The
    encoding doesn't change.

        >>> import debctl
        >>> sorted(["1.10", "1.9", "1.10~rc1"], key=debctl.key)
        ['1.9', '1.10~rc1', '1.10']

    Raises Refused if it isn't a version.
    """
    data = bytes_of(version)
    try:
        buffer = _spare.pop()
    except IndexError:
        buffer = _buffer()
    out, length, pointer = buffer
    answer: Answer = lib.deb_version_key(data, len(data), out, _ROOM, pointer)
    if answer.status == 0:
        text: bytes = out[: length.value]
        _spare.append(buffer)
        return text
    room = length.value
    _spare.append(buffer)
    if answer.status == NO_ROOM:
        return given(room, functools.partial(lib.deb_version_key, data, len(data)))[1]
    answered(answer)
    raise AssertionError("the answer of a key")


class Parts(NamedTuple):
    """The parts of a version; the epoch and the revision are None if they are missing."""

    epoch: Optional[str]
    upstream: str
    revision: Optional[str]


def _parts(version: Text) -> Parts:
    data, length = text_of(version)
    at: VersionParts = lib.deb_version_parts(data, length)
    if at.status:
        raise Refused(at.code, 0)

    def part(start: int, size: int) -> str:
        return data[start : start + size].decode()

    return Parts(
        part(0, at.epoch_length) if at.has_epoch else None,
        part(at.upstream, at.upstream_length),
        part(at.revision, at.revision_length) if at.has_revision else None,
    )


class Version:
    """A version in Debian's order, which can be compared, sorted and used as a key.

    Raises Refused if the text isn't a version. A version may be compared with a text, which is
    read as a version: then Refused is raised if it isn't one. A set or a dict finds a version by a
    `str` only if that is its canonical text, since other texts have another hash.

        >>> import debctl
        >>> version = debctl.Version("1:02.0-0")
        >>> version.epoch, version.upstream, version.revision, version.canonical
        ('1', '02.0', '0', '1:2.0')
        >>> version == "1:2.0", version < "1:2.1~rc1", sorted([version, debctl.Version("3")])
        (True, True, [Version('3'), Version('1:02.0-0')])
    """

    __slots__ = ("text", "_key")

    def __init__(self, text: Text) -> None:
        self.text: Union[str, bytes] = text if isinstance(text, str) else bytes_of(text)
        self._key = key(self.text)

    def key(self) -> bytes:
        """Returns the key: bytes that have the order of the version. See `debctl.key`."""
        return self._key

    @property
    def canonical(self) -> str:
        """The canonical text: two versions are equal if and only if theirs are the same."""
        return canonical(self.text)

    @property
    def parts(self) -> Parts:
        """The epoch, the upstream version and the revision, as they are spelled."""
        return _parts(self.text)

    @property
    def canonical_parts(self) -> Parts:
        """The parts of the canonical text."""
        return _parts(self.canonical)

    @property
    def epoch(self) -> Optional[str]:
        """The epoch as it is spelled, or None if there is none."""
        return self.parts.epoch

    @property
    def upstream(self) -> str:
        """The upstream version as it is spelled."""
        return self.parts.upstream

    @property
    def revision(self) -> Optional[str]:
        """The revision as it is spelled, or None if there is none."""
        return self.parts.revision

    def __eq__(self, other: object) -> bool:
        if isinstance(other, Version):
            return self._key == other._key
        if isinstance(other, _TEXTS):
            return self._key == key(other)
        return NotImplemented

    def __lt__(self, other: "Union[Version, Text]") -> bool:
        if isinstance(other, Version):
            return self._key < other._key
        return self._key < key(other) if isinstance(other, _TEXTS) else NotImplemented

    def __le__(self, other: "Union[Version, Text]") -> bool:
        if isinstance(other, Version):
            return self._key <= other._key
        return self._key <= key(other) if isinstance(other, _TEXTS) else NotImplemented

    def __gt__(self, other: "Union[Version, Text]") -> bool:
        if isinstance(other, Version):
            return self._key > other._key
        return self._key > key(other) if isinstance(other, _TEXTS) else NotImplemented

    def __ge__(self, other: "Union[Version, Text]") -> bool:
        if isinstance(other, Version):
            return self._key >= other._key
        return self._key >= key(other) if isinstance(other, _TEXTS) else NotImplemented

    def __hash__(self) -> int:
        return hash(self.canonical)

    def __str__(self) -> str:
        return self.text if isinstance(self.text, str) else self.text.decode()

    def __repr__(self) -> str:
        return f"Version({self.text!r})"
