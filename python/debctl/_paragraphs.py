"""The paragraphs of a file, and their fields."""

import ctypes
import functools
import itertools
from array import array
from bisect import bisect_left, bisect_right
from typing import IO, Any, Dict, Iterator, List, Mapping, Optional, Sequence, Tuple, Union

from ._explanations import refused_in
from ._library import (
    YES, Answer, Kind, ReaderMemory, Text, bytes_of, canonical_room, given, kind_of, lib, tables,
)
from ._relations import Alternative, relations, text_of_fields

_SPAN = 6  # numbers of a field: its paragraph, line, name, name's length, value, value's length
_SIZES = [4 * _SPAN, 1, 1]
_PIECE = 1 << 16
_RECENT = 3 << 24  # more than two paragraphs have
_KNOWN = 4096  # lists of names that are known at most


class _Names(Dict[str, int]):
    """Where the numbers of a paragraph's fields are, by their names without case."""

    def __init__(self, names: Sequence[str]) -> None:
        super().__init__(zip(names, range(0, _SPAN * len(names), _SPAN)))
        self.in_order = tuple(names)
        self._folded = {name.lower(): at for name, at in self.items()}

    def __missing__(self, name: str) -> int:
        if isinstance(name, str) and name.isascii() and name.lower() in self._folded:
            return self._folded[name.lower()]
        raise KeyError(name)


class _Tables:
    """The fields of the paragraphs that the last piece ended, in the tables of `deb_fields`."""

    __slots__ = ("kind", "answer", "count", "numbers", "names", "values")

    def __init__(self, kind: int, length: int, reader: int) -> None:
        rooms = [length // 24 + 16, length // 2 + 64, length + 64]
        call = functools.partial(lib.deb_reader_fields, reader)
        self.answer, (numbers, self.names, self.values) = tables(_SIZES, rooms, call)
        self.kind = kind
        self.numbers = array("I", numbers)
        self.count = len(self.numbers) // _SPAN

    def last_line(self) -> int:
        """Returns the line at which the last paragraph starts."""
        paragraph_of = self.numbers[::_SPAN]
        return self.numbers[_SPAN * bisect_left(paragraph_of, paragraph_of[-1]) + 1]


class Paragraph(Mapping[str, str]):
    """A paragraph of a file that passes: its values by the names of its fields, in file order.

    A name is looked up without case. A value is the text after the colon with the lines that
    continue it, without spaces and tabs at both ends.
    """

    __slots__ = ("_tables", "_first", "_names", "_canonical")

    def __init__(self, tables: _Tables, first: int, names: _Names) -> None:
        self._tables, self._first, self._names = tables, first, names
        self._canonical: Optional[Mapping[str, str]] = None

    def bytes(self, name: str) -> bytes:
        """Returns the value of the field with this name, as bytes.

        Raises KeyError if there is no such field.
        """
        tables, at = self._tables, self._first + self._names[name]
        start = tables.numbers[at + 4]
        return tables.values[start : start + tables.numbers[at + 5]]

    def __getitem__(self, name: str) -> str:
        tables, at = self._tables, self._first + self._names[name]
        start = tables.numbers[at + 4]
        return tables.values[start : start + tables.numbers[at + 5]].decode()

    def __iter__(self) -> Iterator[str]:
        return iter(self._names.in_order)

    def __len__(self) -> int:
        return len(self._names.in_order)

    def __contains__(self, name: object) -> bool:
        try:
            self._names[name]  # type: ignore[index]
        except (KeyError, TypeError):
            return False
        return True

    @property
    def line(self) -> int:
        """The line at which the paragraph starts in its file, from 1."""
        return self._tables.numbers[self._first + 1]

    def line_of(self, name: str) -> int:
        """Returns the line at which the field with this name starts in its file, from 1.

        Raises KeyError if there is no such field.
        """
        return self._tables.numbers[self._first + self._names[name] + 1]

    def canonical(self, name: str) -> str:
        """Returns the canonical text of the value of the field with this name: two values mean the
        same if and only if theirs are the same.

        Raises KeyError if there is no such field.
        """
        if self._canonical is None:
            text = text_of_fields(self)
            kind, length = self._tables.kind, len(text)
            call = functools.partial(lib.deb_normalise, kind, text, length)
            canonical = given(canonical_room(length), call)[1]
            self._canonical = next(_read(kind, iter([canonical])))
        return self._canonical[name]

    def relations(self, name: str, spelled: bool = False) -> List[List[Alternative]]:
        """Returns the groups of the relation that the value of the field with this name is, each
        with its alternatives, as `debctl.relations` does. There are none if there is no such
        field.

        Raises Refused if its value isn't a relation, as a value in a file of the kind `any` may
        not be.
        """
        return relations(self.bytes(name), spelled) if name in self else []

    def __repr__(self) -> str:
        return f"<Paragraph at line {self.line}: {', '.join(self._names.in_order)}>"


def _paragraphs(tables: _Tables, known: Dict[bytes, _Names]) -> Iterator[Paragraph]:
    """Yields the paragraphs of tables. Paragraphs with the same names share what is known of
    these."""
    numbers, names, count = tables.numbers, tables.names, tables.count
    paragraph_of, first = numbers[::_SPAN], 0
    while first < count:
        number = paragraph_of[first]
        last = bisect_right(paragraph_of, number, first, min(first + 64, count))
        if last == first + 64:
            last = bisect_right(paragraph_of, number, last, count)
        begin, end = _SPAN * first, _SPAN * last - _SPAN
        text = names[numbers[begin + 2] : numbers[end + 2] + numbers[end + 3]]
        found = known.get(text)
        if found is None:
            if len(known) == _KNOWN:
                known.clear()
            found = known[text] = _Names(text.decode().split("\0"))
        yield Paragraph(tables, begin, found)
        first = last


class _Recent:
    """The text of a file from the last paragraph on that passes, which the explanation of a refusal
    needs."""

    def __init__(self) -> None:
        self._pieces: List[bytes] = []
        self._length = 0
        self._line = self._first = self.next_line = 1  # where the text and that paragraph start

    def add(self, piece: bytes) -> None:
        """Adds the next piece, unless a paragraph has begun that is too long to be explained."""
        self._last = self.next_line, piece
        if self._length <= _RECENT:
            self._pieces.append(piece)
            self._length += len(piece)
        self.next_line += piece.count(b"\n")

    def passed(self, line: int) -> None:
        """Drops the pieces before the last one if a paragraph starts in that, at this line."""
        self._first = line
        if line > self._last[0]:
            self._line, piece = self._last
            self._pieces, self._length = [piece], len(piece)

    def refused(self, answer: Answer, kind: int) -> None:
        """Raises the exception of an answer, if it has one."""
        text = b"".join(self._pieces).split(b"\n", self._first - self._line)[-1]
        refusal = refused_in(answer, kind, text, self._first)
        if refusal is not None:
            raise refusal


def _feed(words: Tuple[Any, ...], reader: int) -> None:
    lib.deb_reader_feed(reader, *words)


def _read(kind: int, pieces: Iterator[bytes]) -> Iterator[Paragraph]:
    """Yields the paragraphs of a file that passes, which is read in pieces."""
    recent = _Recent()
    known: Dict[bytes, _Names] = {}
    reader = ReaderMemory(lambda at, answer: lib.deb_reader_start(at, kind, answer))
    answer, pointer = reader.answer, ctypes.byref(reader.answer)
    held = 0  # how many bytes there are from the piece on in which the last paragraph ended
    for piece in itertools.chain(pieces, [b""]):
        recent.add(piece)
        held += len(piece)
        words = piece, len(piece), not piece, pointer
        reader.ask(functools.partial(_feed, words))
        found = reader.ask(functools.partial(_Tables, kind, held))
        yield from _paragraphs(found, known)
        if found.count:
            held = len(piece)
            recent.passed(found.last_line())
        if answer.status != YES:
            recent.refused(answer, kind)
        if not found.count and not piece.strip(b" \t\n") and piece.count(b"\n") > 2:
            recent.passed(recent.next_line)  # no paragraph is open, since these lines are blank


def _pieces(file: Union[Text, IO[bytes], IO[str]]) -> Iterator[bytes]:
    """Returns the pieces of a text, or of a file that is open for reading; none is empty."""
    read: Any = getattr(file, "read", None)
    if read is not None:
        return iter(lambda: bytes_of(read(_PIECE)), b"")
    data = bytes_of(file)  # type: ignore[arg-type]
    return (data[at : at + _PIECE] for at in range(0, len(data), _PIECE))


def paragraphs(
    file: Union[Text, IO[bytes], IO[str]], kind: Kind = "any"
) -> Iterator[Paragraph]:
    """Reads a text, or a file that is open for reading, and yields its paragraphs in file order.
    The file is read as the paragraphs are taken, in pieces of 64 KiB: one is held, and those of
    which a paragraph is still in use.

    The kind is `any`, `packages`, `binary`, `source`, `sources` or `status`. After the paragraphs
    that pass, Refused is raised if the file is refused.

        >>> import debctl
        >>> for paragraph in debctl.paragraphs("Package: hello\\nDepends: bb, aa (>= 1) | cc\\n"):
        ...     print(paragraph.line, paragraph["package"])
        ...     print([[one.name for one in group] for group in paragraph.relations("Depends")])
        1 hello
        [['aa', 'cc'], ['bb']]
    """
    return _read(kind_of(kind), _pieces(file))
