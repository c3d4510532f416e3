"""An index that is read once and asked often."""

import ctypes
import functools
from array import array
from types import TracebackType
from typing import Any, Iterable, List, NamedTuple, NoReturn, Optional, Tuple, Type

from ._explanations import answered_file
from ._files import Report, UnmetReport, unmet_report
from ._library import (
    NO, UNFILLED, YES, Answer, IndexMemory, Kind, Memory, Text, answered, given, kind_of, lib,
    tables, text_of, texts_of, written,
)
from ._paragraphs import paragraphs
from ._relations import Alternative

_PACKAGES = 1
_REPORT_ROOM = 1 << 14


class Package(NamedTuple):
    """What an index keeps of a package: its name, its canonical version and its architecture."""

    name: str
    version: str
    architecture: str


class Details(NamedTuple):
    """All that an index keeps of a package: also its Multi-Arch, what it provides, and the line at
    which its paragraph starts in the text of the index."""

    name: str
    version: str
    architecture: str
    multi_arch: Optional[str]
    provides: List[Alternative]
    line: int


class Index:
    """An index of packages, which is read once and asked often, by any number of threads at once.

    Raises Refused if the text isn't accepted as an index of packages. `len` is the number of
    packages. They have the numbers from 1 in the order of the text, which isn't kept. `read_more`
    reads another file, and `leave_out` takes packages out. After `close`, or at the end of a
    `with` statement, each question raises ValueError. An index can't be copied.

        >>> import debctl
        >>> text = "Package: mailer\\nVersion: 2\\nArchitecture: all\\nProvides: mta\\n"
        >>> index = debctl.Index(text)
        >>> for group in index.query("mta, hello", "amd64").groups:
        ...     print(group.verdict, group.text, [it.name for it in group.packages])
        unmet hello []
        met mta ['mailer']
        >>> index.providers("mta"), index.packages("mta"), index.package(1).version
        ([1], [], '2')
    """

    _loaded: Optional[Tuple[Memory, int]] = None  # and the number of packages

    def __init__(self, text: Text) -> None:
        data, length = text_of(text)
        memory = IndexMemory(lambda at, answer: lib.deb_index_read(at, data, length, answer))
        self._loaded = memory, answered_file(memory.answer, _PACKAGES, data).count

    def _open(self) -> Tuple[Memory, int]:
        """Returns the memory and the number of packages, also if another thread closes the index.
        """
        loaded = self._loaded
        if loaded is None:
            raise ValueError("the index is closed, or was never read")
        return loaded

    def _change(self, function: Any, words: Tuple[Any, ...], data: bytes) -> None:
        """Calls what changes the index, or raises the exception of its answer."""
        memory, _ = self._open()
        answer = Answer(UNFILLED)
        try:
            memory.change(lambda at: function(at, *words, ctypes.byref(answer)))
        finally:
            if answer.status != UNFILLED:
                self._loaded = (memory, answer.count) if answer.status == YES else None
        answered_file(answer, _PACKAGES, data)

    def read_more(self, text: Text) -> None:
        """Reads one more file of packages. They follow those that the index has: their numbers
        count on. Reports then name the file of each package.

            >>> import debctl
            >>> aa = "Package: aa\\nVersion: 1\\nArchitecture: all\\n"
            >>> index = debctl.Index(aa)
            >>> index.read_more(aa.replace("1", "2"))
            >>> print(len(index), index.query("aa (>> 1)", "amd64").text, end="")
            2 met aa (>> 1)
             2 aa 2 all @2
            >>> index.file(2), index.file(3)
            (2, None)

        Raises Refused if the text isn't accepted as an index of packages; then, and if memory runs
        out, the index is closed. Raises ValueError if another thread asks or changes the index at
        that time; nothing is changed then.
        """
        data, length = text_of(text)
        self._change(lib.deb_index_read_more, (data, length), data)

    def leave_out(self, names: Iterable[Text]) -> None:
        """Takes the packages that have one of these names out of the index. The others keep their
        order, and have new numbers from 1. Raises ValueError as `read_more` does.

            >>> import debctl
            >>> aa = "Package: aa\\nVersion: 1\\nArchitecture: all\\n"
            >>> index = debctl.Index(aa + "\\n" + aa.replace("aa", "bb"))
            >>> index.leave_out(["aa"])
            >>> len(index), index.package(1).name
            (1, 'bb')
        """
        texts = texts_of(names, "names")
        self._change(lib.deb_index_without, (texts, len(texts)), b"")

    def close(self) -> None:
        """Closes the index. Its memory is freed when the last question that runs has been
        answered."""
        self._loaded = None

    def __enter__(self) -> "Index":
        self._open()
        return self

    def __exit__(
        self,
        kind: Optional[Type[BaseException]],
        error: Optional[BaseException],
        traceback: Optional[TracebackType],
    ) -> None:
        self.close()

    def __copy__(self) -> NoReturn:
        raise TypeError("an index can't be copied")

    def __deepcopy__(self, memo: Any) -> NoReturn:
        raise TypeError("an index can't be copied")

    def __reduce__(self) -> NoReturn:
        raise TypeError("an index can't be pickled")

    def __len__(self) -> int:
        return self._open()[1]

    def __repr__(self) -> str:
        loaded = self._loaded
        if loaded is None:
            return "<debctl.Index, closed>"
        return f"<debctl.Index of {loaded[1]} packages>"

    def query(
        self, relation: Text, arch: Text, profiles: Iterable[Text] = (), why: bool = False
    ) -> Report:
        """Finds the packages that meet a relation, as `debctl.query` does, without reading the
        index again.

        Raises Refused if the relation, the architecture or a profile is refused.
        """
        active, (memory, _) = texts_of(profiles), self._open()
        function = lib.deb_index_query_why if why else lib.deb_index_query
        words = *text_of(arch), active, len(active), *text_of(relation)
        answer, report = memory.ask(
            lambda at: given(_REPORT_ROOM, functools.partial(function, at, *words))
        )
        return Report(answer.status == YES, report.decode())

    def unmet(
        self,
        file: Text,
        arch: Text,
        profiles: Iterable[Text] = (),
        kind: Kind = "packages",
        recommends: bool = False,
        *,
        all_sources: bool = False,
        all_for: Text = "",
        without: Iterable[Text] = (),
        unless: Optional["Index"] = None,
    ) -> UnmetReport:
        """Finds the relations of a file that no package meets, as `debctl.unmet` does, without
        reading the index again.

        A source package is asked if it is built for the architecture, with `all_sources` each. A
        binary package of no architecture, as `all`, is asked for `all_for`, or if that is empty for
        `arch`. A binary package with one of the names `without` isn't asked; `leave_out` takes the
        packages with these names out of the index. If there is an index `unless`, a group has a
        line only if that one meets or ignores it for sure.

            >>> import debctl
            >>> aa = "Package: aa\\nVersion: 1\\nArchitecture: all\\n"
            >>> old, new = debctl.Index(aa), debctl.Index("")
            >>> file = "Package: cc\\nVersion: 1\\nArchitecture: all\\nDepends: aa, bb\\n"
            >>> [it.group for it in new.unmet(file, "amd64", unless=old).groups]
            ['aa']

        Raises Refused if the architecture, `all_for`, a profile or the file is refused; its
        `second` is true if the file is. Raises ValueError for another kind, if Recommends or
        `all_for` is asked of sources, and if `all_sources` is asked of binary packages.
        """
        active, names = texts_of(profiles), texts_of(without, "names")
        data, length = text_of(file)
        options = bool(recommends) + 2 * bool(all_sources) + 4 * (unless is not None)
        words = (
            kind_of(kind), options, *text_of(arch), *text_of(all_for), active, len(active), names,
            len(names), data, length,
        )
        (memory, _), (old, _) = self._open(), (self if unless is None else unless)._open()
        answer = memory.ask(
            lambda at: old.ask(
                lambda other: written(
                    length + _REPORT_ROOM,
                    functools.partial(lib.deb_index_unmet_with, at, other, *words),
                )
            )
        )
        return unmet_report(answer, (kind, recommends), b"", data)

    def packages(self, name: Text) -> List[int]:
        """Returns the numbers of the packages that have a name, in ascending order."""
        return self._numbers(lib.deb_index_packages, name)

    def providers(self, name: Text) -> List[int]:
        """Returns the numbers of the packages that provide a name, in ascending order: in some
        version or without one. A package is among them for its own name only if it provides that.
        """
        return self._numbers(lib.deb_index_providers, name)

    def package(self, number: int) -> Optional[Package]:
        """Returns the package with a number, which is counted from 1, or None if there is none."""
        answer, words = self._numbered(lib.deb_index_package, number)
        return None if answer.status == NO else Package(*words.decode().split(" "))

    def details(self, number: int) -> Optional[Details]:
        """Returns all that is kept of the package with a number, or None if there is none.

            >>> import debctl
            >>> text = "Package: aa\\nVersion: 1\\nArchitecture: all\\nProvides: bb (= 2)\\n"
            >>> details = debctl.Index(text).details(1)
            >>> details.line, details.multi_arch, list(map(str, details.provides))
            (1, None, ['bb (= 2)'])
        """
        answer, text = self._numbered(lib.deb_index_details, number)
        if answer.status == NO:
            return None
        (kept,) = paragraphs(text)
        return Details(
            kept["Package"], kept["Version"], kept["Architecture"], kept.get("Multi-Arch"),
            [group[0] for group in kept.relations("Provides")], answer.line,
        )

    def file(self, number: int) -> Optional[int]:
        """Returns which file the package with a number is of, from 1 for the one that was read
        first, or None if there is no such package."""
        memory, count = self._open()
        known, place = number if 0 < number <= count else 0, ctypes.c_size_t()
        def ask(at: int) -> Answer:
            answer: Answer = lib.deb_index_file(at, known, ctypes.byref(place))
            return answer

        return place.value if memory.ask(ask).status == YES else None

    def _numbered(self, function: Any, number: int) -> Tuple[Answer, bytes]:
        """Returns the answer of a call about the package with a number, and what it wrote."""
        memory, count = self._open()
        known = number if 0 < number <= count else 0
        return memory.ask(lambda at: given(512, functools.partial(function, at, known)))

    def _numbers(self, function: Any, name: Text) -> List[int]:
        words, (memory, _) = text_of(name), self._open()
        answer, (numbers,) = memory.ask(
            lambda at: tables([8], [64], functools.partial(function, at, *words))
        )
        answered(answer)
        return array("Q", numbers).tolist()
