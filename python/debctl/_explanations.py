"""Why a text is refused: in a file, and a relation or a version alone."""

import functools
from typing import Dict, List, NamedTuple, Optional, Tuple

from ._library import (
    REFUSED, SECOND_REFUSED, Answer, Kind, Text, answered, kind_of, lib, lines_room, refusal_of,
    text_of, written,
)
from ._refusals import Code, Refused
from ._rows import END, EXPLANATION, KEY, OK, SUMMARY, Row, rows_of


class Explanation(NamedTuple):
    """The answer for a text: its refusal, or None if it is accepted, and the lines `key: value`
    that say why."""

    refusal: Optional[Refused]
    text: str

    @property
    def lines(self) -> Dict[str, str]:
        """The values of the lines by their keys, in the order of the text."""
        return dict((cells[0], cells[1]) for kind, cells in self._rows if kind == KEY)

    @property
    def passed(self) -> Optional[int]:
        """The number of paragraphs of a file that is accepted, or None."""
        return next((int(cells[0]) for kind, cells in self._rows if kind == OK), None)

    @property
    def place(self) -> Optional[int]:
        """The offset of the error in the value, in bytes, or None."""
        place = self.lines.get("place")
        return None if place is None else int(place)

    @property
    def at(self) -> Optional[Tuple[int, int]]:
        """The line of the error in the file, and its byte in that line, both from 1, or None."""
        line, _, column = self.lines.get("at", "").partition(":")
        return (int(line), int(column)) if column else None

    @property
    def reason(self) -> Optional[str]:
        """The name of what is wrong with the value, or None."""
        return self.lines.get("reason")

    @property
    def value(self) -> Optional[str]:
        """The value that is refused, escaped and cut after 200 bytes, or None."""
        return self.lines.get("value")

    @property
    def rule(self) -> Optional[str]:
        """The rule that the text breaks, or None."""
        return self.lines.get("rule")

    @property
    def usually(self) -> Optional[str]:
        """What usually causes such a refusal, or None."""
        return self.lines.get("usually")

    @property
    def _rows(self) -> List[Row]:
        return list(rows_of(EXPLANATION, self.text))


class AllExplained(NamedTuple):
    """What a whole file has: the number of paragraphs that pass, the explanation of each refusal in
    file order, and the text of all."""

    passed: int
    refused: List[Explanation]
    text: str

    def __str__(self) -> str:
        return self.text


def explained(kind: int, data: bytes) -> Tuple[Answer, str]:
    """Returns the answer of `deb_explain` for a file, and the lines that it writes."""
    answer, text = written(4096, functools.partial(lib.deb_explain, kind, data, len(data)))
    return answer, text.decode()


class _Fields:
    """The names of the fields that are refused in a file: they are read in the file, since an
    explanation escapes and cuts them. `first` is the number of the first line of `data`."""

    def __init__(self, data: bytes, first: int = 1) -> None:
        self._data, self._line, self._start = data, first, 0

    def refused(self, lines: Dict[str, str], line: int) -> Optional[str]:
        """Returns the name of the field in the lines of an explanation, or None. The refusal is at
        that line, which isn't before that of the call before."""
        if "field" not in lines or int(lines["code"]) == Code.MissingField:
            return lines.get("field")
        while self._line < line:
            self._start = self._data.index(b"\n", self._start) + 1
            self._line += 1
        return self._data[self._start : self._data.index(b":", self._start)].decode()


def refused_in(answer: Answer, kind: int, data: bytes, first: int = 1) -> Optional[Refused]:
    """Returns the refusal of an answer for a file, with its field, or None. `data` is the file
    from the line with the number `first` on, at which a paragraph starts."""
    field = None
    if answer.status in (REFUSED, SECOND_REFUSED) and answer.line:
        why, text = explained(kind, data)
        if (why.code, why.line + first - 1) == (answer.code, answer.line):
            field = _Fields(data, first).refused(Explanation(None, text).lines, answer.line)
    return refusal_of(answer, field)


def answered_file(answer: Answer, kind: int, data: bytes, second: bytes = b"") -> Answer:
    """Returns the answer for a file, or for two, or raises its exception with the field."""
    refusal = refused_in(answer, kind, second if answer.status == SECOND_REFUSED else data)
    if refusal is not None:
        raise refusal
    return answered(answer)


def explain(text: Text, kind: Kind = "packages") -> Explanation:
    """Returns why a file is refused as a document of this kind, in lines `key: value`: those that
    the program `debctl explain` writes, except for its first, `file`. For an accepted file of N
    paragraphs the text is the line `ok N`.

        >>> import debctl
        >>> why = debctl.explain("Package: hello\\nVersion: 1_2\\n")
        >>> why.refusal.field, why.at, why.reason
        ('Version', (2, 11), 'UpstreamByte')
    """
    number, (data, length) = kind_of(kind), text_of(text)
    answer, why = explained(number, data)
    field = _Fields(data).refused(Explanation(None, why).lines, answer.line)
    return Explanation(refusal_of(answer, field), why)


def explain_relation(relation: Text) -> Explanation:
    """Returns why a text isn't a relation, in the lines that `debctl explain --relation` writes;
    of a relation the text is the line `ok`.

        >>> import debctl
        >>> why = debctl.explain_relation("hello, world (1)")
        >>> why.place, why.reason, debctl.explain_relation("hello").refusal
        (14, 'OperatorBad', None)
    """
    answer, why = written(4096, functools.partial(lib.deb_explain_relation, *text_of(relation)))
    return Explanation(refusal_of(answer), why.decode())


def explain_version(version: Text) -> Explanation:
    """Returns why a text isn't a version, in the lines that `debctl explain --version-text`
    writes; of a version the text is the line `ok`."""
    answer, why = written(4096, functools.partial(lib.deb_explain_version, *text_of(version)))
    return Explanation(refusal_of(answer), why.decode())


def explain_all(text: Text, kind: Kind = "packages") -> AllExplained:
    """Returns why a file is refused at each of its refusals. The text has for each the lines
    `key: value` of `explain` and an empty line, and at the end the line `ok N, M refused`, with the
    number of paragraphs that pass and the number of refusals. It raises no Refused.
    """
    number, (data, length) = kind_of(kind), text_of(text)
    call = functools.partial(lib.deb_explain_all, number, data, length)
    answer, lines = written(lines_room(8 * length), call)
    refusal_of(answer)
    return _all_explained(lines.decode(), _Fields(data))


def _all_explained(text: str, fields: _Fields) -> AllExplained:
    """Returns the explanations in the text of all."""
    found: List[Explanation] = []
    block: List[str] = []
    values: Dict[str, str] = {}
    passed = 0
    for (row, cells), line in zip(rows_of(EXPLANATION, text), text.split("\n")):
        if row == KEY:
            block.append(f"{line}\n")
            values[cells[0]] = cells[1]
        elif row == END:
            at = int(values["line"])
            refusal = Refused(int(values["code"]), at, field=fields.refused(values, at))
            found.append(Explanation(refusal, "".join(block)))
            block, values = [], {}
        elif row == SUMMARY:
            passed = int(cells[0])
    return AllExplained(passed, found, text)
