"""The paragraphs of a file for which conditions hold."""

import ctypes
import functools
import json
import re
from typing import Any, Dict, Iterable, List, Literal, Match, Tuple

from ._explanations import refused_in
from ._library import (
    NO_MEMORY, SECOND_REFUSED, Answer, Kind, Text, TextAt, answered, bytes_of, kind_of, lib,
    lines_room, text_of, texts_of, written,
)
from ._rows import EXPLANATION, rows_of

Form = Literal["control", "table", "jsonl"]
_FORMS = {"control": 0, "table": 1, "jsonl": 2}
_COUNT = 3
_ESCAPE = re.compile(r"\\(?:x([0-9a-f]{2})|(.))")
_ESCAPED = {"t": "\t", "n": "\n", "\\": "\\"}


class BadCondition(ValueError):
    """A text is no condition. `number` is the place of the condition among those of the call, from 1,
    and `text` has the lines `key: value` of `explain_condition`."""

    def __init__(self, number: int, text: str) -> None:
        self.number, self.text = number, text
        super().__init__(f"condition {number}: {self.lines['reason']}")

    @property
    def lines(self) -> Dict[str, str]:
        """The values of the lines by their keys, in the order of the text."""
        return dict((cells[0], cells[1]) for _, cells in rows_of(EXPLANATION, self.text))

    def __reduce__(self) -> Tuple[Any, ...]:
        return BadCondition, (self.number, self.text)


def explain_condition(condition: Text, kind: Kind = "packages") -> str:
    """Returns why a text is no condition on paragraphs of this kind, in lines `key: value`; of a
    condition the line `ok`. What isn't UTF-8 is escaped.

        >>> import debctl
        >>> debctl.explain_condition("Version >= 1")
        'ok\\n'
    """
    call = functools.partial(lib.deb_explain_condition, kind_of(kind), *text_of(condition))
    answer, text = written(4096, call)
    if answer.status == NO_MEMORY:
        raise MemoryError
    return text.decode(errors="backslashreplace")


def _selected(
    form: int, text: Text, where: Iterable[Text], fields: "ctypes.Array[TextAt]", kind: Kind, others: bool
) -> Tuple[Answer, bytes]:
    """Returns the answer of `deb_select`, and what it writes; or raises the exception of the answer."""
    number, (data, length) = kind_of(kind), text_of(text)
    conditions = [*map(bytes_of, where)]
    several = texts_of(conditions)
    call = functools.partial(
        lib.deb_select, number, bool(others), form, several, len(several), fields, len(fields), data,
        length,
    )
    room = length + 64 if form in (0, _COUNT) else lines_room(8 * length)
    answer, found = written(room, call)
    if answer.status == SECOND_REFUSED:
        why = explain_condition(conditions[answer.count - 1], kind)
        raise BadCondition(answer.count, why)
    refusal = refused_in(answer, number, data)
    if refusal is not None:
        raise refusal
    return answered(answer), found


def select(
    text: Text,
    *where: Text,
    kind: Kind = "packages",
    others: bool = False,
    fields: Iterable[Text] = (),
    form: Form = "control",
) -> bytes:
    """Returns the paragraphs of a file for which all conditions hold, or with `others` the others: what
    the program `debctl select` writes. A condition is `FIELD`, `FIELD OPERATOR VALUE` with an
    operator of `=`, `!=`, `<<`, `<=`, `>=`, `>>` and `~`, or `FIELD names NAME`. The form is `control`
    (whole paragraphs, or these fields as the file has them), `table` (a line with the canonical
    texts of these fields, with tabs between) or `jsonl` (a line of JSON for each paragraph).

        >>> import debctl
        >>> two = "Package: aa\\nVersion: 1.9\\n\\nPackage: bb\\nVersion: 1.10\\n"
        >>> debctl.select(two, "Version >> 1.9", kind="any")
        Traceback (most recent call last):
        debctl.BadCondition: condition 1: NoOrder
        >>> debctl.select(two.replace("\\nV", "\\nArchitecture: all\\nV"), "Version >> 1.9", fields=["Package"])
        b'Package: bb\\n'

    Raises BadCondition if a text is no condition, and else Refused if the file is refused. Raises
    ValueError for another form.
    """
    if form not in _FORMS:
        raise ValueError(f"the form is 'control', 'table' or 'jsonl', not {form!r}")
    return _selected(_FORMS[form], text, where, texts_of(fields, "fields"), kind, others)[1]


def count_selected(
    text: Text, *where: Text, kind: Kind = "packages", others: bool = False
) -> int:
    """Returns how many paragraphs `select` returns."""
    return _selected(_COUNT, text, where, texts_of(()), kind, others)[0].count


def select_table(
    text: Text,
    *where: Text,
    fields: Iterable[Text],
    kind: Kind = "packages",
    others: bool = False,
) -> List[List[str]]:
    """Returns a row of each paragraph that `select` returns: the canonical texts of these fields, of
    which one that is absent is empty. Raises what `select` raises.

        >>> import debctl
        >>> debctl.select_table("Package: aa\\nNote: x\\n  y\\n", fields=["note", "Size"], kind="any")
        [['x\\n  y', '']]
    """
    names = texts_of(fields, "fields")
    _, found = _selected(1, text, where, names, kind, others)
    lines = found.decode().split("\n")[:-1]
    return [[*map(_cell, line.split("\t"))] if len(names) else [] for line in lines]


def _cell(text: str) -> str:
    """Returns a cell of a table without its escapes."""
    return _ESCAPE.sub(_escaped, text)


def _escaped(found: Match[str]) -> str:
    digits, letter = found.groups()
    return chr(int(digits, 16)) if digits else _ESCAPED[letter]


def select_objects(
    text: Text, *where: Text, kind: Kind = "packages", others: bool = False
) -> List[Dict[str, Any]]:
    """Returns an object of each paragraph that `select` returns: the number of its first line as `line`,
    and its fields by their names as `fields`, each in the form that its kind has in JSON. Raises
    what `select` raises.
    """
    _, found = _selected(_FORMS["jsonl"], text, where, texts_of(()), kind, others)
    return [json.loads(line) for line in found.split(b"\n")[:-1]]
