"""The latest versions of packages over several files."""

import functools
from typing import Iterable, Literal

from ._explanations import refused_in
from ._library import (
    NO_KIND, REFUSED, Kind, Text, bytes_of, kind_of, lib, refusal_of, text_of, texts_of, written,
)

By = Literal["name", "name,arch"]
_BY = {"name": 0, "name,arch": 1}


def latest(
    texts: Iterable[Text], kind: Kind = "packages", by: By = "name", before: Text = ""
) -> bytes:
    """Returns of each package over several files the paragraph with the latest version, as its file
    has it, with an empty line between two: what the program `debctl latest` writes. `kind` is that
    of the files, `packages` or `sources`. The paragraphs of one package have one name, or by
    `name,arch` one name and one architecture; a source package has one name only. Of equal versions
    it is the first. Unless `before` is empty, only versions earlier than it are considered.

        >>> import debctl
        >>> aa = "Package: aa\\nVersion: 1\\nArchitecture: all\\n"
        >>> debctl.latest([aa, aa.replace("1", "1.1")])
        b'Package: aa\\nVersion: 1.1\\nArchitecture: all\\n'
        >>> debctl.latest([aa, aa.replace("1", "1.1")], before="1.1") == aa.encode()
        True

    Raises Refused if `before` isn't a version or a text is refused; its `text` is then the place of
    that among the texts, from 1. Raises ValueError for another kind, or another `by`.
    """
    if by not in _BY:
        raise ValueError(f"packages are told apart by 'name' or 'name,arch', not by {by!r}")
    if isinstance(texts, (str, bytes, bytearray, memoryview)):
        raise TypeError(f"texts are an iterable of texts, not one {type(texts).__name__}")
    number, (version, length), files = kind_of(kind), text_of(before), [*map(bytes_of, texts)]
    several = texts_of(files)
    call = functools.partial(
        lib.deb_latest, number, _BY[by], version, length, several, len(several)
    )
    answer, found = written(sum(map(len, files)) + 64, call)
    if answer.status == NO_KIND:
        raise ValueError(f"there are no versions of {kind!r}")
    place = answer.count if answer.status == REFUSED else 0
    refusal = refused_in(answer, number, files[place - 1]) if place else refusal_of(answer)
    if refusal is not None:
        refusal.text = place or None
        raise refusal
    return found
