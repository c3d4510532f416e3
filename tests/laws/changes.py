"""A canonical text with one field changed, and what `diff` has to write of that; and its lines."""
import re
from typing import List, NamedTuple, Optional

from laws.documents import REQUIRED

# Values that no document is made with: a field, and versions that are later and earlier than all.
ADDED = b"X-Added: 1"
VERSIONS = {b"upgraded": b"99999:9.9-9", b"downgraded": b"~~~~~1"}


class Change(NamedTuple):
    """The changed paragraphs, the line of the one that changed, and the lines of its values."""

    paragraphs: List[bytes]
    line: bytes
    values: bytes


def fields_of(paragraph: bytes):
    """The fields of a canonical text of a paragraph, by their names."""
    return {field.partition(b":")[0]: field for field in re.split(rb"\n(?![ \t])", paragraph)}


def value_of(field: bytes) -> bytes:
    """The value of a field of one line."""
    return field.partition(b": ")[2]


def called(kind: str, fields):
    """The name, the version and the architecture of a paragraph."""
    name = value_of(fields[b"Source" if kind == "source" else b"Package"]).partition(b" ")[0]
    is_binary = kind in ("packages", "binary", "status")
    architecture = value_of(fields.get(b"Architecture", b"")) if is_binary else b"source"
    return name, value_of(fields.get(b"Version", b"")), architecture


def changed(random, kind: str, paragraphs: List[bytes]) -> Optional[Change]:
    """The paragraphs with one field of one of them changed, unless that makes it another of them."""
    if not paragraphs:
        return None
    at = random.randrange(len(paragraphs))
    old = fields_of(paragraphs[at])
    kept = (*REQUIRED[kind], *((b"Version", b"Architecture") if kind == "status" else ()))
    optional = [name for name in old if name not in kept]
    name = random.choice((b"Version", b"X-Added", *optional))
    word, newer = random.choice([*VERSIONS.items()])
    new = {**old, b"X-Added": ADDED, b"Version": b"Version: " + newer}[name]
    new = {**old, name: new}
    if name in optional:
        del new[name]
    others = [*paragraphs[:at], *paragraphs[at + 1 :]]
    paragraph = b"\n".join(field for _, field in sorted(new.items()))
    if paragraph in others or (name == b"X-Added" and name in old):
        return None
    package, version, architecture = called(kind, old)
    words = [b"changed", b"%d" % (at + 1), package, version, architecture, name]
    if name == b"Version":
        # No version comes before every version.
        word = word if name in old else b"upgraded"
        words = [word, *words[1:4], newer, *words[4:]]
    values = marked(b" -", old.get(name)) + marked(b" +", new.get(name))
    return Change([*paragraphs[:at], paragraph, *paragraphs[at + 1 :]], b" ".join(words) + b"\n", values)


def marked(mark: bytes, field: Optional[bytes]) -> bytes:
    """The lines of a field, if there is one, each after a mark."""
    return b"".join(mark + line + b"\n" for line in field.split(b"\n")) if field is not None else b""


def lines_with(word: bytes, out: bytes):
    """The lines that begin with a word, without it."""
    return [line[len(word) :] for line in out.split(b"\n") if line.startswith(word)]
