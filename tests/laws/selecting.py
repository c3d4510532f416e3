"""What `select` picks and writes: docs/FORMAT.md, sections 5, 7 to 9 and 13, read once more.

Nothing here follows the code of the crates: values are cut by patterns, and JSON is read by Python.
"""
import json
import re
from dataclasses import dataclass
from typing import Dict, List, NamedTuple, Optional, Tuple

from laws.documents import FOLDED, NUMBERS, ONE_LINE, OPERATORS, RELATIONS, SPACES
from laws.reasons import ARCHITECTURE, PACKAGE, fault_of
from laws.refusals import runs_of
from laws.universes import order_of

LINES = (*(it.lower() for it in ONE_LINE), b"format")
WORDS_OF = {b"essential": (b"yes", b"no"), b"multi-arch": (b"no", b"same", b"foreign", b"allowed")}
PART = re.compile(rb"([^0-9]*)([0-9]*)")
BOUNDED = re.compile(rb"([^(]*?)[ \t]*\([ \t]*(.*?)[ \t]*\)", re.S)
ALTERNATIVE = re.compile(
    rb"([a-z0-9+.-]+)(?::([a-z0-9-]+))?[ \t\n]*(?:\([ \t\n]*([<=>]+)[ \t\n]*([^ \t\n)]+)[ \t\n]*\))?"
    rb"[ \t\n]*(?:\[([^\]]*)\])?[ \t\n]*(.*)",
    re.S,
)
FORMER = {b"<": b"<=", b">": b">="}
# The bytes of a table that aren't written as they are.
UNPLAIN = re.compile(rb"[\x00-\x1f\\\x7f]")
SHORT = {b"\t": b"\\t", b"\n": b"\\n", b"\\": b"\\\\"}
# The parts of a condition: the name, the operator, which begins with one of its bytes or is a word, and
# the value.
CONDITION = re.compile(rb"[ \t]*([^ \t!<=>~]*)[ \t]*([!<=>~]+|[^ \t!<=>~][^ \t]*)?[ \t]*(.*)", re.S)
FIELD_NAME = re.compile(rb"(?![#-])[!-9;-~]+")
COMPARISONS = b"=", b"!=", *OPERATORS[:2], *OPERATORS[3:5]
ORDERED = {b"version", *NUMBERS}
SENTENCES = {
    "NameExpected": "A field's name is expected.",
    "NameBad": "This can't be a field's name.",
    "OperatorBad": "The operator must be =, !=, <<, <=, >=, >>, ~ or names.",
    "NoOrder": "Only versions and numbers have an order.",
    "NoNames": "Values of this field have no names.",
    "ValueExpected": "A value is expected.",
    "ValueBad": "The field can't have this value.",
    "NoName": "This can't be a name here.",
}


class Value(NamedTuple):
    """A value: its canonical text, what it is in JSON, what sorts as it does, and the names in it."""

    text: bytes
    json: object
    order: object
    names: Tuple[bytes, ...] = ()


@dataclass
class Paragraph:
    """A paragraph: the number of its first line, its lines, and its values by canonical names."""

    first: int
    lines: List[bytes]
    values: Dict[bytes, Value]

    def lines_of(self, name: bytes) -> List[bytes]:
        """The lines of the field with a name."""
        found, is_inside = [], False
        for line in self.lines:
            if line[:1] not in (b" ", b"\t"):
                is_inside = line.partition(b":")[0].lower() == name.lower()
            found += [line] * is_inside
        return found


def canonical_name(name: bytes) -> bytes:
    """The canonical spelling of a field's name."""
    return b"-".join(it[:1].upper() + it[1:].lower() for it in name.split(b"-"))


def canonical_parts(text: bytes) -> bytes:
    """The canonical text of an upstream version or a revision."""
    parts = [(it[1], int(it[2] or b"0")) for it in PART.finditer(text) if it[0]]
    texts = [name + b"%d" % number for name, number in parts]
    name, number = parts[-1]
    if not number and name[-1:].isalpha():
        texts[-1] = name
    return b"".join(texts)


def canonical_version(text: bytes) -> bytes:
    """The canonical text of a version."""
    epoch, colon, rest = text.partition(b":")
    upstream, hyphen, revision = (rest if colon else text).rpartition(b"-")
    parts = [upstream, revision] if hyphen else [revision, b"0"]
    upstream, revision = map(canonical_parts, parts)
    number = int(epoch) if colon else 0
    front = b"%d:" % number if number or b":" in upstream else b""
    return front + upstream + (b"-" + revision if revision != b"0" or b"-" in upstream else b"")


def strings(words) -> List[str]:
    """Words in JSON."""
    return [it.decode() for it in words]


def words_in(text: bytes) -> List[bytes]:
    """The words of a text."""
    return [it for it in SPACES.split(text) if it]


def alternative_value(text: bytes):
    """The canonical text of an alternative, and what it is in JSON."""
    name, qualifier, operator, version, names, formula = ALTERNATIVE.fullmatch(text).groups()
    out, found = name, {"name": name.decode()}
    if qualifier is not None:
        out += b":" + qualifier
        found["qualifier"] = qualifier.decode()
    if operator:
        operator = FORMER.get(operator, operator)
        out += b" (%s %s)" % (operator, canonical_version(version))
        found |= {"operator": operator.decode(), "version": canonical_version(version).decode()}
    if names is not None:
        items = sorted({*words_in(names)})
        out += b" [%s]" % b" ".join(items)
        found["architectures"] = strings(items)
    lists = {b" ".join(sorted({*words_in(it)})) for it in re.findall(rb"<([^>]*)>", formula)}
    if lists:
        texts = sorted(b"<%s>" % it for it in lists)
        out += b" " + b" ".join(texts)
        found["restrictions"] = [strings(it[1:-1].split(b" ")) for it in texts]
    return out, found


def relation_value(body: bytes) -> Value:
    """The value of a relation."""
    groups = {}
    for group in body.split(b","):
        if group.strip(b" \t\n"):
            found = [alternative_value(it.strip(b" \t\n")) for it in group.split(b"|")]
            groups[b" | ".join(it[0] for it in found)] = [it[1] for it in found]
    ordered = [groups[text] for text in sorted(groups)]
    names = tuple(one["name"].encode() for group in ordered for one in group)
    return Value(b", ".join(sorted(groups)), ordered, None, names)


def value_of(kind: str, folded: bytes, body: bytes) -> Value:
    """The value of a body that is accepted in the field with a name."""
    if kind == "any":
        return Value(body, body.decode(), None)
    if folded == b"version":
        text = canonical_version(body)
        return Value(text, {"canonical": text.decode(), "spelled": body.decode()}, order_of(body))
    if folded in NUMBERS:
        number = int(body)
        return Value(b"%d" % number, number if number <= 2**53 else str(number), number)
    if folded == b"source":
        bounded = BOUNDED.fullmatch(body)
        name, version = bounded.groups() if bounded else (body, None)
        more = {"version": canonical_version(version).decode()} if bounded else {}
        text = b"%s (%s)" % (name, canonical_version(version)) if bounded else name
        return Value(text, {"name": name.decode(), **more}, None, (name,))
    if folded in RELATIONS:
        return relation_value(body)
    if folded in FOLDED or (folded == b"architecture" and kind in ("source", "sources")):
        words = words_in(body)
        names = tuple(it for word in words for it in word.split(b","))
        return Value(b" ".join(words), strings(words), None, names)
    names = (body,) if folded in (b"package", b"architecture") else ()
    return Value(body, body.decode(), None, names)


def paragraphs_of(kind: str, text: bytes) -> List[Paragraph]:
    """The paragraphs of a file that is accepted."""
    lines, found = text.split(b"\n"), []
    for run in runs_of(text):
        own = [lines[at - 1] for at in run]
        bodies = {}
        for line in own:
            if line[:1] in (b" ", b"\t"):
                bodies[name] += b"\n" + line
            else:
                name, _, bodies[name] = line.partition(b":")
        values = {
            canonical_name(name): value_of(kind, name.lower(), body.strip(b" \t"))
            for name, body in bodies.items()
        }
        found.append(Paragraph(run[0], own, values))
    return found


def has_names(kind: str, folded: bytes) -> bool:
    """Whether the values of a field have names."""
    return kind != "any" and folded in (b"package", b"source", b"architecture", *FOLDED, *RELATIONS)


def may_be_name(folded: bytes, text: bytes) -> bool:
    """Whether a text can be a name in the values of a field that have names."""
    if folded in FOLDED:
        return not SPACES.search(text) and b"," not in text
    return bool((ARCHITECTURE if folded == b"architecture" else PACKAGE).fullmatch(text))


def may_be_value(kind: str, folded: bytes, body: bytes) -> bool:
    """Whether a body is accepted in a field."""
    if kind == "any":
        return True
    if folded in RELATIONS:
        return fault_of(folded, body) is None
    if folded in FOLDED:
        return True
    words = words_in(body) if kind in ("source", "sources") else [body]
    if folded == b"architecture":
        return all(map(ARCHITECTURE.fullmatch, words))
    if b"\n" in body and (folded in LINES or folded in WORDS_OF):
        return False
    tests = {
        b"package": PACKAGE.fullmatch,
        **dict.fromkeys(NUMBERS, re.compile(rb"[0-9]+").fullmatch),
        **dict.fromkeys((b"version", b"source"), lambda it: fault_of(folded, it) is None),
        **{name: words.__contains__ for name, words in WORDS_OF.items()},
    }
    return bool(tests.get(folded, lambda _: True)(body))


class Condition(NamedTuple):
    """A condition as it is read: the name of a field, an operator, and a value, with their offsets."""

    kind: str
    name: bytes
    operator: bytes
    value: bytes
    offsets: Tuple[int, int, int]

    @property
    def fault(self) -> Optional[Tuple[str, int]]:
        """Why it is none, and where."""
        folded, is_order = self.name.lower(), self.operator in OPERATORS[:5] and self.operator != b"="
        name, operator, value = self.offsets
        known = *COMPARISONS, b"~", b"names"
        is_name = self.operator == b"names"
        faults = (
            (not self.name, "NameExpected", name),
            (not FIELD_NAME.fullmatch(self.name), "NameBad", name),
            (not self.operator, None, 0),
            (self.operator not in known, "OperatorBad", operator),
            (is_order and (self.kind == "any" or folded not in ORDERED), "NoOrder", operator),
            (is_name and not has_names(self.kind, folded), "NoNames", operator),
            (not self.value, "ValueExpected", value),
            (is_name and not may_be_name(folded, self.value), "NoName", value),
            (self.operator in COMPARISONS and not may_be_value(self.kind, folded, self.value), "ValueBad", value),
        )
        reason, place = next(((reason, place) for holds, reason, place in faults if holds), (None, 0))
        return (reason, place) if reason else None

    def holds(self, paragraph: Paragraph) -> bool:
        """Whether a condition holds of a paragraph."""
        value = paragraph.values.get(canonical_name(self.name))
        if value is None or not self.operator:
            return value is not None
        if self.operator == b"~":
            return self.value in value.text
        if self.operator == b"names":
            return self.value in value.names
        asked = value_of(self.kind, self.name.lower(), self.value)
        own, other = (value.order, asked.order) if asked.order is not None else (value.text, asked.text)
        return {
            b"=": own == other, b"!=": own != other, b"<<": own < other,
            b"<=": own <= other, b">=": own >= other, b">>": own > other,
        }[self.operator]


def condition_of(kind: str, text: bytes) -> Condition:
    """The parts of a text that is meant as a condition."""
    found = CONDITION.fullmatch(text)
    name, operator, value = (found[at] or b"" for at in (1, 2, 3))
    operator_at = found.start(2) if found[2] else len(text)
    offsets = (found.start(1), operator_at, found.start(3))
    return Condition(kind, name, operator, value.rstrip(b" \t"), offsets)


def cell_of(value: Optional[Value]) -> bytes:
    """A cell of a table."""
    escape = lambda it: SHORT.get(it[0], b"\\x%02x" % it[0][0])
    return UNPLAIN.sub(escape, value.text) if value else b""


def json_of(paragraph: Paragraph):
    """The object of a paragraph."""
    fields = {name.decode(): paragraph.values[name].json for name in sorted(paragraph.values)}
    return {"line": paragraph.first, "fields": fields}
