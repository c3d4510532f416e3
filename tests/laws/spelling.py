"""Copies of a document that is accepted: spelled otherwise, so that they mean the same, and with
one fault or several, of which the rules say at which lines they are refused and how.
"""
from typing import List, NamedTuple

from laws.documents import (
    FOLDED,
    NUMBERS,
    RELATIONS,
    REQUIRED,
    SINGLE,
    SPACES,
    Document,
    Field,
    some,
    text_of,
)

GAPS = (b" ", b"  ", b"\t", b"\n ", b" \n\t")


def respelled(random, kind: str, document: Document) -> bytes:
    """The document in another spelling: fields in another order, names in another case, values and
    the spaces around them otherwise."""
    lines = []
    for paragraph in document:
        lines += [random.choice((b"", b" ", b"\t \t")) for _ in range(random.randint(1, 2))]
        for field in random.sample(paragraph, len(paragraph)):
            name = bytes(random.choice((b, *bytes([b]).swapcase())) for b in field.name)
            body = respelled_body(random, kind, field)
            lines.append(name + b":" + padding(random) + body + padding(random))
    first = 0 if random.random() < 0.5 else 1
    return b"\n".join(lines[first:]) + random.choice((b"", b"\n", b"\n\n \n"))


def padding(random) -> bytes:
    """What may stand at the ends of a body."""
    return random.choice((b"", b" ", b"\t", b" \t "))


def respelled_body(random, kind: str, field: Field) -> bytes:
    """Another body of the same value."""
    body = field.body
    if kind == "any" or random.random() < 0.3:
        return body
    if field.folded in NUMBERS:
        return random.choice((b"0", b"000")) + body
    if field.folded == b"version":
        return respelled_version(random, body)
    if field.folded in RELATIONS:
        return respelled_relation(random, body)
    is_list = field.folded == b"architecture" and kind in ("source", "sources")
    if field.folded in FOLDED or is_list:
        words = [word for word in SPACES.split(body) if word]
        return b"".join(random.choice(GAPS) + word for word in words).lstrip(b" \t")
    return body


def respelled_version(random, version: bytes) -> bytes:
    """An equal version: an epoch of zero and a revision of zero are those that it has without."""
    if b":" not in version and random.random() < 0.5:
        version = b"00:" + version
    if b"-" not in version and random.random() < 0.5:
        version += b"-0"
    return version


def respelled_relation(random, relation: bytes) -> bytes:
    """An equal relation: its groups in another order, some of them twice, with other spaces."""
    groups = [group.strip(b" \t\n") for group in relation.split(b",")]
    groups = [group for group in groups if group]
    groups += random.sample(groups, random.randint(0, len(groups)))
    random.shuffle(groups)
    gap = random.choice((b"", *GAPS))
    bar = random.choice((b"", *GAPS)) + b"|" + random.choice((b"", *GAPS))
    groups = [bar.join(one.strip(b" \t\n") for one in group.split(b"|")) for group in groups]
    return (gap + b"," + gap).join(groups) + random.choice((b"", b","))


class Spoiled(NamedTuple):
    """A file with one fault: how many of its paragraphs go before it, and its refusal."""

    text: bytes
    paragraphs: int
    refusal: bytes


# Fields that aren't accepted in any kind of document whose values are judged.
BAD_FIELDS = (
    (b"Installed-Size: 1k", b"15 BadNumber"),
    (b"SIZE:-1", b"15 BadNumber"),
    (b"size:", b"15 BadNumber"),
    (b"essential: maybe", b"16 BadWord"),
    (b"Multi-Arch: Same", b"16 BadWord"),
    (b"Homepage: x\n y", b"13 NotOneLine"),
    (b"Section:\n y", b"13 NotOneLine"),
    (b"Source: aa (1) x", b"14 BadName"),
    (b"Source: aa (1_)", b"18 BadVersion"),
    (b"Package: A_b", b"14 BadName"),
    (b"version: 1-", b"18 BadVersion"),
    (b"Version:", b"18 BadVersion"),
    (b"Architecture: I386", b"17 BadArchitecture"),
    (b"Depends: a", b"19 BadRelation"),
    (b"pre-depends: aa (1)", b"19 BadRelation"),
    (b"Suggests: aa | , bb", b"19 BadRelation"),
    (b"Build-Depends: aa [i386 !amd64]", b"19 BadRelation"),
    (b"Recommends: ${misc:Depends}", b"19 BadRelation"),
    (b"Conflicts: bb | cc", b"20 AlternativesNotAllowed"),
    (b"Breaks: aa, bb\n | cc", b"20 AlternativesNotAllowed"),
    (b"Replaces: aa (<< 1) | bb", b"20 AlternativesNotAllowed"),
    (b"Provides: vv (>= 1)", b"21 ProvidesBound"),
    (b"provides: vv (= 1), ww (< 2)", b"21 ProvidesBound"),
    (b"Provides: vv (>= 1) | ww", b"20 AlternativesNotAllowed"),
)

# Lines that no field begins with.
BAD_LINES = (
    (b"# x", b"3 Comment"),
    (b"-----BEGIN PGP SIGNATURE-----", b"2 Armour"),
    (b"Package aa", b"6 NoColon"),
    (b"Package : aa", b"5 BadFieldName"),
    (b"-a: x", b"5 BadFieldName"),
    (b": x", b"5 BadFieldName"),
    (b"caf\xc3\xa9: x", b"5 BadFieldName"),
    (b"Q: caf\xc3", b"1 NotUtf8"),
    (b"Q:\n \xed\xa0\x80", b"1 NotUtf8"),
)


def spoiled(random, kind: str, document: Document) -> Spoiled:
    """The document with one fault in one of its paragraphs."""
    number = random.randrange(len(document))
    if kind in SINGLE and random.random() < 0.1:
        return with_second(document)
    paragraph, line, name = with_fault(random, kind, document[number])
    before = text_of(document[:number]) + b"\n" * (number > 0)
    after = text_of(document[number + 1 :])
    text = before + paragraph + b"\n" * bool(after) + after
    return Spoiled(text, number, refusal_at(before, line, name))


def refusal_at(before: bytes, line: int, name: bytes) -> bytes:
    """The line of a refusal so many lines behind the first one after a text."""
    return b"line %d: %s\n" % (before.count(b"\n") + 1 + line, name)


def with_fault(random, kind: str, paragraph):
    """The text of a paragraph with one fault, at which of its lines that is, from 0, and its name."""
    names = [field.folded for field in paragraph]
    at = random.randint(0, len(paragraph))
    chance = random.random()
    if chance < 0.5 and kind != "any":
        line, name = random.choice(BAD_FIELDS)
        folded = line.partition(b":")[0].lower()
        if folded in names:
            return with_line(paragraph, names.index(folded), line, name, is_instead=True)
        return with_line(paragraph, at, line, name)
    if chance < 0.65 and REQUIRED[kind]:
        lost = random.choice(REQUIRED[kind]).lower()
        kept = [field for field in paragraph if field.folded != lost]
        return text_of([kept]), 0, b"12 MissingField"
    if chance < 0.8:
        again = random.choice(names)
        at = random.randint(names.index(again) + 1, len(paragraph))
        line = random.choice((again, again.upper(), again.title())) + b":"
        return with_line(paragraph, at, line, b"7 DuplicateField")
    if chance < 0.85:
        return with_line(paragraph, 0, b" x", b"4 StrayContinuation")
    return with_line(paragraph, at, *random.choice(BAD_LINES))


def with_line(paragraph, at: int, line: bytes, name: bytes, is_instead=False):
    """A paragraph with a line before one of its fields, or instead of it."""
    before, after = text_of([paragraph[:at]]), text_of([paragraph[at + is_instead :]])
    number = before.count(b"\n") + line.count(b"\n") * name.startswith(b"1 ")
    return before + line + b"\n" + after, number, name


def with_second(document) -> Spoiled:
    """The document with itself behind it, of a kind that has one paragraph."""
    before = text_of(document) + b"\n \n"
    return Spoiled(before + text_of(document), 1, refusal_at(before, 0, b"11 TooManyParagraphs"))


class Planted(NamedTuple):
    """A file with faults in some of its paragraphs, the lines of their refusals, and how many of its
    paragraphs have none."""

    text: bytes
    refusals: List[bytes]
    good: int


def planted(random, kind: str, document: Document) -> Planted:
    """The document with a fault in each of some paragraphs, and blank lines around all."""
    text, refusals, share = b"", [], random.choice((0, 0.3, 0.7, 1))
    for paragraph in document:
        text += some(random, (b"\n", b" \n", b"\t \t\n"), len(text) > 0, 2, b"")
        if random.random() < share:
            spoilt, line, name = with_fault(random, kind, paragraph)
            refusals.append(refusal_at(text, line, name))
            text += spoilt
        else:
            text += text_of([paragraph])
    end = random.choice((None, -1))
    return Planted(text[:end] + random.choice((b"", b"\n\n \n")), refusals, len(document) - len(refusals))
