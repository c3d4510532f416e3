"""Documents for the fuzzer: made of fields, or read from a file that is accepted; and files that
differ from a file by some mistakes, as a broken tool or a person makes them.
"""
import re
from dataclasses import dataclass
from typing import List, Tuple

# What a space is within a word list, a relation or a version.
SPACES = re.compile(rb"[ \t\n]+")

# The fields by the kind of their values. Those that aren't here are texts, whose spaces count.
NUMBERS = (b"installed-size", b"size")
FOLDED = (b"binary", b"uploaders")
WITH_ALTERNATIVES = (
    *(b"depends", b"pre-depends", b"recommends", b"suggests", b"enhances"),
    *(b"build-depends", b"build-depends-indep", b"build-depends-arch"),
)
WITHOUT_ALTERNATIVES = (
    *(b"breaks", b"conflicts", b"replaces", b"built-using"),
    *(b"build-conflicts", b"build-conflicts-indep", b"build-conflicts-arch"),
)
RELATIONS = (*WITH_ALTERNATIVES, *WITHOUT_ALTERNATIVES, b"provides")

# What each kind of document asks for.
REQUIRED = {
    "packages": (b"Package", b"Version", b"Architecture"),
    "binary": (b"Package", b"Version", b"Architecture"),
    "source": (b"Format", b"Source", b"Version"),
    "sources": (b"Package", b"Version"),
    "status": (b"Package", b"Status"),
    "any": (),
}
SINGLE = ("binary", "source")

NAMES = (b"aa", b"bb", b"cc", b"dd", b"libc6", b"0ad", b"g++", b"a.b-c", b"mail-transport-agent")
ARCHITECTURES = (b"all", b"amd64", b"i386", b"any", b"linux-any")
VERSIONS = (
    *(b"1", b"1.0", b"01.00", b"0:1", b"1:0", b"2.10-3", b"1.0~rc1-1", b"1-0", b"1--0", b"0", b"~"),
    *(b"1:02-0", b"1.0+b1", b"99999999999999999999", b"00012:3:4-5.6~7", b"1a0", b"a", b"1.10"),
)
OPERATORS = (b"<<", b"<=", b"=", b">=", b">>", b"<", b">")
WORDS = (b"Aa", b"<a@b>,", b"hello,", b"hello-doc", b"caf\xc3\xa9", b"x", b"#", b".")
TEXTS = (
    *(b"", b"x", b"short  \n one\t\n .\n\ttwo", b"\n 0123 10 aa.tar.gz\n 4567 2 bb.dsc", b"a: b"),
    *(b"caf\xc3\xa9 \xe2\x82\xac", b"x\n # y\n :\n -----BEGIN PGP", b"a  b\r", b"\x00\x7f"),
    b"y" * 90,
)
STATUSES = (
    *(b"install ok installed", b"deinstall ok config-files", b"install ok half-installed", b"", b"x"),
    *(b"hold  ok\n\tinstalled", b"install ok Installed", b"ok installed", b"a b installed c"),
)
OTHER_NAMES = (b"X", b"x-y--z1", b"Description", b"Files", b"Md5Sum", b"a_b", b"X[y]", b"!", b"A~")
LINES = (b"", b"Aa <a@b>", b"https://example.org/", b"optional", b"3.9.8")
ONE_LINE = (b"Maintainer", b"Homepage", b"Section", b"Priority", b"Filename", b"Standards-Version")


@dataclass
class Field:
    """A field: its name as spelled, and its body."""

    name: bytes
    body: bytes

    @property
    def folded(self):
        """The name without its case."""
        return self.name.lower()


Document = List[List[Field]]


def text_of(document: Document, between=b"\n") -> bytes:
    """The document as a file."""
    return between.join(
        b"".join(b"%s: %s\n" % (field.name, field.body) for field in paragraph)
        for paragraph in document
    )


def is_blank(line: bytes) -> bool:
    """Whether a line separates paragraphs."""
    return not line.strip(b" \t")


def read(text: bytes) -> Document:
    """The document that a file holds which is accepted."""
    document: Document = []
    is_inside = False
    for line in text.split(b"\n"):
        if is_blank(line):
            is_inside = False
            continue
        if not is_inside:
            document.append([])
        is_inside = True
        if line[:1] in (b" ", b"\t"):
            document[-1][-1].body += b"\n" + line
        else:
            name, _, body = line.partition(b":")
            document[-1].append(Field(name, body))
    for paragraph in document:
        for field in paragraph:
            field.body = field.body.strip(b" \t")
    return document


def some(random, choices: Tuple[bytes, ...], least, most, between=b" ") -> bytes:
    """Some of the choices, joined."""
    return between.join(random.choice(choices) for _ in range(random.randint(least, most)))


def alternative(random) -> bytes:
    """An alternative of a relation."""
    text = random.choice(NAMES)
    if random.random() < 0.2:
        text += b":" + random.choice((b"any", b"native", b"amd64"))
    if random.random() < 0.4:
        text += b" (%s %s)" % (random.choice(OPERATORS), random.choice(VERSIONS))
    if random.random() < 0.2:
        sign = random.choice((b"", b"!"))
        text += b" [%s%s]" % (sign, some(random, ARCHITECTURES[1:3], 1, 3, b" " + sign))
    for _ in range(random.choice((0, 0, 0, 1, 2))):
        text += b" <%s>" % some(random, (b"nocheck", b"!nocheck", b"stage1", b"!x.y+z"), 1, 3)
    return text


def relation(random, folded: bytes) -> bytes:
    """A body of a relationship field."""
    if folded == b"provides":
        version = b" (= %s)" % random.choice(VERSIONS)
        return some(random, (b"vv", b"ww" + version, b"vv" + version, b"aa"), 0, 4, b", ")
    most = 3 if folded in WITH_ALTERNATIVES else 1
    groups = []
    for _ in range(random.randint(0, 5)):
        groups.append(b" | ".join(alternative(random) for _ in range(random.randint(1, most))))
    return b", ".join(groups)


def body_of(random, kind: str, folded: bytes) -> bytes:
    """A body that a field of this name may have in a document of a kind."""
    if kind == "any":
        return random.choice(TEXTS)
    choices = {
        b"package": NAMES,
        b"version": VERSIONS,
        b"architecture": ARCHITECTURES,
        b"essential": (b"yes", b"no"),
        b"multi-arch": (b"no", b"same", b"foreign", b"allowed"),
        b"format": (b"1.0", b"3.0 (quilt)"),
        b"status": STATUSES,
    }
    if folded == b"architecture" and kind in ("source", "sources"):
        return some(random, ARCHITECTURES, 0, 4)
    if folded in choices:
        return random.choice(choices[folded])
    if folded == b"source":
        version = b" (%s)" % random.choice(VERSIONS)
        return random.choice(NAMES) + random.choice((b"", version))
    if folded in NUMBERS:
        return random.choice((b"0", b"007", b"12", b"99999999999999999999999"))
    if folded in FOLDED:
        return some(random, WORDS, 0, 6)
    if folded in RELATIONS:
        return relation(random, folded)
    if folded in [name.lower() for name in ONE_LINE]:
        return random.choice(LINES)
    return random.choice(TEXTS)


def made(random, kind: str) -> Document:
    """A document of a kind, which is accepted."""
    known = (b"Source", b"Architecture", b"Essential", b"Multi-Arch", b"Installed-Size", b"Size")
    titled = [name.title() for name in (*FOLDED, *RELATIONS)]
    optional = (*known, *titled, *ONE_LINE, *OTHER_NAMES)
    if kind == "status":
        optional += (b"Version",)
    document = []
    for _ in range(1 if kind in SINGLE else random.choice((1, 1, 2, 3))):
        names = [*REQUIRED[kind], *random.sample(optional, random.randint(1, 7))]
        if kind == "status" and random.random() < 0.5:
            names += [b"Version", b"Architecture"]
        paragraph = {}
        for name in names:
            paragraph.setdefault(name.lower(), Field(name, b""))
        for folded, field in paragraph.items():
            field.body = body_of(random, kind, folded)
        fields = list(paragraph.values())
        random.shuffle(fields)
        document.append(fields)
    return document


def mistaken(random, text: bytes) -> bytes:
    """The file with a few mistakes: bytes and lines that are changed, lost, doubled or moved."""
    for _ in range(random.choice((1, 1, 2, 3))):
        text = random.choice((byte_mistake, line_mistake))(random, text)
    return text


def byte_mistake(random, text: bytes) -> bytes:
    """The file with one byte changed, lost or put in, or cut off behind one."""
    at = random.randint(0, len(text))
    byte = random.choice((b"\n", b" ", b"\t", b":", b"#", b"-", b",", b"|", b"(", b"0", b"\xff"))
    old = text[at : at + 1]
    flipped = bytes(it ^ (1 << random.randrange(8)) for it in old)
    put = random.choice((byte + old, byte, b"", flipped, old.swapcase(), None))
    return text[:at] if put is None else text[:at] + put + text[at + 1 :]


def line_mistake(random, text: bytes) -> bytes:
    """The file with one line cut, doubled, moved, joined to the next, or put in."""
    lines = text.split(b"\n")
    at = random.randrange(len(lines))
    other = random.randrange(len(lines))
    cut = random.randint(0, len(lines[at]))
    put = random.choice((b"", b" ", b" x", b"# x", b"X:", b"Package: aa", b"\t.", lines[other]))
    return b"\n".join(
        random.choice(
            (
                [*lines[:at], *lines[at + 1 :]],
                [*lines[:at], lines[at], *lines[at:]],
                [*lines[:at], put, *lines[at:]],
                [*lines[:at], lines[at][:cut], *lines[at + 1 :]],
                [*lines[:at], lines[at] + b"".join(lines[at + 1 : at + 2]), *lines[at + 2 :]],
                [*lines[:at], *lines[at + 1 : at + 2], lines[at], *lines[at + 2 :]],
            )
        )
    )
