"""The Python module: the field of a refusal, and canonical values of long paragraphs."""

import sys

import debctl

LIMIT = 16777216
LONG = "X" * 300
REFUSED = "a: 1\n\n" * 3 + "\n" * 9 + "B: 1\nb: 2\n"
HEAD = "Package: hello\nVersion: 1\nArchitecture: all\n"


def error(call, *words, **more):
    """The refusal that a call raises, or none."""
    try:
        call(*words, **more)
    except debctl.Refused as refused:
        return refused
    return None


def field_of(text, kind="packages"):
    """The field of a refusal, which is the same by each way to it."""
    refusals = [
        error(debctl.check, text, kind), debctl.explain(text, kind).refusal,
        debctl.check_all(text, kind).refused[0], error(debctl.same, HEAD, text, kind),
        error(lambda: list(debctl.paragraphs(text, kind))), error(debctl.normalise, text, kind),
    ]
    fields = {it.field for it in refusals}
    assert len(fields) == 1 and len({it.line for it in refusals}) == 1, (fields, refusals)
    return fields.pop()


def in_pieces(text, length):
    """The line and the field of the refusal of a file that is read in pieces of this length."""
    pieces = iter([text[at : at + length] for at in range(0, len(text), length)] + [""])
    reader = type("Reader", (), {"read": lambda self, size: next(pieces)})()
    refused = error(lambda: list(debctl.paragraphs(reader)))
    return refused.line, refused.field


def duplicate(name, before=""):
    """The field of the refusal of a file that has a field twice."""
    return field_of(f"{before}{name}: 1\n{name.lower()}:2\n")


def canonical_is(text, name, wanted, kind="any"):
    """Whether the canonical text of a value is found, and is this one."""
    paragraph = next(debctl.paragraphs(text, kind))
    return paragraph.canonical(name) == wanted


def long_paragraph(line_end="\n"):
    """A paragraph with as many bytes as its canonical text may have, and many empty fields."""
    fields = "".join(f"A{at}:\n" for at in range(5000))
    return f"{fields}Long:\n {'y' * (LIMIT - len(fields) - 8)}{line_end}"


TESTS = {
    "a backslash": duplicate("X\\Y") == "x\\y",
    "long": duplicate(LONG) == LONG.lower(),
    "long, of a value": field_of(HEAD + "Depends:aa (\n") == "Depends",
    "as it is spelled": field_of(HEAD + "dePENds:aa (\n") == "dePENds",
    "of several lines": field_of(HEAD + "Size: 1\nDepends: aa,\n bb,\n cc (\nTag: x\n") == "Depends",
    "not one line": field_of(HEAD + "Size: 1\n 2\n") == "Size",
    "a carriage return": field_of(HEAD + "Tag: a\r\nSize: 1\r\n") == "Size",
    "other line ends": duplicate("A", f"\n\n\n{HEAD}x: \v\f\x1c\u2028y\r\rA:z\n") == "a",
    "missing": field_of("Package: aa\n\nVersion: 1\n") == "Version"
    and field_of(HEAD + "\nx: 1\n y: 2\n") == "Package",
    "missing in the second": field_of(HEAD + "\n\nPackage: bb\nVersion: 2\n") == "Architecture",
    "none": field_of("bad\n") is field_of(" x: 1\n") is field_of("#x: 1\n") is None,
    "a bad name": field_of("X Y: 1\n") == "X Y" and field_of("-x: 1\n") == "-x"
    and field_of("\u00e9\\: x:y\n") == "\u00e9\\" and field_of(f"{LONG} : 1\n") == LONG + " ",
    "in pieces": all(in_pieces(REFUSED, length) == (17, "b") for length in range(1, 50)),
    "in pieces, blank ones": in_pieces("a: 1\n" + " \n" * 2**17 + "B:\nb:\n", 2**10) == (2**17 + 3, "b"),
    "in pieces, blank ones after it": in_pieces("a: 1\nA: 2\n" + "\n" * 20, 10) == (2, "A"),
    "in pieces, of a long file": in_pieces(2**20 * "a:\n\n" + "B:\nb:\n", 2**16) == (2**21 + 2, "b"),
    "all refusals": [
        it.field for it in debctl.check_all(f"A\\B:\na\\b:\n\nx\n\nPackage: aa\n\n{LONG}: \n{LONG}:\n").refused
    ] == ["a\\b", None, "Version", LONG],
    "canonical, a long paragraph": canonical_is(long_paragraph(), "a7", ""),
    "canonical, a last line without an end": canonical_is(long_paragraph(""), "A8", ""),
    "canonical, a long value": canonical_is(f"X:{'y' * (LIMIT - 4)}\n", "X", "y" * (LIMIT - 4)),
    "canonical, empty and continued": canonical_is("a:\nb: \n c: d\ne:f\n", "B", "\n c: d")
    and canonical_is("a:\nb: \n c\n", "a", ""),
    "canonical, a colon": canonical_is("a::\nb:: c\n", "b", ": c"),
}

failed = [name for name, passed in TESTS.items() if not passed]
for name in failed:
    print(f"refused_fields.py: {name}")
print(f"refused_fields.py: {len(TESTS) - len(failed)} passed, {len(failed)} failed")
sys.exit(bool(failed))
