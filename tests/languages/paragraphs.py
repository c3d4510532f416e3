"""The Python module: keys, relations, unmet relations, sets of packages, which packages can be installed,
and paragraphs with their fields."""

import functools
import io
import itertools
import random
import sys
import tempfile
import threading
from pathlib import Path

import debctl
from debctl import Refused, Version

# Ascending; the second is the same version as the first, and so are two others.
VERSIONS = [
    "0", "00-0", "1~~", "1~", "1", "1-0", "1a", "1+", "1.0~rc1", "1.0", "1.0-1", "1.9", "1.10",
    "2.0~beta", "2.0", "9:0", "10:0~", "10:0",
]
FILE = "\nPackage: hello \nDepends:\taa,\n bb\n\nx:\n"
CONTROL = "Package: hello\nVersion: 01\nArchitecture: all\nDepends: bb | cc, aa(>=1)\n"
INDEX = (
    "Package: aa\nVersion: 1\nArchitecture: amd64\nDepends: bb, cc | dd\nRecommends: ee\n\n"
    "Package: dd\nVersion: 2\nArchitecture: all\n"
)
SET = INDEX + "\nPackage: aa\nVersion: 2\nArchitecture: all\n"
SOURCE = "Format: 1.0\nSource: ss\nVersion: 01\nBuild-Depends: aa, zz, dd [linux-any]\n"


def error(call, *words, **more):
    """The exception that a call raises, or none."""
    try:
        call(*words, **more)
    except Exception as raised:
        return raised
    return None


def read(*words, **more):
    """The paragraphs of a file, each with its line and its fields, and the error after them."""
    found = []
    try:
        for paragraph in debctl.paragraphs(*words, **more):
            found.append((paragraph.line, dict(paragraph)))
    except Refused as refused:
        found.append((refused.line, refused.name, refused.field))
    return found


def keys_have_the_order():
    """Whether keys, and Version, have the order of `compare`, for each two versions."""
    sign = lambda left, right: (left > right) - (left < right)
    return all(
        debctl.compare(left, right)
        == sign(debctl.key(left), debctl.key(right))
        == sign(Version(left), Version(right))
        and (debctl.compare(left, right) == 0) == (Version(left) == Version(right))
        and (hash(Version(left)) == hash(Version(right))) >= (Version(left) == Version(right))
        for left, right in itertools.product(VERSIONS, VERSIONS)
    )


def random_keys_have_the_order():
    """Whether 3,000 random versions, sorted by key, are in the order of `compare`."""
    chosen = random.Random(7)
    letters = "0019~~+.aAz"
    versions = [
        f"{chosen.choice(['', '0:', '1:', '10:'])}{chosen.choice('019')}"
        + "".join(chosen.choices(letters, k=chosen.randrange(12)))
        + chosen.choice(["", "-0", "-1", "-1~", "-0a"])
        for _ in range(3000)
    ]
    by_compare = sorted(versions, key=functools.cmp_to_key(debctl.compare))
    return sorted(versions, key=debctl.key) == by_compare == sorted(versions, key=Version)


def from_threads():
    """Whether keys and paragraphs from four threads at once are as from one alone."""
    answers = []

    def run():
        for turn in range(200):
            answers.append(debctl.key(f"1.{turn}") == keys[turn] and read(FILE) == both)

    keys, both = [debctl.key(f"1.{turn}") for turn in range(200)], read(FILE)
    threads = [threading.Thread(target=run) for _ in range(4)]
    for thread in threads:
        thread.start()
    for thread in threads:
        thread.join()
    return len(answers) == 800 and all(answers)


def from_files():
    """Whether an open file is read as its text is, from bytes and from text."""
    with tempfile.TemporaryDirectory() as folder:
        path = Path(folder) / "file"
        path.write_text(FILE)
        with open(path, "rb") as binary, open(path, encoding="utf-8") as text:
            return read(binary) == read(text) == read(io.StringIO(FILE)) == read(FILE)


def mapping():
    """Whether a paragraph is a mapping without case, in file order."""
    first, second = debctl.paragraphs(FILE)
    return (
        list(first) == ["Package", "Depends"] and len(first) == 2
        and first["pACKAGE"] == first["Package"] == "hello" and "DEPENDS" in first
        and "Version" not in first and 5 not in first and first.get("Version") is None
        and isinstance(error(lambda: first["Version"]), KeyError)
        and isinstance(error(lambda: first["pac\u212aage"]), KeyError)
        and first.bytes("depends") == b"aa,\n bb" and first.line_of("depends") == 3
        and dict(second) == {"x": ""} and second.line == 6
        and repr(first) == "<Paragraph at line 2: Package, Depends>"
    )


def canonical():
    """Whether the canonical texts of values are those of the canonical file, of each kind."""
    binary = next(debctl.paragraphs(CONTROL, "binary"))
    source = next(debctl.paragraphs(SOURCE, "source"))
    return (
        [binary.canonical(name) for name in ("version", "Depends")] == ["1", "aa (>= 1), bb | cc"]
        and source.canonical("Build-Depends") == "aa, dd [linux-any], zz"
        and next(debctl.paragraphs(FILE)).canonical("depends") == "aa,\n bb"
        and isinstance(error(binary.canonical, "Nothing"), KeyError)
    )


def alternatives():
    """Whether the parts of alternatives are found."""
    text = "aa:any (<< 1~1) [!amd64 !i386] <!nocheck cross> <aa> | bb, cc"
    groups = debctl.relations(text)
    first = groups[0][0]
    return (
        first == ("aa", "any", "<<", "1~1", ("!amd64", "!i386"), (("!nocheck", "cross"), ("aa",)))
        and ", ".join(" | ".join(map(str, group)) for group in groups) == text
        and groups[1] == [("cc", None, None, None, (), ())]
        and debctl.relations("") == debctl.relations(b" ") == []
        and error(debctl.relations, "aa (").code == debctl.Code.BadRelation
    )


def unmet(**more):
    """The lines of the unmet relations of the index in itself."""
    return debctl.unmet(INDEX, INDEX, "amd64", **more).text.splitlines()


def answer(call, *words):
    """What a call answers, or the exception that it raises with what belongs to it."""
    try:
        return call(*words)
    except ValueError as raised:
        return type(raised), str(raised), vars(raised)


def as_in_a_loaded_index():
    """Whether a loaded index answers of unmet relations as one that is read anew."""
    index, answers = debctl.Index(INDEX), set()
    kinds = ["binary", "packages", "source", "sources", "any", "status"]
    files = [INDEX, SOURCE, CONTROL, "\nx"]
    for kind, file, more in itertools.product(kinds, files, (False, True)):
        for words in (["amd64", ["nocheck"]], ["any", []]):
            told = answer(index.unmet, file, *words, kind, more)
            answers.add(str(told))
            if told != answer(debctl.unmet, INDEX, file, *words, kind, more):
                return False
    return len(answers) > 9


def healthy():
    """Whether a set has the lines that the program prints of it, from each type of text."""
    lines = [BB, "duplicate 1 aa 1 amd64 with 3 2 all"]
    more = [BB, EE, lines[1]]
    texts = [SET, SET.encode(), bytearray(SET.encode()), memoryview(SET.encode())]
    return all(
        debctl.healthy(it, "amd64").text.splitlines() == lines
        and debctl.healthy(it, b"amd64", recommends=True).text.splitlines() == more
        and debctl.healthy(it, memoryview(b"amd64"), recommends=True).healthy is False
        for it in texts
    )


def healthy_status():
    """Whether a status file has the lines of its installed packages, whose numbers count them alone,
    and those of packages that are neither installed nor removed, whose numbers count all."""
    removed = "Package: aa\nStatus: deinstall ok config-files\nVersion: 1\nArchitecture: all\n\n"
    half = removed.replace("deinstall ok config-files", "install ok half-installed")
    last = "Package: cc\nStatus: install ok installed\nVersion: 02\nArchitecture: all\nDepends: aa\n"
    text = removed + half + last + "Recommends: ee\n"
    ask = functools.partial(debctl.healthy, text, "amd64")
    state = "state 2 aa 1 all half-installed"
    lines = [state, "unmet 1 cc 2 all Depends aa", "unmet 1 cc 2 all Recommends ee"]
    return (
        ask(kind="status").text.splitlines() == lines[:2]
        and ask(kind="status", recommends=True).text.splitlines() == lines
        and [(it.verdict, it.package.number, it.status) for it in ask(kind="status").reasons]
        == [("state", 2, "half-installed"), ("unmet", 1, None)]
        and ask() == ask(kind="packages") == (False, "duplicate 1 aa 1 all with 2 1 all\n")
        and debctl.healthy(removed + half, "amd64", kind="status") == (False, f"{state}\n")
        and debctl.healthy(removed, "amd64", kind="status") == (True, "")
    )


def refused_sets():
    """Whether a status file has its own refusals, and no other kind has an answer."""
    wrong = "Package: aa\nStatus: deinstall ok config-files\nVersion: 1_\n"
    others = ["binary", "source", "sources", "any"]
    refusals = [
        error(debctl.healthy, text, arch, kind="status")
        for text, arch in [(wrong, "amd64"), (INDEX, "amd64"), (wrong, "any")]
    ]
    return (
        [(it.name, it.line, it.field) for it in refusals]
        == [("BadVersion", 3, "Version"), ("MissingField", 1, "Status"), ("BadEnvironment", 0, None)]
        and [str(error(debctl.healthy, "x", "any", kind=it)) for it in others]
        == [f"there are no sets of {it!r}" for it in others]
        and isinstance(error(debctl.healthy, "x", "any", kind="installed"), ValueError)
    )


def spellings(text):
    """A text in each of its types."""
    return [text, text.encode(), bytearray(text.encode()), memoryview(text.encode())]


def installable():
    """Whether each package that can't be installed has the line that the program prints of it, from each
    type of text, and by the packages of each kind of file."""
    removed = "Status: deinstall ok config-files\nPackage: bb\nVersion: 1\nArchitecture: all\n\n"
    last = "Status: install ok installed\nPackage: aa\nVersion: 01\nArchitecture: all\nRecommends: bb\n"
    aa, status = "uninstallable 1 aa 1 amd64\n", removed + last
    return (
        all(
            debctl.installable(it, "amd64") == debctl.installable(it, b"amd64", recommends=True)
            == debctl.installable(it, memoryview(b"amd64"), budget=1) == (False, aa)
            for it in spellings(SET)
        )
        and debctl.installable(status, "amd64", kind="status") == (True, "")
        and debctl.installable(status, "amd64", kind="status", recommends=True)
        == (False, "uninstallable 1 aa 1 all\n")
        and debctl.installable(status, "amd64", recommends=True) == (True, "")
        and debctl.installable("", "amd64") == debctl.installable("", "amd64", kind="status")
        == (True, "")
    )


MARKED = "\n".join(
    f"Package: {name}\nVersion: 01\nArchitecture: all\n{more}"
    for name, more in [
        ("aa", "Depends: bb\n"), ("bb", "Essential: yes\nConflicts: dd\n"), ("cc", "Depends: zz\n"),
        ("dd", "Essential: yes\n"),
    ]
)


def terms():
    """Whether sets have the essential packages if they are asked, and none that is left out by any
    spelling of its whole name."""
    aa, bb, cc, dd = (f"uninstallable {at} {it} 1 all\n" for at, it in enumerate(["aa", "bb", "cc", "dd"], 1))
    ask = functools.partial(debctl.installable, MARKED, "amd64")
    seek = functools.partial(debctl.witness, index=MARKED, arch="amd64")
    others = ["", "c", "ccc", "CC", "cc ", "cc\0", "\0", "\xe9", "cc,dd", b"cc\xff", b"\xff", "c" * (1 << 20)]
    source = "Package: ss\nVersion: 1\nBuild-Depends: cc\n"
    tool = "Package: build-essential\nVersion: 1\nArchitecture: all\n\n" + MARKED.replace("Depends: zz", "X: y")
    build = functools.partial(debctl.buildable, tool, source, "amd64")
    return (
        ask() == ask(without=[]) == ask(without=others) == ask(essential=False, without=iter(())) == (False, cc)
        and ask(essential=True) == (False, aa + bb + cc + dd)
        and all(ask(essential=True, without=(it,)) == (False, cc) for it in spellings("dd"))
        and ask(essential=True, without={"cc": 1, b"dd": 2, "none": 3}) == (True, "")
        and ask(without=[bytearray(b"bb"), "cc"]) == (False, aa)
        and seek("aa") == (True, " 1 aa 1 all\n 2 bb 1 all\n")
        and seek("aa", essential=True) == (False, aa)
        and seek("dd", essential=True, without=["bb"]) == (True, " 4 dd 1 all\n")
        and seek("aa", without=["aa"]) == (False, "")
        and bool(build()) and bool(build(essential=True, without=["dd"]))
        and build(essential=True) == build(without=["cc"]) == build(without=["build-essential"])
        == (False, "uninstallable 1 ss 1 source\n")
    )


def why():
    """Whether lines say why a package can't be installed or a source package can't be built, and not
    otherwise."""
    aa = "uninstallable 1 aa 1 all\n 1 aa 1 all needs bb: 2\n 2 bb 1 all is left out\n"
    cc = "uninstallable 3 cc 1 all\n 3 cc 1 all needs zz: none\n"
    own = (MARKED.replace("Depends: zz", "X: y") + "Depends: yy\n").split("\n\n", 2)[2]
    tool = "Package: build-essential\nVersion: 1\nArchitecture: all\n\n" + MARKED
    ss = "uninstallable 1 ss 1 source\n 1 ss 1 source needs aa: 2\n 2 aa 1 all needs bb: 3\n"
    source = "Package: ss\nVersion: 01\nBuild-Depends: aa\nBuild-Conflicts: bb <cross>\n"
    build = functools.partial(debctl.buildable, tool, source, "amd64", why=True)
    return (
        debctl.installable(MARKED, "amd64", without=["bb"], why=True).text == aa + cc
        and debctl.witness("aa", MARKED, "amd64", without=["bb"], why=True) == (False, aa)
        and debctl.witness("dd", MARKED, "amd64", why=True) == (True, " 4 dd 1 all\n")
        and debctl.installable(own, "amd64", essential=True, why=True).text
        == "uninstallable 1 cc 1 all\n 1 cc 1 all needs dd (Essential): 2\n 2 dd 1 all needs yy: none\n"
        "uninstallable 2 dd 1 all\n 2 dd 1 all needs yy: none\n"
        and debctl.installable(SET, "amd64", why=True)
        == (False, "uninstallable 1 aa 1 amd64\n 1 aa 1 amd64 needs bb: none\n")
        and build() == (True, "")
        and build(without=["bb"]) == (False, ss + " 3 bb 1 all is left out\n")
        and build(["cross"]) == (False, ss + " 1 ss 1 source excludes 3 bb 1 all\n")
        and debctl.buildable("", source, "amd64", why=True).text
        == "uninstallable 1 ss 1 source\n 1 ss 1 source needs build-essential:native: none\n"
    )


def witness():
    """Whether each spelling of the name and of the file has the lines of a set, or of no set, and only the
    name of a package has one."""
    text = INDEX + "\nPackage: mm\nVersion: 1:0\nArchitecture: all\nRecommends: zz\n"
    removed = "Status: deinstall ok config-files\nPackage: bb\nVersion: 1\nArchitecture: all\n\n"
    last = "Status: install ok installed\nPackage: aa\nVersion: 01\nArchitecture: all\nRecommends: bb\n"
    mm, aa, status = " {} mm 1:0 all\n", "uninstallable 1 aa 1 amd64\n", removed + last
    number = text.count("Package:")
    others = [
        "", "m", "mmm", "MM", "mm ", "mm\0", "\0", "\xe9", "mm,aa", b"mm\xff", b"\xff", b"\0" * 99,
        "m" * (1 << 20), memoryview(b"mm" * (1 << 19)),
    ]
    return (
        all(
            debctl.witness(name, it, "amd64") == debctl.witness(name, it, b"amd64", budget=1)
            == debctl.witness(name, it, memoryview(b"amd64"), kind="packages") == (True, mm.format(number))
            for it in spellings(text) for name in spellings("mm")
        )
        and all(debctl.witness("aa", it, "amd64") == (False, aa) for it in spellings(text))
        and debctl.witness("mm", text, "amd64", recommends=True)
        == (False, f"uninstallable {number} mm 1:0 all\n")
        and all(debctl.witness(it, text, "amd64") == (False, "") for it in others)
        and debctl.witness("aa", status, "amd64", kind="status") == (True, " 1 aa 1 all\n")
        and debctl.witness("aa", status, "amd64", kind="status", recommends=True)
        == (False, "uninstallable 1 aa 1 all\n")
        and debctl.witness("bb", status, "amd64") == (True, " 1 bb 1 all\n")
        and debctl.witness("bb", status, "amd64", kind="status") == (False, "")
        and debctl.witness("aa", "", "amd64") == debctl.witness("aa", "", "amd64", kind="status")
        == (False, "")
    )


def refused_search(call, *first):
    """Whether a call that searches for a set has the exceptions of a wrong file, target, kind and budget."""
    ask = functools.partial(error, call, *first)
    found = [
        ask(CONTROL.replace("01", "1-"), "amd64"), ask(INDEX, "amd64", kind="status"), ask("x", "any"),
    ]
    others, budgets = ["binary", "source", "sources", "any"], [0, -1, 1 << 32, 1 << 64]
    return (
        [(it.name, it.line, it.second, it.field) for it in found] == [
            ("BadVersion", 2, False, "Version"), ("MissingField", 1, False, "Status"),
            ("BadEnvironment", 0, False, None),
        ]
        and [str(ask("x", "any", kind=it)) for it in others]
        == [f"there are no sets of {it!r}" for it in others]
        and isinstance(ask("x", "any", kind="installed"), ValueError)
        and [str(ask("x", "any", budget=it)) for it in budgets] == [f"no budget: {it}" for it in budgets]
        and all(isinstance(ask("x", "any", budget=it), TypeError) for it in (None, "1", 1.0))
        and all(isinstance(ask("x", "any", without=it), TypeError) for it in ("aa", b"aa", [1], 1, None))
        and isinstance(ask("x", "any", without=["\ud800"]), UnicodeEncodeError)
        and str(ask("x", "any", without="aa")) == "names are an iterable of texts, not one str"
        and isinstance(ask(SET, "amd64", "packages"), TypeError)
    )


def refused_witness():
    """Whether a file, a target, a kind and a budget that are wrong have their exceptions."""
    return (
        refused_search(debctl.witness, "aa")
        and isinstance(error(debctl.witness, ["aa"], SET, "amd64"), TypeError)
        and isinstance(error(debctl.witness, "\ud800", SET, "amd64"), UnicodeEncodeError)
        and debctl.witness("aa", "", "amd64", budget=(1 << 32) - 1) == (False, "")
    )


def buildable():
    """Whether each spelling of the files, of the target and of the profiles has the lines of the sources."""
    index = "Package: build-essential\nVersion: 1\nArchitecture: all\n"
    source = "Format: 1.0\nSource: ss\nVersion: 1.0-0\nBuild-Depends: zz <!nocheck>\nBuild-Conflicts: build-essential <cross>\n"
    sources = source.replace("Source", "Package")
    line = "uninstallable 1 ss 1.0 source\n"
    ask = functools.partial(debctl.buildable, index)
    return (
        all(
            debctl.buildable(one, two, "amd64") == debctl.buildable(one, two, b"amd64", (), budget=1)
            == debctl.buildable(one, two, memoryview(b"amd64"), iter(["cross"])) == (False, line)
            for one in spellings(index) for two in spellings(sources)
        )
        and all(ask(it, "amd64", [b"nocheck"], kind=kind) == (True, "")
                for it, kind in [(source, "source"), (sources, "sources")])
        and ask(source, "amd64", {"cross": 1, "nocheck": 2}, kind="source") == (False, line)
        and ask("", "amd64") == debctl.buildable("", "", "amd64") == (True, "")
        and debctl.buildable("", sources, "amd64", ["nocheck"]) == (False, line)
    )


def refused_buildable():
    """Whether files, a target, profiles, a kind and a budget that are wrong have their exceptions."""
    ask, wrong = functools.partial(error, debctl.buildable), CONTROL.replace("01", "1-")
    sources = "Package: ss\nVersion: 1-\n"
    found = [
        ask(wrong, sources, "amd64"), ask(CONTROL, sources, "amd64"), ask("x", "x", "any"),
        ask("", "", "amd64", ["a b"]), ask("", "", "amd64", kind="source"),
    ]
    others, budgets = ["binary", "packages", "status", "any"], [0, -1, 1 << 32, 1 << 64]
    return (
        [(it.name, it.line, it.second, it.field) for it in found] == [
            ("BadVersion", 2, False, "Version"), ("BadVersion", 2, True, "Version"),
            ("BadEnvironment", 0, False, None), ("BadEnvironment", 0, False, None),
            ("NoParagraph", 1, True, None),
        ]
        and [str(ask("x", "x", "any", kind=it)) for it in others]
        == [f"there are no source packages of {it!r}" for it in others]
        and isinstance(ask("x", "x", "any", kind="index"), ValueError)
        and [str(ask("x", "x", "any", budget=it)) for it in budgets]
        == [f"no budget: {it}" for it in budgets]
        and all(isinstance(ask("x", "x", "any", budget=it), TypeError) for it in (None, "1", 1.0))
        and all(isinstance(ask("", "", "amd64", it), TypeError) for it in ("nocheck", b"nocheck", [1], 1))
        and all(isinstance(ask("", "", "amd64", without=it), TypeError) for it in ("aa", b"aa", [1], 1, None))
        and isinstance(ask("", "", "amd64", [], "sources"), TypeError)
        and debctl.buildable("", "", "amd64", budget=(1 << 32) - 1).buildable
    )


def refused_installable():
    """Whether a file, a target, a kind and a budget that are wrong have their exceptions."""
    return (
        refused_search(debctl.installable)
        and debctl.installable("", "amd64", budget=(1 << 32) - 1).installable
    )


BB, CC, EE = (
    f"unmet 1 aa 1 amd64 {it}" for it in ("Depends bb", "Depends cc | dd", "Recommends ee")
)
many = "\n".join(f"a{at}:{at}\nb:{at}\n" for at in range(5000))
second = error(debctl.unmet, INDEX, "\nx", "amd64")
TESTS = {
    "order of keys": keys_have_the_order(),
    "order of random keys": random_keys_have_the_order(),
    "key": debctl.key("1.0~rc1").hex() == "0100020131ae0200017263020131020200" + "02",
    "key of Version": Version("01.0").key() == debctl.key(b"1.0-0"),
    "long key": debctl.key("1" * 1000) == b"\1\0\2\xf1\3\xe8" + b"1" * 1000 + b"\2\2\0\2",
    "no key": error(debctl.key, "1_").code == debctl.Code.BadVersion,
    "canonical of Version": Version("01.0").canonical == "1.0",
    "unmet": unmet() == [BB] and debctl.unmet(INDEX, INDEX, "amd64").met is False,
    "unmet with Recommends": unmet(recommends=True) == [BB, EE],
    "unmet in nothing": debctl.unmet("", INDEX, "amd64").text.splitlines() == [BB, CC],
    "unmet of a source": debctl.unmet(INDEX, SOURCE, "amd64", kind="source").text
    == "unmet 1 ss 1 source Build-Depends zz\n",
    "nothing is unmet": debctl.unmet(INDEX, "", "amd64", ["nocheck"], kind="sources")
    == (True, ""),
    "unmet of any": isinstance(error(debctl.unmet, INDEX, INDEX, "amd64", kind="any"), ValueError),
    "unmet of a status file": str(
        error(debctl.unmet, INDEX, INDEX, "amd64", kind="status", recommends=True)
    )
    == "there are no relations of 'status'",
    "unmet of sources, with Recommends": isinstance(
        error(debctl.unmet, INDEX, "", "amd64", kind="sources", recommends=True), ValueError
    ),
    "unmet, index refused": (error(debctl.unmet, "x", "x", "amd64").second, second.second)
    == (False, True) and second.line == 2,
    "unmet, no target": error(debctl.unmet, INDEX, INDEX, "any").line == 0,
    "unmet in a loaded index": as_in_a_loaded_index(),
    "healthy": healthy(),
    "healthy, of a status file": healthy_status(),
    "healthy, kinds": refused_sets(),
    "a healthy set": [debctl.healthy(it, "amd64") for it in ("", CONTROL.split("Depends")[0])]
    == [(True, ""), (True, "")],
    "healthy, recommends by name": isinstance(error(debctl.healthy, SET, "amd64", True), TypeError),
    "healthy, index refused": [
        (it.name, it.line, it.second, it.field)
        for it in [error(debctl.healthy, CONTROL.replace("01", "1-"), "amd64")]
    ]
    == [("BadVersion", 2, False, "Version")],
    "healthy, no target": [error(debctl.healthy, "x", it).line for it in ("any", "all", "")] == [0] * 3,
    "installable": installable(),
    "installable, refused": refused_installable(),
    "essential packages, and packages that are left out": terms(),
    "why": why(),
    "witness": witness(),
    "witness, refused": refused_witness(),
    "buildable": buildable(),
    "buildable, refused": refused_buildable(),
    "paragraphs": read(FILE)
    == [(2, {"Package": "hello", "Depends": "aa,\n bb"}), (6, {"x": ""})],
    "no paragraphs": read("") == read("\n \n") == [],
    "refused in the third": read(FILE + "\nbad\n")[2:] == [(8, "NoColon", None)],
    "refused value": read(CONTROL + "\n" + CONTROL.replace("01", "1-"), "packages")[1:]
    == [(7, "BadVersion", "Version")],
    "unknown kind": isinstance(error(debctl.paragraphs, FILE, "foo"), ValueError),
    "no text": isinstance(error(debctl.paragraphs, 5), TypeError),
    "surrogates": isinstance(error(debctl.paragraphs, "a: \udcff\n"), UnicodeEncodeError),
    "many paragraphs": sum(map(len, debctl.paragraphs(many))) == 10000,
    "many fields": list(map(len, debctl.paragraphs("".join(f"a{at}:\n" for at in range(9999)))))
    == [9999],
    "zero bytes": read("a: x\0y\n") == [(1, {"a": "x\0y"})],
    "files": from_files(),
    "mapping": mapping(),
    "canonical values": canonical(),
    "alternatives": alternatives(),
    "relations of a field": [
        [one.name for one in group]
        for group in next(debctl.paragraphs(CONTROL)).relations("DEPENDS")
    ] == [["aa"], ["bb", "cc"]],
    "no relation": isinstance(error(next(debctl.paragraphs("a: b c\n")).relations, "a"), Refused),
    "field of a refusal": error(debctl.check, "Package: aa\nVersion: 1-\n").field == "Version",
    "field of no value": error(debctl.check, "bad\n").field is None,
    "threads": from_threads(),
}

failed = [name for name, passed in TESTS.items() if not passed]
for name in failed:
    print(f"paragraphs.py: {name}")
print(f"paragraphs.py: {len(TESTS) - len(failed)} passed, {len(failed)} failed")
sys.exit(bool(failed))
