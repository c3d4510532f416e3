"""The Python module: what its objects say, and the parts of versions and relations."""

import array
import functools
import io
import sys
from pathlib import Path

import debctl
from debctl import (
    Alternative, BuildReport, Exclusion, HealthReason, InstallReport, LeftOut, Need, NotInstallable,
    NumberedPackage, Parts, Reason, Refused, Version, WitnessReport,
)
from printed import printed

INDEX = (
    "Package: aa\nVersion: 1\nArchitecture: amd64\nMulti-Arch: foreign\n"
    "Provides: mta, vv (= 03), ww:any (= 1)\n\n\nPackage: bb\nVersion: 02\nArchitecture: all\n"
)
HELLO = "Package: hello\nVersion: 1\nArchitecture: all\nSize: 1\n"
AA = NumberedPackage(1, "aa", "1", "amd64")
RELATION = "aa (>= 3) | bb [i386] | mta (>= 1), bb, cc [i386], nn"
QUERY = debctl.query(RELATION, INDEX, "amd64", why=True)
LOADED = debctl.Index(INDEX)


def error(call, *words, **more):
    """The exception that a call raises, or none."""
    try:
        call(*words, **more)
    except Exception as raised:
        return raised
    return None


def groups():
    """Whether the groups of a report say what its lines say."""
    unmet, met, ignored, missing = QUERY.groups
    return (
        unmet.verdict == missing.verdict == "unmet" and met.verdict == "met"
        and ignored == ("ignored", "cc [i386]", (), ())
        and unmet.text == "aa (>= 3) | bb [i386] | mta (>= 1)" and not unmet.packages
        and unmet.reasons == (
            Reason("aa (>= 3)", "is earlier", AA),
            Reason("mta (>= 1)", "is provided without a version", AA),
        )
        and met.packages == (NumberedPackage(2, "bb", "2", "all"),) and not met.reasons
        and missing.reasons[0].package is None
    )


def reports():
    """Whether reports are true if met, and are printed again."""
    unmet = debctl.unmet(INDEX, HELLO + "Depends: aa, cc | dd\n", "amd64")
    met = debctl.unmet(INDEX, HELLO + "Depends: aa\n", "amd64")
    return (
        not QUERY and not unmet and bool(met) and bool(debctl.query("aa | cc", INDEX, "amd64"))
        and met.groups == [] and unmet.groups
        == [("unmet", 1, "hello", "1", "all", "Depends", "cc | dd")]
        and LOADED.query(RELATION, "amd64", why=True) == QUERY
        and LOADED.query(RELATION, "amd64") == debctl.query(RELATION, INDEX, "amd64") != QUERY
        and all(printed(it) == it.text.encode() for it in (QUERY, unmet, met))
        and debctl.unmet(INDEX, "Format: 1.0\nSource: ss\nVersion: 1\nBuild-Depends: cc [linux-amd64]\n",
                         "amd64", kind="source").groups[0].field == "Build-Depends"
    )


def health():
    """Whether a set of packages has its reasons, each with its packages."""
    set_ = (
        HELLO + "Depends: aa, by [any] | cc, cc [linux-any]\nBreaks: mta, by [linux-any]\n\n" + INDEX + "\n"
        + HELLO.replace("Version: 1", "Version: 2") + "\n"
        + HELLO.replace("hello", "by").replace("all", "i386")
    )
    report, healthy = debctl.healthy(set_, "amd64"), debctl.healthy(INDEX, "amd64")
    hello = NumberedPackage(1, "hello", "1", "all")
    return (
        not report and bool(healthy) and healthy.reasons == []
        and [printed(it) == it.text.encode() for it in (report, healthy)] == [True, True]
        and report.reasons == [
            HealthReason("unmet", hello, "Depends", "by [any] | cc", None),
            HealthReason("unsure", hello, "Depends", "cc [linux-any]", None),
            HealthReason(
                "unsure", hello, "Breaks", "by [linux-any]", NumberedPackage(5, "by", "1", "i386")
            ),
            HealthReason("conflict", hello, "Breaks", "mta", AA._replace(number=2)),
            HealthReason("duplicate", hello, None, None, hello._replace(number=4, version="2")),
        ]
    )


def states():
    """Whether a package that is neither installed nor removed has its state."""
    report = debctl.healthy(
        "Package: aa\nStatus: purge ok not-installed\n\nPackage: bb\nStatus: install ok unpacked\n"
        "Version: 02\nArchitecture: all\n\nPackage: cc\nStatus: unpacked\n",
        "amd64", kind="status",
    )
    return (
        not report and printed(report) == report.text.encode()
        and report.reasons == [
            HealthReason("state", NumberedPackage(2, "bb", "2", "all"), None, None, None, "unpacked"),
            HealthReason("state", NumberedPackage(3, "cc", "-", "-"), None, None, None, "-"),
        ]
    )


def not_buildable():
    """Whether a report on which source packages can't be built has each with its verdict."""
    index = "\n".join([
        HELLO.replace("hello", "build-essential"), HELLO.replace("hello", "aa") + "Conflicts: cc\n",
        HELLO.replace("hello", "bb") + "Conflicts: cc\n", HELLO.replace("hello", "cc") + "Provides: mm\n",
    ])
    sources = "".join(
        f"Package: {name}\nVersion: 1:2\nBuild-Depends: {needs}\n\n"
        for name, needs in [("ss", "aa | bb, mm"), ("tt", "cc"), ("uu", "zz [linux-any]")]
    )
    report, brief = debctl.buildable(index, sources, "amd64"), debctl.buildable(index, sources, "amd64", budget=1)
    why = debctl.buildable(index, "Package: ss\nVersion: 1\nBuild-Depends: zz\n", "amd64", why=True)
    ss = NotInstallable("uninstallable", 1, "ss", "1:2", "source")
    uu = NotInstallable("unsure", 3, "uu", "1:2", "source")
    whole = debctl.buildable(index, "", "amd64")
    return (
        not report and not brief and bool(whole) and whole == (True, "") and whole.packages == []
        and report.packages == [ss, uu]
        and brief.packages in ([ss, uu], [ss._replace(verdict="undecided"), uu])
        and why.packages == [
            NotInstallable("uninstallable", 1, "ss", "1", "source", (Need(1, "ss", "1", "source", "zz", ()),))
        ]
        and all(printed(it) == it.text.encode() for it in (report, brief, whole, why))
    )


def sets():
    """Whether a set with a package has its packages, and a search that finds none what is known."""
    text = "\n".join([
        HELLO + "Depends: aa | bb, mta\n", HELLO.replace("hello", "aa") + "Conflicts: cc, dd\n",
        HELLO.replace("hello", "bb"), HELLO.replace("hello", "cc") + "Provides: mta\n",
        HELLO.replace("hello", "dd") + "Breaks: hello\nProvides: mta\n",
        HELLO.replace("hello", "ee") + "Pre-Depends: zz [linux-any]\n",
        HELLO.replace("hello", "ee").replace("Version: 1", "Version: 01.0-0") + "Depends: aa, cc\n",
    ])
    found, lacking, nothing = (debctl.witness(name, text, "amd64") for name in ("hello", "ee", "zz"))
    return (
        bool(found) and not lacking and not nothing and nothing == (False, "")
        and found.packages == [
            NumberedPackage(1, "hello", "1", "all"), NumberedPackage(3, "bb", "1", "all"),
            NumberedPackage(4, "cc", "1", "all"),
        ]
        and lacking.not_installable == [
            NotInstallable("unsure", 6, "ee", "1", "all"),
            NotInstallable("uninstallable", 7, "ee", "1.0", "all"),
        ]
        and found.not_installable == lacking.packages == []
        and nothing.packages == nothing.not_installable == []
        and debctl.healthy("\n".join(text.split("\n\n")[it.number - 1] + "\n" for it in found.packages), "amd64").healthy
        and all(printed(it) == it.text.encode() for it in (found, lacking, nothing))
    )


def not_installable():
    """Whether a report on which packages can't be installed has each with its verdict."""
    choices = "\n".join([
        HELLO + "Depends: aa | bb, cc | dd\n", HELLO.replace("hello", "aa") + "Conflicts: cc, dd\n",
        HELLO.replace("hello", "bb") + "Conflicts: cc, dd\n", HELLO.replace("hello", "cc"),
        HELLO.replace("hello", "dd"), HELLO.replace("hello", "ee") + "Pre-Depends: zz [linux-any]\n",
    ])
    report, brief = debctl.installable(choices, "amd64"), debctl.installable(choices, "amd64", budget=1)
    hello = NotInstallable("uninstallable", 1, "hello", "1", "all")
    ee = NotInstallable("unsure", 6, "ee", "1", "all")
    whole = debctl.installable(INDEX, "amd64")
    return (
        not report and not brief and bool(whole) and whole == (True, "") and whole.packages == []
        and report.packages == [hello, ee]
        and brief.packages == [hello._replace(verdict="undecided"), ee]
        and all(printed(it) == it.text.encode() for it in (report, brief, whole))
    )


def reasons():
    """Whether reasons belong to the package before them, and are printed again."""
    text = (
        "unsure 1 aa 1 all\nuninstallable 2 bb 1:2 amd64\n 2 bb 1:2 amd64 needs cc:any (>= 1:2) | dd: 3 12\n"
        " 3 cc 1:3 all needs ee: none\n 3 cc 1:3 all needs ff (Essential): 7\n"
        " 12 dd 4 i386 excludes 2 bb 1:2 amd64\n 7 ff 1 all is left out\n"
        "uninstallable 7 ff 1 all\n 7 ff 1 all is left out\nundecided 8 gg 1 all\n"
    )
    bb, ff = NumberedPackage(2, "bb", "1:2", "amd64"), LeftOut(7, "ff", "1", "all")
    wanted = [
        NotInstallable("unsure", 1, "aa", "1", "all"),
        NotInstallable("uninstallable", *bb[:4], (
            Need(*bb[:4], "cc:any (>= 1:2) | dd", (3, 12)), Need(3, "cc", "1:3", "all", "ee", ()),
            Need(3, "cc", "1:3", "all", "ff (Essential)", (7,)), Exclusion(12, "dd", "4", "i386", bb), ff,
        )),
        NotInstallable("uninstallable", *ff, (ff,)), NotInstallable("undecided", 8, "gg", "1", "all", ()),
    ]
    report, sought = InstallReport(False, text), WitnessReport(False, text)
    return (
        report.packages == BuildReport(False, text).packages == sought.not_installable == wanted
        and [type(why) for why in wanted[1].reasons] == [type(why) for why in report.packages[1].reasons]
        and all(printed(it) == text.encode() for it in (report, sought))
        and InstallReport(True, "").packages == []
    )


def changes():
    """Whether changes say what the lines of a comparison say."""
    old = HELLO + "\n" + HELLO.replace("hello", "up") + "\n" + HELLO.replace("hello", "gone")
    new = "\n".join([
        HELLO.replace("Size: 1", "Size: 2\nTag: a\r,\n b\u2028\n c"),
        HELLO.replace("hello", "up").replace("Version: 1", "Version: 2"), HELLO.replace("hello", "zz"),
    ])
    found = {it.package: it for it in debctl.diff(old, new, values=True)}
    brief = debctl.diff(old, new)
    hello, up, gone, added = (found[name] for name in ("hello", "up", "gone", "zz"))
    return (
        [hello.kind, up.kind, gone.kind, added.kind] == ["changed", "upgraded", "removed", "added"]
        and (hello.number, hello.old_version, hello.new_version, hello.architecture, hello.fields)
        == (1, "1", "1", "all", ("Size", "Tag"))
        and hello.old == ("Size: 1",) and hello.new == ("Size: 2", "Tag: a\r,", " b\u2028", " c")
        and (up.old_version, up.new_version, up.fields) == ("1", "2", ("Version",))
        and (gone.old_version, gone.new_version, gone.fields, gone.new) == ("1", None, (), ())
        and len(gone.old) == 4 and (added.old_version, added.new_version, added.old) == (None, "1", ())
        and str(up) == "upgraded 2 up 1 2 all Version\n -Version: 1\n +Version: 2"
        and [it._replace(old=(), new=(), text="") for it in found.values()]
        == [it._replace(text="") for it in brief]
        and all("\n" not in str(it) and not it.old + it.new for it in brief)
        and debctl.diff(old, old) == [] and printed(found.values()) == "".join(
            f"{it}\n" for it in found.values()
        ).encode()
    )


def explanations():
    """Whether an explanation says what its lines say."""
    why = debctl.explain(HELLO + "Depends: aa,\n bb (\nTag: \n")
    every = debctl.explain_all(HELLO + "X\\Y:\nx\\y:\n\n" + HELLO + "\n" + HELLO.replace("1", "1-"))
    bound, version = debctl.explain_relation("aa, bb (1"), debctl.explain_version("1:_")
    return (
        (why.refusal.line, why.refusal.field, why.place, why.at, why.reason, why.value, why.passed)
        == (5, "Depends", 9, (6, 6), "OperatorBad", "aa,\\n bb (", None)
        and list(why.lines)
        == ["line", "code", "name", "field", "place", "at", "reason", "value", "rule", "usually"]
        and debctl.explain(HELLO) == (None, "ok 1\n") and debctl.explain(HELLO).passed == 1
        and debctl.explain(HELLO).lines == {} and debctl.explain(HELLO).at is None
        and (every.passed, [it.refusal.field for it in every.refused]) == (1, ["x\\y", "Version"])
        and every.refused[0].lines["field"] == "x\\\\y" and every.refused[1].at == (14, 10)
        and (bound.refusal.code, bound.refusal.line, bound.place) == (debctl.Code.BadRelation, 0, 8)
        and (version.refusal.code, version.place, version.value)
        == (debctl.Code.BadVersion, 2, "1:_")
        and debctl.explain_relation("aa") == debctl.explain_version("1") == (None, "ok\n")
        and debctl.explain_version("1").passed is None
        and all(printed(it) == it.text.encode() for it in (why, every, bound, version))
    )


def parts():
    """Whether versions have the parts that they are spelled with, and the canonical ones."""
    long = "1" * 5000
    return (
        Version("01:02.0-1-00").parts == Parts("01", "02.0-1", "00")
        and Version(b"01:02.0-1-00").canonical_parts == Parts("1", "2.0-1", "0")
        and (Version("2:1:0-0~").epoch, Version("2:1:0-0~").upstream) == ("2", "1:0")
        and (Version("1").epoch, Version("1").upstream, Version("1").revision) == (None, "1", None)
        and (Version("0:1-0").epoch, Version("0:1-0").revision) == ("0", "0")
        and Version(f"{long}-{long}").revision == long and Version("0:1-0").canonical_parts[::2]
        == (None, None)
    )


def versions_and_texts():
    """Whether a version is compared with a text as with the version that it spells."""
    texts = ["1-0", b"0:1", bytearray(b"1"), memoryview(b"01-00")]
    others = [None, 1, 1.0, ("1",), object(), debctl.Code.NotUtf8]
    less = [lambda it: Version("1") < it, lambda it: Version("1") >= it, lambda it: it > Version("1")]
    return (
        all(Version("01") == it and not Version("1") != it and it == Version("1") for it in texts)
        and all(Version("1") >= it and Version("1") <= it and not Version("1") < it for it in texts)
        and Version("1.10") > "1.9" and "1.9" < Version("1.10") and max("1", Version("1~")) == "1"
        and Version("1") != "1~" and Version("1") in ["2", "01"] and "01" in [Version("1")]
        and all((Version("1") == it) is False and (Version("1") != it) is True for it in others)
        and all(isinstance(error(call, it), TypeError) for call in less for it in others)
        and all(isinstance(error(call, "1_"), Refused) for call in less)
        and all(isinstance(error(call), Refused) for call in (
            lambda: Version("1") == "", lambda: Version("1") != "1 ", lambda: Version("1") in ["1_"],
        ))
        and hash(Version("1.0-0")) == hash(Version("0:1.00")) == hash("1.0")
        and "1.0" in {Version("01.0-0")} and Version("0:1.0") in {"1.0": 1} and len({Version("1"), "1"}) == 1
    )


def spelled():
    """Whether alternatives are as they are spelled, and as they are in the canonical text."""
    text = " bb\t(<\n1.01)|cc:any[ i386\tamd64\n!x ]  < a\tb\n> <!c>,, aa(=2023.03.02-1), bb | bb "
    read = functools.partial(debctl.relations, text, spelled=True)
    ones = [[str(it) for it in group] for group in read()] if error(read) is None else error(read)
    text2 = "bb\t(<\n1.01)|cc:any[i386\tamd64]  < a\tb\n> <!c>,, aa(=2023.03.02-1), bb | bb "
    groups = debctl.relations(text2, spelled=True)
    return (
        isinstance(ones, Refused)
        and groups == [
            [
                ("bb", None, "<", "1.01", (), ()),
                ("cc", "any", None, None, ("i386", "amd64"), (("a", "b"), ("!c",))),
            ],
            [("aa", None, "=", "2023.03.02-1", (), ())],
            [("bb", None, None, None, (), ())] * 2,
        ]
        and debctl.relations(text2)
        == [
            [("aa", None, "=", "2023.3.2-1", (), ())],
            [
                ("bb", None, "<=", "1.1", (), ()),
                ("cc", "any", None, None, ("amd64", "i386"), (("!c",), ("a", "b"))),
            ],
            [("bb", None, None, None, (), ())] * 2,
        ]
        and debctl.relations("", spelled=True) == debctl.relations(" \n ,", spelled=True) == []
        and isinstance(error(debctl.relations, "aa (", spelled=True), Refused)
        and len(debctl.relations(", ".join(f"a{at} | b{at}" for at in range(9999)), spelled=True)) == 9999
    )


def profiles():
    """Whether items of a list are split at a space, a tab and a newline alone."""
    found = []
    for at in "\x0b\x0c\x1c\x85\xa0\u2028\r":
        text = f"aa <x{at}y z>"
        if error(debctl.relations, text) is None:
            found.append(debctl.relations(text, spelled=True)[0][0].profiles == ((f"x{at}y", "z"),))
            found.append(debctl.relations(text)[0][0].profiles == ((f"x{at}y", "z"),))
    return all(found)


def one_alternative():
    """Whether one alternative is asked alone."""
    package, other = debctl.paragraphs(INDEX)
    satisfies = lambda text, arch="amd64": debctl.satisfies(text, package, arch)
    bounded = Alternative("aa", None, ">=", "1", ("i386",), (("nodoc",),))
    return (
        satisfies("aa (>= 1)") and satisfies("mta") and satisfies("vv (= 3)") and satisfies(bounded)
        and satisfies("aa [linux-any]") and not satisfies("aa (>> 1)") and not satisfies("mta (= 1)")
        and not satisfies("bb") and satisfies("aa", "i386")
        and not debctl.satisfies("aa", "Package: aa\nVersion: 1\nArchitecture: amd64\n", "i386")
        and debctl.satisfies(b"bb (= 2)", INDEX.split("\n\n\n")[1], "i386")
        and debctl.satisfies("bb", other, b"amd64")
        and debctl.applies("aa [amd64]", "amd64") and not debctl.applies("aa [!amd64]", "amd64")
        and debctl.applies("aa <!nodoc>", "amd64") and not debctl.applies(bounded, "i386")
        and debctl.applies(bounded, "i386", ["nodoc"])
        and [type(error(debctl.applies, it, "amd64")) for it in ("", "aa, bb", "aa | bb", "aa (")]
        == [ValueError, ValueError, ValueError, Refused]
        and error(debctl.applies, "aa [linux-any]", "amd64").code == debctl.Code.Wildcard
        and error(debctl.satisfies, "aa", "x", "amd64").line == 1
        and isinstance(error(debctl.satisfies, "aa", 5, "amd64"), TypeError)
    )


def details():
    """Whether an index returns all that it keeps of a package."""
    first, second = LOADED.details(1), LOADED.details(2)
    return (
        first[:4] == ("aa", "1", "amd64", "foreign") and second[:5] == ("bb", "2", "all", None, [])
        and [str(it) for it in first.provides] == ["mta", "vv (= 3)"]
        and (first.line, second.line) == (1, 8) and LOADED.details(3) is LOADED.details(-1) is None
        and LOADED.details(2**64 + 1) is LOADED.package(2**64 + 1) is None
    )


class Slow(io.RawIOBase):
    """A file of which at most some bytes are read at once."""

    def __init__(self, data, most):
        super().__init__()
        self.data, self.most, self.at = data, most, 0

    def read(self, size=-1):
        """The next bytes, or characters."""
        piece = self.data[self.at : self.at + min(size, self.most)]
        self.at += len(piece)
        return piece


def read(*words):
    """The paragraphs of a file, each with its line and its fields and their lines, and its refusal."""
    found = []
    try:
        for it in debctl.paragraphs(*words):
            found.append((it.line, dict(it), [it.line_of(name) for name in it]))
    except Refused as refused:
        found.append((refused.line, refused.name, refused.field))
    return found


def pieces():
    """Whether a file is read in pieces of any length as it is at once, with the same refusal."""
    many = "".join(f"\n\n{HELLO}X{at}: a\n\tb\u00e9\n .\n" for at in range(40))
    files = [
        "", "\n", "a: b", INDEX, many, "\n \t\n" * 20 + HELLO + "\n\t \n" * 9 + "x: 1\n", HELLO + "\nx",
        HELLO + "\n" * 99 + HELLO + "Size:\nY: 1", many + "\n" + HELLO.replace("1", "1-"), "x: \0\ny\\Z",
        many + HELLO.replace("hello", "h\\"), HELLO + " \n\nA\\B: 1\na\\b: 2\n", f"#{many}",
        f"{many}\nY: {'y' * 99999}\ny:\n",
    ]
    for text in files:
        for kind in ("any", "packages", "binary"):
            wanted = read(text, kind)
            refusal = debctl.explain(text, kind).refusal
            if refusal and wanted[-1] != (refusal.line, refusal.name, refusal.field):
                return False
            if len(wanted) - bool(refusal) != len(read(f"{text}", kind)) - bool(refusal):
                return False
            for most in (1, 7, 1000) if len(text) < 50000 else (1000,):
                for data in (text, text.encode()):
                    if read(Slow(data, most), kind) != wanted:
                        return False
    return True


def texts():
    """Whether a text of each type is read, and a file only as its paragraphs are taken."""
    likes = [str.encode, lambda it: bytearray(it.encode()), lambda it: memoryview(it.encode()),
             lambda it: array.array("B", it.encode()), io.StringIO, lambda it: io.BytesIO(it.encode())]
    many = "".join(f"Package: p{at}\n\n" for at in range(100000))
    file = io.StringIO(many)
    lazy = debctl.paragraphs(file)
    first = next(lazy)
    return (
        all(read(like(INDEX)) == read(INDEX) for like in likes)
        and first["Package"] == "p0" and file.tell() < 200000 and next(lazy)["package"] == "p1"
        and isinstance(error(list, debctl.paragraphs(Slow([1], 1))), TypeError)
        and isinstance(error(list, debctl.paragraphs(Slow("a: \udcff", 1))), UnicodeEncodeError)
    )


TESTS = {
    "groups": groups(), "reports": reports(), "health": health(), "states": states(),
    "not installable": not_installable(), "reasons": reasons(), "sets": sets(), "not buildable": not_buildable(), "changes": changes(), "explanations": explanations(), "parts": parts(),
    "versions and texts": versions_and_texts(), "spelled": spelled(),
    "profiles": profiles(), "one alternative": one_alternative(), "details": details(),
    "pieces": pieces(), "texts": texts(),
    "a missing field": next(debctl.paragraphs(HELLO)).relations("Depends") == [],
    "versions": debctl.__version__ == debctl.library_version() and f'version = "{debctl.__version__}"'
    in (Path(__file__).parents[2] / "python/pyproject.toml").read_text(encoding="utf-8"),
}

failed = [name for name, passed in TESTS.items() if not passed]
for name in failed:
    print(f"objects.py: {name}")
print(f"objects.py: {len(TESTS) - len(failed)} passed, {len(failed)} failed")
sys.exit(bool(failed))
