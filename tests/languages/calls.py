"""The Python module: its answers, its exceptions, and versions as keys."""

import array
import gc
import pickle
import sys
import threading
from pathlib import Path

import debctl
from debctl import Code, Refused, Version

HELLO = "vERSION: 01.0-0\npackage:hello\nArchitecture: amd64\n"
CANONICAL = b"Architecture: amd64\nPackage: hello\nVersion: 1.0\n"
BAD = "Package: hello\nVersion: 1.1\nArchitecture: amd64\nSize: 1k\n"


def refusal(call, *words, **more):
    """The code, the line, the name and the side of what a call refuses."""
    try:
        return call(*words, **more)
    except Refused as refused:
        assert str(refused) == f"line {refused.line}: {int(refused.code)} {refused.name}"
        again = pickle.loads(pickle.dumps(refused))
        assert (again.code, again.line, again.second) == (refused.code, refused.line, refused.second)
        return refused.code, refused.line, refused.name, refused.second


def error(call, *words, **more):
    """The sort of the exception that a call raises."""
    try:
        return call(*words, **more)
    except Exception as raised:
        return type(raised)


def explained(*words, **more):
    """The code and the line of an explained refusal, or none, and the lines of the text."""
    told = debctl.explain(*words, **more)
    head = told.refusal and (told.refusal.code, told.refusal.line, told.refusal.second)
    return head, told.text.split("\n")


def all_refused(*words, **more):
    """How many paragraphs pass, and the code, the line and the field of each refusal."""
    passed, refused = debctl.check_all(*words, **more)
    assert not any(it.second for it in refused)
    return passed, [(it.code, it.line, it.field) for it in refused]


def from_threads():
    """Whether calls from four threads at once are answered as one alone is."""
    answers = []
    run = lambda: answers.extend(debctl.normalise(HELLO) for _ in range(200))
    threads = [threading.Thread(target=run) for _ in range(4)]
    for thread in threads:
        thread.start()
    for thread in threads:
        thread.join()
    return answers == [CANONICAL] * 800


NO_TEXTS = [
    5, 0, True, None, 1.5, ["1"], ("1",), {"1": "1"}, range(3), Path("1"), Code.NotUtf8,
    Version("1"),
]
TAKE_TEXT = {
    "compare's first": lambda text: debctl.compare(text, "1"),
    "compare's second": lambda text: debctl.compare("1", text),
    "canonical": debctl.canonical,
    "Version": Version,
    "check": debctl.check,
    "normalise": debctl.normalise,
    "explain": debctl.explain,
    "check_all": debctl.check_all,
    "explain_all": debctl.explain_all,
    "same's first": lambda text: debctl.same(text, HELLO),
    "same's second": lambda text: debctl.same(HELLO, text),
    "query's relation": lambda text: debctl.query(text, HELLO, "amd64"),
    "query's index": lambda text: debctl.query("hello", text, "amd64"),
    "query's arch": lambda text: debctl.query("hello", HELLO, text),
    "a profile": lambda text: debctl.query("hello", HELLO, "amd64", [text]),
    "healthy's index": lambda text: debctl.healthy(text, "amd64"),
    "healthy's arch": lambda text: debctl.healthy(HELLO, text),
    "installable's index": lambda text: debctl.installable(text, "amd64"),
    "installable's arch": lambda text: debctl.installable(HELLO, text),
    "witness's name": lambda text: debctl.witness(text, HELLO, "amd64"),
    "witness's index": lambda text: debctl.witness("hello", text, "amd64"),
    "witness's arch": lambda text: debctl.witness("hello", HELLO, text),
    "select's file": debctl.select,
    "select's condition": lambda text: debctl.select(HELLO, text),
    "select's field": lambda text: debctl.select(HELLO, fields=[text]),
    "select_table's file": lambda text: debctl.select_table(text, fields=["Package"]),
    "select_table's field": lambda text: debctl.select_table(HELLO, fields=[text]),
    "select_objects' file": debctl.select_objects,
    "count_selected's file": debctl.count_selected,
    "explain_condition": debctl.explain_condition,
    "buildable's index": lambda text: debctl.buildable(text, "", "amd64"),
    "buildable's file": lambda text: debctl.buildable(HELLO, text, "amd64"),
    "buildable's arch": lambda text: debctl.buildable(HELLO, "", text),
    "buildable's profile": lambda text: debctl.buildable(HELLO, "", "amd64", [text]),
    "a name that installable leaves out": lambda text: debctl.installable(HELLO, "amd64", without=[text]),
    "a name that witness leaves out": lambda text: debctl.witness("hello", HELLO, "amd64", without=[text]),
    "a name that buildable leaves out": lambda text: debctl.buildable(HELLO, "", "amd64", without=[text]),
}
TAKE_KIND = {
    "check's kind": lambda kind: debctl.check(HELLO, kind),
    "normalise's kind": lambda kind: debctl.normalise(HELLO, kind),
    "explain's kind": lambda kind: debctl.explain(HELLO, kind),
    "check_all's kind": lambda kind: debctl.check_all(HELLO, kind),
    "explain_all's kind": lambda kind: debctl.explain_all(HELLO, kind),
    "same's kind": lambda kind: debctl.same(HELLO, HELLO, kind),
    "select's kind": lambda kind: debctl.select(HELLO, kind=kind),
    "explain_condition's kind": lambda kind: debctl.explain_condition("Package", kind),
    "healthy's kind": lambda kind: debctl.healthy(HELLO, "amd64", kind=kind),
    "installable's kind": lambda kind: debctl.installable(HELLO, "amd64", kind=kind),
    "witness's kind": lambda kind: debctl.witness("hello", HELLO, "amd64", kind=kind),
    "buildable's kind": lambda kind: debctl.buildable(HELLO, "", "amd64", kind=kind),
}
BYTES_LIKE = [bytes, bytearray, memoryview, lambda text: array.array("B", text)]


def no_type_errors(calls, values):
    """The calls and values for which no TypeError is raised."""
    return [(name, it) for name in calls for it in values if error(calls[name], it) is not TypeError]


def from_bytes_like():
    """Whether each bytes-like object is read as its bytes are."""
    versions = [Version(like(b"01.0")) for like in BYTES_LIKE]
    return (
        [debctl.normalise(like(HELLO.encode())) for like in BYTES_LIKE] == [CANONICAL] * 4
        and [debctl.compare(like(b"1"), like(b"2")) for like in BYTES_LIKE] == [-1] * 4
        and [(str(it), repr(it)) for it in versions] == [("01.0", "Version(b'01.0')")] * 4
        and debctl.check(memoryview(HELLO.encode() + b"x")[:-1]) == 1
    )


def with_profiles(profiles):
    """The report of a query with these profiles, after a collection of garbage."""
    profiles = (it for it in profiles if gc.collect() >= 0)
    return debctl.query("hello <!nodoc>", HELLO, "amd64", profiles).text


def from_one_index():
    """Whether four threads that ask one index at once are answered as one alone is."""
    index, answers = debctl.Index(HELLO), []
    run = lambda: answers.extend(index.query("hello", "amd64").text for _ in range(500))
    threads = [threading.Thread(target=run) for _ in range(4)]
    for thread in threads:
        thread.start()
    for thread in threads:
        thread.join()
    return answers == ["met hello\n 1 hello 1.0 amd64\n"] * 2000


def changed():
    """What an index has after another file was read, and after packages were left out."""
    index = debctl.Index(HELLO)
    index.read_more(HELLO.replace("01.0-0", "2"))
    found = [len(index), index.query("hello (>> 1.0)", "amd64").text, index.file(2), index.file(3)]
    group = index.query("hello (>> 2)", "amd64", why=True).groups[0]
    found += [[it.package.file for it in group.reasons], index.package(2)]
    index.leave_out(["hello", "zz"])
    return [*found, len(index), index.file(1)]


def closed_by_refusal():
    """Whether a refused file closes an index, and names keep it open."""
    index = debctl.Index(HELLO)
    refused = refusal(index.read_more, BAD)
    return refused == (15, 4, "BadNumber", False) and error(len, index) is ValueError


def with_options():
    """The groups of unmet relations with each option."""
    empty, old = debctl.Index(""), debctl.Index(HELLO)
    file = HELLO.replace("hello", "aa").replace("amd64", "all") + "Depends: hello, zz [i386]\n"
    source = "Package: ss\nVersion: 1\nArchitecture: i386\nBuild-Depends: bb\n"
    asked = [
        empty.unmet(file, "amd64"), empty.unmet(file, "amd64", unless=old),
        empty.unmet(file, "amd64", all_for="i386"), empty.unmet(file, "amd64", without=["aa"]),
        empty.unmet(source, "amd64", kind="sources"),
        empty.unmet(source, "amd64", kind="sources", all_sources=True),
    ]
    return [[it.group for it in report.groups] for report in asked]


def latest_refused(*texts, **more):
    """The place, the code and the line of a text that is refused."""
    try:
        return debctl.latest(texts, **more)
    except Refused as refused:
        return refused.text, int(refused.code), refused.line


def bad_condition(*words, **more):
    """The number and the reason of a text that is no condition."""
    try:
        return debctl.select(*words, **more)
    except debctl.BadCondition as bad:
        again = pickle.loads(pickle.dumps(bad))
        assert (again.number, again.text, str(again)) == (bad.number, bad.text, str(bad))
        assert isinstance(bad, ValueError) and bad.text == debctl.explain_condition(
            words[bad.number], **{key: more[key] for key in more if key == "kind"}
        )
        return bad.number, bad.lines["reason"], int(bad.lines["place"])


def collected(texts):
    """Texts that are made one by one, with a collection of garbage before each."""
    return ("".join(it) for it in texts if gc.collect() >= 0)


INDEX = debctl.Index(HELLO + "\n" + "Package: mailer\nVersion: 2\nArchitecture: all\nProvides: mta\n")

# Two paragraphs that pass, and between them a bad version, a line without a colon, a name twice and a
# field that is missing.
FOUR = "\n".join([
    HELLO, "Version: 1-\nPackage: bb\n", "bad\n", "Size: 1\nSIZE: 2\n", "\nPackage: cc\nVersion: 1\n",
    HELLO,
])
FOUR_REFUSED = [
    (Code.BadVersion, 5, "Version"), (Code.NoColon, 8, None), (Code.DuplicateField, 11, "SIZE"),
    (Code.MissingField, 14, "Architecture"),
]
TWO = (
    "Package: aa\nVersion: 1.9\nArchitecture: all\nNote: a\tb\\é\n\n"
    "package: bb \nVersion: 1.10\nArchitecture: all\n"
)
ALL_BYTES = "Note: |" + "".join(map(chr, range(9))) + "".join(map(chr, range(11, 256))) + "|\n"
long_index = "\n".join(f"Package: p{at}\nVersion: {at}\nArchitecture: all\n" for at in range(2000))
long_version = "1" * 100000 + "-0"
bad_version = (Code.BadVersion, 0, "BadVersion", False)

TESTS = {
    "earlier": debctl.compare("1.0~rc1", b"1.0") == -1,
    "equal": debctl.compare("0:1.0-0", "1.00") == 0,
    "later": debctl.compare("1.10", "1.9") == 1,
    "no version first": refusal(debctl.compare, "1_", "1") == bad_version,
    "no version second": refusal(debctl.compare, "1", "") == (*bad_version[:3], True),
    "no text": error(debctl.compare, None, "1") is TypeError,
    "canonical version": debctl.canonical("00:1:02-0") == "0:1:2",
    "long canonical version": debctl.canonical(long_version) == "1" * 100000,
    "no canonical version": refusal(debctl.canonical, "") == bad_version,
    "order": sorted(map(Version, ["1.10", "1.9", "1~"])) == [Version(v) for v in ("1~", "1.9", "1.10")],
    "every comparison": Version("1") <= Version("1.0-1") and Version("2") > Version("1")
    and Version("2") >= Version("2-0") and Version("2") != Version("1"),
    "keys": len({Version("1.0"), Version("0:1.0-0"), Version("1.1")}) == 2,
    "versions and others": Version("1") != 1 and error(lambda: Version("1") < 1) is TypeError,
    "spelled": (str(Version("01.0")), repr(Version(b"1"))) == ("01.0", "Version(b'1')"),
    "no Version": refusal(Version, "1-") == bad_version,
    "check": debctl.check(HELLO) == 1,
    "check nothing": debctl.check(b"") == 0,
    "check a kind": debctl.check(BAD, kind="any") == 1,
    "refused": refusal(debctl.check, BAD) == (Code.BadNumber, 4, "BadNumber", False),
    "refused kind": refusal(debctl.check, "", "binary") == (Code.NoParagraph, 1, "NoParagraph", False),
    "unknown kind": error(debctl.check, HELLO, "foo") is ValueError,
    "zero bytes": refusal(debctl.check, b"A\0: x\n") == (Code.BadFieldName, 1, "BadFieldName", False),
    "not UTF-8": refusal(debctl.check, b"A: \xff\n") == (Code.NotUtf8, 1, "NotUtf8", False),
    "normalise": debctl.normalise(HELLO) == CANONICAL,
    "normalise nothing": debctl.normalise("") == b"",
    "normalise refused": refusal(debctl.normalise, BAD) == (Code.BadNumber, 4, "BadNumber", False),
    "longer canonical text": debctl.normalise("\n".join(f"a{at}:b" for at in range(200)), "any")
    .count(b": b\n") == 200,
    "explain accepted": explained(HELLO) == (None, ["ok 1", ""]),
    "explain nothing": explained(b"") == (None, ["ok 0", ""]),
    "explain a kind": explained(BAD, kind="any") == (None, ["ok 1", ""]),
    "explain refused": explained(BAD) == ((Code.BadNumber, 4, False), [
        "line: 4", "code: 15", "name: BadNumber", "field: Size", "value: 1k",
        "rule: Installed-Size (Debian Policy 5.6.20) and Size must be one or more decimal digits.",
        "usually: a unit after the number", "",
    ]),
    "explain refused kind": explained("", "binary")[0] == (Code.NoParagraph, 1, False),
    "explain unknown kind": error(debctl.explain, HELLO, "foo") is ValueError,
    "explain a long value": explained("Size: " + "\0" * 5000)[1][4]
    == "value: " + "\\x00" * 200 + "\\...",
    "check all": all_refused(HELLO) == (1, []),
    "check all of nothing": debctl.check_all("") == debctl.AllChecked(0, []),
    "check all, refused": all_refused(FOUR) == (2, FOUR_REFUSED),
    "check all, kinds": [all_refused(FOUR, kind=kind) for kind in ("any", "binary", "source")] == [
        (4, FOUR_REFUSED[1:3]), (1, [(Code.TooManyParagraphs, 5, None)]),
        (0, [(Code.MissingField, 1, "Format")]),
    ],
    "check all, many": all_refused("x\n\n" * 5000 + HELLO)
    == (1, [(Code.NoColon, 2 * at + 1, None) for at in range(5000)]),
    "check all, unknown kind": error(debctl.check_all, HELLO, "foo") is ValueError,
    "explain all": str(debctl.explain_all(HELLO)) == "ok 1, 0 refused\n",
    "explain all, refused": debctl.explain_all("x\n\n" + BAD).text == "".join([
        debctl.explain("x\n").text, "\n", debctl.explain("\n\n" + BAD).text, "\nok 0, 2 refused\n",
    ]),
    "explain all, many": debctl.explain_all("x\n\n" * 5000).text.count("\nname: NoColon\n") == 5000,
    "explain all, unknown kind": error(debctl.explain_all, HELLO, "foo") is ValueError,
    "same": debctl.same(HELLO, CANONICAL) is True,
    "different": debctl.same(HELLO, "") is False,
    "first refused": refusal(debctl.same, BAD, "x") == (Code.BadNumber, 4, "BadNumber", False),
    "second refused": refusal(debctl.same, HELLO, BAD) == (Code.BadNumber, 4, "BadNumber", True),
    "no change": debctl.diff(HELLO, CANONICAL) == [],
    "changes": [str(it) for it in debctl.diff(HELLO, HELLO + "Size: 1\n")]
    == ["changed 1 hello 1.0 amd64 Size"],
    "changed values": debctl.diff(HELLO, HELLO + "Size: 1\n", "binary", values=True)[0].text.split("\n")[1:]
    == [" +Size: 1"],
    "all removed": len(debctl.diff(long_index, "")) == 2000,
    "diff's first": refusal(debctl.diff, BAD, "x") == (Code.BadNumber, 4, "BadNumber", False),
    "diff's second": refusal(debctl.diff, HELLO, BAD) == (Code.BadNumber, 4, "BadNumber", True),
    "diff's kind": [error(debctl.diff, "", "", kind) for kind in ("any", "foo")]
    == [ValueError, ValueError],
    "met": debctl.query("hello (>= 1)", HELLO, "amd64")
    == (True, "met hello (>= 1)\n 1 hello 1.0 amd64\n"),
    "unmet": debctl.query("hello", HELLO, "i386") == (False, "unmet hello\n"),
    "profiles": debctl.query("hello <!nodoc>", HELLO, "amd64", ["stage1", "nodoc"]).text
    == "ignored hello <!nodoc>\n",
    "profiles of a generator": with_profiles(f"no{it}" for it in ("check", "doc"))
    == "ignored hello <!nodoc>\n",
    "profiles of bytes-like objects": with_profiles([like(b"nodoc") for like in BYTES_LIKE])
    == "ignored hello <!nodoc>\n",
    "no texts": no_type_errors(TAKE_TEXT, NO_TEXTS) == [],
    "no kinds": no_type_errors(TAKE_KIND, [5, None, b"packages", ["packages"], Code.NotUtf8]) == [],
    "one text for the profiles": no_type_errors(
        {"profiles": lambda it: debctl.query("aa <!nocheck>", "", "amd64", profiles=it)},
        ["nocheck", "", b"nocheck", b"", bytearray(b"nocheck"), memoryview(b"nocheck"), None, 5],
    ) == [],
    "bytes-like objects": from_bytes_like(),
    "no UTF-8 of a str": error(debctl.check, "A: \udcff\n") is UnicodeEncodeError,
    "long report": debctl.query(" | ".join(f"p{at}" for at in range(2000)), long_index, "amd64")
    .text.count("\n") == 2001,
    "bad relation": refusal(debctl.query, "a (", HELLO, "amd64") == (19, 0, "BadRelation", False),
    "bad target": refusal(debctl.query, "hello", HELLO, "any") == (23, 0, "BadEnvironment", False),
    "bad profile": refusal(debctl.query, "hello", HELLO, "amd64", [""]) == (23, 0, "BadEnvironment", False),
    "bad index": refusal(debctl.query, "hello", BAD, "amd64") == (15, 4, "BadNumber", False),
    "wildcard": refusal(debctl.query, "hello [linux-any]", HELLO, "amd64") == (22, 0, "Wildcard", False),
    "threads": from_threads(),
    "an index": (len(INDEX), repr(INDEX)) == (2, "<debctl.Index of 2 packages>"),
    "an index is asked": INDEX.query("hello, mta (>= 1)", "amd64")
    == (False, "met hello\n 1 hello 1.0 amd64\nunmet mta (>= 1)\n"),
    "an index with profiles": INDEX.query("hello <!nodoc>", "amd64", ["nodoc"]).text
    == "ignored hello <!nodoc>\n",
    "an index by names": (INDEX.packages("hello"), INDEX.providers("mta"), INDEX.packages(b"mta"))
    == ([1], [2], []),
    "an index by numbers": [INDEX.package(at) for at in (0, 1, 3, -1)]
    == [None, ("hello", "1.0", "amd64"), None, None],
    "an empty index": (len(debctl.Index("")), debctl.Index("").packages("aa")) == (0, []),
    "many numbers": debctl.Index(long_index.replace("Package: p", "Package: pp\nX: ")).packages("pp")
    == list(range(1, 2001)),
    "long report of an index": debctl.Index(long_index)
    .query(" | ".join(f"p{at}" for at in range(2000)), "amd64").text.count("\n") == 2001,
    "refused index": refusal(debctl.Index, BAD) == (15, 4, "BadNumber", False),
    "an index and a bad relation": refusal(INDEX.query, "a (", "amd64") == (19, 0, "BadRelation", False),
    "an index and no text": error(debctl.Index, 5) is TypeError,
    "threads ask one index": from_one_index(),
    "an index of two files": changed() == [
        2, "met hello (>> 1.0)\n 2 hello 2 amd64 @2\n", 2, None, [1, 2], ("hello", "2", "amd64"), 0, None,
    ],
    "an index is closed by a refusal": closed_by_refusal(),
    "unmet with options": with_options() == [
        ["hello"], ["hello"], ["hello", "zz [i386]"], [], [], ["bb"],
    ],
    "unmet with wrong options": [
        error(INDEX.unmet, HELLO, "amd64", all_sources=True),
        error(INDEX.unmet, "", "amd64", kind="sources", all_for="i386"),
        refusal(INDEX.unmet, HELLO, "amd64", all_for="all"),
    ] == [ValueError, ValueError, (23, 0, "BadEnvironment", False)],
    "latest": debctl.latest([HELLO, HELLO.replace("01.0-0", "1.1")], before="2")
    == HELLO.replace("01.0-0", "1.1").encode(),
    "latest by architecture": debctl.latest([HELLO, HELLO.replace("amd64", "i386")], by="name,arch")
    == (HELLO + "\n" + HELLO.replace("amd64", "i386")).encode(),
    "latest, refused": [
        latest_refused(HELLO, BAD), latest_refused(BAD, HELLO), latest_refused(BAD, before="1_"),
    ] == [(2, 15, 4), (1, 15, 4), (None, 18, 0)],
    "select": debctl.select(TWO, "Version >> 1.9") == TWO.split("\n\n")[1].encode(),
    "select all": debctl.select(TWO) == TWO.encode() == debctl.select(TWO, "Package", others=False),
    "select others": debctl.select(TWO, "Version >> 1.9", others=True) == TWO.split("\n\n")[0].encode()
    + b"\n",
    "select none": [debctl.select(TWO, "Size", form=form, fields=()) for form in ("control", "jsonl")]
    == [b"", b""] and debctl.select_table(TWO, "Size", fields=["Size"]) == [],
    "select nothing": (debctl.select(""), debctl.count_selected(b""), debctl.select_objects(""))
    == (b"", 0, []),
    "select fields": debctl.select(TWO, "Package = bb", fields=["VERSION", b"package", "size"])
    == b"Version: 1.10\npackage: bb \n",
    "select with texts that are freed": debctl.select(
        TWO, *collected([["Package ", "= b", "b"], ["Version", ">>1"]]),
        fields=collected([["Ver", "sion"], ["Pack", "age"]]),
    ) == b"Version: 1.10\npackage: bb \n",
    "select from bytes-like objects": [
        debctl.select(like(TWO.encode()), like(b"Package=bb"), fields=[like(b"Version")])
        for like in BYTES_LIKE
    ] == [b"Version: 1.10\n"] * 4,
    "count selected": [debctl.count_selected(TWO, "Version << 2", others=it) for it in (False, True)]
    == [2, 0],
    "select a table": debctl.select(TWO, form="table", fields=["note", "Package"])
    == "a\\tb\\\\é\taa\n\tbb\n".encode(),
    "the rows of a table": debctl.select_table(TWO, fields=["note", "Package"])
    == [["a\tb\\é", "aa"], ["", "bb"]],
    "rows without a cell": debctl.select_table(TWO, fields=()) == [[], []],
    "cells with each byte": debctl.select_table(
        ALL_BYTES, kind="any", fields=["Note", "x"],
    ) == [[ALL_BYTES[6:].strip(), ""]],
    "lines in a cell": debctl.select_table("A: x\n y\n .\n \u2028z\n", fields=["a"], kind="any")
    == [["x\n y\n .\n \u2028z"]],
    "select objects": [
        (it["line"], sorted(it["fields"]), it["fields"]["Version"]) for it in debctl.select_objects(TWO)
    ] == [
        (1, ["Architecture", "Note", "Package", "Version"], {"canonical": "1.9", "spelled": "1.9"}),
        (6, ["Architecture", "Package", "Version"], {"canonical": "1.10", "spelled": "1.10"}),
    ],
    "objects of each byte": debctl.select_objects(ALL_BYTES, kind="any")
    == [{"line": 1, "fields": {"Note": ALL_BYTES[6:].strip()}}],
    "many are selected": len(debctl.select_objects(long_index, "Version >= 1000"))
    == len(debctl.select_table(long_index, "Version >= 1000", fields=["Package"] * 9))
    == debctl.select(long_index, "Version >= 1000", form="jsonl").count(b"\n") == 1000,
    "select, refused": [
        refusal(debctl.select, HELLO + "\n" + BAD), refusal(debctl.select_table, BAD, fields=["x"]),
        refusal(debctl.select_objects, BAD), refusal(debctl.count_selected, BAD, "Package"),
    ] == [(15, 8, "BadNumber", False)] + [(15, 4, "BadNumber", False)] * 3,
    "no conditions": [
        bad_condition(BAD, "Size >= 1k"), bad_condition(BAD, "Package", "Package >= aa"),
        bad_condition(BAD, ""), bad_condition(BAD, "Package = \0\xe9\n"),
        bad_condition(HELLO, "Version >= 1", kind="any"), bad_condition(HELLO, b"Package = \xff"),
    ] == [
        (1, "ValueBad", 8), (2, "NoOrder", 8), (1, "NameExpected", 0), (1, "ValueBad", 10),
        (1, "NoOrder", 8), (1, "ValueBad", 10),
    ],
    "explain a condition": (
        debctl.explain_condition("Version >= 1"), debctl.explain_condition(b"Version ~ \xff"),
        debctl.explain_condition("Package >= \ta\\"), debctl.explain_condition(b"=\xff"),
    ) == (
        "ok\n", "ok\n", "place: 8\nreason: NoOrder\nvalue: Package >= \\ta\\\\\n"
        "rule: Only versions and numbers have an order.\n",
        "place: 0\nreason: NameExpected\nvalue: =\\xff\nrule: A field's name is expected.\n",
    ),
    "select, wrong words": [
        error(debctl.select, HELLO, form="json"), error(debctl.select, HELLO, kind="foo"),
        error(debctl.select, HELLO, fields="Package"), error(debctl.select_table, HELLO, fields=b"a"),
        error(debctl.select, HELLO, ["Package"]), error(debctl.select, HELLO, fields=[5]),
        error(debctl.select_table, HELLO), error(debctl.explain_condition, "Package", "foo"),
    ] == [ValueError, ValueError] + [TypeError] * 5 + [ValueError],
    "latest, wrong words": [
        error(debctl.latest, [HELLO], kind="binary"), error(debctl.latest, [HELLO], by="arch"),
        error(debctl.latest, HELLO), error(debctl.latest, [5]),
    ] == [ValueError, ValueError, TypeError, TypeError],
}

failed = [name for name, passed in TESTS.items() if not passed]
for name in failed:
    print(f"calls.py: {name}")
print(f"calls.py: {len(TESTS) - len(failed)} passed, {len(failed)} failed")
sys.exit(bool(failed))
