"""The Python module: the first room for what a call writes is enough: no work is done twice."""

import sys
from pathlib import Path

import debctl
import debctl._library as library

COUNT = 3000
calls = {}


def counted(name):
    """A function of the library that counts its calls."""
    function = getattr(library.lib, name)

    def call(*words):
        calls[name] = calls.get(name, 0) + 1
        return function(*words)

    return call


def index(version):
    """An index of many packages, close to the length of its canonical text."""
    return "\n".join(
        f"Package: p{at}\nVersion: {version}.{at}\nArchitecture: all\nDepends:p{at}(>=1),pp|qq\n"
        for at in range(COUNT)
    )


def of_pieces(text):
    """How many calls read a text: for each piece, and at its end, the reader is fed and writes."""
    return 2 + 2 * (len(text) // 65536 + 2)


INDEX, NEXT = index("1"), index("2")
STATUS = INDEX.replace("Version:", "Status: install ok installed\nVersion:")
SHORT = "a:\n\n" * COUNT
WRONG = index("1_")
NEEDS = ",".join(f"a{at}|b{at}(<1)" for at in range(COUNT))
SOURCES = f"Package: ss\nVersion: 1\nBuild-Depends:{NEEDS}\n"
UNBUILT = "".join(f"Package: s{at}\nVersion: 1\n\n" for at in range(COUNT))
CHAIN = "\n".join(
    f"Package: p{at}\nVersion: 1\nArchitecture: all\nDepends: p{at + 1}\n" for at in range(COUNT)
) + f"\nPackage: p{COUNT}\nVersion: 1\nArchitecture: all\n"
VERSIONS = "\n".join(
    f"Package: aa\nVersion: {at}\nArchitecture: all\nDepends: zz\n" for at in range(COUNT)
)
NAMES = ", ".join(f"p{at}" for at in range(200))
REAL = 50 * ((Path(__file__).parents[2] / "examples/Packages").read_text() + "\n")
LONG = "a: " + "x" * 1000000 + "\n"
LOADED = debctl.Index(INDEX)
PARAGRAPH = next(debctl.paragraphs(INDEX, "packages"))

# Each call, and how often it calls the library: a call that reads rows or parts calls it once more.
TESTS = {
    "normalise": (lambda: debctl.normalise(INDEX), 1),
    "normalise, short fields": (lambda: debctl.normalise(SHORT, "any"), 1),
    "normalise, a long relation": (lambda: debctl.normalise(SOURCES, "sources"), 1),
    "diff": (lambda: debctl.diff(INDEX, NEXT), 2),
    "diff, values": (lambda: debctl.diff(INDEX, NEXT, values=True), 2),
    "diff, all is new": (lambda: debctl.diff("", INDEX, values=True), 2),
    "check": (lambda: debctl.check(INDEX), 1),
    "check_all": (lambda: debctl.check_all(WRONG), 2),
    "check_all, nothing is refused": (lambda: debctl.check_all(INDEX), 2),
    "explain": (lambda: debctl.explain(WRONG), 2),
    "explain_all": (lambda: debctl.explain_all(WRONG), 2),
    "explain_relation": (lambda: debctl.explain_relation("aa ("), 1),
    "explain_version": (lambda: debctl.explain_version("1_" * 4000), 1),
    "select": (lambda: debctl.select(INDEX), 1),
    "select, fields": (lambda: debctl.select(INDEX, fields=["Package", "Depends"]), 1),
    "select_table": (lambda: debctl.select_table(INDEX, fields=["Package", "Depends"]), 1),
    "select_objects": (lambda: debctl.select_objects(INDEX), 1),
    "select_objects, short fields": (lambda: debctl.select_objects(SHORT, kind="any"), 1),
    "select_objects, of a real file": (lambda: debctl.select_objects(REAL), 1),
    "count_selected": (lambda: debctl.count_selected(INDEX), 1),
    "query": (lambda: debctl.query("p1, p2 | p3", INDEX, "amd64").groups, 2),
    "query, why": (lambda: debctl.query("p1 (>= 3), qq", INDEX, "amd64", why=True).groups, 2),
    "unmet": (lambda: debctl.unmet(INDEX, INDEX, "amd64").groups, 2),
    "healthy": (lambda: debctl.healthy(INDEX, "amd64").reasons, 2),
    "healthy, of a status file": (lambda: debctl.healthy(STATUS, "amd64", kind="status").reasons, 2),
    "installable": (lambda: debctl.installable(INDEX, "amd64").packages, 2),
    "installable, of a status file": (
        lambda: debctl.installable(STATUS, "amd64", kind="status", recommends=True).packages, 2,
    ),
    "installable, why": (lambda: debctl.installable(VERSIONS, "amd64", why=True).text, 1),
    "witness": (lambda: debctl.witness("p0", CHAIN, "amd64").packages[COUNT], 2),
    "witness, none is found": (
        lambda: debctl.witness("aa", VERSIONS, "amd64").not_installable[COUNT - 1], 2,
    ),
    "buildable": (lambda: debctl.buildable(INDEX, UNBUILT, "amd64").packages, 2),
    "buildable, why": (lambda: debctl.buildable(INDEX, UNBUILT, "amd64", why=True).text, 1),
    "Index": (lambda: debctl.Index(INDEX), 2),  # and frees it
    "Index.query": (lambda: LOADED.query(NAMES, "amd64").groups, 2),
    "Index.unmet": (lambda: LOADED.unmet(INDEX, "amd64").groups, 2),
    "Index.packages": (lambda: LOADED.packages("p1"), 1),
    "Index.package": (lambda: LOADED.package(1), 1),
    "key": (lambda: debctl.key("1:2.0~rc1-3"), 1),
    "canonical": (lambda: debctl.canonical("0:01.0"), 1),
    "relations": (lambda: debctl.relations(",".join(["aa|bb,cc(<1)[dd]<ee>"] * 99)), 2),
    "paragraphs": (lambda: list(debctl.paragraphs(REAL)), of_pieces(REAL)),
    "paragraphs, a long one": (lambda: list(debctl.paragraphs(LONG)), of_pieces(LONG)),
    "Paragraph.canonical": (lambda: PARAGRAPH.canonical("Depends"), 1 + 2 + 4),
}

for name, *_ in library._FUNCTIONS:
    setattr(library.lib, name, counted(name))
library.IndexMemory.free = staticmethod(library.lib.deb_index_free)
library.ReaderMemory.free = staticmethod(library.lib.deb_reader_free)

failed = 0
for name, (call, wanted) in TESTS.items():
    calls.clear()
    call()
    if sum(calls.values()) != wanted:
        print(f"rooms.py: {name}: {calls}, {wanted} wanted")
        failed += 1
print(f"rooms.py: {len(TESTS) - failed} passed, {failed} failed")
sys.exit(bool(failed))
