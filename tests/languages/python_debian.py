"""The table of docs/RECIPES.md for users of python-debian: each row returns the same on both sides.

It runs with an interpreter that has python-debian: this one, or that of the system."""

import io
import os
import re
import sys
import warnings
from pathlib import Path

SYSTEM = "/usr/bin/python3"
TABLE = re.compile(r"^\| You write \(python-debian\) .*\n\|---\|---\|\n((?:\|.*\n)+)", re.M)
CODE = re.compile(r"`([^`]+)`")
LOOP = re.compile(r"for paragraph in (.*):")

PACKAGES = """Package: hello
Version: 1:2.0-1
Architecture: amd64
Depends: libc6 (<< 2.036-0), bb:any (= 01) | cc,
 aa
Description: short
 long
 .
 more

package: world
version: 2
architecture: all
"""
SOURCES = "Package: ss\nVersion: 1\nFormat: 1.0\nBuild-Depends: aa [!amd64 !i386] <!nodoc x> <y>, bb\n"
VALUES = ["aa (>= 01) | bb:any, cc", "zz [amd64 i386] <!nodoc>, aa (<< 1.0-0)", "aa", "b2 <a !b> <c>"]
VERSIONS = ["1.10", "1.9", "1:0", "1.10~rc1-1", "2.0-0ubuntu1", "0:3"]


def plain(it):
    """A value in a form that is the same on both sides: an alternative as its parts."""
    if isinstance(it, dict) and "archqual" in it:
        sign = lambda item: ("" if item.enabled else "!") + item[-1]
        lists = [tuple(map(sign, items)) for items in it["restrictions"] or ()]
        version = tuple(it["version"] or (None, None))
        arch = tuple(map(sign, it["arch"] or ()))
        return (it["name"], it["archqual"], *version, arch, tuple(lists))
    if hasattr(it, "keys"):
        return {name: it[name] for name in it.keys()}
    if hasattr(it, "enabled"):
        return ("" if it.enabled else "!") + it[-1]
    if it == (None, None):
        return []
    if isinstance(it, (list, tuple)):
        return [plain(one) for one in it] if not hasattr(it, "qualifier") else tuple(it)
    return [] if it is None else it


def rows():
    """The rows of the table, each as the pairs of code that return the same."""
    text = (Path(__file__).parents[2] / "docs/RECIPES.md").read_text(encoding="utf-8")
    for row in TABLE.search(text)[1].splitlines():
        left, right = re.split(r"(?<!\\) \| ", row.replace("\\|", "\0")[2:-2])
        cells = [[it.replace("\0", "|") for it in CODE.findall(cell)] for cell in (left, right)]
        if right == "the same":
            cells[1] = cells[0]
        assert len(cells[0]) == len(cells[1]) > 0, row
        for codes in cells:
            codes[:] = [LOOP.sub(r"list(\1)", code) for code in codes]
        yield from zip(*cells)


def settings(debian, debctl):
    """What the names in the code stand for, on both sides."""
    for text in (PACKAGES, SOURCES):
        yield {"file": lambda: io.StringIO(text)}, {}
    for theirs, ours in zip(debian["Packages"].iter_paragraphs(io.StringIO(PACKAGES), use_apt_pkg=False),
                            debctl.paragraphs(PACKAGES)):
        yield {"paragraph": lambda: theirs}, {"paragraph": lambda: ours}
    for value in VALUES:
        theirs = debian["PkgRelation"].parse_relations(value)
        ours = debctl.relations(value, spelled=True)
        yield {"value": lambda: value}, {}
        yield {"groups": lambda: theirs}, {"groups": lambda: ours}
        for one, other in zip(sum(theirs, []), sum(ours, [])):
            yield {"one": lambda: one}, {"one": lambda: other}
    for left in VERSIONS:
        for right in VERSIONS:
            yield {"a": lambda: left, "b": lambda: right, "versions": lambda: VERSIONS}, {}


def answers(codes, names, more):
    """What a piece of code returns; None if a name in it isn't among these."""
    used = set(compile(codes, "row", "eval").co_names)
    if not used & set(names):
        return None
    try:
        return [plain(eval(codes, {**more, **{name: names[name]() for name in names}}))]
    except KeyError:
        return ["no such field"]
    except Exception as error:
        return [repr(error)]


def main():
    """Compares each row, and gives the exit status."""
    import debctl
    from debian.deb822 import Deb822, Packages, PkgRelation, Sources
    from debian.debian_support import Version, version_compare
    debian = {
        "Deb822": Deb822, "Packages": Packages, "Sources": Sources, "PkgRelation": PkgRelation,
        "Version": Version, "version_compare": version_compare,
    }
    warnings.simplefilter("ignore")
    passed = failed = 0
    for left, right in rows():
        compared = 0
        for theirs, ours in settings(debian, debctl):
            if "Sources" in left and "Format" not in theirs.get("file", io.StringIO)().read():
                continue
            if "Packages" in left and "hello" not in theirs.get("file", io.StringIO)().read():
                continue
            wanted = answers(left, theirs, debian)
            found = answers(right, {**theirs, **ours}, {"debctl": debctl})
            if wanted is None:
                continue
            compared += 1
            if wanted != found:
                print(f"python_debian.py: {left}: {wanted}, {right}: {found}")
                failed += 1
        if not compared:
            print(f"python_debian.py: {left} wasn't compared")
        passed, failed = passed + compared, failed + (not compared)
    print(f"python_debian.py: {passed} passed, {failed} failed")
    return bool(failed)


try:
    import debian.deb822
except ImportError:
    if sys.executable == SYSTEM or not os.path.exists(SYSTEM):
        print("left out: the table for users of python-debian, since there is no python-debian")
        print("python_debian.py: 0 passed, 0 failed")
        sys.exit()
    os.execv(SYSTEM, [SYSTEM, *sys.argv])
sys.exit(main())
