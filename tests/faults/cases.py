"""The cases of the fault runs: what a command reads, and what it answers when nothing fails.

A file of `cases/` has lines of these forms, beside empty lines and comments behind `#`:

    file NAME         a file in the folder that the commands of this file are run in
    $ debctl WORDS    a case: a command; `< NAME` at its end gives it standard input
    out, err          what it writes on standard output and on standard error, if anything
    out begins, ..    what that begins with; all of it is then what the first run writes
    status N          its exit status, as the last line of the case
    | TEXT            a line of the file, or of what is written, named last

In TEXT `\\t` is a tab, `\\xNN` a byte, `\\\\` a backslash, and `\\c` at the end leaves the newline
away. Cases of long texts are made by the functions below.
"""
import re
import shlex
from dataclasses import dataclass, field, replace
from pathlib import Path
from typing import Dict, List, Optional

# Before all other files the program opens the root directory so often, for streams that are closed.
STAND_INS = 3
ESCAPE = re.compile(rb"\\(?:(t)|x([0-9a-f]{2})|(\\))")


class Malformed(Exception):
    """A file of cases that can't be read; the text names its file and line."""


@dataclass(frozen=True)
class Case:
    """A command and its answer."""

    place: str
    words: List[str]
    files: Dict[str, bytes]
    stdin: Optional[str] = None
    out: bytes = b""
    err: bytes = b""
    status: int = 0
    open_ended: tuple = ()
    records: Dict[str, Dict[str, int]] = field(default_factory=dict)

    @property
    def command(self):
        """The command as a line."""
        given = f" < {self.stdin}" if self.stdin else ""
        return shlex.join(["debctl", *self.words]) + given

    @property
    def paths(self):
        """The files that the command opens."""
        return [word for word in self.words[1:] if word in self.files]

    @property
    def inputs(self):
        """The bytes of the files that the command is given."""
        names = [*self.paths, *([self.stdin] if self.stdin else [])]
        return [self.files[name] for name in names]

    @property
    def is_job(self):
        """Whether the words ask for a job, which reads conditions itself. Only then the answer goes
        through a buffered writer, which asks again if a write was interrupted."""
        is_refused = self.err.startswith((b"usage: ", b"error: ")) and not self.err.startswith(b"usage: --where ")
        return self.words[0] != "help" and not is_refused

    @property
    def opens_all(self):
        """Whether the words ask for a job, and its files can be opened or standard output tells of
        one that can't."""
        return self.is_job and (bool(self.out) or not self.err.startswith(b"fault: "))

    @property
    def opens_before_files(self):
        """How many files an audit opens before those that it audits: the list of their paths, and
        what takes the place of closed streams."""
        return STAND_INS + int("--files0-from" in self.words and self.words[-1] != "-")

    def completed(self, answer):
        """The case with the whole texts that its first run wrote, where only their beginnings are
        known."""
        texts = {name: getattr(answer, name) for name in self.open_ended}
        return replace(self, open_ended=(), **texts)

    def with_records(self, records):
        """The case with the records of its first runs, by how slow their devices were."""
        return replace(self, records=records)

    def growths(self, pace):
        """How many growths it has where devices are so slow."""
        return self.records.get(pace, {}).get("growths", 0)


@dataclass
class Reading:
    """How far a file of cases has been read."""

    path: Path
    files: Dict[str, bytes] = field(default_factory=dict)
    cases: List[Case] = field(default_factory=list)
    texts: Dict[str, bytes] = field(default_factory=dict)
    begun: Optional[Case] = None
    named: Optional[str] = None
    number: int = 0

    def refuse(self, why):
        """Stops at this line."""
        raise Malformed(f"{self.path}:{self.number}: {why}")

    def read(self):
        """Reads the whole file, and gives its cases."""
        for self.number, line in enumerate(self.path.read_bytes().split(b"\n"), 1):
            try:
                if line and not line.startswith(b"#"):
                    self.read_line(line)
            except ValueError as error:
                self.refuse(error)
        if self.begun:
            self.refuse("the last case has no status")
        if not self.cases:
            self.refuse("there is no case")
        return self.cases

    def read_line(self, line):
        """Reads one line, by its first word."""
        word, _, rest = line.partition(b" ")
        if word == b"|":
            self.add_text(rest)
        elif word == b"file" and rest and not self.begun:
            self.named = rest.decode()
            self.files[self.named] = b""
        elif word == b"$" and not self.begun:
            self.begin_case(rest.decode())
        elif word in (b"out", b"err") and self.begun and rest in (b"", b"begins"):
            self.name_output(word.decode(), rest == b"begins")
        elif word == b"status" and self.begun and rest.isdigit():
            self.end_case(int(rest))
        else:
            self.refuse("this line has no meaning here")

    def add_text(self, text):
        """Adds a line to the file or to the text that was named last."""
        if self.named is None:
            self.refuse("this text belongs to nothing")
        is_whole = not text.endswith(b"\\c")
        text = ESCAPE.sub(byte_of, text if is_whole else text[:-2])
        held = self.texts if self.begun else self.files
        held[self.named] += text + b"\n" * is_whole

    def begin_case(self, line):
        """Begins a case with its command."""
        words = shlex.split(line)
        stdin = None
        if words[-2:-1] == ["<"]:
            words, stdin = words[:-2], words[-1]
        if words[:1] != ["debctl"] or (stdin and stdin not in self.files):
            self.refuse("this is no command of debctl, or its input is no file")
        place = f"{self.path.name}:{self.number}"
        self.begun = Case(place, words[1:], self.files, stdin)
        self.named = None
        self.texts = {}

    def name_output(self, name, is_open):
        """Begins the text that the command writes."""
        if name in self.texts:
            self.refuse(f"{name} stood before")
        self.texts[name] = b""
        self.named = name
        if is_open:
            self.begun = replace(self.begun, open_ended=(*self.begun.open_ended, name))

    def end_case(self, status):
        """Ends a case."""
        self.cases.append(replace(self.begun, status=status, **self.texts))
        self.begun = self.named = None


def byte_of(escape):
    """The byte that an escape in a text stands for."""
    tab, number, backslash = escape.groups()
    return b"\t" if tab else backslash or bytes([int(number, 16)])


def read_cases(folder):
    """The cases of the files in a folder, and the long ones."""
    cases = []
    for path in sorted(folder.glob("*.case")):
        cases += Reading(path).read()
    if not cases:
        raise Malformed(f"{folder}: there is no file of cases")
    long = [*many_fields(), *long_paragraph(), *long_group(), *many_groups(), *many_versions()]
    long += many_choices()
    several = [*several_writes(), *several_refusals(), *many_paragraphs(), *many_latest()]
    return [*cases, *long, *several, *lengths()]


P3 = b"Package: aa\nVersion: 1\nArchitecture: all\n"


def many_fields():
    """More fields than are compared one with another, and a name that stood before as the last."""
    more = b"".join(b"F%02d: x\n" % number for number in range(4, 41))
    again = P3 + more.replace(b"F40", b"f04")
    canonical = b"Architecture: all\n" + more + b"Package: aa\nVersion: 1\n"
    files = {"forty": P3 + more, "again": again}
    refusal = b"line 40: 7 DuplicateField\n"
    return [
        Case("40 fields", ["check"], files, "forty", b"ok 1\n"),
        Case("40 fields", ["normalise", "forty"], files, None, canonical),
        Case("39 fields and one again", ["check", "again"], files, None, b"", refusal, 2),
        Case("39 fields and one again", ["normalise"], files, "again", b"", refusal, 2),
    ]


def long_paragraph():
    """A paragraph longer than the pieces of 65,536 bytes in which a file is read, and another."""
    long = b"X: " + b"x" * 70000 + b"\n"
    canonical = b"Architecture: all\nPackage: aa\nVersion: 1\n"
    files = {"long": P3 + long + b"\n" + P3}
    written = canonical + long + b"\n" + canonical
    return [
        Case("70,000 bytes", ["check"], files, "long", b"ok 2\n"),
        Case("70,000 bytes", ["normalise", "long"], files, None, written),
    ]


def long_group():
    """A group so long that a line of JSON has its alternatives in two chunks."""
    name = b"x" * 70000
    files = {"long": P3 + b"Depends: " + name + b" | bb\n"}
    group = b'[{"name":"%s"},{"name":"bb"}]' % name
    written = b'{"line":1,"fields":{"Architecture":"all","Depends":[%s],"Package":"aa"' % group
    written += b',"Version":{"canonical":"1","spelled":"1"}}}\n'
    return [Case("70,000 bytes", ["select", "--format", "jsonl", "long"], files, None, written)]


def several_writes():
    """Outputs that fill the buffer of 8 KiB before standard output more than once."""
    long = b"X: " + b"x" * 1000 + b"\n"
    canonical = b"Architecture: all\nPackage: aa\nVersion: 1\n" + long
    versions = [b"%d\n" % number for number in range(1001, 5001)]
    name = "long" * 62
    files = {
        "twenty": b"\n".join([P3 + long] * 20),
        "versions": b"".join(reversed(versions)),
        name: P3,
    }
    audited = name.encode() + b": ok 1\n"
    return [
        Case("20,000 bytes", ["normalise", "twenty"], files, None, b"\n".join([canonical] * 20)),
        Case("20,000 bytes", ["sort", "versions"], files, None, b"".join(versions)),
        Case("20,000 bytes", ["audit", *[name] * 66], files, None, audited * 66),
    ]


def several_refusals():
    """Lines and explanations of refusals that fill this buffer more than once, and records of them."""
    name = "comments" * 31
    lines = [b"line %d: 3 Comment\n" % number for number in range(1, 1000, 2)]
    last = [b"ok 0, %d refused\n" % count for count in (500, 40)]
    files = {"it": b"# x\n\n" * 500, name: b"# x\n\n" * 40}
    audited = b"".join(name.encode() + b": " + line for line in [*lines[:40], last[1]])
    explained = b"file: -\nline: 1\ncode: 3\nname: Comment\nvalue: # x\nrule: "
    explain = ["explain", "--all"]
    return [
        Case("500 refusals", ["check", "--all"], files, "it", b"".join(lines) + last[0], b"", 2),
        Case("40 refusals", explain, files, name, explained, b"", 2, open_ended=("out",)),
        Case("40 refusals", ["audit", "--all", name], files, None, audited, b"", 2),
    ]


def many_paragraphs():
    """Files of 400 paragraphs, for each command that reads paragraphs. The last one has what the
    commands that take memory for each paragraph find, so that their growths are few."""
    numbers = range(1, 401)
    text = b"Architecture: all\nPackage: p%03d\nProvides: vv\nVersion: 1\n"
    last = b"Architecture: all\nDepends: zz\nPackage: p400\nProvides: vv\nVersion: %d\n"
    front = b"".join(text % at + b"\n" for at in numbers[:-1])
    old, new = front + last % 1, front + last % 2
    bad = b"\n".join(text % at + b"Size: x\n" for at in numbers)
    status = old.replace(b"Version", b"Status: install ok installed\nVersion")
    chain = b"\n".join(text % at + b"Depends: p%03d\n" % (at % 400 + 1) for at in numbers)
    files = {"old": old, "new": new, "bad": bad, "status": status, "chain": chain}
    files["versions"] = b"2\n" * 400
    refused = [b"line %d: 15 BadNumber\n" % (6 * at - 1) for at in numbers] + [b"ok 0, 400 refused\n"]
    met = b"".join(b" %d p%03d 1 all\n" % (at, at) for at in numbers)
    why = b"".join(
        b" vv (>= 1): %d p%03d 1 all is provided without a version\n" % (at, at) for at in numbers
    )
    needs = b" 400 p400 2 all needs zz: none\n"
    explained = b"file: -\nline: 5\ncode: 15\nname: BadNumber\nfield: Size\nvalue: x\nrule: "
    arch = ["--arch", "amd64"]
    installed = [*arch, "--installed"]
    audited = b"old: ok 400\nnew: ok 400\n"
    cases = [
        (["check", "old"], b"ok 400\n", 0), (["explain", "old"], b"ok 400\n", 0),
        (["check", "--complete", "old"], b"ok 400\n", 0),
        (["audit", "--complete", "old", "new"], audited, 0),
        (["normalise", "old"], old, 0), (["same", "old", "new"], b"different\n", 1),
        (["select", "--where", "Depends names zz", "old"], last % 1, 0),
        (["diff", "old", "new"], b"upgraded 400 p400 1 2 all Version\n", 1),
        (["query", *arch, "vv", "old"], b"met vv\n" + met, 0),
        (["query", *arch, "--why", "vv (>= 1)", "old"], b"unmet vv (>= 1)\n" + why, 1),
        (["unmet", *arch, "old", "new"], b"unmet 400 p400 2 all Depends zz\n", 1),
        (["healthy", *arch, "new"], b"unmet 400 p400 2 all Depends zz\n", 1),
        (["healthy", *installed, "status"], b"unmet 400 p400 1 all Depends zz\n", 1),
        (["installable", *arch, "new"], b"uninstallable 400 p400 2 all\n", 1),
        (["installable", *arch, "--why", "new"], b"uninstallable 400 p400 2 all\n" + needs, 1),
        (["installable", *arch, "--witness", "p007", "chain"], met, 0),
        (["unmet", *installed, "status"], b"unmet 400 p400 1 all Depends zz\n", 1),
        (["unmet", *arch, "--without", "p007,p008", "--unless-in", "chain", "old"], b"", 0),
        (["unmet", *arch, "--index", "old", "new"], b"unmet 400 p400 2 all Depends zz\n", 1),
        (["query", *arch, "p007", "old", "new"], b"met p007\n 7 p007 1 all @1\n 407 p007 1 all @2\n", 0),
        (["query", *installed, "vv", "status"], b"met vv\n" + met, 0),
        (["sort", "versions"], files["versions"], 0), (["audit", "old", "new"], audited, 0),
        (["check", "--all", "bad"], b"".join(refused), 2),
        (["audit", "--all", "bad"], b"".join(b"bad: " + line for line in refused), 2),
    ]
    explain = ["explain", "--all"]
    return [
        Case("400 paragraphs", explain, files, "bad", explained, b"", 2, open_ended=("out",)),
        *(Case("400 paragraphs", words, files, None, out, b"", status) for words, out, status in cases),
    ]


def many_latest():
    """Two files of 70 packages, each in two versions, so that what is kept of them grows often."""
    text = b"Package: p%03d\nVersion: %d\nArchitecture: all\n"
    numbers = range(70)
    files = {
        "old": b"\n".join(text % (at, 2 - at % 2) for at in numbers),
        "new": b"\n".join(text % (at, 1 + at % 2) for at in reversed(numbers)),
    }
    latest = [text % (at, 2) for at in numbers if not at % 2]
    latest += [text % (at, 2) for at in reversed(numbers) if at % 2]
    return [Case("70 packages", ["latest", "old", "new"], files, None, b"\n".join(latest))]


def many_groups():
    """Relations of 200 groups, in an order that isn't the canonical one."""
    names = [b"p%03d" % number for number in range(1, 201)]
    backwards = b", ".join(reversed(names))
    halves = b", ".join([*names[100:], *names[:100]])  # not one run, which is sorted without memory
    files = {"groups": P3 + b"Depends: " + backwards + b"\n"}
    written = b"Architecture: all\nDepends: " + b", ".join(names) + b"\nPackage: aa\nVersion: 1\n"
    report = b"".join(b"unmet " + name + b"\n" for name in names)
    query = ["query", "--arch", "amd64", backwards.decode(), "groups"]
    return [
        Case("200 groups", ["normalise"], files, "groups", written),
        Case("200 groups", query, files, None, report, b"", 1),
        Case("200 groups", ["explain", "--relation", halves.decode()], {}, None, b"ok\n"),
    ]


def many_versions():
    """A name that 18 packages have, one that they provide, and one that a package provides 18 times. The
    last package of the second file needs a package that provides the name in a version that it excludes."""
    numbers = range(1, 19)
    package = b"Package: aa\nVersion: %d\nArchitecture: all\nProvides: vv (= %d)\n\n"
    often = b", ".join(b"ww (= %d)" % at for at in numbers)
    last = b"Package: bb\nVersion: 1\nArchitecture: all\nProvides: " + often + b"\n"
    listed = b"".join(package % (at, at) for at in numbers) + last
    excluding = b"\nPackage: cc\nVersion: 1\nArchitecture: all\nDepends: aa (>= 18)\nConflicts: vv (>= 18)\n"
    files = {"versions": listed, "excluded": listed + excluding}
    report = b"met aa (= 3)\n 3 aa 3 all\nmet vv (>= 18)\n 18 aa 18 all\nunmet ww (<< 1)\n"
    query = ["query", "--arch", "amd64", "ww (<< 1), vv (>= 18), aa (= 3)", "versions"]
    installable = ["installable", "--arch", "amd64", "excluded"]
    return [
        Case("18 versions", query, files, None, report, b"", 1),
        Case("18 versions", installable, files, None, b"uninstallable 20 cc 1 all\n", b"", 1),
    ]


def many_choices():
    """Five packages that each need one of four places, which takes many choices back: they can't be
    installed together."""
    package = b"Package: %s\nVersion: 1\nArchitecture: all\n%s\n"
    together = b"Depends: " + b", ".join(b"p%d" % at for at in range(1, 6)) + b"\n"
    text = package % (b"pp", together)
    for at in range(1, 6):
        places = b" | ".join(b"p%d-%d" % (at, place) for place in range(1, 5))
        text += package % (b"p%d" % at, b"Depends: " + places + b"\n")
        for place in range(1, 5):
            taken = b"Provides: place-%d\nConflicts: place-%d\n" % (place, place)
            text += package % (b"p%d-%d" % (at, place), taken)
    words = ["installable", "--arch", "amd64", "choices"]
    return [Case("5 packages", words, {"choices": text}, None, b"uninstallable 1 pp 1 all\n", b"", 1)]


# Lengths of a name at which a text that is made of a paragraph or a relation outgrows its room, each
# at another part of it, since the room doubles; in canonical spelling, and in another one.
LENGTHS = (
    ("normalise", True, (16, 25, 26, 34, 47, 51, 53)), ("normalise", False, (15,)),
    ("query", True, (2, 4, 12, 15, 32, 38)), ("query", False, (6,)),
)


def lengths():
    """Paragraphs and relations with all parts, and names of these lengths."""
    return [
        normalised(b"a" * length, is_canonical) if command == "normalise"
        else queried(b"a" * length, is_canonical)
        for command, is_canonical, lengths in LENGTHS
        for length in lengths
    ]


def spelled(name, is_canonical):
    """A relation that names a package of this name."""
    if is_canonical:
        return (
            name + b":any (>= 1:2.3-4) [amd64 i386] <!aa bb> <cc> | " + name
            + b" (= 1a) [!arm64 !armel], zz <dd>"
        )
    return (
        b"zz<dd>," + name + b":any(>=01:2.3-4)[ i386 amd64 ]<bb !aa><cc>|" + name
        + b"(=01a) [!armel !arm64]"
    )


def queried(name, is_canonical):
    """A query for it, which nothing meets."""
    words = ["query", "--arch", "amd64", spelled(name, is_canonical).decode()]
    group = spelled(name, True).partition(b",")[0]
    report = b"unmet " + group + b"\nignored zz <dd>\n"
    return Case(f"a name of {len(name)} bytes", words, {"it": P3}, "it", report, b"", 1)


def normalised(name, is_canonical):
    """A paragraph with it, as it is spelled."""
    fields = (
        b"Architecture: all\nDepends: %s\nInstalled-Size: 7\nPackage: %s\nProvides: %s (= 2)\n"
        b"Source: %s (2.3)\nUploaders: a b c d, e\nVersion: 1:2.3~rc1-4\n"
    )
    wanted = text = fields % (spelled(name, True), name, name, name)
    if not is_canonical:
        text = fields % (spelled(name, False), name, name, name)
        for part, other in (
            (b"Size: 7", b"Size: 007"), (b" (= 2)", b"(=02)"), (b" (2.3)", b"(02.3)"),
            (b"a b c d, e", b" a  b\n c   d,  e"), (b"rc1-4", b"rc01-04"),
        ):
            text = text.replace(part, other)
    return Case(f"a name of {len(name)} bytes", ["normalise"], {"it": text}, "it", wanted)
