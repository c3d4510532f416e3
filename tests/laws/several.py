"""The laws of several files: queries and unmet groups over more than one index, what a change breaks, and
the latest version of each package.
"""
import re
from typing import Iterator, List, NamedTuple, Optional

from laws.documents import alternative, made, text_of
from laws.documents import VERSIONS as SPELLED
from laws.universes import BUILT_WITH, NAMES, Package, order_of, package, relations, universe

LINE = re.compile(rb"[^\n]*\n")
# The number of a package in a report, and in a line of `unmet`.
LISTED = re.compile(rb"(?m)^( (?:.*?: )?)(\d+)( .*)$")
NUMBER = re.compile(rb"^(\w+ )(\d+)")
ARCHITECTURES = (b"any", b"all", b"amd64", b"i386", b"linux-any", b"any-i386", b"kfreebsd-amd64")
BLANK = (b"\n", b"\n", b" \n", b"\n\t\n\n")


class File(NamedTuple):
    """A word of a command that is the path of a file, by its number."""

    number: int


class Entry(NamedTuple):
    """A paragraph: its package, what sorts as its version does, and its bytes."""

    key: tuple
    order: tuple
    text: bytes


class Several:
    """The laws, asked over files that are made. Each gives what is wrong, in words."""

    def __init__(self, program, random):
        self.program = program
        self.random = random

    def wrong(self, kind: str, text: bytes, refusal: bytes) -> Iterator[str]:
        """What is wrong, one law after another. The file of a kind has this refusal, or none."""
        yield from self.of_latest()
        yield from self.of_query()
        yield from self.of_further_index()
        yield from self.of_old_index()
        yield from self.of_removal()
        yield from self.of_architectures()
        if refusal and kind in ("packages", "sources", "status"):
            yield from self.of_refusals(kind, text, refusal)

    def run(self, *words, files):
        """What the program answers of files."""
        return self.program.run(words, files)

    def unmet(self, *words, files) -> List[bytes]:
        """The lines of `unmet` of files."""
        return LINE.findall(self.run("unmet", *words, files=files).out)

    def differs(self, words, files, wanted: bytes, status=1) -> Iterator[str]:
        """What is wrong with an answer, if it isn't this one. The status is that of some lines."""
        answer = self.run(*words, files=files)
        if answer != (wanted, b"", status if wanted else 0):
            yield f"{words!r} of {files!r}: {answer!r}, and not {wanted!r}"

    def of_latest(self):
        """`latest` writes the paragraphs that an independent reading finds, and of these the same. In
        another order of the files the versions are the same."""
        random = self.random
        kind, by = random.choice(("packages", "sources")), random.choice(("name", "name,arch"))
        before = random.choice((None, None, *SPELLED))
        words = ["latest", "--kind", kind, "--by", by, *([b"--before=" + before] if before else [])]
        files = [paragraphs_in(random, kind, by) for _ in range(random.choice((1, 1, 2, 3)))]
        texts = [joined(random, entries) for entries in files]
        wanted = latest_of([it for entries in files for it in entries], before)
        text = b"\n".join(it.text for it in wanted)
        yield from self.differs(words, texts, text, 0)
        yield from self.differs(words, [text], text, 0)
        order = random.sample(range(len(files)), len(files))
        again = latest_of([it for at in order for it in files[at]], before)
        if sorted(it[:2] for it in again) != sorted(it[:2] for it in wanted):
            yield f"in the order {order} of {texts!r} the latest are {again!r}, and not {wanted!r}"
        text = b"\n".join(it.text for it in again)
        yield from self.differs(words, [texts[at] for at in order], text, 0)

    def of_query(self):
        """A query over a file that is cut has the answer of that over the whole, but for ` @K`."""
        random = self.random
        packages = universe(random).packages
        cuts = sorted(random.randint(0, len(packages)) for _ in range(random.choice((1, 1, 2))))
        ends = list(zip([0, *cuts], [*cuts, len(packages)]))
        files = [text_of_packages(packages[first:last]) for first, last in ends]
        groups = (b" | ".join(alternative(random) for _ in range(random.choice((1, 1, 2)))) for _ in range(3))
        options = random.sample(("--why", "--spelled"), random.randint(0, 2))
        words = ["query", "--arch", random.choice(("amd64", "i386")), *options, b", ".join(groups)]
        whole = self.run(*words, files=[text_of_packages(packages)])
        wanted = LISTED.sub(lambda it: b"%s @%d" % (it[0], place_of(ends, int(it[2]))), whole.out)
        yield from self.differs(words, files, wanted, whole.status)

    def of_further_index(self):
        """`unmet --index` has no line that `unmet` hasn't, but for `unsure` in place of `unmet`. It answers
        as over one index with all of the packages."""
        more, index = universe(self.random), universe(self.random)
        words = [*index.words, *["--all-for", "i386"] * self.random.choice((0, 0, 1))]
        lines = self.unmet(*words, files=[index.text])
        found = self.unmet(*words, "--index", files=[more.text, index.text])
        known = {*lines, *(line.replace(b"unmet ", b"unsure ", 1) for line in lines)}
        if not known.issuperset(found):
            yield f"unmet {words} of {index.text!r} with {more.text!r}: {found!r}, and without it {lines!r}"
        wanted = self.unmet(*words, files=[more.text + b"\n" + index.text, index.text])
        both = [index.text, more.text]
        yield from self.differs(["unmet", *words, "--index"], both[::-1], b"".join(wanted))
        twice = ["unmet", *words, "--index", File(1), "--index", File(0), File(1), File(0)]
        yield from self.differs(twice, both, b"".join(wanted))

    def of_old_index(self):
        """With `--unless-in` the lines are those of the groups that the old index meets. In a file itself
        there is none."""
        old, more, index = (universe(self.random) for _ in range(3))
        words = ["--arch", "amd64", *["--recommends"] * self.random.randint(0, 1)]
        known = {rest_of(line) for line in self.unmet(*words, files=[old.text, index.text])}
        for files in ([index.text], [more.text, index.text]):
            lines = self.unmet(*words, files=files)
            wanted = b"".join(line for line in lines if rest_of(line) not in known)
            yield from self.differs(["unmet", *words, "--unless-in"], [old.text, *files], wanted)
        yield from self.differs(["unmet", *words, "--unless-in"], [index.text, index.text], b"")

    def of_removal(self):
        """With `--without` the lines are those of the indexes without these paragraphs, but for the numbers. An
        old index keeps them."""
        random, index, more = self.random, universe(self.random), universe(self.random)
        names = random.sample((*NAMES, b"zz", b"a"), random.randint(1, 3))
        kept = [at for at, it in enumerate(index.packages, 1) if it.name not in names]
        rest = text_of_packages(index.packages[at - 1] for at in kept)
        others = text_of_packages(it for it in more.packages if it.name not in names)
        words = [*index.words, "--without", b",".join(names)]
        known = {rest_of(it) for it in self.unmet(*index.words, files=[index.text])}
        for files, left in (([index.text], [rest]), ([more.text, index.text], [others, rest])):
            lines = self.unmet(*index.words, files=left)
            wanted = [NUMBER.sub(lambda it: it[1] + b"%d" % kept[int(it[2]) - 1], it) for it in lines]
            yield from self.differs(["unmet", *words], files, b"".join(wanted))
            broken = b"".join(it for it in wanted if rest_of(it) not in known)
            yield from self.differs(["unmet", *words, "--unless-in"], [index.text, *files], broken)

    def of_architectures(self):
        """Of source packages those have lines whose Architecture names the target, or may."""
        random, index = self.random, universe(self.random)
        target = random.choice((b"amd64", b"i386", b"kfreebsd-amd64"))
        names, found = [], []
        for _ in range(random.choice((1, 2, 3))):
            names.append(None if random.random() < 0.2 else random.sample(ARCHITECTURES, random.randint(0, 3)))
            one = Package(b"ss", b"1", b" ".join(names[-1] or ()), b"", [])
            one.relations = relations(random, NAMES, BUILT_WITH)
            line = b"Architecture: " + one.architecture + b"\n"
            found.append(one.paragraph().replace(line, b"" if names[-1] is None else line))
        files = [index.text, b"\n".join(found)]
        words = ["--arch", target, "--kind", "sources"]
        wanted = b""
        for line in self.unmet(*words, "--all-sources", files=files):
            word = asked(names[int(line.split(b" ")[1]) - 1], target)
            wanted += line.replace(b"unmet ", b"unsure ", 1) if word == "maybe" else line * (word == "surely")
        yield from self.differs(["unmet", *words], files, wanted)

    def of_refusals(self, kind: str, text: bytes, refusal: bytes):
        """Of several files a refusal has the place of its file, and nothing is written."""
        good = package(self.random, NAMES).paragraph(b"Status: install ok installed")
        place = self.random.randint(1, 3)
        files = [text if at == place else good for at in (1, 2, 3)]
        line = b"index %d: %s" % (place, refusal)
        installed = ["--installed"] * (kind == "status")
        calls = [] if kind == "status" else [["latest", "--kind", kind]]
        if kind != "sources":
            calls += ["query", "--arch", "amd64", *installed, "aa"],
            calls += ["unmet", "--arch", "amd64", *installed, "--index", File(0), "--index", File(1), File(2)],
        for words in calls:
            answer = self.run(*words, files=files)
            if answer != (b"", line, 2):
                yield f"{words!r} of {files!r}: {answer!r}, and not {line!r}"


def paragraphs_in(random, kind: str, by: str) -> List[Entry]:
    """The paragraphs of a file, of few packages."""
    entries = []
    for paragraph in (it for _ in range(random.choice((0, 1, 2, 3))) for it in made(random, kind)):
        fields = {it.folded: it for it in paragraph}
        name = fields[b"package"].body = random.choice((b"aa", b"aab", b"bb"))
        key = (name,)
        if kind == "packages":
            architecture = fields[b"architecture"].body = random.choice((b"all", b"amd64", b"i386"))
            key += (architecture,) * (by == "name,arch")
        entries.append(Entry(key, order_of(fields[b"version"].body), text_of([paragraph])))
    return entries


def joined(random, entries: List[Entry]) -> bytes:
    """A file with these paragraphs: with blank lines, and not always with a newline at the end."""
    text = b"".join(random.choice((b"", *BLANK)) + it.text + random.choice(BLANK) for it in entries)
    return text.rstrip(b"\n") if random.random() < 0.3 else text


def latest_of(entries: List[Entry], before: Optional[bytes]) -> List[Entry]:
    """The paragraphs with the latest versions, in their order; of equal ones the first."""
    entries = [it for it in entries if before is None or it.order < order_of(before)]
    best = {}
    for at, it in enumerate(entries):
        if it.key not in best or it.order > entries[best[it.key]].order:
            best[it.key] = at
    return [entries[at] for at in sorted(best.values())]


def text_of_packages(packages) -> bytes:
    """An index of these."""
    return b"\n".join(it.paragraph() for it in packages)


def place_of(ends, number: int) -> int:
    """The place of the file that has the package with a number."""
    return next(place for place, (_, last) in enumerate(ends, 1) if number <= last)


def rest_of(line: bytes) -> bytes:
    """A line of `unmet` without its word."""
    return line.partition(b" ")[2]


def asked(names: Optional[List[bytes]], target: bytes) -> str:
    """Whether a source package with this Architecture, if it has one, is tried for the target."""
    if names is None or {b"any", b"all", target} & {*names}:
        return "surely"
    return "maybe" if any(b"any" in it or b"-" in it for it in names) else "never"
