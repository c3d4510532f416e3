"""The laws that the fuzzer asks of the program, over one case."""
import os
import random as chance
import re
import signal
from dataclasses import dataclass, replace
from typing import Iterator, NamedTuple

from laws.changes import changed, lines_with
from laws.documents import OPERATORS, REQUIRED, SINGLE, SPACES, VERSIONS
from laws.documents import alternative, made, mistaken, read, text_of
from laws.explained import HEAD, Explained, cut
from laws.reasons import FIELDS, Fault, fault_of, nearly
from laws.refusals import REFUSAL, AllRefusals
from laws.selected import Selected
from laws.several import File, Several
from laws.spelling import planted, respelled, spoiled
from laws.universes import NAMES, package, sources, universe

SECONDS = 10
REASON_LINE = re.compile(rb"^(name|place|reason): (.*)$", re.M)
GROUP_LINE = re.compile(rb"^(?:met|unmet|ignored) (.+)$", re.M)
LINE = re.compile(rb"[^\n]*\n")
NUMBER = re.compile(rb"(?m)^(\w+ )(\d+)")
MEMBER = re.compile(rb" (\d+) [^\n]*\n")
STATUS = re.compile(rb"^status:(.*(?:\n[ \t].*)*)", re.M | re.I)
KINDS = tuple(REQUIRED)
# What a package is that isn't installable in every reading, and what any is.
MAYBE = {b"uninstallable", b"unsure"}
ANY = {b"", *MAYBE}
# What it may be if more is asked of a set.
LATER = {b"uninstallable": {b"uninstallable"}, b"unsure": MAYBE}


class Answer(NamedTuple):
    """What a run wrote, and its status: None where it had to be ended."""

    out: bytes
    err: bytes
    status: int


@dataclass
class Case:
    """A case: a kind of document, a file, another one like it, and how many bytes a read gives."""

    kind: str
    text: bytes
    other: bytes
    is_good: bool
    piece: int
    random: chance.Random


def case_of(seed, number: int, files) -> Case:
    """The case of a number. Some are good documents; the others have mistakes, or are one of the
    files with some."""
    random = chance.Random(f"{seed} {number}")
    kind = random.choice(KINDS)
    text = text_of(made(random, kind))
    is_good = random.random() < 0.5
    if not is_good:
        if random.random() < 0.4:
            text = random.choice(files)
        text = mistaken(random, text)
    other = mistaken(random, text) if random.random() < 0.7 else text_of(made(random, kind))
    return Case(kind, text, other, is_good, random.choice((1, 1, 2, 3, 7, 16)), random)


class Program:
    """The program, run over files in a folder, and the library that cuts its reads into pieces."""

    def __init__(self, path, library, folder):
        self.path = path
        self.library = library
        self.folder = folder
        signal.signal(signal.SIGALRM, self.end)

    def end(self, *_):
        """Ends the run that has taken too long."""
        os.kill(self.running, signal.SIGKILL)

    def run(self, words, files, piece=0) -> Answer:
        """Runs it over files, which are named 0, 1, ..: their paths come last, or where the words name
        them. With a piece no read gives more bytes."""
        for name, text in enumerate(files):
            with open(f"{self.folder}/{name}", "wb") as it:
                it.write(text)
        out, err = f"{self.folder}/out", f"{self.folder}/err"
        write = os.O_WRONLY | os.O_CREAT | os.O_TRUNC
        actions = [
            (os.POSIX_SPAWN_OPEN, 0, "/dev/null", os.O_RDONLY, 0),
            (os.POSIX_SPAWN_OPEN, 1, out, write, 0o600),
            (os.POSIX_SPAWN_OPEN, 2, err, write, 0o600),
        ]
        asked = {}
        if piece:
            slow = {"FAULTS_CALLS": "read", "FAULTS_SLOW": "read", "FAULTS_BYTES": str(piece)}
            asked = {"LD_PRELOAD": self.library, **slow}
        paths = [f"{self.folder}/{name}" for name in range(len(files))]
        named = [paths[it.number] if isinstance(it, File) else it for it in words]
        words = [self.path, *named, *(paths if named == [*words] else ())]
        self.running = os.posix_spawn(self.path, words, asked, file_actions=actions)
        signal.alarm(SECONDS)
        _, status = os.waitpid(self.running, 0)
        signal.alarm(0)
        with open(out, "rb") as it, open(err, "rb") as it_too:
            return Answer(it.read(), it_too.read(), os.waitstatus_to_exitcode(status))


class Asked:
    """The laws, asked over one case. Each gives what is wrong, in words."""

    def __init__(self, program: Program, case: Case):
        self.program = program
        self.case = case
        self.met = set()

    def normalise(self, text, piece=0) -> Answer:
        """What `normalise` answers of a file."""
        return self.program.run(["normalise", "--kind", self.case.kind], [text], piece)

    def wrong(self) -> Iterator[str]:
        """What is wrong, one law after another."""
        case = self.case
        normal = self.normalise(case.text)
        yield from self.of_check(normal)
        yield from self.of_normal_text(normal)
        yield from self.of_pieces(normal)
        if normal.status == 0:
            yield from self.of_copies(normal)
        elif case.is_good:
            yield f"a good document is refused: {normal.err!r}"
        other = self.normalise(case.other)
        yield from self.of_pairs(normal, other)
        if case.kind != "any":
            yield from self.of_differences(normal, other)
        if normal.status == 0 and case.kind != "any":
            yield from self.of_changes(normal)
        if normal.status == 0 and case.kind == "packages":
            yield from self.of_query(normal)
        if case.kind == "packages":
            yield from self.of_installable(normal)
        yield from self.of_bound()
        yield from self.of_reason()
        yield from self.of_universe()
        yield from AllRefusals(self.program, case.kind, case.text).wrong(case.random)
        yield from self.of_planted_faults()
        if case.kind == "status":
            yield from self.of_installed(normal)
        if case.kind in ("source", "sources"):
            yield from self.of_source_file(normal)
        yield from self.of_sources()
        yield from Selected(self.program, case.random, case.kind, case.text).wrong(normal)
        refusal = normal.err if normal.status == 2 else b""
        yield from Several(self.program, case.random).wrong(case.kind, case.text, refusal)

    def of_check(self, normal):
        """`check` and `normalise` agree, and the number of paragraphs is that of the text."""
        checked = self.program.run(["check", "--kind", self.case.kind], [self.case.text])
        if normal.status not in (0, 2) or checked.status != normal.status:
            yield f"check ends with {checked.status}, normalise with {normal.status}"
        if checked.err != normal.err:
            yield f"check tells {checked.err!r}, normalise {normal.err!r}"
        if normal.status == 2 and not REFUSAL.fullmatch(normal.err):
            yield f"this is no refusal: {normal.err!r}"
        number = b"ok %d\n" % len(paragraphs_of(normal.out)) if normal.status == 0 else b""
        if checked.out != number:
            yield f"check prints {checked.out!r}, and not {number!r}"

    def of_normal_text(self, normal):
        """Normalised text is accepted and normal, also that before a refusal."""
        if normal.status == 2 and not normal.out:
            return
        again = self.normalise(normal.out)
        if again != Answer(normal.out, b"", 0):
            yield f"normalised text isn't normal: {shown(normal)}; again {shown(again)}"

    def of_pieces(self, normal):
        """In pieces of any size the answer is the same."""
        pieces = self.normalise(self.case.text, self.case.piece)
        if pieces != normal:
            yield f"in pieces of {self.case.piece} bytes: {shown(pieces)}"

    def of_copies(self, normal):
        """A copy in another spelling has the same normal text; one with a fault is refused for it,
        behind the paragraphs before it."""
        case = self.case
        document = read(case.text)
        copy = respelled(case.random, case.kind, document)
        answer = self.normalise(copy)
        if answer != normal:
            yield f"respelled as {copy!r}: {shown(answer)}"
        if document:
            copy, number, refusal = spoiled(case.random, case.kind, document)
            front = file_of(paragraphs_of(normal.out)[:number])
            answer = self.normalise(copy)
            if answer != Answer(front, refusal, 2):
                yield f"spoiled as {copy!r}, which is {refusal!r}: {shown(answer)}"

    def of_pairs(self, normal, other):
        """`same` goes by the normal texts, and by the refusals of the first file and then of the
        second one, whichever goes first."""
        case = self.case
        pairs = ((case.text, normal, case.other, other), (case.other, other, case.text, normal))
        for text, first, text_too, second in pairs:
            if first.status == 2:
                wanted = Answer(b"", b"first: " + first.err, 2)
            elif second.status == 2:
                wanted = Answer(b"", b"second: " + second.err, 2)
            elif first.out == second.out:
                wanted = Answer(b"same\n", b"", 0)
            else:
                wanted = Answer(b"different\n", b"", 1)
            answer = self.program.run(["same", "--kind", case.kind], [text, text_too])
            if answer != wanted:
                yield f"same of {text!r} and {text_too!r}: {shown(answer)}, and not {shown(wanted)}"

    def diff(self, text, other, *options) -> Answer:
        """What `diff` answers of two files."""
        return self.program.run(["diff", "--kind", self.case.kind, *options], [text, other])

    def of_differences(self, normal, other):
        """`diff` reports the refusals that `same` does, and then writes nothing. It has no line
        exactly if the files have the same paragraphs in some order. If the files are swapped,
        removed and added paragraphs are swapped."""
        case = self.case
        forth, back = self.diff(case.text, case.other), self.diff(case.other, case.text)
        for first, second, answer in ((normal, other, forth), (other, normal, back)):
            is_same = sorted(paragraphs_of(first.out)) == sorted(paragraphs_of(second.out))
            if first.status == 2:
                wanted = (False, b"first: " + first.err, 2)
            elif second.status == 2:
                wanted = (False, b"second: " + second.err, 2)
            else:
                wanted = (not is_same, b"", int(not is_same))
            if (bool(answer.out), answer.err, answer.status) != wanted:
                yield f"diff of {case.text!r} and {case.other!r}: {shown(answer)}, and not {wanted}"
        if lines_with(b"removed ", forth.out) != lines_with(b"added ", back.out):
            yield f"diff of {case.text!r} and {case.other!r}: {shown(forth)}; swapped {shown(back)}"

    def of_changes(self, normal):
        """A copy in another order and spelling has no line; one with one changed field has the line
        of that field, and its values if they are wanted."""
        case, random = self.case, self.case.random
        document = read(case.text)
        copy = respelled(random, case.kind, random.sample(document, len(document)))
        answer = self.diff(case.text, copy, *random.choice(([], ["--values"])))
        if answer != Answer(b"", b"", 0):
            yield f"in another order as {copy!r}: {shown(answer)}"
        change = changed(random, case.kind, paragraphs_of(normal.out))
        if change:
            copy = file_of(change.paragraphs)
            for options, wanted in (([], change.line), (["--values"], change.line + change.values)):
                answer = self.diff(case.text, copy, *options)
                if answer != Answer(wanted, b"", 1):
                    yield f"changed to {copy!r}: {shown(answer)}, and not {wanted!r}"

    def of_query(self, normal):
        """A relation has one answer, in any order of its groups and with some of them twice, over
        the file and its normal text; and its groups are told as Depends has them."""
        random = self.case.random
        groups = [alternative(random) for _ in range(random.randint(1, 4))]
        words = ["query", "--arch", "amd64", "--profiles", "nocheck"]
        answer = self.program.run([*words, b", ".join(groups)], [self.case.text])
        groups += random.sample(groups, random.randint(0, len(groups)))
        random.shuffle(groups)
        again = self.program.run([*words, b" ,, ".join(groups)], [normal.out])
        if answer.status not in (0, 1) or answer != again:
            yield f"query of {groups!r}: {shown(answer)}; of normal text {shown(again)}"
        told = b", ".join(GROUP_LINE.findall(answer.out))
        if told != self.as_depends(groups):
            yield f"query of {groups!r}: {shown(answer)}; Depends is {self.as_depends(groups)!r}"

    def of_installed(self, normal):
        """With `--installed` a status file has the answers that its installed packages have as an
        index, and its own refusals. Of the others `healthy` has the lines of their states, too."""
        random, paragraphs = self.case.random, paragraphs_of(normal.out)
        kept = file_of([it for it in paragraphs if is_installed(it)])
        relation = b", ".join(alternative(random) for _ in range(random.randint(1, 4)))
        names = b",".join(random.sample([*map(name_of, paragraphs), b"aa", b"bb"], 2))
        calls = ["healthy"], ["healthy", "--recommends"], ["installable"], ["unmet"], ["query", relation]
        calls += ["installable", "--only", names], ["installable", "--witness", names]
        for call, *more in calls:
            words = [call, "--arch", "amd64", *more]
            answer = self.program.run([*words, "--installed"], [self.case.text])
            if normal.status == 2:
                side = b"first: " if call == "unmet" else b""
                wanted = Answer(b"", side + normal.err, 2)
            else:
                wanted = self.program.run(words, [kept])
                if call == "healthy" and wanted.status in (0, 1):
                    wanted = with_states(wanted, paragraphs)
            if answer != wanted:
                yield f"{words!r} with --installed: {shown(answer)}, and not {shown(wanted)}"

    def installable(self, text, *words) -> Answer:
        """What `installable` answers of an index."""
        return self.program.run(["installable", *words], [text])

    def of_installable(self, normal):
        """`installable` has the refusals that `check` has, and then no line. Of an accepted file and of
        its normal text it has the same lines, none if the packages are a healthy set, and one of each
        package with a line of `unmet`."""
        arch = ["--arch", "amd64"]
        answer = self.installable(self.case.text, *arch)
        if normal.status == 2:
            if answer != Answer(b"", normal.err, 2):
                yield f"installable: {shown(answer)}, and not {shown(normal)}"
            return
        again = self.installable(normal.out, *arch)
        if answer.status not in (0, 1) or answer != again:
            yield f"installable: {shown(answer)}; of normal text {shown(again)}"
        yield from self.of_other_lines(self.case.text, arch, words_of(answer.out))
        yield from self.of_names(self.case.text, arch, paragraphs_of(normal.out), answer.out)
        yield from self.of_options(arch, paragraphs_of(normal.out), answer)

    def of_options(self, words, paragraphs, answer):
        """With `--why` each line `uninstallable`, and no other one, has lines below it. With `--essential`
        no more packages are installable. With `--without` the lines are those of the file without the
        paragraphs of these names, but for the numbers."""
        random, text = self.case.random, file_of(paragraphs)
        heads, below = cut(self.installable(text, *words, "--why").out)
        ruled_out = {at for at, word in words_of(answer.out).items() if word == b"uninstallable"}
        if heads != answer.out or {at for at, lines in below.items() if lines} != ruled_out:
            yield f"installable --why of {text!r}: {below!r} below {heads!r}, and not {answer.out!r}"
        with_all = words_of(self.installable(text, *words, "--essential").out)
        if any(with_all.get(at) not in LATER[word] for at, word in words_of(answer.out).items()):
            yield f"installable --essential of {text!r}: {with_all!r}, and not {answer.out!r}"
        all_names = [*map(name_of, paragraphs), b"zz"]
        names = sorted({random.choice(all_names), random.choice(all_names)})
        kept = [at for at, it in enumerate(paragraphs, 1) if name_of(it) not in names]
        options = [*words, *random.choice(([], ["--essential"], ["--recommends"]))]
        rest = self.installable(file_of([paragraphs[at - 1] for at in kept]), *options)
        wanted = rest._replace(out=NUMBER.sub(lambda it: it[1] + b"%d" % kept[int(it[2]) - 1], rest.out))
        left = self.installable(text, *options, "--without", b",".join(names))
        if left != wanted:
            told = f"installable {options} --without {names} of {text!r}"
            yield f"{told}: {shown(left)}, and not {shown(wanted)}"

    def of_other_lines(self, text, words, found):
        """No package of a healthy set has a word of `installable`. One with a line `unmet` is
        uninstallable, and one with a line `unsure` may be."""
        if found and self.program.run(["healthy", *words], [text]).status == 0:
            yield f"installable of {text!r}: the set is healthy, and {found!r}"
        for line in LINE.findall(self.program.run(["unmet", *words], [text]).out):
            word, number, *_ = line.split(b" ")
            if found.get(int(number)) not in ({b"uninstallable"} if word == b"unmet" else MAYBE):
                yield f"installable of {text!r}: {found!r}, but unmet has {line!r}"

    def of_names(self, text, words, paragraphs, out):
        """With `--only` the lines are those of the packages with these names: all of them for all names,
        and for some names those of two calls with a part of them each."""
        random = self.case.random
        all_names = [*map(name_of, paragraphs)]
        names = random.sample([*all_names, b"zz", b""], random.randint(1, len(all_names) + 2))
        cut = random.randint(0, len(names))
        for some in (all_names, names, names[:cut], names[cut:]):
            wanted = of_some(some, out)
            answer = self.installable(text, *words, "--only", b",".join(some))
            if answer != Answer(wanted, b"", int(bool(wanted))):
                yield f"installable {words} --only {some!r} of {text!r}: {shown(answer)}, and not {wanted!r}"
        yield from self.of_witness(text, words, paragraphs, out, names)

    def of_witness(self, text, words, paragraphs, out, names):
        """`--witness` finds a set exactly if a package with one of the names has no line: a healthy one
        that contains the first of them. If it finds none, its lines are those of `--only`."""
        answer = self.installable(text, *words, "--witness", b",".join(names))
        found = words_of(out)
        able = [at for at, it in enumerate(paragraphs, 1) if name_of(it) in names and at not in found]
        told = f"installable {words} --witness {names!r} of {text!r}: {shown(answer)}"
        if able:
            yield from self.of_set(told, answer, words, paragraphs, able[:1])
        elif answer != Answer(of_some(names, out), b"", 1):
            yield f"{told}, and not {of_some(names, out)!r}"

    def of_set(self, told, answer, words, paragraphs, wanted):
        """The answer is a healthy set, and contains one of the packages with these numbers."""
        numbers = [int(it) for it in MEMBER.findall(answer.out)]
        lines = b"".join(member_line(at, it) for at, it in enumerate(paragraphs, 1) if at in numbers)
        if answer != Answer(lines, b"", 0) or not {*numbers} & {*wanted}:
            yield f"{told}, and not a set with one of {wanted}"
        members = b"\n".join(paragraphs[at - 1] + b"\n" for at in numbers if at <= len(paragraphs))
        healthy = self.program.run(["healthy", *words], [members])
        if healthy != Answer(b"", b"", 0):
            yield f"{told}; healthy: {shown(healthy)}"

    def of_universe(self):
        """Which packages of a small universe can be installed is what trying each set says, and `healthy`
        accepts them if they are such a set. That doesn't depend on the spelling and on the order; with
        steps of one some answers are missing, and none is another one; a package more makes none
        uninstallable; and in a status file the other packages don't count."""
        random = self.case.random
        made = universe(random)
        words, is_healthy = made.solved()
        lines = made.lines(words)
        answer = self.installable(made.text, *made.words)
        if answer != Answer(lines, b"", int(bool(lines))):
            yield f"installable {made.words} of {made.text!r}: {shown(answer)}, and not {lines!r}"
        healthy = self.program.run(["healthy", *made.words], [made.text])
        if (healthy.status, healthy.out == b"") != (int(not is_healthy), is_healthy):
            yield f"healthy {made.words} of {made.text!r}: {shown(healthy)}, and not {is_healthy}"
        yield from self.of_other_lines(made.text, made.words, words_of(lines))
        laws = self.of_order, self.of_budget, self.of_more, self.of_states, self.of_members, self.of_terms
        yield from random.choice((*laws, self.of_reasons))(made, words)

    def of_order(self, made, words):
        """In another spelling the lines are the same, in another order they come in that."""
        random = self.case.random
        order = random.sample(range(len(words)), len(words))
        there = replace(made, packages=[made.packages[at] for at in order])
        lines = there.lines([words[at] for at in order])
        answer = self.installable(respelled(random, "packages", read(there.text)), *made.words)
        if answer != Answer(lines, b"", int(bool(lines))):
            yield f"installable of {there.text!r} as respelled: {shown(answer)}, and not {lines!r}"

    def of_budget(self, made, words):
        """With few steps each word is that with many, or `undecided`."""
        budget = self.case.random.choice(("1", "2", "3", "1000000000"))
        answer = self.installable(made.text, *made.words, "--budget", budget)
        found = words_of(answer.out)
        few = [found.get(number, b"") for number in range(1, len(words) + 1)]
        is_whole = budget == "1000000000"
        if any(it != word and (is_whole or it != b"undecided") for it, word in zip(few, words)):
            yield f"installable --budget {budget} of {made.text!r}: {shown(answer)}, and not {words!r}"

    def of_members(self, made, words):
        """The laws of names hold. A set that is printed contains the first package that can be in one, and
        others only if one of the set needs them; with few steps it may be another package."""
        random = self.case.random
        paragraphs = [it.paragraph().rstrip(b"\n") for it in made.packages]
        yield from self.of_names(made.text, made.words, paragraphs, made.lines(words))
        name = random.choice(made.packages).name
        asked = [at for at, it in enumerate(made.packages) if it.name == name]
        budget = random.choice(([], ["--budget", "1"], ["--budget", "2"]))
        answer = self.installable(made.text, *made.words, *budget, "--witness", name)
        told = f"installable {made.words} {budget} --witness {name!r} of {made.text!r}: {shown(answer)}"
        if answer.status == 0:
            able = [at + 1 for at in asked if not words[at]]
            yield from self.of_set(told, answer, made.words, paragraphs, able)
            members = {int(it) - 1 for it in MEMBER.findall(answer.out)}
            if len(members - made.needed_by(members)) > 1:
                yield f"{told}; {made.needed_by(members)} are needed"
            return
        few, others = words_of(answer.out), [b"undecided"] if budget else []
        if [*few] != [at + 1 for at in asked] or any(few[at + 1] not in (words[at], *others) for at in asked):
            yield f"{told}, and not {words!r}"

    def of_more(self, made, words):
        """A package more, anywhere, makes no other one uninstallable."""
        random = self.case.random
        at = random.randint(0, len(words))
        packages = [*made.packages[:at], package(random, NAMES), *made.packages[at:]]
        there = replace(made, packages=packages)
        found = words_of(self.installable(there.text, *made.words).out)
        for number, word in enumerate(words, 1):
            later = found.get(number + (number > at), b"")
            if later not in {b"": {b""}, b"unsure": {b"", b"unsure"}}.get(word, ANY):
                yield f"installable of {there.text!r}: {found!r}; without package {at + 1} {words!r}"

    def with_terms(self, made):
        """The universe with the essential packages, without some, or both."""
        random = self.case.random
        names = {random.choice(made.packages).name, random.choice((*NAMES, b"zz"))}
        without = tuple(sorted(names)) * random.choice((0, 1))
        return replace(made, essential=not without or random.random() < 0.3, without=without)

    def of_terms(self, made, _):
        """With the essential packages, and without some, the lines are what trying each set says, and so is
        whether there is a set. That has the essential packages, and none that is left out."""
        there = self.with_terms(made)
        options = [*there.words, *there.terms]
        words, _ = there.solved()
        lines = there.lines(words)
        answer = self.installable(there.text, *options)
        if answer != Answer(lines, b"", int(bool(lines))):
            yield f"installable {options} of {there.text!r}: {shown(answer)}, and not {lines!r}"
        name = self.case.random.choice(there.packages).name
        answer = self.installable(there.text, *options, "--witness", name)
        told = f"installable {options} --witness {name!r} of {there.text!r}: {shown(answer)}"
        asked = [at for at, it in enumerate(there.packages) if name == it.name not in there.without]
        able = [at + 1 for at in asked if not words[at]]
        if not able:
            if answer != Answer(of_some([name], lines), b"", 1):
                yield f"{told}, and not {of_some([name], lines)!r}"
            return
        paragraphs = [it.paragraph().rstrip(b"\n") for it in there.packages]
        yield from self.of_set(told, answer, there.words, paragraphs, able[:1])
        members = {line.split(b" ")[2] for line in LINE.findall(answer.out)}
        if not {*there.essential_names()} <= members or members & {*there.without}:
            yield f"{told}, but {there.essential_names()} are essential"

    def of_reasons(self, made, words):
        """With `--why` the lines are the same, and each `uninstallable` one has lines below it that are true
        and rule the package out, each of which is needed for that. With `--only` and, if there is no set,
        with `--witness`, they are those of the packages with these names."""
        there = self.case.random.choice((made, self.with_terms(made)))
        options = [*there.words, *there.terms]
        answer = self.installable(there.text, *options, "--why")
        heads, below = cut(answer.out)
        told = f"installable {options} --why of {there.text!r}: {shown(answer)}"
        if answer._replace(out=heads) != self.installable(there.text, *options):
            yield f"{told}; without --why other lines"
        yield from self.of_lines_below(told, words_of(heads), below, lambda _: Explained(there))
        name = self.case.random.choice(there.packages).name
        wanted = b"".join(it[0] for it in HEAD.finditer(answer.out) if it[0].split(b" ")[2] == name)
        only = self.installable(there.text, *options, "--why", "--only", name)
        if only != Answer(wanted, b"", int(bool(wanted))):
            yield f"{told}; with --only {name!r} {shown(only)}"
        sought = self.installable(there.text, *options, "--witness", name, "--why")
        if sought.status and sought != Answer(wanted, b"", 1):
            yield f"{told}; with --witness {name!r} {shown(sought)}"

    def of_lines_below(self, told, words, below, explained):
        """Only `uninstallable` lines have lines below them, and these explain them. `explained` has what is
        true, by the number of a line."""
        for number, lines in below.items():
            if words.get(number) != b"uninstallable":
                yield f"{told}; {number} has {lines!r}"
            yield from (f"{told}; {why}" for why in explained(number).wrong(number, lines))

    def of_states(self, made, words):
        """As installed packages of a status file they have the same lines, whatever others there are."""
        random, paragraphs = self.case.random, []
        states = b"deinstall ok config-files", b"install ok unpacked", b"install ok triggers-pending"
        for it in made.packages:
            paragraphs.append(it.paragraph(b"Status: hold ok installed"))
            if random.random() < 0.5:
                paragraphs.append(package(random, NAMES).paragraph(b"Status: " + random.choice(states)))
        lines = made.lines(words)
        answer = self.installable(b"\n".join(paragraphs), *made.words, "--installed")
        if answer != Answer(lines, b"", int(bool(lines))):
            yield f"installable --installed of {paragraphs!r}: {shown(answer)}, and not {lines!r}"

    def buildable(self, index, text, *words) -> Answer:
        """What `installable` answers of source packages."""
        return self.program.run(["installable", *words], [index, text])

    def of_source_file(self, normal):
        """`installable` of source packages has the refusals that `check` has, and then no line. An
        accepted file has the lines of its normal text, and one of each source package with a line of
        `unmet`, as that says."""
        words = ["--arch", "amd64", "--kind", self.case.kind]
        implied = b"Package: build-essential\nVersion: 1\nArchitecture: all\n\n"
        index = implied + universe(self.case.random).text
        answer = self.buildable(index, self.case.text, *words, "--index")
        if normal.status == 2:
            if answer != Answer(b"", b"second: " + normal.err, 2):
                yield f"installable: {shown(answer)}, and not {shown(normal)}"
            return
        again = self.buildable(index, normal.out, *words, "--index")
        if answer.status not in (0, 1) or answer != again:
            yield f"installable with {index!r}: {shown(answer)}; of normal text {shown(again)}"
        found = words_of(answer.out)
        tried = [*words, *["--all-sources"] * self.case.random.randint(0, 1)]
        for line in LINE.findall(self.program.run(["unmet", *tried], [index, self.case.text]).out):
            word, number, *_ = line.split(b" ")
            if found.get(int(number)) not in ({b"uninstallable"} if word == b"unmet" else MAYBE):
                yield f"installable with {index!r}: {found!r}, but unmet has {line!r}"

    def of_sources(self):
        """Which source packages can be built with a small universe is what trying each set says. That
        doesn't depend on the spelling, and each is asked by itself; with steps of one some answers are
        missing, and none is another one."""
        random = self.case.random
        made = sources(random)
        words = made.solved()
        index, lines = made.universe.text, made.lines(words)
        answer = self.buildable(index, made.text, *made.words)
        if answer != Answer(lines, b"", int(bool(lines))):
            told = f"installable {made.words} of {index!r} and {made.text!r}"
            yield f"{told}: {shown(answer)}, and not {lines!r}"
        laws = self.of_sources_in_order, self.of_sources_budget, self.of_sources_with_more
        yield from random.choice((*laws, self.of_sources_by_terms))(made, words)

    def of_sources_by_terms(self, made, _):
        """With the essential packages, and without some, the lines are what trying each set says. With
        `--why` each `uninstallable` one has lines below it that are true and rule the source package out."""
        there = replace(made, universe=self.with_terms(made.universe)) if made.universe.packages else made
        index, lines = there.universe.text, there.lines(there.solved())
        told = f"installable {there.words} of {index!r} and {there.text!r}"
        answer = self.buildable(index, there.text, *there.words)
        if answer != Answer(lines, b"", int(bool(lines))):
            yield f"{told}: {shown(answer)}, and not {lines!r}"
        answer = self.buildable(index, there.text, "--why", *there.words)
        heads, below = cut(answer.out)
        if answer._replace(out=heads) != Answer(lines, b"", int(bool(lines))):
            yield f"{told} with --why: {shown(answer)}, and not {lines!r}"
        of_number = lambda at: Explained(there.universe, there.sources[at - 1], at)
        told = f"{told} with --why: {shown(answer)}"
        yield from self.of_lines_below(told, words_of(heads), below, of_number)

    def of_sources_in_order(self, made, words):
        """In another spelling the lines are the same, in another order they come in that."""
        random = self.case.random
        order = random.sample(range(len(words)), len(words))
        there = replace(made, sources=[made.sources[at] for at in order])
        lines = there.lines([words[at] for at in order])
        text = respelled(random, "sources", read(there.text))
        index = respelled(random, "packages", read(made.universe.text))
        answer = self.buildable(index, text, *made.words)
        if answer != Answer(lines, b"", int(bool(lines))):
            yield f"installable of {index!r} and {text!r}: {shown(answer)}, and not {lines!r}"

    def of_sources_budget(self, made, words):
        """With few steps each word is that with many, or `undecided`."""
        budget = self.case.random.choice(("1", "2", "1000000000"))
        index = made.universe.text
        answer = self.buildable(index, made.text, "--budget", budget, *made.words)
        found = words_of(answer.out)
        few = [found.get(number, b"") for number in range(1, len(words) + 1)]
        is_whole = budget == "1000000000"
        if any(it != word and (is_whole or it != b"undecided") for it, word in zip(few, words)):
            yield f"--budget {budget} of {index!r} and {made.text!r}: {shown(answer)}, and not {words!r}"

    def of_sources_with_more(self, made, words):
        """A package more, at the end, makes no source package uninstallable. As installed packages of a
        status file they have the same lines."""
        random = self.case.random
        more = made.universe.text + b"\n" + package(random, NAMES).paragraph()
        found = words_of(self.buildable(more, made.text, *made.words).out)
        for number, word in enumerate(words, 1):
            if found.get(number, b"") not in {b"": {b""}, b"unsure": {b"", b"unsure"}}.get(word, ANY):
                yield f"installable of {more!r} and {made.text!r}: {found!r}; with one less {words!r}"
        status = b"\n".join(it.paragraph(b"Status: hold ok installed") for it in made.universe.packages)
        lines = made.lines(words)
        answer = self.buildable(status, made.text, "--installed", *made.words)
        if answer != Answer(lines, b"", int(bool(lines))):
            yield f"--installed of {status!r} and {made.text!r}: {shown(answer)}, and not {lines!r}"

    def of_bound(self):
        """A package meets a bound where `compare` says so of its version."""
        random = self.case.random
        version = random.choice(VERSIONS)
        bound = random.choice((version, random.choice(VERSIONS)))
        operator = random.choice(OPERATORS[:5])
        paragraph = b"Package: aa\nVersion: %s\nArchitecture: all\n" % version
        relation = b"aa (%s %s)" % (operator, bound)
        met = self.program.run(["query", "--arch", "amd64", relation], [paragraph])
        holds = self.program.run(["compare", version, operator, bound], [])
        if met.status not in (0, 1) or met.status != holds.status:
            yield f"{version!r} and {relation!r}: {shown(met)}; compare {shown(holds)}"

    def of_reason(self):
        """`explain` reports why a version, a source or a relation is refused, and where."""
        random = self.case.random
        field = random.choice(FIELDS)
        body = nearly(random, field)
        known = b"Package: aa\nArchitecture: all\n" + b"Version: 1\n" * (field != b"Version")
        answer = self.program.run(["explain"], [known + b"%s: %s\n" % (field, body)])
        fault = fault_of(field, body)
        wanted = Fault("ok") if fault is None else fault
        lines = {key.decode(): text.decode() for key, text in REASON_LINE.findall(answer.out)}
        if answer.status == 0 and answer.out == b"ok 1\n":
            lines["name"] = "ok"
        told = Fault(lines.get("name", ""), lines.get("reason", ""), int(lines.get("place", 0)))
        if told != wanted or ("place" in lines) != bool(wanted.reason):
            yield f"{field!r} of {body!r} is to be {wanted}: {shown(answer)}"
        self.met.add((wanted.name, wanted.reason))

    def of_planted_faults(self):
        """Faults in some of the paragraphs are exactly the refusals, and the other paragraphs pass."""
        random, kind = self.case.random, self.case.kind
        parts = range(1 if kind in SINGLE else random.randint(1, 4))
        document = [paragraph for _ in parts for paragraph in made(random, kind)]
        text, refusals, good = planted(random, kind, document)
        asked = AllRefusals(self.program, kind, text)
        wanted = b"".join(refusals) + b"ok %d, %d refused\n" % (good, len(refusals))
        if asked.answer.out != wanted:
            yield f"check --all of {text!r}: {shown(asked.answer)}, and not {wanted!r}"
        yield from asked.wrong(random)

    def as_depends(self, groups) -> bytes:
        """The canonical text of a relation, as the field Depends of a paragraph has it."""
        paragraph = b"Package: aa\nVersion: 1\nArchitecture: all\nDepends: %s\n"
        answer = self.program.run(["normalise"], [paragraph % b", ".join(groups)])
        return answer.out.partition(b"\nDepends: ")[2].partition(b"\n")[0]


def words_of(out: bytes):
    """The words of `installable`, by the numbers of the packages that have a line."""
    return {int(line.split(b" ")[1]): line.split(b" ")[0] for line in LINE.findall(out)}


def of_some(names, out: bytes) -> bytes:
    """The lines of `installable` that are of packages with these names."""
    return b"".join(line for line in LINE.findall(out) if line.split(b" ")[2] in names)


def fields_of(paragraph: bytes, *names: bytes):
    """The bodies of these fields of a paragraph that has each on one line."""
    return [re.search(rb"(?m)^%s: (.*)$" % name, paragraph)[1] for name in names]


def name_of(paragraph: bytes) -> bytes:
    """The name of a package."""
    return fields_of(paragraph, b"Package")[0]


def member_line(number: int, paragraph: bytes) -> bytes:
    """The line of a package of a set."""
    return b" %d %s %s %s\n" % (number, *fields_of(paragraph, b"Package", b"Version", b"Architecture"))


def paragraphs_of(text: bytes):
    """The paragraphs of a canonical text, each without its last newline."""
    return text[:-1].split(b"\n\n") if text else []


def status_of(paragraph: bytes) -> bytes:
    """The third word of Status, if that has three; else a hyphen."""
    status = STATUS.search(paragraph)
    words = SPACES.split(status[1].strip(b" \t\n")) if status else []
    return words[2] if len(words) == 3 else b"-"


def is_installed(paragraph: bytes) -> bool:
    """Whether a paragraph of a status file is that of an installed package, as `--installed` reads it."""
    has = [re.search(rb"(?im)^%s:" % name, paragraph) for name in (b"version", b"architecture")]
    return status_of(paragraph) == b"installed" and all(has)


def state_of(paragraph: bytes) -> bytes:
    """What the line of a package that is neither installed nor removed has after its number."""
    fields = b"package", b"version", b"architecture"
    found = [re.search(rb"(?im)^%s: (.*)$" % name, paragraph) for name in fields]
    return b" ".join([*(it[1] if it else b"-" for it in found), status_of(paragraph)])


def with_states(answer: Answer, paragraphs) -> Answer:
    """The answer of `healthy` for the installed packages of a status file, with the lines of those
    that are neither installed nor removed, each where its paragraph is; their numbers count all."""
    lines, out, count = LINE.findall(answer.out), [], 0
    for number, paragraph in enumerate(paragraphs, 1):
        if is_installed(paragraph):
            count += 1
            out += [line for line in lines if line.split(b" ")[1] == b"%d" % count]
        elif status_of(paragraph) not in (b"not-installed", b"config-files"):
            out.append(b"state %d %s\n" % (number, state_of(paragraph)))
    return Answer(b"".join(out), answer.err, int(bool(out)))


def file_of(paragraphs) -> bytes:
    """The canonical text of these."""
    return b"\n\n".join(paragraphs) + b"\n" * bool(paragraphs)


def shown(answer: Answer) -> str:
    """An answer on one line."""
    return f"status {answer.status}, {answer.out!r} and {answer.err!r}"
