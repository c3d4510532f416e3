"""The laws of `select`, against what the reading of `selecting` finds."""
import json
import re
from typing import Iterator, List

from laws.documents import OTHER_NAMES, SINGLE, body_of
from laws.reasons import with_piece
from laws.refusals import REFUSAL, runs_of
from laws.selecting import COMPARISONS, SENTENCES, Paragraph, canonical_name, cell_of, condition_of, json_of
from laws.selecting import paragraphs_of

NAMES = (b"Package", b"Version", b"Architecture", b"Size", b"Depends", b"Description", *OTHER_NAMES)
OPERATORS = (*COMPARISONS, b"~", b"names")
GAPS = (b"", b" ", b" ", b"\t", b"  ")
EXPLAINED = re.compile(rb"place: (\d+)\n(?:code: \d+\nname: \w+\n)?reason: (\w+)\nvalue: [^\n]*\nrule: ([^\n]*)\n")


class Selected:
    """The laws, asked over one file. Each gives what is wrong, in words."""

    def __init__(self, program, random, kind: str, text: bytes):
        self.program = program
        self.random = random
        self.kind = kind
        self.text = text

    def select(self, *words, files=None):
        """What `select` answers, by default of the file."""
        files = [self.text] if files is None else files
        return self.program.run(["select", "--kind", self.kind, *words], files)

    def wrong(self, normal) -> Iterator[str]:
        """What is wrong, one law after another. `normal` is what `normalise` answers of the file."""
        yield from self.of_bad_condition()
        if normal.status == 0:
            yield from self.of_conditions()
        else:
            yield from self.of_refused(normal)

    def differs(self, words, wanted: bytes, is_found: bool, files=None) -> Iterator[str]:
        """What is wrong with an answer, if it isn't this one."""
        answer = self.select(*words, files=files)
        if answer != (wanted, b"", 0 if is_found else 1):
            yield f"select {words!r} of {files or self.text!r}: {answer!r}, and not {wanted!r}"

    def of_conditions(self):
        """The paragraphs for which conditions hold are selected, and with `--not` the others. Of what was
        selected all are. In each format they are as they are read here; and so over two files."""
        paragraphs = paragraphs_of(self.kind, self.text)
        conditions = self.conditions(paragraphs)
        words = [b"--where=" + text for text, _ in conditions]
        holds = [all(it.holds(paragraph) for _, it in conditions) for paragraph in paragraphs]
        selected = [it for it, is_one in zip(paragraphs, holds) if is_one]
        others = [it for it, is_one in zip(paragraphs, holds) if not is_one]
        text = written(selected)
        yield from self.differs(words, text, bool(selected))
        yield from self.differs([*words, "--not"], written(others), bool(others))
        if selected or self.kind not in SINGLE:
            yield from self.differs(words, text, bool(selected), [text])
        yield from self.differs([*words, "--count"], b"%d\n" % len(selected), bool(selected))
        yield from self.random.choice((self.of_fields, self.of_table, self.of_json))(words, selected)
        if self.kind not in SINGLE:
            yield from self.differs(words, text, bool(selected), self.cut())

    def of_fields(self, words, selected):
        """`-f` writes the lines of fields, in the order asked."""
        names = self.names(selected)
        found = [[line for name in names for line in it.lines_of(name)] for it in selected]
        text = b"\n".join(b"".join(line + b"\n" for line in lines) for lines in found if lines)
        yield from self.differs([*words, "-f", b",".join(names)], text, bool(selected))

    def of_table(self, words, selected):
        """A table has the canonical values; if one is absent, `--strict` changes the status."""
        names = self.names(selected)
        rows = [[it.values.get(canonical_name(name)) for name in names] for it in selected]
        text = b"".join(b"\t".join(map(cell_of, row)) + b"\n" for row in rows)
        words = [*words, "--format", "table", "-f", b",".join(names)]
        yield from self.differs(words, text, bool(selected))
        is_full = all(value for row in rows for value in row)
        yield from self.differs([*words, "--strict"], text, bool(selected) and is_full)

    def of_json(self, words, selected):
        """Each line of JSON is the object of a paragraph, with its members in order."""
        answer = self.select(*words, "--format", "jsonl")
        try:
            found = [json.dumps(json.loads(line)) for line in answer.out.split(b"\n")[:-1]]
        except ValueError as error:
            found = [str(error)]
        wanted = [json.dumps(json_of(it)) for it in selected]
        if found != wanted or answer._replace(out=b"") != (b"", b"", 0 if selected else 1):
            yield f"select {words!r} --format jsonl of {self.text!r}: {answer!r}, and not {wanted!r}"

    def of_refused(self, normal):
        """Of a file that is refused the paragraphs before the refusal are selected, with its line; with
        `--accepted` all that are accepted, and standard error has what `check --all` prints."""
        lines, runs = self.text.split(b"\n"), runs_of(self.text)
        checked = self.program.run(["check", "--all", "--kind", self.kind], [self.text])
        refused = [int(it[1]) for it in REFUSAL.finditer(checked.out)]
        number = len(normal.out[:-1].split(b"\n\n")) if normal.out else 0
        last = min(refused) if self.kind in SINGLE else float("inf")
        kept = [run for run in runs if run[-1] < last and not any(at in run for at in refused)]
        for words, own, wanted in (([], runs[:number], normal.err), (["--accepted"], kept, checked.out)):
            text = b"\n".join(b"".join(lines[at - 1] + b"\n" for at in run) for run in own)
            answer = self.select(*words)
            if answer != (text, wanted, 2):
                yield f"select {words!r} of {self.text!r}: {answer!r}, and not {text!r} and {wanted!r}"

    def of_bad_condition(self):
        """`explain` says why a text is no condition, and `select` then opens no file."""
        text = self.condition_text([])
        for _ in range(self.random.choice((0, 1, 1, 2))):
            text = with_piece(self.random, text).decode(errors="ignore").encode()
        fault = condition_of(self.kind, text).fault
        answer = self.program.run(["explain", "--kind", self.kind, b"--where=" + text], [])
        if fault is None:
            if answer != (b"ok\n", b"", 0):
                yield f"the condition {text!r} of {self.kind}: {answer!r}"
            return
        reason, place = fault
        sentence = SENTENCES[reason].encode()
        found = EXPLAINED.fullmatch(answer.out)
        if not found or found.groups() != (b"%d" % place, reason.encode(), sentence) or answer.status != 2:
            yield f"the condition {text!r} of {self.kind} is {fault}: {answer!r}"
        told = self.select("--where", "X", b"--where=" + text, "missing", files=[])
        wanted = b"usage: --where 2, column %d: %s\n" % (place + 1, sentence)
        if told != (b"", wanted, 3):
            yield f"the condition {text!r} of {self.kind}: {told!r}, and not {wanted!r}"

    def cut(self) -> List[bytes]:
        """The file, cut in two between paragraphs."""
        lines, runs = self.text.split(b"\n"), runs_of(self.text)
        at = self.random.choice([0, *(run[-1] for run in runs)])
        return [b"\n".join(lines[:at]), b"\n".join(lines[at:])]

    def names(self, paragraphs: List[Paragraph]) -> List[bytes]:
        """Names of fields that are asked for, without a comma."""
        known = [name for it in paragraphs for name in it.values if b"," not in name] + [*NAMES]
        return [self.case_of(self.random.choice(known)) for _ in range(self.random.randint(1, 4))]

    def case_of(self, name: bytes) -> bytes:
        """A name in some case."""
        return self.random.choice((name, name.lower(), name.upper()))

    def conditions(self, paragraphs: List[Paragraph]) -> List[tuple]:
        """Some texts that are conditions, each with what it is."""
        found = []
        for _ in range(self.random.choice((0, 1, 1, 1, 2, 3))):
            text = self.condition_text(paragraphs)
            condition = condition_of(self.kind, text)
            if condition.fault is None:
                found.append((text, condition))
        return found

    def condition_text(self, paragraphs: List[Paragraph]) -> bytes:
        """A text that is a condition, or nearly."""
        random = self.random
        found = [(name, value) for it in paragraphs for name, value in it.values.items()]
        name, value = random.choice(found) if found and random.random() < 0.9 else (random.choice(NAMES), None)
        operator = random.choice((b"", *OPERATORS, *OPERATORS))
        asked = body_of(random, self.kind, name.lower())
        if value and random.random() < 0.7:
            text = value.text.decode()
            ends = sorted(random.randint(0, len(text)) for _ in range(2))
            asked = text[slice(*ends)].encode() if operator == b"~" else value.text
            if operator == b"names" and value.names:
                asked = random.choice(value.names)
        gap = b" " if operator == b"names" else random.choice(GAPS)
        parts = [random.choice(GAPS), self.case_of(name), gap, operator, gap, asked if operator else b""]
        return b"".join(parts).replace(b"\0", b"")


def written(paragraphs: List[Paragraph]) -> bytes:
    """Paragraphs as they are in the file."""
    return b"\n".join(b"".join(line + b"\n" for line in it.lines) for it in paragraphs)
