"""The laws of all refusals of a file, which `check`, `explain` and `audit` report with `--all`."""
import re
from typing import Iterator, List

from laws.documents import SINGLE, is_blank

REFUSAL = re.compile(rb"line ([1-9][0-9]*): (?:[1-9]|1[0-9]|2[01]) [A-Z][A-Za-z0-9]*\n")
LAST = re.compile(rb"ok ([0-9]+), ([0-9]+) refused\n")
BLOCK = re.compile(rb"file: [^\n]*\nline: ([^\n]*)\ncode: ([^\n]*)\nname: ([^\n]*)\n(?:[^\n]+\n)*\n")


class AllRefusals:
    """The laws, asked over one file. Each gives what is wrong, in words."""

    def __init__(self, program, kind: str, text: bytes):
        self.program = program
        self.kind = kind
        self.text = text
        self.answer = self.run("check", text, "--all")
        self.lines = self.answer.out.splitlines(keepends=True)
        self.refusals = self.lines[:-1]

    def run(self, command: str, text: bytes, *options: str):
        """What a command answers of a file."""
        return self.program.run([command, "--kind", self.kind, *options], [text])

    def wrong(self, random) -> Iterator[str]:
        """What is wrong, one law after another."""
        yield from self.of_lines()
        yield from self.of_check()
        if self.kind not in SINGLE:
            yield from self.of_rest()
        yield from self.of_explain(random)
        yield from self.of_audit()

    def numbers(self) -> List[int]:
        """The numbers of the lines that are refused, as far as they are told."""
        return [int(it[1]) for it in map(REFUSAL.fullmatch, self.refusals) if it]

    def of_lines(self):
        """There are lines of refusals, which ascend, and a last line with their number. The status is 2
        if there is a refusal."""
        numbers = self.numbers()
        last = LAST.fullmatch(self.lines[-1]) if self.lines else None
        count = len(self.refusals)
        is_right = last and len(numbers) == count == int(last[2]) and sorted(set(numbers)) == numbers
        if not is_right or (self.answer.err, self.answer.status) != (b"", 2 if count else 0):
            yield f"check --all of {self.text!r}: {self.answer}"

    def of_check(self):
        """The first line is the refusal of `check`. If there is none, both count the same paragraphs."""
        checked = self.run("check", self.text)
        is_same = checked.err == b"".join(self.refusals[:1]) and checked.status == self.answer.status
        if not is_same or (checked.out and checked.out != self.lines[-1].replace(b", 0 refused", b"")):
            yield f"check --all of {self.text!r}: {self.answer}; check {checked}"

    def of_rest(self):
        """The file without the runs that are refused is accepted, with the paragraphs that pass; and
        each refusal is of another run."""
        refused = [run for run in runs_of(self.text) if any(number in run for number in self.numbers())]
        lines = enumerate(self.text.split(b"\n"), 1)
        rest = [line for number, line in lines if not any(number in run for run in refused)]
        checked = self.run("check", b"\n".join(rest))
        passed = self.lines[-1].partition(b",")[0] + b"\n"
        if len(refused) != len(self.refusals) or (checked.out, checked.status) != (passed, 0):
            yield f"check --all of {self.text!r}: {self.answer}; without the refused runs {checked}"

    def of_explain(self, random):
        """Each block of `explain --all` is of one of the lines, in their order, and the last line is the
        same. A block is what `explain` prints of a file whose other runs are blank."""
        told = self.run("explain", self.text, "--all")
        blocks = list(BLOCK.finditer(told.out))
        wanted = b"".join(self.refusals) + self.lines[-1]
        seen = b"".join(b"line %s: %s %s\n" % it.groups() for it in blocks)
        rest = told.out[blocks[-1].end() :] if blocks else told.out
        if (seen + rest, told.err, told.status) != (wanted, b"", self.answer.status):
            yield f"explain --all of {self.text!r}: {told}, and not {wanted!r}"
        elif blocks:
            at = random.randrange(len(blocks))
            explained = self.run("explain", self.with_one(self.numbers()[at]))
            if explained.out + b"\n" != blocks[at][0]:
                yield f"explain --all of {self.text!r}: {blocks[at][0]!r}; alone {explained}"

    def with_one(self, number: int) -> bytes:
        """The file with blank lines in place of all runs but that of a line. Where one paragraph is asked
        for the other runs matter."""
        if self.kind in SINGLE:
            return self.text
        [run] = [it for it in runs_of(self.text) if number in it]
        lines = enumerate(self.text.split(b"\n"), 1)
        return b"\n".join(line if at in run else b"" for at, line in lines)

    def of_audit(self):
        """`audit --all` has these lines as its records."""
        audited = self.run("audit", self.text, "--all")
        path = f"{self.program.folder}/0: ".encode()
        if audited != self.answer._replace(out=b"".join(path + line for line in self.lines)):
            yield f"audit --all of {self.text!r}: {audited}, and not as {self.answer}"


def runs_of(text: bytes) -> List[range]:
    """The runs of lines that aren't blank, by the numbers of their lines."""
    runs, first = [], 0
    for number, line in enumerate([*text.split(b"\n"), b""], 1):
        if is_blank(line):
            runs += [range(first, number)] if first else []
            first = 0
        else:
            first = first or number
    return runs
