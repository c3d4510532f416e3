"""Why a version or a relation is refused, and where: docs/FORMAT.md sections 7 to 9 read once more.

Nothing here follows the code of the crates. Names, operators and runs are patterns, and a text is
read by them from the left, up to the first thing that doesn't fit.
"""
import re
from typing import NamedTuple, Optional

from laws.documents import VERSIONS, WITH_ALTERNATIVES, alternative, body_of

PACKAGE = re.compile(rb"[a-z0-9][a-z0-9+.-]+")
ARCHITECTURE = re.compile(rb"[a-z0-9][a-z0-9-]*")
PROFILE = re.compile(rb"[a-z0-9][a-z0-9+.-]*")
OPERATOR = re.compile(rb"<<|<=|<|=|>|>=|>>")
SPACE = re.compile(rb"[ \t\n]*")
# The runs of a relation, each the longest one from its start.
NAME_RUN = re.compile(rb"[^ \t\n,|()\[\]<>:]*")
OPERATOR_RUN = re.compile(rb"[<=>]*")
VERSION_RUN = re.compile(rb"[^ \t\n)]*")
ITEM_RUNS = {b"]": re.compile(rb"[^ \t\n\]]*"), b">": re.compile(rb"[^ \t\n>]*")}

VERSION_REASONS = (
    *("Empty", "EpochEmpty", "EpochNotNumber", "RevisionEmpty", "UpstreamEmpty"),
    *("UpstreamByte", "RevisionByte"),
)
RELATION_REASONS = (
    *("NameExpected", "NameBad", "QualifierBad", "OperatorBad", "Unclosed", "ItemBad"),
    *("MixedSigns", "ListEmpty", "Trailing", *VERSION_REASONS),
)
# What a fuzzer has to meet: each reason in each kind of field, and each name without a reason.
REASONS = frozenset(
    [("BadVersion", reason) for reason in VERSION_REASONS]
    + [("BadRelation", reason) for reason in RELATION_REASONS]
    + [(name, "") for name in ("BadName", "AlternativesNotAllowed", "ProvidesBound", "ok")]
)


class Fault(NamedTuple):
    """A refusal of a value: its name, and for versions and relations the reason and its offset."""

    name: str
    reason: str = ""
    place: int = 0


class Refused(Exception):
    """The first step of reading a relation that fails."""

    def __init__(self, reason: str, place: int):
        super().__init__(reason, place)
        self.reason = reason
        self.place = place


def version_fault(text: bytes):
    """The reason of a text that is no version and its offset, which is 0 for a reason that concerns
    no byte; or None."""
    if not text:
        return "Empty", 0
    epoch, colon, rest = text.partition(b":")
    if not colon:
        epoch, rest = b"0", text
    upstream, hyphen, revision = rest.rpartition(b"-")
    if not hyphen:
        upstream, revision = rest, b"0"
    bad_upstream = re.search(rb"[^A-Za-z0-9.+~:-]", upstream)
    bad_revision = re.search(rb"[^A-Za-z0-9.+~]", revision)
    start = len(text) - len(rest)
    after = len(text) - len(revision)
    faults = (
        (not epoch, "EpochEmpty", 0),
        (re.search(rb"[^0-9]", epoch), "EpochNotNumber", 0),
        (not revision, "RevisionEmpty", 0),
        (not upstream, "UpstreamEmpty", 0),
        (bad_upstream, "UpstreamByte", bad_upstream and start + bad_upstream.start()),
        (bad_revision, "RevisionByte", bad_revision and after + bad_revision.start()),
    )
    return next(((reason, place) for holds, reason, place in faults if holds), None)


class Reading:
    """A relation that is read from the left."""

    def __init__(self, text: bytes):
        self.text = text
        self.at = 0
        self.most_alternatives = 0
        self.operators = set()

    def take(self, pattern) -> bytes:
        """Takes the longest run of a pattern."""
        run = pattern.match(self.text, self.at)[0]
        self.at += len(run)
        return run

    def is_next(self, byte: bytes) -> bool:
        """Takes a byte, if it is the next one."""
        found = self.text[self.at : self.at + 1] == byte
        self.at += found
        return found

    def run(self, pattern, good, reason: str) -> bytes:
        """Takes a run, which is to be as `good` says."""
        start = self.at
        run = self.take(pattern)
        if not good.fullmatch(run):
            raise Refused(reason if run or reason != "NameBad" else "NameExpected", start)
        return run

    def relation(self):
        """Reads all of the text."""
        while True:
            self.take(SPACE)
            if self.at < len(self.text) and self.text[self.at : self.at + 1] != b",":
                self.group()
            if not self.is_next(b","):
                return

    def group(self):
        """Reads a group, up to a comma or the end of the text."""
        alternatives = 0
        while True:
            self.alternative()
            alternatives += 1
            self.most_alternatives = max(self.most_alternatives, alternatives)
            if not self.is_next(b"|"):
                break
        if self.text[self.at : self.at + 1] not in (b"", b","):
            raise Refused("Trailing", self.at)

    def alternative(self):
        """Reads an alternative, with the white space around it."""
        self.take(SPACE)
        self.run(NAME_RUN, PACKAGE, "NameBad")
        if self.is_next(b":"):
            self.run(NAME_RUN, ARCHITECTURE, "QualifierBad")
        self.take(SPACE)
        if self.is_next(b"("):
            self.bound()
        self.take(SPACE)
        if self.is_next(b"["):
            self.items(b"]", ARCHITECTURE)
        self.take(SPACE)
        while self.is_next(b"<"):
            self.items(b">", PROFILE)
            self.take(SPACE)

    def bound(self):
        """Reads a bound after its parenthesis."""
        self.take(SPACE)
        self.operators.add(self.run(OPERATOR_RUN, OPERATOR, "OperatorBad"))
        self.take(SPACE)
        start = self.at
        fault = version_fault(self.take(VERSION_RUN))
        if fault:
            raise Refused(fault[0], start + fault[1])
        self.take(SPACE)
        if not self.is_next(b")"):
            raise Refused("Unclosed", self.at)

    def items(self, closing: bytes, good):
        """Reads a list after its opening byte."""
        signs = set()
        while True:
            self.take(SPACE)
            start = self.at
            if start == len(self.text):
                raise Refused("Unclosed", start)
            if self.is_next(closing):
                break
            item = self.take(ITEM_RUNS[closing])
            if not good.fullmatch(item.removeprefix(b"!")):
                raise Refused("ItemBad", start)
            signs.add(item.startswith(b"!"))
            if closing == b"]" and len(signs) > 1:
                raise Refused("MixedSigns", start)
        if not signs:
            raise Refused("ListEmpty", start)


def relation_fault(folded: bytes, body: bytes) -> Optional[Fault]:
    """Why a body of a relationship field is refused."""
    reading = Reading(body)
    try:
        reading.relation()
    except Refused as refused:
        return Fault("BadRelation", refused.reason, refused.place)
    if reading.most_alternatives > 1 and folded not in WITH_ALTERNATIVES:
        return Fault("AlternativesNotAllowed")
    if folded == b"provides" and reading.operators - {b"="}:
        return Fault("ProvidesBound")
    return None


def source_fault(body: bytes) -> Optional[Fault]:
    """Why a body of the field Source is refused."""
    name, parenthesis, rest = body.partition(b"(")
    if not parenthesis:
        return None if PACKAGE.fullmatch(body) else Fault("BadName")
    if not PACKAGE.fullmatch(name.rstrip(b" \t")) or not rest.endswith(b")"):
        return Fault("BadName")
    start = len(body) - len(rest.lstrip(b" \t"))
    fault = version_fault(rest[:-1].strip(b" \t"))
    return Fault("BadVersion", fault[0], start + fault[1]) if fault else None


def fault_of(field: bytes, body: bytes) -> Optional[Fault]:
    """Why a body is refused in the field Version, in Source or in a relationship field."""
    folded = field.lower()
    if folded == b"version":
        fault = version_fault(body)
        return Fault("BadVersion", *fault) if fault else None
    if folded == b"source":
        return source_fault(body)
    return relation_fault(folded, body)


FIELDS = (b"Version", b"Source", b"Depends", b"Build-Depends", b"Conflicts", b"Provides")
# What is put into a value: the bytes that mean something in it, and some that it may not contain.
PIECES = (
    *(b" ", b"\t", b"\n ", b",", b"|", b":", b"(", b")", b"[", b"]", b"<", b">", b"=", b"!"),
    *(b"-", b"_", b"~", b"+", b"1", b"a", b"A", b"", b"", b"[]", b"<>", b"!x ", b" x", b"-)"),
)
TOKEN = re.compile(rb"[A-Za-z0-9.+~]+|\s+|[^A-Za-z0-9.+~\s]")
# A newline that the lines of a body can't have: the next line is blank, or doesn't continue it.
STRAY_NEWLINE = re.compile(rb"\n(?![ \t]+[^ \t\n])")


def nearly(random, field: bytes) -> bytes:
    """A body of the field that is accepted, or differs from such a one by a few pieces."""
    folded = field.lower()
    if folded == b"version":
        body = random.choice(VERSIONS)
    elif folded != b"source" and (folded != b"provides" or random.random() < 0.5):
        groups = [alternative(random) for _ in range(random.choice((1, 1, 2)))]
        body = random.choice((b", ", b" | ")).join(groups)
    else:
        body = body_of(random, "binary", folded)
    for _ in range(random.choice((0, 1, 1, 1, 2, 3))):
        body = with_piece(random, body)
    if folded in (b"version", b"source"):
        body = body.replace(b"\n", b" ")
    return STRAY_NEWLINE.sub(b" ", body).strip(b" \t")


def with_piece(random, body: bytes) -> bytes:
    """The body cut off behind one of its tokens, or with a piece before it or in its place."""
    tokens = list(TOKEN.finditer(body))
    start, end = random.choice(tokens).span() if tokens else (0, 0)
    chance = random.random()
    if chance < 0.15:
        return body[:end]
    if chance < 0.3:
        at = random.randint(start, end)
        return body[:at] + random.choice(PIECES) + body[at:]
    return body[:start] + random.choice(PIECES) + body[start if chance < 0.7 else end :]
