"""Faults of a program's calls: runs a case with one, and says what is wrong with the answer."""
import errno
import itertools
import os
import re
import signal
import socket
import struct
import subprocess
from dataclasses import dataclass
from typing import Dict, Optional, Tuple

from faults.cases import STAND_INS, Case

SECONDS = 10
FAULT_STATUS = 3
# The calls that the library counts, in its order.
KINDS = ["growth", "read", "write", "open", "stat"]
FAULT_LINES = {
    "growth": b"fault: memory\n",
    "read": b"fault: read\n",
    "open": b"fault: read\n",
    "stat": b"fault: read\n",
    "write": b"fault: write\n",
}
# The commands that collect a list with a known bound.
COLLECTING = "sort", "audit", "installable", "latest", "select"
# The errors of wrong arguments that a hint may follow.
HINTED = b"usage: unknown kind", b"usage: unknown command"


@dataclass(frozen=True)
class Fault:
    """What becomes of the k-th call of a kind, or of all from it on: it fails with an error, or
    without one moves a few bytes. Where reads or writes are slow, all others of them move so few."""

    name: str
    calls: str = ""
    error: Optional[int] = None
    is_lasting: bool = False
    slow: str = ""
    few: int = 1

    @property
    def counted(self):
        """The name under which the library counts these calls."""
        return self.calls + "s"

    @property
    def pace(self):
        """Which devices are slow, and how slow; empty where none is."""
        return f"{self.slow} {self.few}" if self.slow else ""

    @property
    def why(self):
        """What is told of a file that can't be opened for it."""
        words = {errno.EACCES: b"permission denied"}
        return words.get(self.error, b"os error %d" % self.error)

    def asked(self, k):
        """What the library is asked for, as the bytes of its `struct asked`."""
        kinds = [self.calls, self.slow]
        calls, slow = (KINDS.index(it) if it else len(KINDS) for it in kinds)
        last = 2**63 - 1 if self.is_lasting else k
        is_failing = self.error is not None
        return struct.pack("7q", calls, slow, k, last, self.few, is_failing, self.error or 0)


# Those of which one run of a case is enough.
NOTHING = Fault("nothing fails")
SLOW = [
    Fault("every read moves one byte", "read", is_lasting=True, slow="read"),
    Fault("every read moves 7 bytes", "read", is_lasting=True, slow="read", few=7),
    Fault("every write moves one byte", "write", is_lasting=True, slow="write"),
    Fault("every write moves 7 bytes", "write", is_lasting=True, slow="write", few=7),
]

# Runs on closed streams, and each choice of these.
CLOSED = Fault("standard streams are closed")
STREAMS = [it for count in (1, 2, 3) for it in itertools.combinations(range(3), count)]

# Those that are tried at every k. An error of 0 is a write that takes nothing.
FAULTS = [
    Fault("growth k is refused", "growth", errno.ENOMEM),
    Fault("growths from k on are refused", "growth", errno.ENOMEM, is_lasting=True),
    Fault("growth k is refused, reads move one byte", "growth", errno.ENOMEM, slow="read"),
    Fault("growth k is refused, reads move 7 bytes", "growth", errno.ENOMEM, slow="read", few=7),
    Fault("read k fails with EIO", "read", errno.EIO),
    Fault("read k fails with EINTR", "read", errno.EINTR),
    Fault("read k moves one byte", "read"),
    Fault("read k fails with EIO, others move one byte", "read", errno.EIO, slow="read"),
    Fault("read k fails with EIO, others move 7 bytes", "read", errno.EIO, slow="read", few=7),
    Fault("write k fails with EIO", "write", errno.EIO),
    Fault("write k fails with ENOSPC", "write", errno.ENOSPC),
    Fault("write k fails with EINTR", "write", errno.EINTR),
    Fault("write k takes nothing", "write", 0),
    Fault("writes from k on fail with EIO", "write", errno.EIO, is_lasting=True),
    Fault("writes from k on take nothing", "write", 0, is_lasting=True),
    Fault("write k moves one byte", "write"),
    Fault("write k fails with EIO, others move one byte", "write", errno.EIO, slow="write"),
    Fault("write k fails with EIO, others move 7 bytes", "write", errno.EIO, slow="write", few=7),
    Fault("open k fails with EIO", "open", errno.EIO),
    Fault("open k fails with EACCES", "open", errno.EACCES),
    Fault("open k fails with EMFILE", "open", errno.EMFILE),
    Fault("open k fails with EINTR", "open", errno.EINTR),
    Fault("stat k fails with EIO", "stat", errno.EIO),
]


@dataclass(frozen=True)
class Answer:
    """What a run wrote, its status, and the library's record, empty where there is none, with the stack
    of the first growth that was refused."""

    out: bytes
    err: bytes
    status: Optional[int]
    record: Dict[str, int]
    stack: bytes = b""


@dataclass(frozen=True)
class Wanted:
    """The answer that is wanted: of each text all of it, or what the rule says. By `one` standard output
    is one of some texts. Before its line standard error may have the first lines of a text."""

    out: bytes
    err: bytes
    status: int
    out_rule: str = "all"
    err_rule: str = "all"
    most_paragraphs: Optional[int] = None
    outs: Tuple[bytes, ...] = ()
    before: bytes = b""


class Runs:
    """The runs of a case in the folder that contains its files: the program waits before `main`, and each
    run is a process that is forked off there. A context, which ends the program."""

    def __init__(self, program, library, case: Case, folder):
        texts = ["out", "err", "record", "stack"]
        self.out, self.err, self.record, self.stack = map(os.memfd_create, texts)
        self.socket, theirs = socket.socketpair()
        passed = [self.record, self.stack, theirs.fileno()]
        names = ["FAULTS_RECORD", "FAULTS_STACK", "FAULTS_RUNS"]
        with theirs, open(folder / case.stdin if case.stdin else os.devnull, "rb") as stdin:
            self.process = subprocess.Popen(
                # The name of the program takes memory too: so the counts are the same wherever it lies.
                ["debctl", *case.words],
                executable=program,
                stdin=stdin,
                stdout=self.out,
                stderr=self.err,
                cwd=folder,
                env={"LD_PRELOAD": library, **dict(zip(names, map(str, passed)))},
                pass_fds=passed,
            )

    def __enter__(self):
        return self

    def __exit__(self, *_):
        self.socket.close()
        self.process.wait()
        for descriptor in (self.out, self.err, self.record, self.stack):
            os.close(descriptor)

    def run(self, fault: Fault, k=1):
        """Makes a run with a fault at a call."""
        try:
            self.socket.sendall(fault.asked(k))
            status = os.waitstatus_to_exitcode(*struct.unpack("i", self.socket.recv(4)))
        except (OSError, struct.error):
            # It hasn't loaded the library, and was the one run itself.
            status = self.process.wait()
        pairs = read_all(self.record).decode().split()
        numbers = {name: int(number) for name, _, number in (it.partition("=") for it in pairs)}
        is_late = status == -signal.SIGALRM
        texts = map(read_all, (self.out, self.err))
        return Answer(*texts, None if is_late else status, numbers, read_all(self.stack))


def read_all(descriptor):
    """The bytes of a file in memory."""
    return os.pread(descriptor, os.fstat(descriptor).st_size, 0)


def run_on_streams(program, case: Case, folder, redirections):
    """Runs a case in the folder of its files, with these redirections of a shell for its streams,
    and gives what it wrote, and its status."""
    stdin = os.open(folder / case.stdin if case.stdin else os.devnull, os.O_RDONLY)
    try:
        ran = subprocess.run(
            ["sh", "-c", f'exec "$0" "$@" {redirections}', program, *case.words],
            stdin=stdin,
            capture_output=True,
            cwd=folder,
            timeout=SECONDS,
            check=False,
        )
        return ran.stdout, ran.stderr, ran.returncode
    finally:
        os.close(stdin)


def complaint_of_closed(program, case: Case, folder, streams):
    """Says in some lines what is wrong with a run on closed streams, or None: it has to answer as
    where they are the root directory, of which each read and write fails."""
    closed = " ".join(f"{number}<&-" for number in streams)
    failing = " ".join(f"{number}</" for number in streams)
    seen = run_on_streams(program, case, folder, closed)
    wanted = run_on_streams(program, case, folder, failing)
    if seen == wanted:
        return None
    return f"""failed: {case.place}: {case.command[:200]}
  with {closed} it doesn't answer as with {failing}
  wanted: {shown(wanted[0])}; {shown(wanted[1])}; status {wanted[2]}
  seen: {shown(seen[0])}; {shown(seen[1])}; status {seen[2]}"""


def is_asked_again(case: Case, fault: Fault, record):
    """Whether std made an interrupted call once more, as if nothing had happened. It does so with
    each open, and with a write that empties the buffer before standard output or standard error,
    but not with one that goes past the buffer, or where there is none."""
    if fault.error != errno.EINTR or not record.get("met"):
        return False
    is_again = case.is_job and record["asked_after_failure"] >= 1
    return fault.calls == "open" or (fault.calls == "write" and is_again)


def asks_for_hint(case: Case, status):
    """Whether the program looks for DEBCTL_HINTS, which takes memory, once it has an answer with this
    status: after an error of a job, and after wrong arguments for which there is a hint."""
    if case.is_job and case.words[0] not in ("audit", "explain"):
        return status is not None and status > 1
    return case.err.startswith(HINTED)


def is_asked_for_less(case: Case, fault: Fault, answer: Answer):
    """Whether std asked once more for memory, for less of it. It does so in `collect`, by which
    `sort` gathers its lines, `audit` the paths of a list, `installable` the packages that have one of
    many versions of a name, `latest` the numbers of its paragraphs, `select` the words of a value, and
    clap the letters of a word that may be similar to a wrong one: where the room for all that may come is refused, it asks for
    that of one. Then there are more growths than where nothing fails."""
    has_collect = case.words[0] in COLLECTING or b"\n  tip: a similar " in case.err
    if fault.calls != "growth" or fault.is_lasting or not has_collect:
        return False
    growths = answer.record.get("growths", 0) - asks_for_hint(case, answer.status)
    return growths > case.growths(fault.pace) - asks_for_hint(case, case.status)


def is_gone_without(fault: Fault, record):
    """Whether the call was one that opens the root directory, without which the program goes on."""
    return fault.calls == "open" and record.get("opens_at_met", 0) <= STAND_INS


def is_hint_left_out(case: Case, fault: Fault, k):
    """Whether the growth was the last one, with which the program looks for DEBCTL_HINTS. If it is
    refused, there is no hint."""
    is_last = fault.calls == "growth" and k == case.growths(fault.pace)
    return is_last and asks_for_hint(case, case.status)


def wanted_of(case: Case, fault: Fault, k, answer: Answer):
    """The answer that is wanted of a run with a fault at the k-th call, by what it did."""
    record = answer.record
    is_made_up_for = (
        is_asked_again(case, fault, record)
        or is_asked_for_less(case, fault, answer)
        or is_gone_without(fault, record)
        or is_hint_left_out(case, fault, k)
    )
    if fault.error is None or not record.get("met") or is_made_up_for:
        rules = ["begins" if name in case.open_ended else "all" for name in ("out", "err")]
        return Wanted(case.out, case.err, case.status, *rules)
    line = FAULT_LINES[fault.calls]
    before = case.err if "--accepted" in case.words else b""
    if fault.calls == "write":
        on_stderr = record["met_on_stderr"]
        if on_stderr == record["met"]:
            return Wanted(case.out, case.err, FAULT_STATUS, err_rule="part")
        return Wanted(case.out, line, FAULT_STATUS, "part", "part" if on_stderr else "all", before=before)
    if case.words[0] == "audit":
        return wanted_of_audit(case, fault, record)
    if case.words[0] == "explain" and fault.calls in ("open", "stat"):
        told = (b"file: ", case.words[-1].encode(), b"\nfault: read\nreason: ", fault.why, b"\n")
        return Wanted(b"".join(told), line, FAULT_STATUS)
    if "--all" in case.words:
        return wanted_of_all(case, fault, record)
    if case.words[0] == "select":
        return Wanted(case.out, line, FAULT_STATUS, rule_of_select(case), before=before)
    if case.words[0] in ("unmet", "healthy"):
        return Wanted(case.out, line, FAULT_STATUS, "whole lines")
    if case.words[0] not in ("normalise", "latest"):
        return Wanted(b"", line, FAULT_STATUS)
    is_bounded = fault.calls == "read" and case.words[0] == "normalise"
    most = paragraphs_read(case, record) if is_bounded else None
    return Wanted(case.out, line, FAULT_STATUS, "whole paragraphs", most_paragraphs=most)


def rule_of_select(case: Case):
    """How much of its output `select` may have written before a fault: a count comes last."""
    if "--count" in case.words:
        return "part"
    return "whole lines" if "--format" in case.words else "whole paragraphs"


def wanted_of_all(case: Case, fault: Fault, record):
    """The answer of `check` and `explain` with all refusals: those of the first runs, and no last
    line. After a failed read they are those of the runs whose end was read."""
    line = FAULT_LINES[fault.calls]
    if case.words[0] == "explain":
        told = re.findall(rb"(?s).*?\n\n", case.out)
    else:
        told = case.out.splitlines(keepends=True)[:-1]
    if fault.calls == "read" and told:
        last = lines_of_runs_read(case, record)
        told = [it for it in told if int(re.search(rb"(?m)^line:? (\d+)", it)[1]) <= last]
        return Wanted(b"".join(told), line, FAULT_STATUS)
    outs = tuple(itertools.accumulate(told, initial=b""))
    return Wanted(case.out, line, FAULT_STATUS, "one", outs=outs)


def wanted_of_audit(case: Case, fault: Fault, record):
    """The answer of an audit: the file that was opened last tells the fault, with all refusals after
    those of its first runs, and so does each later one where the fault lasts; but before the first one
    was opened the audit ends with it. Of a path that can't be opened, that of a list among them, it is
    told why."""
    line = FAULT_LINES[fault.calls]
    is_unopened = fault.calls in ("open", "stat")
    number = record["opens_at_met"] - case.opens_before_files
    if number < 1:
        told = case.words[-1].encode() + b": fault: read: " + fault.why + b"\n"
        return Wanted(told if is_unopened else b"", line, FAULT_STATUS)
    if is_unopened:
        line = b"fault: read: " + fault.why + b"\n"
    files = records_of(case)
    told = [[b"".join(records)] for records in files]
    for at in range(number - 1, len(files) if fault.is_lasting else number):
        path, _, answer = files[at][-1].partition(b": ")
        if is_unopened or not answer.startswith(b"fault: "):
            first = files[at][:-1] if at == number - 1 and not is_unopened else []
            told[at] = [it + path + b": " + line for it in itertools.accumulate(first, initial=b"")]
    outs = tuple(map(b"".join, itertools.product(*told)))
    return Wanted(outs[0], b"", FAULT_STATUS, "one", outs=outs)


def records_of(case: Case):
    """The records of each file of an audit; with all refusals the last one has its numbers, or tells
    its fault."""
    files = [[]]
    for record in case.out.splitlines(keepends=True):
        files[-1].append(record)
        if "--all" not in case.words or re.match(rb"[^:]*: (?:ok|fault)", record):
            files.append([])
    return files[:-1]


def lines_of_runs_read(case: Case, record):
    """The number of the last line of the one input that is blank, comes after a run of others, and
    was read with its newline."""
    [text] = case.inputs
    last, is_inside = 0, False
    for number, line in enumerate(text[: record["bytes_read"]].split(b"\n")[:-1], 1):
        is_blank = not line.strip(b" \t")
        last = number if is_inside and is_blank else last
        is_inside = not is_blank
    return last


def paragraphs_read(case: Case, record):
    """How many paragraphs of the one input were read up to the newline of a blank line."""
    [text] = case.inputs
    ended, is_inside = 0, False
    for line in text[: record["bytes_read"]].split(b"\n")[:-1]:
        is_blank = not line.strip(b" \t")
        ended += is_inside and is_blank
        is_inside = not is_blank
    return ended


def fits(seen, text, rule, most=None):
    """Whether what was written is all of a text, begins with it, is a part of it that lacks some
    of its end, or is whole lines from its beginning, or whole paragraphs, at most so many, without a
    separator behind the last."""
    if rule == "begins":
        return seen.startswith(text)
    if rule == "part":
        return text.startswith(seen) and seen != text
    if rule == "whole lines":
        return text.startswith(seen) and (not seen or seen.endswith(b"\n"))
    if rule == "whole paragraphs":
        paragraphs = text[:-1].split(b"\n\n") if text else []
        counts = range(len(paragraphs) + 1 if most is None else min(most, len(paragraphs)) + 1)
        return any(seen == b"\n\n".join(paragraphs[:n]) + b"\n" * (n > 0) for n in counts)
    return seen == text


def wrong_end(answer: Answer, case: Case, fault: Fault):
    """What is wrong with how a run ended and with what it asked of its devices, if anything."""
    if answer.status is None:
        return f"it took more than {SECONDS} seconds"
    if answer.status < 0:
        return f"it was ended by signal {-answer.status}"
    if not answer.record:
        return "it left no record: it didn't load the library, or ended by `_exit`"
    number = answer.record["asked_after_failure"]
    if number and not (fault.calls == "write" and is_asked_again(case, fault, answer.record)):
        return f"after a call had failed, {number} more were made on its descriptor"
    if answer.record["asked_after_end"]:
        return "it read on behind the end of its input"
    return None


def wrong_calls(answer: Answer, case: Case, fault: Fault, is_met):
    """What is wrong with the calls of a run, if anything: whether it met its fault as it was to,
    and whether the library sees them all where nothing fails."""
    record = answer.record
    if is_met != bool(record["met"]):
        return f"it met the fault at {record['met']} calls"
    if fault != NOTHING:
        return None
    least = {
        "growths": 1,
        "reads": bool(case.inputs) and case.opens_all,
        "writes": bool(case.out or case.err),
        "opens": STAND_INS + len(case.paths),
    }
    for name, number in least.items():
        if record[name] < number:
            return f"the library saw {record[name]} {name}, and not {int(number)} at least"
    return None


def wrong_texts(answer: Answer, wanted: Wanted):
    """What is wrong with what a run answered, if anything."""
    if answer.status != wanted.status:
        return f"its status is {answer.status}"
    if wanted.out_rule == "one":
        is_wanted = answer.out in wanted.outs
    else:
        is_wanted = fits(answer.out, wanted.out, wanted.out_rule, wanted.most_paragraphs)
    if not is_wanted:
        return "standard output differs"
    lines = itertools.accumulate(wanted.before.splitlines(keepends=True), initial=b"")
    if not any(fits(answer.err, before + wanted.err, wanted.err_rule) for before in lines):
        return "standard error differs"
    return None


def complaint(case: Case, fault: Fault, k, is_met, answer: Answer):
    """Says in some lines what is wrong with a run, or None. It is to meet its fault, or not to."""
    wanted = wanted_of(case, fault, k, answer)
    why = (
        wrong_end(answer, case, fault)
        or wrong_texts(answer, wanted)
        or wrong_calls(answer, case, fault, is_met)
    )
    if not why:
        return None
    place = f"{case.place}: {case.command[:200]}"
    return f"""failed: {place}
  {fault.name}, k = {k}: {why}
  wanted: status {wanted.status}; {wanted.out_rule} of {shown(wanted.out)}; \
on standard error {wanted.err_rule} of {shown(wanted.err)}
  seen: status {answer.status}; {shown(answer.out)}; on standard error {shown(answer.err)}"""


def shown(text):
    """A text on one line, its middle cut out where it is long."""
    line = repr(text)[1:]
    return line if len(line) < 600 else f"{line[:300]} .. {line[-250:]}"
