"""The places at which a program takes memory, and which of them were refused it in a run.

A place is a call, in a function of this project, of the allocator or of a function of another
library that may take memory. Places are read from the machine code, as `nm` and `objdump` show it,
so each is there as often as the compiler has copied it. A growth that is refused belongs to all
places that its stack goes through. The stack is followed from call to call by how many bytes each
function has put on it there, which its code says.
"""
import re
import struct
import subprocess
from bisect import bisect_right
from collections import Counter, defaultdict

TAKES = {"malloc", "realloc", "calloc", "aligned_alloc", "memalign", "posix_memalign"}
OWN = re.compile(r"deb(ctl)?(_\w+)?::")
# Stands for the address after a call that isn't known.
LOST = -1
LEAVES = {"jmp", "ret", "ud2", "hlt"}
INSTRUCTION = re.compile(
    r"^ *([0-9a-f]+):\t(?:(?:notrack|bnd|repz?) )?(\S+) *([^#\n]*)", re.M
)
MOVES = re.compile(r"\$0x([0-9a-f]+),%rsp")
# How far a loop goes that puts many pages on the stack, one after another.
GOES_TO = re.compile(r"(\$0x[0-9a-f]+),%r11")
# What never takes memory, though its code may: a buffered writer takes its 8 KiB as it is made.
HAS_ROOM = {"std::io::buffered::BufWriter::write_cold"}
# The same of this project's functions: of the values that these read, none is a relation, and only
# relations take memory.
READS_NO_RELATION = {
    "deb_control::paragraph_check::visit_as_kind",
    "deb_control::paragraph_check::visit_as_source",
}


def output(*words):
    """What a command prints, or nothing if it fails or isn't there."""
    try:
        return subprocess.run(words, capture_output=True, text=True, check=True).stdout
    except (OSError, subprocess.CalledProcessError):
        return ""


def plain(name):
    """A function's name without the sums of its types."""
    return re.sub(r"(::)?<#[0-9a-f]+>", "", name)


def moved(operation, words):
    """How many bytes an instruction puts on the stack."""
    if operation in ("push", "pop"):
        return 8 if operation == "push" else -8
    number = MOVES.fullmatch(words) if operation in ("sub", "add") else None
    if number is None:
        return 0
    number = int(number[1], 16)
    number -= (number >> 63) << 64
    return number if operation == "sub" else -number


def with_loops_as_steps(code):
    """The code, in which a loop that puts many pages on the stack does so in its one step."""
    code = list(code)
    for at in range(1, len(code) - 1):
        goes_to = GOES_TO.fullmatch(code[at][2])
        if goes_to and code[at][1] == "sub" and code[at - 1][1:] == ("mov", "%rsp,%r11"):
            address, operation, _ = code[at + 1]
            code[at + 1] = address, operation, f"{goes_to[1]},%rsp"
    return code


def depths_of(code):
    """How many bytes a function has on the stack before each of its instructions: none at first,
    and a jump leads on with what it has. Where only a table of jumps leads, it is what most have."""
    depths, usual = {code[0][0]: 0}, None
    for turn in range(4):
        depth = None
        for address, operation, words in code:
            depth = depths.get(address, usual if depth is None else depth)
            if depth is None:
                continue
            depths[address] = depth
            target = re.match(r"([0-9a-f]+) <", words)
            if operation.startswith("j") and target:
                depths.setdefault(int(target[1], 16), depth)
            depth = None if operation in LEAVES else depth + moved(operation, words)
        usual = Counter(depths.values()).most_common(1)[0][0] if turn == 2 else None
    return depths


class Places:
    """The calls of a program, and how often memory was refused below each."""

    def __init__(self, program):
        found = re.findall(r"(?m)^([0-9a-f]+) [tTwW] (.*)$", output("nm", "-n", program))
        self.starts = [int(address, 16) for address, _ in found]
        self.names = [plain(name) for _, name in found]
        self.entry = dict(zip(self.names, self.starts)).get("_start", 0)
        # By the address behind each: its function, what is called, and the bytes on the stack.
        self.calls = {}
        code = output("objdump", "-d", "--no-show-raw-insn", program) if found else ""
        for function in re.split(r"(?m)^[0-9a-f]+ <.*>:$", code)[1:]:
            self.read(INSTRUCTION.findall(function))
        self.taking = self.find_taking()

    def name_at(self, address):
        """The function that an address is in."""
        return self.names[max(bisect_right(self.starts, address) - 1, 0)]

    def read(self, lines):
        """Reads the calls of a function."""
        code = [(int(address, 16), operation, words.strip()) for address, operation, words in lines]
        depths = depths_of(with_loops_as_steps(code))
        for (address, operation, words), (behind, *_) in zip(code, code[1:]):
            to = re.match(r"([0-9a-f]+) <(?:(.*)@plt>)?", words)
            if operation == "call" and to:
                called = to[2] or self.name_at(int(to[1], 16))
                self.calls[behind] = (self.name_at(address), called, depths.get(address, 0))

    def find_taking(self):
        """The functions of other libraries that may take memory."""
        calls = defaultdict(set)
        for function, called, _ in self.calls.values():
            if not OWN.match(function) and function not in HAS_ROOM:
                calls[function].add(called)
        taking, more = set(), TAKES
        while more:
            taking |= more
            more = {it for it, called in calls.items() if called & taking} - taking
        return taking

    def calls_in(self, stack, entry):
        """The addresses after the calls in which a growth was refused, by its stack and the address of
        the program's entry, and LOST if they end before `main`."""
        if not self.calls:
            return []
        words = struct.unpack(f"{len(stack) // 8}Q", stack[: len(stack) // 8 * 8])
        base, at, found = entry - self.entry, 0, []
        while at < len(words) and words[at] - base in self.calls:
            found.append(words[at] - base)
            at += 1 + self.calls[found[-1]][2] // 8
        is_lost = not found or "main" not in self.calls[found[-1]][0]
        return [*found, LOST] if is_lost else found

    def rows(self, refused):
        """For each function with places: how many it has, how many of them were refused memory, and
        how often, by how often it was refused at each address."""
        rows = defaultdict(lambda: [0, 0, 0])
        for behind, (function, called, _) in self.calls.items():
            if OWN.match(function) and called in self.taking:
                row, times = rows[function], refused[behind]
                rows[function] = [row[0] + 1, row[1] + (times > 0), row[2] + times]
        return rows

    def wrong(self, refused):
        """What is wrong: functions that take memory and were never refused it, and lost stacks."""
        without = {it for it, row in self.rows(refused).items() if not row[1]} - READS_NO_RELATION
        wrong = [f"no run refuses memory to {it}" for it in sorted(without)]
        lost = [f"{refused[LOST]} stacks of refused growths end before main"]
        return wrong + lost * bool(refused[LOST])
