"""The Python module: how long an index lives, at its end and at the interpreter's.

Each scenario runs in an interpreter of its own, since the answer to a mistake is often a crash. In
each, `asked` says what an index answers: `right`, `closed`, or what is wrong.
"""

import subprocess
import sys

HEAD = r"""
import atexit, copy, gc, os, pickle, signal, sys, threading, time
import debctl

TEXT = "\n".join(
    f"Package: p{at}\nVersion: {at}\nArchitecture: all\nProvides: v{at}\n" for at in range(200)
)
REPORT = "met p7 (>= 7)\n 8 p7 7 all\n"

def text_of(report):
    return report.text if isinstance(report.text, str) else report.text.decode()

def asked(index):
    try:
        report = index.query("p7 (>= 7)", "amd64")
        if not report.met or text_of(report) != REPORT:
            return f"wrong: {report}"
        if index.packages("p7") != [8] or index.providers("v7") != [8] or len(index) != 200:
            return "wrong numbers"
        if index.package(8) != ("p7", "7", "all") or index.unmet(TEXT, "amd64").met is not True:
            return "wrong package"
    except ValueError as error:
        return "closed" if "closed" in str(error) else f"wrong: {error!r}"
    return "right"

def churn():
    # fills memory that was freed with something else
    return [bytes([at % 251]) * size for at in range(300) for size in (64, 400, 4096)]

def say(answer):
    os.write(1, f"{answer}\n".encode())
"""

# The name of each scenario: its code, and what it writes: each line is one of these words.
SCENARIOS = {
    "a cycle whose __del__ asks": (
        r"""
class Asks:
    def __del__(self):
        churn()
        say(asked(self.index))
for turn in range(50):
    one = Asks()
    one.index = debctl.Index(TEXT)
    one.index.cycle = one
    del one
    gc.collect()
""",
        {"right", "closed"}, 50,
    ),
    "a cycle of an Index that asks itself": (
        r"""
class Asks(debctl.Index):
    def __del__(self):
        churn()
        say(asked(self))
for turn in range(50):
    one = Asks(TEXT)
    one.cycle = one
    del one
    gc.collect()
""",
        {"right", "closed"}, 50,
    ),
    "a __del__ that starts a thread which asks": (
        r"""
done = []
class Asks(debctl.Index):
    def __del__(self):
        index = self
        def run(index):
            for turn in range(40):
                churn()
                done.append(asked(index))
        thread = threading.Thread(target=run, args=(index,))
        thread.start()
        threads.append(thread)
threads = []
for turn in range(20):
    one = Asks(TEXT)
    one.cycle = [one]
    del one
    gc.collect()
for thread in threads:
    thread.join()
for it in done:
    say(it)
""",
        {"right", "closed"}, 800,
    ),
    "daemon threads at exit": (
        r"""
atexit.register(time.sleep, 0.2)
index = debctl.Index(TEXT)
def run():
    while True:
        answer = asked(index)
        if answer != "right":
            say(answer)
for _ in range(4):
    threading.Thread(target=run, daemon=True).start()
time.sleep(0.2)
say("right")
""",
        {"right"}, 1,
    ),
    "atexit functions": (
        r"""
index = debctl.Index(TEXT)
atexit.register(lambda: (churn(), say(asked(index))))
early = debctl.Index(TEXT)
""",
        {"right"}, 1,
    ),
    "atexit functions that were registered first": (
        r"""
class Late:
    pass
late = Late()
atexit.register(lambda: (churn(), say(asked(late.index))))
late.index = debctl.Index(TEXT)
""",
        {"right"}, 1,
    ),
    "a __del__ of a global": (
        r"""
class Asks:
    def __init__(self):
        self.index = debctl.Index(TEXT)
    def __del__(self, say=say, asked=asked):
        say(asked(self.index))
one = Asks()
""",
        {"right"}, 1,
    ),
    "a __del__ of a global that a module of C keeps": (
        r"""
class Asks:
    def __init__(self):
        self.index = debctl.Index(TEXT)
    def __del__(self, query=debctl.Index.query, write=os.write, text_of=text_of, report=REPORT):
        try:
            found = text_of(query(self.index, "p7 (>= 7)", "amd64"))
            write(1, b"right\n" if found == report else b"wrong\n")
        except Exception:
            write(1, b"an exception\n")
sys.modules["time"].kept = Asks()
""",
        {"right", "an exception"}, 1,
    ),
    "copies": (
        r"""
index = debctl.Index(TEXT)
for call in (
    copy.copy, copy.deepcopy, pickle.dumps, lambda it: it.__reduce__(), lambda it: it.__reduce_ex__(4),
    lambda it: copy.deepcopy([it]),
):
    try:
        again = call(index)
        say("copied")
        if isinstance(again, debctl.Index):
            del index
            churn()
            say(asked(again))
            index = debctl.Index(TEXT)
    except TypeError:
        say("no copy")
say(asked(index))
""",
        {"no copy", "right"}, 7,
    ),
    "fork": (
        r"""
index = debctl.Index(TEXT)
for turn in range(5):
    child = os.fork()
    if child == 0:
        say(asked(index))
        if turn % 2:
            del index
            gc.collect()
            sys.exit()
        os._exit(0)
    assert os.waitpid(child, 0)[1] == 0
    say(asked(index))
""",
        {"right"}, 10,
    ),
    "paragraphs of a cycle, and at exit": (
        r"""
class Asks:
    def __del__(self):
        churn()
        try:
            say("right" if next(self.paragraphs)["Package"] == "p1" else "wrong")
        except (ValueError, StopIteration):
            say("closed")
for turn in range(51):
    one = Asks()
    one.paragraphs = debctl.paragraphs(TEXT * 50)
    kept = next(one.paragraphs)
    one.cycle = one
    if turn < 50:
        del one
        gc.collect()
    assert kept["package"] == "p0"
""",
        {"right", "closed"}, 51,
    ),
    "a subclass that doesn't call __init__": (
        r"""
class Bare(debctl.Index):
    def __init__(self):
        pass
for bare in (Bare(), debctl.Index.__new__(debctl.Index)):
    for call in (
        lambda: bare.query("aa", "amd64"), lambda: bare.unmet("", "amd64"), lambda: bare.packages("aa"),
        lambda: bare.providers("aa"), lambda: bare.package(1), lambda: len(bare),
    ):
        try:
            say(call())
        except ValueError:
            say("closed")
    repr(bare)
""",
        {"closed"}, 12,
    ),
    "16 threads ask while one closes": (
        r"""
answers, kinds = [], set()
for turn in range(15):
    index = debctl.Index(TEXT)
    started = threading.Barrier(17)
    def run():
        started.wait()
        while True:
            answer = asked(index)
            answers.append(answer)
            if answer != "right":
                break
    threads = [threading.Thread(target=run) for _ in range(16)]
    for thread in threads:
        thread.start()
    started.wait()
    time.sleep(0.02)
    index.close()
    kept = churn()
    for thread in threads:
        thread.join()
    assert asked(index) == "closed"
    index.close()
say(sorted(set(answers)))
""",
        {"['closed', 'right']"}, 1,
    ),
    "closed at the end of a with statement": (
        r"""
with debctl.Index(TEXT) as index:
    say(asked(index))
say(asked(index))
for call in (len, lambda it: it.__enter__(), lambda it: it.package(1), lambda it: it.package(0)):
    try:
        say(call(index))
    except ValueError:
        say("closed")
say("closed" if "closed" in repr(index) else "open")
""",
        {"right", "closed"}, 7,
    ),
    "read again": (
        r"""
index = debctl.Index("")
for turn in range(20):
    index.__init__(TEXT)
    say(asked(index))
try:
    index.__init__("x")
except debctl.Refused:
    say(asked(index))
""",
        {"right"}, 21,
    ),
    "a signal handler that asks and closes": (
        r"""
index, said = debctl.Index(TEXT), []
def handler(*_):
    signal.signal(signal.SIGALRM, signal.SIG_IGN)  # on a slow machine they would nest without end
    said.append(asked(index))
    index.close()
    index.__init__(TEXT)
    signal.signal(signal.SIGALRM, handler)
signal.signal(signal.SIGALRM, handler)
signal.setitimer(signal.ITIMER_REAL, 0.001, 0.001)
until = time.monotonic() + 1
while time.monotonic() < until:
    said.append(asked(index))
signal.setitimer(signal.ITIMER_REAL, 0)
say(sorted(set(said) - {"closed"}))
""",
        {"['right']"}, 1,
    ),
    "a signal handler that raises": (
        r"""
import dis
import debctl._library as library
FOLDER = os.path.dirname(debctl.__file__)
counts = {}

class Stop(Exception):
    pass

def count(name):
    function = getattr(library.lib, name)
    def counted(*words):
        counts[name] = counts.get(name, 0) + 1
        return function(*words)
    return counted

def is_after_call(frame):
    # whether signals are handled there: the interpreter does so when a call has returned
    at, codes = frame.f_lasti - 2, frame.f_code.co_code
    while at > 0 and codes[at] == 0:  # an entry of a cache, not an instruction
        at -= 2
    return at >= 0 and dis.opname[codes[at]].startswith("CALL")

def raises_at(step, call):
    # whether the call came to this step of the package, at which an exception was raised
    def trace(frame, event, _):
        nonlocal step
        code = frame.f_code
        if not code.co_filename.startswith(FOLDER) or code.co_name in ("__del__", "_free"):
            return None
        frame.f_trace_opcodes = True
        if event == "opcode" and is_after_call(frame):
            step -= 1
            if step == 0:
                sys.settrace(None)
                raise Stop
        return trace
    sys.settrace(trace)
    try:
        call()
    except Stop:
        return True
    finally:
        sys.settrace(None)
    return False

for name in ("deb_index_read", "deb_index_free", "deb_reader_start", "deb_reader_free"):
    setattr(library.lib, name, count(name))
library.IndexMemory.free = staticmethod(library.lib.deb_index_free)
library.ReaderMemory.free = staticmethod(library.lib.deb_reader_free)
index, kept = debctl.Index(TEXT), []
def read():
    # what ends here isn't traced: an exception in it is printed
    kept.append(debctl.paragraphs(TEXT[:60]))
    next(kept[-1])
for name, call in (
    ("index", lambda: kept.append(debctl.Index(""))), ("reader", read),
    ("question", lambda: index.packages("p7")),
):
    steps = 1
    while raises_at(steps, call):
        steps += 1
        kept.clear()
    is_tried = steps > 9 or sys.version_info[:2] == (3, 12)  # some of these don't trace instructions
    say("right" if is_tried and asked(index) == "right" else f"wrong: {name}, {steps} steps")
del index
kept.clear()
gc.collect()
made = counts["deb_index_read"], counts["deb_reader_start"]
freed = counts["deb_index_free"], counts["deb_reader_free"]
say("right" if made == freed else f"wrong: {made} are made, {freed} freed")
""",
        {"right"}, 4,
    ),
}


def passes(code, wanted, count):
    """Whether a scenario ends well, and writes as many lines as it should, each of them right."""
    run = subprocess.run(
        [sys.executable, "-c", HEAD + code], stdout=subprocess.PIPE, stderr=subprocess.PIPE, check=False,
        text=True, timeout=900,
    )
    lines = run.stdout.splitlines()
    passed = run.returncode == 0 and set(lines) <= wanted and len(lines) == count and not run.stderr
    if not passed:
        wrong = [line for line in lines if line not in wanted]
        print(f"status {run.returncode}, {len(lines)} lines, {len(wrong)} wrong: {wrong[:1]}")
        print(run.stderr[-300:], end="")
    return passed


failed = 0
for name, scenario in SCENARIOS.items():
    if not passes(*scenario):
        print(f"lifetimes.py: {name}")
        failed += 1
print(f"lifetimes.py: {len(SCENARIOS) - failed} passed, {failed} failed")
sys.exit(bool(failed))
