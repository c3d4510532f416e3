"""The Python module: calls that a signal handler interrupts, which calls the module too."""

import itertools
import signal
import sys
import threading
import time

import debctl

INDEX = "Package: hello\nVersion: 1\nArchitecture: all\nDepends: bb, cc\n"
STATUS = "Status: install ok installed\n" + INDEX
VERSIONS = [f"{at % 7}:{at * 7919 % 1000}.{at}~rc{at % 5}-{at % 11}" for at in range(400)]
KEYS = {version: debctl.key(version) for version in VERSIONS}
SORTED = sorted(VERSIONS, key=KEYS.__getitem__)
LONG = ["1" * 300 + str(at) for at in range(20)]
DEEPEST = 3  # handlers within one another: on a slow machine signals come faster than they are handled
handled = itertools.cycle(VERSIONS + LONG)

FIXED = {
    "canonical": lambda: debctl.canonical("1.0-0"),
    "compare": lambda: debctl.compare("1", "2"),
    "relations": lambda: debctl.relations("cc | bb (>= 1), aa"),
    "query": lambda: debctl.query("hello, bb", INDEX, "amd64"),
    "unmet": lambda: debctl.unmet(INDEX, INDEX, "amd64"),
    "healthy": lambda: debctl.healthy(INDEX, "amd64"),
    "healthy, of a status file": lambda: debctl.healthy(STATUS, "amd64", kind="status"),
    "installable": lambda: debctl.installable(INDEX, "amd64", budget=1),
    "installable, why": lambda: debctl.installable(INDEX, "amd64", essential=True, without=["aa", "bb"], why=True),
    "witness": lambda: debctl.witness("hello", INDEX + "\n" + INDEX.replace("Depends", "X"), "amd64"),
    "buildable": lambda: debctl.buildable(INDEX, "Package: ss\nVersion: 1\n", "amd64", ["nocheck"]),
    "paragraphs": lambda: [dict(it) for it in debctl.paragraphs(INDEX)],
    "value": lambda: next(debctl.paragraphs(INDEX, "packages")).canonical("Depends"),
    "diff": lambda: debctl.diff(INDEX, ""),
    "explain": lambda: debctl.explain("Version: 1-\n").text,
    "check_all": lambda: [(it.line, it.field) for it in debctl.check_all("Version: 1-\n").refused],
    "normalise": lambda: debctl.normalise(INDEX),
    "Version": lambda: debctl.Version("1:2-3") < debctl.Version("1:2-4"),
}
ANSWERS = {name: call() for name, call in FIXED.items()}
wrong_inside, turns, depth = [], 0, 0


def handler(*_):
    """Makes a key, and asks something else, also within another handler."""
    global depth
    if depth < DEEPEST:
        depth += 1
        ask_inside()
        depth -= 1


def ask_inside():
    """What a handler does."""
    global turns
    turns += 1
    version = next(handled)
    if debctl.key(version) != KEYS.get(version, debctl.key(version)):
        wrong_inside.append(version)
    name = list(FIXED)[turns % len(FIXED)]
    if FIXED[name]() != ANSWERS[name]:
        wrong_inside.append(name)


def in_seconds(seconds, call):
    """How many calls there are in this time, and how many of them are wrong."""
    done, wrong, until = 0, 0, time.monotonic() + seconds
    while time.monotonic() < until:
        count, bad = call()
        done, wrong = done + count, wrong + bad
    return done, wrong


def keys():
    """Keys, one after the other."""
    return len(VERSIONS), sum(debctl.key(it) != KEYS[it] for it in VERSIONS)


def sorts():
    """One sort by key, and one of Version."""
    by_version = [it.text for it in sorted(map(debctl.Version, VERSIONS))]
    return 2, (sorted(VERSIONS, key=debctl.key) != SORTED) + (by_version != SORTED)


def others():
    """The other calls."""
    return len(FIXED), sum(FIXED[name]() != ANSWERS[name] for name in FIXED)


def main():
    """Runs all under a timer, and gives the exit status."""
    passed = failed = 0
    signal.signal(signal.SIGALRM, handler)
    threads = [threading.Thread(target=lambda: found.append(in_seconds(2, keys))) for _ in range(2)]
    found = []
    signal.setitimer(signal.ITIMER_REAL, 0.0003, 0.0003)
    for name, call in (("keys", keys), ("sorts", sorts), ("other calls", others)):
        found.append(in_seconds(2, call))
        if found[-1][1]:
            print(f"signals.py: {name}: {found[-1][1]} of {found[-1][0]} are wrong")
    for thread in threads:
        thread.start()
    found.append(in_seconds(2, keys))
    for thread in threads:
        thread.join()
    signal.setitimer(signal.ITIMER_REAL, 0)
    if wrong_inside:
        print(f"signals.py: {len(wrong_inside)} of {turns} are wrong in the handler")
    tests = [wrong == 0 for _, wrong in found] + [not wrong_inside, turns > 100]
    passed, failed = tests.count(True), tests.count(False)
    print(f"signals.py: {passed} passed, {failed} failed")
    return bool(failed)


sys.exit(main())
