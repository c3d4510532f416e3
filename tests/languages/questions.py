"""What the words of a call of the program ask of the libraries."""

from pathlib import Path

KINDS = ["binary", "packages", "source", "sources", "any", "status"]
ORDERS = {
    "lt": {-1}, "le": {-1, 0}, "eq": {0}, "ne": {-1, 1}, "ge": {0, 1}, "gt": {1},
    "<<": {-1}, "<=": {-1, 0}, "=": {0}, ">=": {0, 1}, ">>": {1},
}
OPTIONS = {"--index", "--unless-in", "--without", "--all-sources", "--all-for"}
OLD = 999  # the place of a refused file that is the old index
LONGEST_RELATION = 16_777_216  # in a file that the program reads; the libraries have no such limit
FLAGS = [
    "--recommends", "--installed", "--all", "--why", "--values", "--essential", "--all-sources", "--not",
    "--count",
]
VALUES = [
    "--kind", "--arch", "--profiles", "--relation", "--version-text", "--relation-from", "--budget",
    "--index", "--witness", "--without", "--unless-in", "--all-for", "--by", "--before", "--fields",
    "--format", "--where",
]
SHORT = {"-k": "--kind", "-f": "--fields"}
SEVERAL = {"--index", "--where"}  # what may be said more than once


class Unknown(Exception):
    """The words ask for nothing that the libraries answer."""


def options_of(words):
    """The values of the options, and the other words."""
    options, others, ended = {}, [], False
    words = iter(words)
    for word in words:
        name, equals, value = SHORT.get(word, word).partition("=")
        if ended or not word.startswith("-") or word == "-":
            others.append(word)
        elif word == "--":
            ended = True
        elif word in FLAGS and name not in options:
            options[name] = ""
        elif name in SEVERAL:
            options.setdefault(name, []).append(value if equals else next(words, ""))
        elif name in VALUES and name not in options:
            options[name] = value if equals else next(words, "")
        else:
            raise Unknown
    return options, others


def read(path, given):
    """The bytes of a file, or of standard input. A device may have no end."""
    if path in (None, "-"):
        return given
    if path != "/dev/null" and not Path(path).is_file():
        raise Unknown
    try:
        return Path(path).read_bytes()
    except OSError as error:
        raise Unknown from error


def bytes_of(word):
    """The bytes of a word."""
    return word.encode(errors="surrogateescape")


def profiles_of(options):
    """The profiles that are active."""
    profiles = options.pop("--profiles", None)
    return [] if profiles is None else [bytes_of(it) for it in profiles.split(",")]


def unmet_question(options, others, given):
    """A question for unmet relations: its number is that of the kind, and 8 more if Recommends is asked;
    its texts are the target, the index, the file and the profiles."""
    kind = options.pop("--kind", "packages")
    if not 0 < len(others) < 3 or kind not in KINDS:
        raise Unknown
    if OPTIONS & set(options):
        return options_question(kind, options, others, given)
    index = read(others[0], given)
    file = read(others[1], given) if len(others) > 1 else index
    number = KINDS.index(kind) + 8 * ("--recommends" in options)
    texts = [bytes_of(options.pop("--arch")), index, file, *profiles_of(options)]
    options.pop("--recommends", None)
    return "unmet", number, texts


def options_question(kind, options, others, given):
    """A question for unmet relations with options: its number is that of the kind, 8 more if Recommends is
    asked, 16 more for all source packages, 32 more if there is an old index, and 64 times how many indexes
    there are; its texts are the target, that of packages without one, the file, the names that are left
    out, the old index, the indexes and the profiles."""
    paths, old = [*options.pop("--index", []), others[0]], options.pop("--unless-in", None)
    olds = [] if old is None else [old]
    all_for, without = options.pop("--all-for", None), options.pop("--without", None)
    if [*paths, *others[1:], *olds].count("-") > 1 or "" in (all_for, without):
        raise Unknown
    texts = [read(path, given) for path in [*olds, *paths]]
    file = read(others[1], given) if len(others) > 1 else texts[-1]
    flags = [options.pop(it, None) is not None for it in ("--recommends", "--all-sources")]
    number = KINDS.index(kind) + 8 * flags[0] + 16 * flags[1] + 32 * len(olds) + 64 * len(paths)
    words = [bytes_of(options.pop("--arch")), bytes_of(all_for or ""), file, bytes_of(without or "")]
    return "unmet-with", number, words + texts + profiles_of(options)


def latest_question(options, others, given):
    """A question for the latest versions: its number is that of the kind, and 8 more by architecture; its
    texts are the version before which they are, and the files."""
    kind, by = options.pop("--kind", "packages"), options.pop("--by", "name")
    before = options.pop("--before", None)
    if kind not in ("packages", "sources") or by not in ("name", "name,arch") or before == "":
        raise Unknown
    if not others or any(path.startswith(("/dev/", "/proc/")) for path in others):
        raise Unknown  # what a path there is depends on the process
    if not all(Path(path).is_file() for path in others):
        raise Unknown
    texts = [bytes_of(before or ""), *(read(path, given) for path in others)]
    return "latest", KINDS.index(kind) + 8 * (by != "name"), texts


def conditions_of(where):
    """The texts of conditions. What isn't UTF-8 is no word of the program."""
    try:
        return [word.encode() for word in where]
    except UnicodeEncodeError as error:
        raise Unknown from error


def condition_question(options, others):
    """A question why a text is no condition: its number is that of the kind."""
    kind, where = options.pop("--kind", "packages"), conditions_of(options.pop("--where"))
    if kind not in KINDS or len(where) != 1 or others:
        raise Unknown
    return "explain-condition", KINDS.index(kind), where


def select_question(options, others, given):
    """A question which paragraphs are selected: its number is that of the kind, 8 more for the others, 16
    times the form, and 64 times how many conditions there are; its texts are the file, the conditions
    and the names of the fields. To count is a call of its own."""
    kind, where = options.pop("--kind", "packages"), options.pop("--where", [])
    form = 3 if options.pop("--count", None) is not None else None
    names = options.pop("--fields", None)
    words = ("control", "table", "jsonl")
    said = options.pop("--format", None)
    if form is None:
        form = words.index(said or "control") if said in (None, *words) else 9
    elif said is not None or names is not None:
        raise Unknown
    if kind not in KINDS or form == 9 or len(others) > 1 or (form == 1) > (names is not None):
        raise Unknown
    if (form == 2 and names is not None) or "" in (names or "-").split(","):
        raise Unknown
    conditions = conditions_of(where)
    number = KINDS.index(kind) + 8 * (options.pop("--not", None) is not None) + 16 * form
    fields = [] if names is None else [bytes_of(it) for it in names.split(",")]
    texts = [read(others[0] if others else None, given), *conditions, *fields]
    return "count" if form == 3 else "select", number + 64 * len(conditions), texts


def healthy_question(options, others, given):
    """A question whether a set is healthy: its number is that of the kind, and 8 more if Recommends is
    asked; its texts are the target and the file."""
    if len(others) > 1:
        raise Unknown
    texts = [bytes_of(options.pop("--arch")), read(others[0] if others else None, given)]
    kind = "packages" if options.pop("--installed", None) is None else "status"
    number = KINDS.index(kind) + 8 * (options.pop("--recommends", None) is not None)
    return "healthy", number, texts


def installable_question(options, others, given):
    """A question which packages can be installed: its number is that of a question whether they are
    healthy, and that of the search; its texts are the target, the file and the names that are left out.
    If a set with a package is asked for, the name is before the file."""
    search, kind = search_number(options), options.pop("--kind", "packages")
    without = options.pop("--without", None)
    if without == "":
        raise Unknown
    names = bytes_of(without or "")
    if kind in ("source", "sources"):
        return buildable_question(kind, (search, names), options, others, given)
    if kind != "packages":
        raise Unknown
    name = options.pop("--witness", None)
    _, number, texts = healthy_question(options, others, given)
    if name is None:
        return "installable", number + search, [*texts, names]
    if "," in name:
        raise Unknown
    return "witness", number + search, [texts[0], bytes_of(name), texts[1], names]


def search_number(options):
    """The number of a search: 16 if essential packages are asked, 32 if reasons are, and 64 for each step
    of the budget, if there is one."""
    budget = options.pop("--budget", "0")
    if not budget.isdecimal() or int(budget) > 1_000_000_000:
        raise Unknown
    flags = [options.pop(it, None) is not None for it in ("--essential", "--why")]
    return 16 * flags[0] + 32 * flags[1] + 64 * int(budget)


def buildable_question(kind, asked, options, others, given):
    """A question which source packages can be built: its number is that of the kind and of the search;
    its texts are the target, the index, the file, the names that are left out and the profiles."""
    index, *more = options.pop("--index")
    if more or len(others) != 1 or [index] == others == ["-"]:
        raise Unknown
    search, names = asked
    texts = [bytes_of(options.pop("--arch")), read(index, given), read(others[0], given), names]
    return "buildable", KINDS.index(kind) + search, texts + profiles_of(options)


def query_question(options, others, given):
    """A query, whose number is how many profiles are active, or how many indexes there are if there is more
    than one; its texts are the target, the relation, the indexes and the profiles."""
    why = options.pop("--why", None)
    if options.pop("--kind", "packages") != "packages":
        raise Unknown
    if "--relation-from" in options:
        path = options.pop("--relation-from")
        if path == "-" and (not others or "-" in others):
            raise Unknown
        relation = read(path, given)
        if len(relation) > LONGEST_RELATION:
            raise Unknown
    elif others:
        relation = bytes_of(others.pop(0))
    else:
        raise Unknown
    if others.count("-") > 1:
        raise Unknown
    texts = [bytes_of(options.pop("--arch")), relation]
    texts += [read(path, given) for path in others or [None]]
    profiles, call = profiles_of(options), "query" if why is None else "why"
    if len(others) > 1:
        return f"{call}-files", len(others), texts + profiles
    return call, len(profiles), texts + profiles


def text_question(call, options, others):
    """A question about versions, or about a relation."""
    if call == "version-key" and len(others) == 1:
        return "key", 0, [bytes_of(others[0])]
    if call == "compare" and len(others) == 3 and others[1] in ORDERS:
        return call, 0, [bytes_of(others[0]), bytes_of(others[2])]
    if call == "canon-version" and len(others) == 1:
        return "canonical", 0, [bytes_of(others[0])]
    if call == "explain" and "--where" in options:
        return condition_question(options, others)
    for option, name in [("--relation", "explain-relation"), ("--version-text", "explain-version")]:
        if call == "explain" and option in options and not others:
            return name, 0, [bytes_of(options.pop(option))]
    return None


def file_question(call, options, others, given):
    """A question about a file, or about two: its number is that of the kind, and 8 more for values."""
    kind = options.pop("--kind", "packages")
    if kind not in KINDS:
        raise Unknown
    number = KINDS.index(kind)
    if call in ("check", "explain") and "--all" in options:
        call += "-all"
        del options["--all"]
    if call.split("-")[0] in ("check", "explain", "normalise") and len(others) < 2:
        return call, number, [read(others[0] if others else None, given)]
    if call == "diff" and kind != "any":
        number += 8 * (options.pop("--values", None) is not None)
    elif call != "same":
        raise Unknown
    if len(others) != 2 or others == ["-", "-"]:
        raise Unknown
    return call, number, [read(path, given) for path in others]


def question(words, given):
    """The function that the words ask for, its number, and its texts."""
    call, (options, others) = words[0], options_of(words[1:])
    try:
        if call == "unmet":
            asked = unmet_question(options, others, given)
        elif call == "healthy":
            asked = healthy_question(options, others, given)
        elif call == "installable":
            asked = installable_question(options, others, given)
        elif call == "query":
            asked = query_question(options, others, given)
        elif call == "latest":
            asked = latest_question(options, others, given)
        elif call == "select":
            asked = select_question(options, others, given)
        else:
            asked = text_question(call, options, others)
            asked = asked or file_question(call, options, others, given)
    except KeyError:
        raise Unknown from None
    if options:
        raise Unknown
    return asked
