"""What the Python module answers, as a driver writes it."""

import io

import debctl

from printed import printed
from questions import KINDS, OLD


def by_rows(text, it):
    """A text, with a line more if its objects say something else."""
    return text.encode() + (b"" if printed(it) == text.encode() else b"rows differ\n")


def relation_agrees(relation):
    """Whether the alternatives of a relation as they are spelled mean what it does."""
    groups = debctl.relations(relation, spelled=True)
    again = ", ".join(" | ".join(map(str, group)) for group in groups)
    return debctl.relations(again) == debctl.relations(relation)


def version_agrees(text):
    """Whether the parts of a version, put together again, are the version."""
    it = debctl.Version(text)
    epoch = "" if it.epoch is None else f"{it.epoch}:"
    revision = "" if it.revision is None else f"-{it.revision}"
    return f"{epoch}{it.upstream}{revision}".encode() == text


class Slow(io.BytesIO):
    """A file of which each read returns 100 bytes at most."""

    def read(self, size=-1):
        return super().read(100 if size < 0 else min(size, 100))


def paragraphs_of(file, kind):
    """The paragraphs of a file or of its text, and its refusal."""
    found = []
    try:
        for it in debctl.paragraphs(file, kind):
            found.append((it.line, [(name, it.bytes(name)) for name in it]))
    except debctl.Refused as refused:
        found.append((refused.line, refused.code, refused.field))
    return found


def reader_agrees(text, kind):
    """Whether a file that is read in pieces has the paragraphs that its text has."""
    return len(text) > 1 << 20 or paragraphs_of(Slow(text), kind) == paragraphs_of(text, kind)


def report_of(call, number, texts, loaded):
    """The report on relations, of the text of an index or of a loaded one."""
    target, first, second, *profiles = texts
    if call == "unmet":
        more = (target, profiles, KINDS[number % 8], number >= 8)
        return debctl.Index(first).unmet(second, *more) if loaded else debctl.unmet(first, second, *more)
    more = (target, profiles, call == "why")
    return debctl.Index(second).query(first, *more) if loaded else debctl.query(first, second, *more)


def index_of(texts):
    """An index of several files; a refusal has the place of its file."""
    index = None
    for place, text in enumerate(texts, 1):
        try:
            if index is None:
                index = debctl.Index(text)
            else:
                index.read_more(text)
        except debctl.Refused as refused:
            refused.text = place
            raise
    return index


def files_agree(index, report):
    """Whether the index has of each package of a report the file that the report has."""
    groups = report.groups
    packages = [it for group in groups for it in group.packages]
    packages += [it.package for group in groups for it in group.reasons if it.package]
    return all(index.file(it.number) == it.file for it in packages)


def of_files(call, number, texts):
    """The answer of a query of several indexes. The words are refused before them, but not a wildcard."""
    target, relation, *more = texts
    texts, profiles = more[:number], more[number:]
    try:
        debctl.query(relation, "", target, profiles)
    except debctl.Refused as refused:
        if refused.code != debctl.Code.Wildcard:
            raise
    index = index_of(texts)
    it = index.query(relation, target, profiles, call == "why-files")
    more = b"" if files_agree(index, it) else b"files differ\n"
    return b"%d 0 0 0\n" % (not it) + by_rows(it.text, it) + more


def with_options(number, texts):
    """The answer on unmet relations with options."""
    target, all_for, file, names, *more = texts
    names, count = names.split(b",") if names else [], number // 64
    options = {
        "kind": KINDS[number % 8], "recommends": number // 8 % 2 == 1, "all_for": all_for,
        "all_sources": number // 16 % 2 == 1, "without": names,
    }
    olds, more = more[: number // 32 % 2], more[number // 32 % 2 :]
    texts, profiles = more[:count], more[count:]
    try:
        debctl.Index("").unmet("", target, profiles, **options)
    except debctl.Refused as refused:
        if not refused.second:
            raise
    if olds:
        try:
            options["unless"] = debctl.Index(*olds)
        except debctl.Refused as refused:
            refused.text = OLD
            raise
    index = index_of(texts)
    if names:
        index.leave_out(names)
    it = index.unmet(file, target, profiles, **options)
    return b"%d 0 0 0\n" % (not it) + by_rows(it.text, it)


def explained(call, number, texts):
    """The answer of an explanation."""
    if call == "explain-condition":
        text = debctl.explain_condition(*texts, KINDS[number])
        return b"%d 0 0 0\n" % (0 if text == "ok\n" else 2) + text.encode()
    if call == "explain":
        it = debctl.explain(*texts, KINDS[number])
    else:
        it = (debctl.explain_version if call == "explain-version" else debctl.explain_relation)(*texts)
    head = b"0 0 0 %d\n" % (it.passed or 0)
    if it.refusal:
        head = b"2 %d %d 0\n" % (it.refusal.code, it.refusal.line)
    return head + by_rows(it.text, it)


def on_all(call, number, texts):
    """The answer about all refusals."""
    passed, refused = debctl.check_all(*texts, KINDS[number])
    first = (2, refused[0].code, refused[0].line) if refused else (0, 0, 0)
    head = b"%d %d %d %d\n" % (*first, passed)
    if call == "check-all":
        return head + b"".join(b"%d %d\n" % (it.line, it.code) for it in refused)
    it = debctl.explain_all(*texts, KINDS[number])
    return head + by_rows(it.text, it)


def on_text(call, texts):
    """The answer about versions."""
    if call == "compare":
        head = b"0 0 %d\n" % debctl.compare(*texts)
    elif call == "canonical":
        head = b"0 0 0 0\n" + debctl.canonical(*texts).encode()
    else:
        head = b"0 0 0 0\n" + debctl.key(*texts)
    return head + (b"" if all(map(version_agrees, texts)) else b"parts differ\n")


def changes(number, texts):
    """The answer of a comparison of two files."""
    found = debctl.diff(*texts, KINDS[number % 8], number >= 8)
    text = "".join(f"{it}\n" for it in found)
    return b"%d 0 0 0\n" % bool(found) + by_rows(text, found)


def searched(call, number, texts):
    """The answer of a search for sets of packages."""
    names = texts[2 if call == "installable" else 3]
    more = {
        "kind": KINDS[number % 8], "essential": number // 16 % 2 == 1, "why": number // 32 % 2 == 1,
        "without": names.split(b",") if names else (),
    }
    if number >= 64:
        more["budget"] = number // 64
    if call == "buildable":
        return debctl.buildable(texts[1], texts[2], texts[0], texts[4:], **more)
    more["recommends"] = number // 8 % 2 == 1
    if call == "witness":
        return debctl.witness(texts[1], texts[2], texts[0], **more)
    return debctl.installable(texts[1], texts[0], **more)


def selected(number, texts):
    """The answer which paragraphs are selected; the rows of a table and the objects of lines of JSON are
    counted, too."""
    file, *more = texts
    count, form = number // 64, number // 16 % 4
    where, fields = more[:count], more[count:]
    options = {"kind": KINDS[number % 8], "others": number // 8 % 2 == 1}
    try:
        found = debctl.count_selected(file, *where, **options)
        text = b""
        if form < 3:
            text = debctl.select(
                file, *where, fields=fields, form=("control", "table", "jsonl")[form], **options
            )
    except debctl.BadCondition as bad:
        return b"3 0 0 %d\n" % bad.number + bad.text.encode()
    head = b"%d 0 0 %d\n" % (not found, found)
    agree = True
    if form == 1:
        rows = debctl.select_table(file, *where, fields=fields, **options)
        agree = len(rows) == found and all(len(row) == len(fields) for row in rows)
        agree &= b"".join(b"\t".join(map(cell, row)) + b"\n" for row in rows) == text
    if form == 2:
        objects = debctl.select_objects(file, *where, **options)
        agree = len(objects) == found and all(it["line"] and it["fields"] for it in objects)
    return head + text + (b"" if agree else b"rows differ\n")


def cell(text):
    """A cell of a table, from its text."""
    said = {"\t": r"\t", "\n": r"\n", "\\": r"\\"}
    hidden = lambda it: said.get(it, rf"\x{ord(it):02x}")
    return "".join(hidden(it) if it < " " or it in "\\\x7f" else it for it in text).encode()


def answered(call, number, texts, loaded):
    """The answer where nothing is refused."""
    if call in ("compare", "canonical", "key"):
        return on_text(call, texts)
    if call in ("query", "why", "unmet"):
        it = report_of(call, number, texts, loaded)
        more = b"" if call == "unmet" or relation_agrees(texts[1]) else b"parts differ\n"
        return b"%d 0 0 0\n" % (not it) + by_rows(it.text, it) + more
    if call in ("query-files", "why-files"):
        return of_files(call, number, texts)
    if call == "unmet-with":
        return with_options(number, texts)
    if call == "latest":
        by = "name,arch" if number >= 8 else "name"
        return b"0 0 0 0\n" + debctl.latest(texts[1:], KINDS[number % 8], by, texts[0])
    if call in ("select", "count"):
        return selected(number, texts)
    if call == "healthy":
        more = {"kind": KINDS[number % 8], "recommends": number >= 8}
        it = debctl.healthy(texts[1], texts[0], **more)
        return b"%d 0 0 0\n" % (not it) + by_rows(it.text, it)
    if call in ("installable", "witness", "buildable"):
        it = searched(call, number, texts)
        return b"%d 0 0 0\n" % (not it) + by_rows(it.text, it)
    if call in ("explain", "explain-relation", "explain-version", "explain-condition"):
        return explained(call, number, texts)
    if call in ("check-all", "explain-all"):
        return on_all(call, number, texts)
    if call == "diff":
        return changes(number, texts)
    if call == "same":
        return b"%d 0 0 0\n" % (not debctl.same(*texts, KINDS[number]))
    if call == "check" and not reader_agrees(*texts, KINDS[number]):
        return b"reader differs\n"
    head = b"0 0 0 %d\n" % debctl.check(*texts, KINDS[number])
    return head if call == "check" else head + debctl.normalise(*texts, KINDS[number])


def answer_of(call, number, texts, loaded=False):
    """What the module answers."""
    try:
        return answered(call, number, texts, loaded)
    except debctl.Refused as refused:
        status = 3 if refused.second else 2
        if call == "compare":
            return b"%d %d 0\n" % (status, refused.code)
        return b"%d %d %d %d\n" % (status, refused.code, refused.line, refused.text or 0)


def loads(call, _, texts):
    """Whether an index is asked that can be loaded: one that is refused answers nothing else."""
    if call not in ("query", "why", "unmet"):
        return False
    try:
        return len(debctl.Index(texts[1 if call == "unmet" else 2])) >= 0
    except debctl.Refused:
        return False
