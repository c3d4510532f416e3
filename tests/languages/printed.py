"""The texts of the Python module's objects, printed again from what the objects say alone."""

from debctl import (
    AllExplained, BuildReport, Exclusion, Explanation, HealthReport, InstallReport, Need, Report,
    UnmetReport, WitnessReport,
)


def of_package(package):
    """The words of a package."""
    return f"{package.number} {package.name} {package.version} {package.architecture}"


def with_file(line, package):
    """A line about a package, which ends with its file if it is of one of several."""
    return line if package is None or package.file is None else f"{line} @{package.file}"


def of_group(group):
    """The lines of a group of a relation."""
    lines = [f"{group.verdict} {group.text}"]
    lines += [with_file(f" {of_package(package)}", package) for package in group.packages]
    for why in group.reasons:
        package = f"{of_package(why.package)} " if why.package else ""
        lines.append(with_file(f" {why.alternative}: {package}{why.reason}", why.package))
    return lines


def of_unmet(group):
    """The line of a group that is unmet, or may be."""
    return " ".join([
        group.verdict, str(group.number), group.package, group.version, group.architecture,
        group.field, group.group,
    ])


def of_health(reason):
    """The line of a reason why a set isn't healthy."""
    line = [reason.verdict, of_package(reason.package)]
    if reason.verdict == "duplicate":
        by = reason.by
        return " ".join([*line, "with", str(by.number), by.version, by.architecture])
    if reason.verdict == "state":
        return " ".join([*line, reason.status])
    line += [reason.field, reason.group]
    return " ".join(line if reason.by is None else [*line, "by", of_package(reason.by)])


def of_listed(it):
    """The words of a package that has a line."""
    return f"{it.number} {it.package} {it.version} {it.architecture}"


def of_install_reason(why):
    """The line of a reason why a package can't be installed."""
    if isinstance(why, Need):
        candidates = " ".join(map(str, why.candidates)) or "none"
        return f" {of_listed(why)} needs {why.group}: {candidates}"
    if isinstance(why, Exclusion):
        return f" {of_listed(why)} excludes {of_package(why.excluded)}"
    return f" {of_listed(why)} is left out"


def of_not_installable(it):
    """The lines of a package that can't be installed, or may not be."""
    return [f"{it.verdict} {of_listed(it)}", *map(of_install_reason, it.reasons)]


def of_change(change):
    """The first line of a change; those below it are sorted by the names of their fields."""
    versions = {
        "removed": [change.old_version], "added": [change.new_version], "changed": [change.old_version],
        "upgraded": [change.old_version, change.new_version],
        "downgraded": [change.old_version, change.new_version],
    }[change.kind]
    words = [change.kind, str(change.number), change.package, *versions, change.architecture]
    return " ".join([*words, *change.fields])


def fields_of(sign, lines):
    """The lines of each field, with a sign before them."""
    fields = {}
    for line in lines:
        if not line.startswith((" ", "\t")):
            name = line.partition(":")[0]
        fields.setdefault(name, []).append(f" {sign}{line}")
    return fields


def of_values(change):
    """The lines below a change: of each field those of the old paragraph, then those of the new."""
    old, new = fields_of("-", change.old), fields_of("+", change.new)
    names = [*old, *(name for name in new if name not in old)]
    order = change.fields or names
    return [line for name in order for lines in (old, new) for line in lines.get(name, [])]


def of_explanation(why):
    """The lines of an explanation."""
    if not why.lines:
        return ["ok" if why.passed is None else f"ok {why.passed}"]
    at = {"line": why.refusal.line, "code": int(why.refusal.code), "name": why.refusal.name,
          "place": why.place, "at": why.at and "%d:%d" % why.at, "reason": why.reason,
          "value": why.value, "rule": why.rule, "usually": why.usually, "field": why.lines.get("field")}
    return [f"{key}: {at[key]}" for key in why.lines]


def printed(it):
    """The text of a report, of the changes between files, or of explanations, as bytes."""
    if isinstance(it, Report):
        lines = [line for group in it.groups for line in of_group(group)]
    elif isinstance(it, UnmetReport):
        lines = [of_unmet(group) for group in it.groups]
    elif isinstance(it, HealthReport):
        lines = [of_health(reason) for reason in it.reasons]
    elif isinstance(it, (BuildReport, InstallReport)):
        lines = [line for package in it.packages for line in of_not_installable(package)]
    elif isinstance(it, WitnessReport):
        lines = [f" {of_package(package)}" for package in it.packages]
        lines += [line for package in it.not_installable for line in of_not_installable(package)]
    elif isinstance(it, Explanation):
        lines = of_explanation(it)
    elif isinstance(it, AllExplained):
        lines = [line for why in it.refused for line in [*of_explanation(why), ""]]
        lines.append(f"ok {it.passed}, {len(it.refused)} refused")
    else:
        lines = [line for change in it for line in [of_change(change), *of_values(change)]]
    return "".join(f"{line}\n" for line in lines).encode()
