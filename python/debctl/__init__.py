"""Debian control data: versions, files of control data and their fields, why they are refused, and
questions to an index of packages.

Each function calls the library libdebctl, whose answers are proved, and adds no rule of its own.
The library is looked for at DEBCTL_LIBRARY, then in the folder of this package, then where the
system keeps its libraries. A text is a `str`, of which the UTF-8 is read, or a bytes-like object
such as `bytes` or `memoryview`. A function raises TypeError for an argument of another type. What
is returned is a `str`, except for keys and the files of `normalise`, `latest` and `select`.

    >>> import debctl
    >>> debctl.compare("1.0~rc1", "1.0")
    -1
    >>> sorted(["1.10", "1.9", "1.10~rc1"], key=debctl.key)
    ['1.9', '1.10~rc1', '1.10']
    >>> debctl.normalise("vERSION: 01.0-0\\npackage:hello\\nArchitecture: amd64\\n")
    b'Architecture: amd64\\nPackage: hello\\nVersion: 1.0\\n'
    >>> for paragraph in debctl.paragraphs("Package: hello\\nVersion: 01\\n\\nPackage: world\\n"):
    ...     print(paragraph.line, paragraph["package"], paragraph.get("Version"))
    1 hello 01
    4 world None
    >>> debctl.check("Package: hello\\nVersion: 1-\\n")
    Traceback (most recent call last):
    debctl.Refused: line 2: 18 BadVersion
    >>> why = debctl.explain("Package: hello\\nVersion: 1-\\n")
    >>> why.refusal.field, why.place, why.at, why.reason
    ('Version', 0, (2, 10), 'RevisionEmpty')
"""

from ._explanations import (
    AllExplained, Explanation, explain, explain_all, explain_relation, explain_version,
)
from ._files import (
    AllChecked, BuildReport, HealthReport, InstallReport, Report, UnmetReport, WitnessReport,
    buildable, check, check_all, diff, healthy, installable, normalise, query, same, unmet, witness,
)
from ._index import Details, Index, Package
from ._latest import latest
from ._library import Kind, Text, lib
from ._paragraphs import Paragraph, paragraphs
from ._refusals import Code, Refused
from ._relations import Alternative, applies, relations, satisfies
from ._rows import (
    Change, Exclusion, Group, HealthReason, LeftOut, Need, NotInstallable, NumberedPackage, Reason,
    UnmetGroup,
)
from ._select import (
    BadCondition, count_selected, explain_condition, select, select_objects, select_table,
)
from ._versions import Parts, Version, canonical, compare, key

__version__ = "0.1.0"


def library_version() -> str:
    """Returns the version of the library libdebctl that is loaded."""
    number = lib.deb_library_version()
    return f"{number // 10000}.{number // 100 % 100}.{number % 100}"


__all__ = [
    "AllChecked", "AllExplained", "Alternative", "BadCondition", "BuildReport", "Change", "Code",
    "Details", "Exclusion", "Explanation", "Group", "HealthReason", "HealthReport", "Index",
    "InstallReport", "Kind", "LeftOut", "Need", "NotInstallable", "NumberedPackage", "Package",
    "Paragraph", "Parts", "Reason", "Refused", "Report", "Text", "UnmetGroup", "UnmetReport",
    "Version", "WitnessReport", "applies", "buildable", "canonical", "check", "check_all",
    "compare", "count_selected", "diff", "explain", "explain_all", "explain_condition",
    "explain_relation", "explain_version", "healthy", "installable", "key", "latest",
    "library_version", "normalise", "paragraphs", "query", "relations", "same", "satisfies",
    "select", "select_objects", "select_table", "unmet", "witness",
]

for _public in (
    AllChecked, AllExplained, Alternative, BadCondition, BuildReport, Change, Code, Details,
    Exclusion, Explanation, Group, HealthReason, HealthReport, Index, InstallReport, LeftOut, Need,
    NotInstallable, NumberedPackage, Package, Paragraph, Parts, Reason, Refused, Report, UnmetGroup,
    UnmetReport, Version, WitnessReport,
):
    _public.__module__ = __name__
