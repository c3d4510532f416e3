"""Why a text is refused."""

import enum
from typing import Any, Optional, Tuple


class Code(enum.IntEnum):
    """Why a text is refused."""

    NotUtf8 = 1
    Armour = 2
    Comment = 3
    StrayContinuation = 4
    BadFieldName = 5
    NoColon = 6
    DuplicateField = 7
    ParagraphTooLong = 8
    FileTooLong = 9
    NoParagraph = 10
    TooManyParagraphs = 11
    MissingField = 12
    NotOneLine = 13
    BadName = 14
    BadNumber = 15
    BadWord = 16
    BadArchitecture = 17
    BadVersion = 18
    BadRelation = 19
    AlternativesNotAllowed = 20
    ProvidesBound = 21
    Wildcard = 22
    BadEnvironment = 23


class Refused(ValueError):
    """A text is refused. The message is the line that the program debctl prints.

    `line` is counted from 1, and 0 for a text that isn't a file; `code` is a number from 1 to 23,
    and `name` its name; `field` is the name of the field that is refused, as it is spelled in the
    file, or that is missing, or None; `second` is true if it is the second of two files. `text` is
    the place of the text among those of `latest`, from 1, or None.
    """

    def __init__(
        self,
        code: int,
        line: int,
        second: bool = False,
        field: Optional[str] = None,
        text: Optional[int] = None,
    ) -> None:
        super().__init__(f"line {line}: {code} {Code(code).name}")
        self.code = Code(code)
        self.line = line
        self.name = self.code.name
        self.second = second
        self.field = field
        self.text = text

    def __reduce__(self) -> Tuple[Any, ...]:
        return Refused, (int(self.code), self.line, self.second, self.field, self.text)
