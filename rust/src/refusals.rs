//! Why a text is refused.

use crate::library::{self, Answer};
use crate::{explain, Kind};
use std::fmt;

/// Defines the codes and the way back from their numbers.
macro_rules! codes {
    ($($(#[$doc:meta])* $name:ident = $number:literal,)*) => {
        /// An error code.
        #[derive(Clone, Copy, Debug, PartialEq, Eq, Hash)]
        #[non_exhaustive]
        #[repr(u8)]
        pub enum Code {
            $($(#[$doc])* $name = $number,)*
        }

        impl Code {
            fn of(number: u8) -> Code {
                match number {
                    $($number => Code::$name,)*
                    _ => unreachable!("this crate doesn't know the code {number}"),
                }
            }

            /// Returns the name, such as `BadVersion`.
            pub fn name(self) -> &'static str {
                match self {
                    $(Code::$name => stringify!($name),)*
                }
            }
        }
    };
}

codes! {
    /// A line isn't UTF-8.
    NotUtf8 = 1,
    /// A line starts with `-----BEGIN PGP`.
    Armour = 2,
    /// A line starts with `#`.
    Comment = 3,
    /// The first line of a paragraph starts with a space or a tab.
    StrayContinuation = 4,
    /// What is before the colon isn't the name of a field.
    BadFieldName = 5,
    /// The first line of a field has no colon.
    NoColon = 6,
    /// The paragraph already has a field with this name.
    DuplicateField = 7,
    /// The paragraph, or its canonical text, has more than 16,777,216 bytes.
    ParagraphTooLong = 8,
    /// The file, or its canonical text, has more than 4,294,967,295 bytes.
    FileTooLong = 9,
    /// A file that must have one paragraph has none.
    NoParagraph = 10,
    /// A file that must have one paragraph has a second one.
    TooManyParagraphs = 11,
    /// A required field is missing.
    MissingField = 12,
    /// The value has more than one line, and the field takes only one.
    NotOneLine = 13,
    /// The value isn't the name of a package.
    BadName = 14,
    /// The value isn't a number.
    BadNumber = 15,
    /// The value isn't one of the words that the field takes.
    BadWord = 16,
    /// The value isn't the name of an architecture.
    BadArchitecture = 17,
    /// The text isn't a version.
    BadVersion = 18,
    /// The text isn't a relation.
    BadRelation = 19,
    /// A group has several alternatives, and the field takes only one.
    AlternativesNotAllowed = 20,
    /// A bound in Provides has another operator than `=`.
    ProvidesBound = 21,
    /// An architecture list of the relation that is asked contains a wildcard.
    Wildcard = 22,
    /// The target architecture or the name of a build profile isn't one.
    BadEnvironment = 23,
}

impl Code {
    /// Returns the number, from 1.
    pub fn number(self) -> u8 {
        self as u8
    }
}

impl fmt::Display for Code {
    fn fmt(&self, out: &mut fmt::Formatter<'_>) -> fmt::Result {
        out.pad(self.name())
    }
}

/// Why a text is refused, and at which line. Lines are counted from 1; a text that isn't a file has
/// line 0.
#[derive(Clone, Debug, PartialEq, Eq, Hash)]
#[non_exhaustive]
pub struct Refusal {
    /// The error code.
    pub code: Code,
    /// The line.
    pub line: u64,
    /// The name of the field, as the line spells it, or of the field that is missing. `None` if the
    /// refusal isn't about a field.
    pub field: Option<String>,
}

impl Refusal {
    pub(crate) fn new(code: u8, line: u64, field: Option<String>) -> Refusal {
        let code = Code::of(code);
        Refusal { code, line, field }
    }
}

/// The line that the program debctl prints: `line 3: 7 DuplicateField`.
impl fmt::Display for Refusal {
    fn fmt(&self, out: &mut fmt::Formatter<'_>) -> fmt::Result {
        write!(out, "line {}: {} {}", self.line, self.code as u8, self.code)
    }
}

/// Why there is no answer.
#[derive(Clone, Debug, PartialEq, Eq, Hash)]
#[non_exhaustive]
pub enum Error {
    /// The text is refused, or the first of two.
    Refused(Refusal),
    /// The first text is accepted, and the second is refused.
    SecondRefused(Refusal),
    /// A growth of memory was refused.
    Memory,
}

impl Error {
    /// Returns the refusal of a text, or `None` for [`Error::Memory`].
    pub fn refusal(&self) -> Option<&Refusal> {
        match self {
            Error::Refused(refusal) | Error::SecondRefused(refusal) => Some(refusal),
            Error::Memory => None,
        }
    }
}

impl fmt::Display for Error {
    fn fmt(&self, out: &mut fmt::Formatter<'_>) -> fmt::Result {
        match self {
            Error::Refused(refusal) => refusal.fmt(out),
            Error::SecondRefused(refusal) => write!(out, "second: {refusal}"),
            Error::Memory => out.write_str("out of memory"),
        }
    }
}

impl std::error::Error for Error {}

/// A file that a call reads.
pub(crate) type File<'a> = (Kind, &'a [u8]);

/// Returns an answer about texts that aren't files, or its error.
pub(crate) fn answered(answer: Answer) -> Result<Answer, Error> {
    let refusal = || Refusal::new(answer.code, answer.line, None);
    match answer.status {
        library::REFUSED => Err(Error::Refused(refusal())),
        library::SECOND_REFUSED => Err(Error::SecondRefused(refusal())),
        library::NO_MEMORY => Err(Error::Memory),
        _ => Ok(answer),
    }
}

/// Returns an answer about one or two files, or its error, with the field of a refusal.
pub(crate) fn answered_of(answer: Answer, first: File, second: File) -> Result<Answer, Error> {
    Err(match answered(answer) {
        Err(Error::Refused(refusal)) => Error::Refused(with_field(refusal, first, 1)?),
        Err(Error::SecondRefused(refusal)) => Error::SecondRefused(with_field(refusal, second, 1)?),
        other => return other,
    })
}

/// Adds the field to the refusal of a file, whose text is there from a line on at which a paragraph
/// starts.
pub(crate) fn with_field(
    mut refusal: Refusal,
    (kind, text): File,
    first: u64,
) -> Result<Refusal, Error> {
    if refusal.line > 0 {
        let found = explain(kind, text)?.refusal;
        let found =
            found.filter(|it| (it.code, it.line + first - 1) == (refusal.code, refusal.line));
        refusal.field = found.and_then(|it| it.field);
    }
    Ok(refusal)
}

/// The lines of a file, to find some of them in ascending order.
pub(crate) struct Lines<'a> {
    text: &'a [u8],
    rest: &'a [u8],
    line: u64,
}

impl<'a> Lines<'a> {
    pub(crate) fn of(text: &'a [u8]) -> Lines<'a> {
        let (rest, line) = (text, 1);
        Lines { text, rest, line }
    }

    /// Returns what is before the first colon of a line, or `None` if the line has none.
    pub(crate) fn name_at(&mut self, line: u64) -> Option<&'a [u8]> {
        if line < self.line {
            *self = Lines::of(self.text);
        }
        while self.line < line {
            let end = self.rest.iter().position(|byte| *byte == b'\n')?;
            self.rest = &self.rest[end + 1..];
            self.line += 1;
        }
        let line = self.rest.split(|byte| *byte == b'\n').next()?;
        let colon = line.iter().position(|byte| *byte == b':')?;
        Some(&line[..colon])
    }
}
