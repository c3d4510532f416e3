//! The paragraphs of a file for which conditions hold.

use crate::library;
use crate::refusals::answered_of;
use crate::reports::texts_of;
use crate::texts::{lines_room, written};
use crate::{Error, Kind};
use std::fmt;

/// Which paragraphs of a file are selected.
///
/// ```
/// use debctl::{select, select_table, Kind, SelectForm, Selection};
///
/// let two = "Package: aa\nVersion: 1.9\n\nPackage: bb\nVersion: 1.10\n";
/// let asked = Selection { kind: Kind::Any, conditions: &[b"Package = bb"], others: false };
/// let selected = select(asked, SelectForm::Control(&[b"version"]), two)?;
/// assert_eq!((selected.count, &selected.text[..]), (1, &b"Version: 1.10\n"[..]));
/// assert_eq!(select_table(asked, &[b"Version"], two)?, [[b"1.10"]]);
/// # Ok::<(), debctl::SelectError>(())
/// ```
#[derive(Clone, Copy, Debug, PartialEq, Eq, Hash)]
pub struct Selection<'a> {
    /// The kind of the file.
    pub kind: Kind,
    /// The conditions: `FIELD`, `FIELD OPERATOR VALUE` with an operator of `=`, `!=`, `<<`, `<=`,
    /// `>=`, `>>` and `~`, or `FIELD names NAME`.
    pub conditions: &'a [&'a [u8]],
    /// Whether the paragraphs are selected for which not all conditions hold; else those for which
    /// all do.
    pub others: bool,
}

/// What is written of each paragraph that is selected.
#[derive(Clone, Copy, Debug, PartialEq, Eq, Hash)]
#[non_exhaustive]
pub enum SelectForm<'a> {
    /// The fields with these names as they are in the file, with an empty line between paragraphs;
    /// without a name, whole paragraphs.
    Control(&'a [&'a [u8]]),
    /// A line with the canonical texts of these fields, with a tab between two. A field that is absent
    /// is empty, and control characters and the backslash are escaped.
    Table(&'a [&'a [u8]]),
    /// A line with an object in JSON, of the meaning of all fields.
    JsonLines,
    /// Nothing: the paragraphs are only counted.
    Count,
}

impl<'a> SelectForm<'a> {
    /// Returns the number of the form, and the names.
    fn parts(self) -> (u8, &'a [&'a [u8]]) {
        match self {
            SelectForm::Control(names) => (0, names),
            SelectForm::Table(names) => (1, names),
            SelectForm::JsonLines => (2, &[]),
            SelectForm::Count => (3, &[]),
        }
    }
}

/// The paragraphs that are selected.
#[derive(Clone, Debug, Default, PartialEq, Eq, Hash)]
#[non_exhaustive]
pub struct Selected {
    /// How many paragraphs are selected.
    pub count: u64,
    /// What is written of them.
    pub text: Vec<u8>,
}

/// Why no paragraphs are selected.
#[derive(Clone, Debug, PartialEq, Eq, Hash)]
#[non_exhaustive]
pub enum SelectError {
    /// A text is no condition.
    Condition {
        /// The place of the text among the conditions, from 1.
        number: u64,
        /// The lines that [`explain_condition`] returns.
        text: String,
    },
    /// The file is refused, or memory is out.
    File(Error),
}

impl fmt::Display for SelectError {
    fn fmt(&self, out: &mut fmt::Formatter<'_>) -> fmt::Result {
        match self {
            SelectError::Condition { number, text } => {
                let reason = text.lines().find_map(|it| it.strip_prefix("reason: "));
                write!(out, "condition {number}: {}", reason.unwrap_or_default())
            }
            SelectError::File(error) => error.fmt(out),
        }
    }
}

impl std::error::Error for SelectError {}

impl From<Error> for SelectError {
    fn from(it: Error) -> SelectError {
        SelectError::File(it)
    }
}

/// Returns why a text is no condition on paragraphs of a kind, in lines `key: value`; of a condition the
/// line `ok`. What isn't UTF-8 is replaced. The only error is [`Error::Memory`].
///
/// ```
/// use debctl::{explain_condition, Kind};
///
/// assert_eq!(explain_condition(Kind::Packages, "Version >= 1")?, "ok\n");
/// # Ok::<(), debctl::Error>(())
/// ```
pub fn explain_condition(kind: Kind, text: impl AsRef<[u8]>) -> Result<String, Error> {
    let text = text.as_ref();
    let call = |out: &mut [u8], length: &mut usize| {
        library::explain_condition(kind as u8, text, out, length)
    };
    match written(4096, call) {
        (answer, _) if answer.status == library::NO_MEMORY => Err(Error::Memory),
        (_, lines) => Ok(String::from_utf8_lossy(&lines).into_owned()),
    }
}

/// Returns the paragraphs of a file that are selected, in a form: what the program `debctl select`
/// writes.
pub fn select(
    asked: Selection<'_>,
    form: SelectForm<'_>,
    text: impl AsRef<[u8]>,
) -> Result<Selected, SelectError> {
    let (text, (form, names)) = (text.as_ref(), form.parts());
    let numbers = (asked.kind as u8, u8::from(asked.others), form);
    let (conditions, names) = (texts_of(asked.conditions), texts_of(names));
    let call = |out: &mut [u8], length: &mut usize| {
        library::select(numbers, (&conditions, &names), text, out, length)
    };
    let room = match form {
        0 | 3 => text.len() + 64,
        _ => lines_room(8 * text.len()),
    };
    let (answer, found) = written(room, call);
    if answer.status == library::SECOND_REFUSED {
        let number = answer.count;
        let condition = asked.conditions[number as usize - 1];
        let text = explain_condition(asked.kind, condition)?;
        return Err(SelectError::Condition { number, text });
    }
    let file = (asked.kind, text);
    let count = answered_of(answer, file, file)?.count;
    Ok(Selected { count, text: found })
}

/// Returns a row of each paragraph of a file that is selected: the canonical texts of these fields, of
/// which one that is absent is empty.
pub fn select_table(
    asked: Selection<'_>,
    fields: &[&[u8]],
    text: impl AsRef<[u8]>,
) -> Result<Vec<Vec<Vec<u8>>>, SelectError> {
    let table = select(asked, SelectForm::Table(fields), text)?.text;
    let lines = table.split_inclusive(|byte| *byte == b'\n');
    let row = |line: &[u8]| match fields {
        [] => Vec::new(),
        _ => line[..line.len() - 1]
            .split(|byte| *byte == b'\t')
            .map(cell)
            .collect(),
    };
    Ok(lines.map(row).collect())
}

/// Returns a cell of a table without its escapes.
fn cell(text: &[u8]) -> Vec<u8> {
    let (mut bytes, mut found) = (text.iter().copied(), Vec::with_capacity(text.len()));
    while let Some(byte) = bytes.next() {
        let escape = if byte == b'\\' { bytes.next() } else { None };
        found.push(match escape {
            None => byte,
            Some(b't') => b'\t',
            Some(b'n') => b'\n',
            Some(b'x') => bytes
                .by_ref()
                .take(2)
                .fold(0, |sum, digit| 16 * sum + value(digit)),
            Some(other) => other,
        });
    }
    found
}

/// Returns the value of a hexadecimal digit, which has no letter in upper case.
fn value(digit: u8) -> u8 {
    match digit {
        b'0'..=b'9' => digit - b'0',
        _ => digit - b'a' + 10,
    }
}
