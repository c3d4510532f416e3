//! Why files, relations and versions are refused.

use crate::library::{self, Answer};
use crate::refusals::{answered, Lines};
use crate::texts::{self, lines_room, number, rows, string, written, Form, Row};
use crate::{Code, Error, Kind, Refusal};
use std::fmt;

/// Why a text is refused, or that it is accepted.
///
/// `field` and `value` are as the lines of the text have them: what isn't printable ASCII is
/// escaped, and what is long is cut. The field of the refusal is neither.
#[derive(Clone, Debug, PartialEq, Eq, Hash)]
#[non_exhaustive]
pub struct Explanation {
    /// The refusal, or `None` if the text is accepted.
    pub refusal: Option<Refusal>,
    /// The number of paragraphs of an accepted file.
    pub passed: Option<u64>,
    /// The name of the field.
    pub field: Option<String>,
    /// The offset of the error in the value.
    pub place: Option<u64>,
    /// The line and the column of the error in the file, both from 1.
    pub at: Option<(u64, u64)>,
    /// The name of the reason.
    pub reason: Option<String>,
    /// The value, or the line that is refused.
    pub value: Option<String>,
    /// The rule that the text breaks.
    pub rule: Option<String>,
    /// What usually causes the refusal.
    pub usually: Option<String>,
    /// The lines `key: value`. For an accepted file of N paragraphs the line `ok N`, for an
    /// accepted relation or version the line `ok`.
    pub text: String,
}

impl fmt::Display for Explanation {
    fn fmt(&self, out: &mut fmt::Formatter<'_>) -> fmt::Result {
        out.write_str(&self.text)
    }
}

/// Why a file is refused at each of its refusals.
#[derive(Clone, Debug, PartialEq, Eq, Hash)]
#[non_exhaustive]
pub struct AllExplained {
    /// The number of paragraphs that pass.
    pub passed: u64,
    /// The explanations of the refusals, in file order.
    pub refused: Vec<Explanation>,
    /// The lines of each explanation with an empty line after them, and the line `ok N, M refused`.
    pub text: String,
}

impl fmt::Display for AllExplained {
    fn fmt(&self, out: &mut fmt::Formatter<'_>) -> fmt::Result {
        out.write_str(&self.text)
    }
}

/// Returns the explanation that rows have. `lines` are those of the file, if it is one.
fn explanation(rows: &[Row], text: &str, lines: &mut Option<Lines>) -> Explanation {
    let cells = rows.iter().filter(|row| row.kind == texts::KEY);
    let value = |key| {
        cells
            .clone()
            .find(|row| row.cells[0] == key)
            .map(|row| row.cells[1])
    };
    let owned = |key| value(key).map(str::to_owned);
    let line = value("line").map_or(0, number);
    let refusal = value("code").map(|digits| {
        let code = number(digits) as u8;
        Refusal::new(code, line, None)
    });
    Explanation {
        refusal: refusal.map(|it| Refusal {
            field: field_of(&it, value("field"), lines),
            ..it
        }),
        passed: rows
            .iter()
            .find(|row| row.kind == texts::OK)
            .map(|row| row.number(0)),
        field: owned("field"),
        place: value("place").map(number),
        at: value("at")
            .and_then(|at| at.split_once(':'))
            .map(|(line, column)| (number(line), number(column))),
        reason: owned("reason"),
        value: owned("value"),
        rule: owned("rule"),
        usually: owned("usually"),
        text: text.to_owned(),
    }
}

/// Returns the field of a refusal, which the explanation names. A field that is missing is in no
/// line; any other is at the start of the line that is refused.
fn field_of(refusal: &Refusal, named: Option<&str>, lines: &mut Option<Lines>) -> Option<String> {
    let named = named?;
    if refusal.code == Code::MissingField {
        return Some(named.to_owned());
    }
    let name = lines.as_mut()?.name_at(refusal.line)?.to_vec();
    Some(String::from_utf8(name).expect("a line that is refused for its field is UTF-8"))
}

/// Returns the explanation of an answer.
fn explained((answer, text): (Answer, Vec<u8>), file: Option<&[u8]>) -> Result<Explanation, Error> {
    match answered(answer) {
        Ok(_) | Err(Error::Refused(_)) => {}
        Err(error) => return Err(error),
    }
    let text = string(text);
    let mut lines = file.map(Lines::of);
    let rows: Vec<Row> = rows(Form::Explanation, &text).collect();
    Ok(explanation(&rows, &text, &mut lines))
}

/// Returns why a file is refused as a document of a kind: the lines that the program `debctl
/// explain` writes, except for its first, `file`. The only error is [`Error::Memory`].
///
/// ```
/// use debctl::{explain, Code, Kind};
///
/// let why = explain(Kind::Packages, b"Package: aa\nVersion: 1_2\n")?;
/// assert_eq!(why.refusal.map(|it| it.code), Some(Code::BadVersion));
/// assert_eq!((why.place, why.at), (Some(1), Some((2, 11))));
/// assert_eq!(why.reason.as_deref(), Some("UpstreamByte"));
/// # Ok::<(), debctl::Error>(())
/// ```
pub fn explain(kind: Kind, text: impl AsRef<[u8]>) -> Result<Explanation, Error> {
    let text = text.as_ref();
    let call = |out: &mut [u8], length: &mut usize| library::explain(kind as u8, text, out, length);
    explained(written(4096, call), Some(text))
}

/// Returns why a file is refused at each of its refusals, which are those of [`crate::check_all`].
/// The only error is [`Error::Memory`].
pub fn explain_all(kind: Kind, text: impl AsRef<[u8]>) -> Result<AllExplained, Error> {
    let file = text.as_ref();
    let call =
        |out: &mut [u8], length: &mut usize| library::explain_all(kind as u8, file, out, length);
    let (answer, text) = written(lines_room(8 * file.len()), call);
    if let Err(Error::Memory) = answered(answer) {
        return Err(Error::Memory);
    }
    let text = string(text);
    let (mut lines, mut start, mut refused) = (Some(Lines::of(file)), 0, Vec::new());
    let rows: Vec<Row> = rows(Form::Explanation, &text).collect();
    for block in rows.split_inclusive(|row| row.kind == texts::END) {
        let last = &block[block.len() - 1];
        if last.kind == texts::END {
            let keys = &block[..block.len() - 1];
            let end = last.end - 1;
            refused.push(explanation(keys, &text[start..end], &mut lines));
        }
        start = last.end;
    }
    let passed = answer.count;
    Ok(AllExplained {
        passed,
        refused,
        text,
    })
}

/// Returns why a text isn't a relation: the lines that the program `debctl explain --relation`
/// writes. The only error is [`Error::Memory`].
pub fn explain_relation(text: impl AsRef<[u8]>) -> Result<Explanation, Error> {
    let text = text.as_ref();
    let call = |out: &mut [u8], length: &mut usize| library::explain_relation(text, out, length);
    explained(written(4096, call), None)
}

/// Returns why a text isn't a version: the lines that the program `debctl explain --version-text`
/// writes. The only error is [`Error::Memory`].
///
/// ```
/// let why = debctl::explain_version("1_2")?;
/// assert_eq!((why.place, why.reason.as_deref()), (Some(1), Some("UpstreamByte")));
/// # Ok::<(), debctl::Error>(())
/// ```
pub fn explain_version(text: impl AsRef<[u8]>) -> Result<Explanation, Error> {
    let text = text.as_ref();
    let call = |out: &mut [u8], length: &mut usize| library::explain_version(text, out, length);
    explained(written(4096, call), None)
}
