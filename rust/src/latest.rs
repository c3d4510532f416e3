//! The latest versions of packages over several files.

use crate::library;
use crate::refusals::{answered, with_field};
use crate::reports::texts_of;
use crate::texts::written;
use crate::{Error, Kind};
use std::fmt;

/// Of which packages the latest versions are found.
///
/// ```
/// use debctl::{latest, Latest};
///
/// let aa = "Package: aa\nVersion: 1\nArchitecture: all\n";
/// let newer = aa.replace('1', "1.1");
/// let texts = [aa.as_bytes(), newer.as_bytes()];
/// assert_eq!(latest(Latest::default(), &texts)?, newer.as_bytes());
/// let earlier = Latest { before: Some(b"1.1"), ..Latest::default() };
/// assert_eq!(latest(earlier, &texts)?, aa.as_bytes());
/// # Ok::<(), debctl::LatestError>(())
/// ```
#[derive(Clone, Copy, Debug, Default, PartialEq, Eq, Hash)]
pub struct Latest<'a> {
    /// Whether the files are indexes of source packages; else they are indexes of binary packages.
    pub sources: bool,
    /// Whether paragraphs with one name and other architectures are of other packages. A source
    /// package has one name only.
    pub by_architecture: bool,
    /// If there is one, and it isn't empty, only versions earlier than it are considered.
    pub before: Option<&'a [u8]>,
}

/// Why there are no latest versions.
#[derive(Clone, Debug, PartialEq, Eq, Hash)]
#[non_exhaustive]
pub struct LatestError {
    /// The place of the text that is refused, from 1; `None` if none is.
    pub text: Option<u64>,
    /// The error.
    pub error: Error,
}

impl fmt::Display for LatestError {
    fn fmt(&self, out: &mut fmt::Formatter<'_>) -> fmt::Result {
        match self.text {
            Some(text) => write!(out, "text {text}: {}", self.error),
            None => self.error.fmt(out),
        }
    }
}

impl std::error::Error for LatestError {}

impl From<LatestError> for Error {
    fn from(it: LatestError) -> Error {
        it.error
    }
}

/// Returns of each package over several files the paragraph with the latest version, as its file has
/// it, with an empty line between two: what the program `debctl latest` writes. Of equal versions it
/// is the first.
pub fn latest(asked: Latest<'_>, texts: &[&[u8]]) -> Result<Vec<u8>, LatestError> {
    let kind = match asked.sources {
        true => Kind::Sources,
        false => Kind::Packages,
    };
    let numbers = (kind as u8, u8::from(asked.by_architecture));
    let (before, several) = (asked.before.unwrap_or_default(), texts_of(texts));
    let length = texts.iter().map(|text| text.len()).sum::<usize>();
    let call = |out: &mut [u8], length: &mut usize| {
        library::latest(numbers, (before, &several), out, length)
    };
    let (answer, found) = written(length + 64, call);
    let place = match answer.status {
        library::REFUSED if answer.count > 0 => Some(answer.count),
        _ => None,
    };
    match (answered(answer), place) {
        (Ok(_), _) => Ok(found),
        (Err(Error::Refused(refusal)), Some(text)) => {
            let file = (kind, texts[text as usize - 1]);
            let error = with_field(refusal, file, 1).map_or_else(|it| it, Error::Refused);
            let text = place;
            Err(LatestError { text, error })
        }
        (Err(error), text) => Err(LatestError { text, error }),
    }
}
