//! Files: whether they are accepted, their canonical text, and whether two mean the same.

use crate::library;
use crate::refusals::answered_of;
use crate::texts::{canonical_room, written};
use crate::{explain_all, Error, Kind, Refusal};

/// What a whole file has.
#[derive(Clone, Debug, PartialEq, Eq, Hash)]
#[non_exhaustive]
pub struct AllChecked {
    /// The number of paragraphs that pass.
    pub passed: u64,
    /// The refusals, in file order.
    pub refused: Vec<Refusal>,
}

/// Returns the number of paragraphs of a file that is accepted as a document of a kind.
pub fn check(kind: Kind, text: impl AsRef<[u8]>) -> Result<u64, Error> {
    let file = (kind, text.as_ref());
    Ok(answered_of(library::check(kind as u8, file.1), file, file)?.count)
}

/// Checks all of a file as a document of a kind, where [`check`] ends at the first refusal, and
/// returns the number of paragraphs that pass and the refusals in file order: those that the
/// program `debctl check --all` prints. What follows lines that are refused is checked as if these
/// lines were blank. The only error is [`Error::Memory`].
///
/// ```
/// use debctl::{check_all, Code, Kind};
///
/// let text = b"Package: aa\nSize: 1k\n\nPackage: bb\nVersion: 1-\n";
/// let all = check_all(Kind::Packages, text)?;
/// let codes: Vec<_> = all.refused.iter().map(|it| (it.line, it.code)).collect();
/// assert_eq!(codes, [(2, Code::BadNumber), (5, Code::BadVersion)]);
/// assert_eq!(all.refused[0].field.as_deref(), Some("Size"));
/// # Ok::<(), debctl::Error>(())
/// ```
pub fn check_all(kind: Kind, text: impl AsRef<[u8]>) -> Result<AllChecked, Error> {
    let all = explain_all(kind, text)?;
    Ok(AllChecked {
        passed: all.passed,
        refused: all
            .refused
            .into_iter()
            .filter_map(|it| it.refusal)
            .collect(),
    })
}

/// Returns the canonical text of a file: two accepted files mean the same if and only if theirs are
/// the same.
pub fn normalise(kind: Kind, text: impl AsRef<[u8]>) -> Result<Vec<u8>, Error> {
    let text = text.as_ref();
    let call =
        |out: &mut [u8], length: &mut usize| library::normalise(kind as u8, text, out, length);
    let (answer, canonical) = written(canonical_room(text), call);
    answered_of(answer, (kind, text), (kind, text))?;
    Ok(canonical)
}

/// Returns whether two files mean the same.
pub fn same(kind: Kind, text: impl AsRef<[u8]>, other: impl AsRef<[u8]>) -> Result<bool, Error> {
    let (text, other) = (text.as_ref(), other.as_ref());
    let answer = library::same(kind as u8, text, other);
    Ok(answered_of(answer, (kind, text), (kind, other))?.status == library::YES)
}
