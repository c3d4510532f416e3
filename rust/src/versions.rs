//! Versions: their order, their canonical text, their keys and their parts.

use crate::library::{self, Answer};
use crate::refusals::answered;
use crate::texts::{given, string};
use crate::Error;
use std::cmp::Ordering;
use std::convert::TryFrom;
use std::fmt;
use std::hash::{Hash, Hasher};
use std::str::FromStr;

/// Compares two versions in Debian's order.
pub fn compare(left: impl AsRef<[u8]>, right: impl AsRef<[u8]>) -> Result<Ordering, Error> {
    let compared = library::version_compare(left.as_ref(), right.as_ref());
    answered(Answer {
        status: compared.status,
        code: compared.code,
        ..Answer::default()
    })?;
    Ok(compared.order.cmp(&0))
}

/// Returns the canonical text of a version: two versions are equal if and only if theirs are the
/// same.
pub fn canonical(version: impl AsRef<[u8]>) -> Result<String, Error> {
    let version = version.as_ref();
    let call =
        |out: &mut [u8], length: &mut usize| library::version_canonical(version, out, length);
    Ok(string(given(version.len() + 1, call)?.1))
}

/// Returns the key of a version: bytes whose order is Debian's order of versions. Two versions are
/// equal if and only if their keys are the same, so a database can sort and index keys. The
/// encoding doesn't change.
///
/// ```
/// assert!(debctl::key("1.0~rc1")? < debctl::key("1.0")?);
/// assert_eq!(debctl::key("0:1.0-0"), debctl::key("1.00"));
/// # Ok::<(), debctl::Error>(())
/// ```
pub fn key(version: impl AsRef<[u8]>) -> Result<Vec<u8>, Error> {
    let version = version.as_ref();
    let call = |out: &mut [u8], length: &mut usize| library::version_key(version, out, length);
    Ok(given(2 * version.len() + 8, call)?.1)
}

/// A version in Debian's order. Two that are equal in it are equal, however they are spelled.
///
/// ```
/// use debctl::Version;
///
/// let mut versions: Vec<Version> = ["1.10", "1.9", "1.10~rc1"]
///     .iter()
///     .map(|text| text.parse())
///     .collect::<Result<_, _>>()?;
/// versions.sort();
/// assert_eq!(versions[0].text(), "1.9");
///
/// let version = Version::new("00:1.02-1")?;
/// assert_eq!((version.epoch(), version.revision()), (Some("00"), Some("1")));
/// assert_eq!(version.upstream(), "1.02");
/// assert_eq!(version.canonical()?.text(), "1.2-1");
/// # Ok::<(), debctl::Error>(())
/// ```
#[derive(Clone)]
pub struct Version {
    text: String,
    key: Vec<u8>,
}

/// Where the parts of a version are in its text.
struct Parts<'a> {
    epoch: Option<&'a str>,
    upstream: &'a str,
    revision: Option<&'a str>,
}

impl Version {
    /// Returns the version that a text spells.
    pub fn new(text: impl AsRef<[u8]>) -> Result<Version, Error> {
        let text = text.as_ref();
        let key = key(text)?;
        let text = string(text.to_vec());
        Ok(Version { text, key })
    }

    /// Returns the text, as it was spelled.
    pub fn text(&self) -> &str {
        &self.text
    }

    /// Returns the key: bytes that have the order of the version. See [`key`].
    pub fn key(&self) -> &[u8] {
        &self.key
    }

    /// Returns the same version with its canonical text, whose parts are the canonical ones.
    pub fn canonical(&self) -> Result<Version, Error> {
        Ok(Version {
            text: canonical(&self.text)?,
            key: self.key.clone(),
        })
    }

    /// Returns the epoch, as it was spelled, or `None` if the text has none.
    pub fn epoch(&self) -> Option<&str> {
        self.parts().epoch
    }

    /// Returns the upstream version, as it was spelled.
    pub fn upstream(&self) -> &str {
        self.parts().upstream
    }

    /// Returns the revision, as it was spelled, or `None` if the text has none.
    pub fn revision(&self) -> Option<&str> {
        self.parts().revision
    }

    fn parts(&self) -> Parts<'_> {
        let parts = library::version_parts(self.text.as_bytes());
        let epoch = &self.text[..parts.epoch_length];
        let revision = &self.text[parts.revision..][..parts.revision_length];
        Parts {
            epoch: (parts.has_epoch != 0).then_some(epoch),
            upstream: &self.text[parts.upstream..][..parts.upstream_length],
            revision: (parts.has_revision != 0).then_some(revision),
        }
    }
}

impl FromStr for Version {
    type Err = Error;

    fn from_str(text: &str) -> Result<Version, Error> {
        Version::new(text)
    }
}

impl TryFrom<&str> for Version {
    type Error = Error;

    fn try_from(text: &str) -> Result<Version, Error> {
        Version::new(text)
    }
}

impl TryFrom<&[u8]> for Version {
    type Error = Error;

    fn try_from(text: &[u8]) -> Result<Version, Error> {
        Version::new(text)
    }
}

impl AsRef<str> for Version {
    fn as_ref(&self) -> &str {
        &self.text
    }
}

impl AsRef<[u8]> for Version {
    fn as_ref(&self) -> &[u8] {
        self.text.as_bytes()
    }
}

impl fmt::Display for Version {
    fn fmt(&self, out: &mut fmt::Formatter<'_>) -> fmt::Result {
        out.pad(&self.text)
    }
}

impl fmt::Debug for Version {
    fn fmt(&self, out: &mut fmt::Formatter<'_>) -> fmt::Result {
        out.debug_tuple("Version").field(&self.text).finish()
    }
}

impl PartialEq for Version {
    fn eq(&self, other: &Version) -> bool {
        self.key == other.key
    }
}

impl Eq for Version {}

impl PartialOrd for Version {
    fn partial_cmp(&self, other: &Version) -> Option<Ordering> {
        Some(self.cmp(other))
    }
}

impl Ord for Version {
    fn cmp(&self, other: &Version) -> Ordering {
        self.key.cmp(&other.key)
    }
}

impl Hash for Version {
    fn hash<H: Hasher>(&self, state: &mut H) {
        self.key.hash(state);
    }
}
