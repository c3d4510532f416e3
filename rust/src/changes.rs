//! What changed between two files.

use crate::library;
use crate::refusals::answered_of;
use crate::texts::{self, lines_room, rows, string, written, Form, Row};
use crate::{Compared, Error};
use std::fmt;

/// What became of a paragraph. It displays as its lines.
#[derive(Clone, Debug, PartialEq, Eq, Hash)]
#[non_exhaustive]
pub struct Change {
    /// What became of it.
    pub kind: ChangeKind,
    /// The number of the paragraph, from 1: in the new file if it was added, else in the old one.
    pub number: u64,
    /// The name of the package.
    pub package: String,
    /// The canonical version in the old file, unless the paragraph was added.
    pub old_version: Option<String>,
    /// The canonical version in the new file, unless the paragraph was removed.
    pub new_version: Option<String>,
    /// The architecture.
    pub architecture: String,
    /// The names of the fields that differ, if both files have the paragraph.
    pub fields: Vec<String>,
    /// The lines of these fields in the canonical text of the old file, if values are asked.
    pub old: Vec<String>,
    /// The lines of these fields in the canonical text of the new file, likewise.
    pub new: Vec<String>,
    /// The lines that the program `debctl diff` writes, without the newline of the last one.
    pub text: String,
}

/// What became of a paragraph.
#[derive(Clone, Copy, Debug, PartialEq, Eq, Hash)]
#[non_exhaustive]
pub enum ChangeKind {
    /// Only the old file has it.
    Removed,
    /// Both files have it, and fields differ.
    Changed,
    /// Both files have it, and the new one has a later version.
    Upgraded,
    /// Both files have it, and the new one has an earlier version.
    Downgraded,
    /// Only the new file has it.
    Added,
}

impl fmt::Display for Change {
    fn fmt(&self, out: &mut fmt::Formatter<'_>) -> fmt::Result {
        out.write_str(&self.text)
    }
}

/// Returns the change in a row, without its values, or `None` if it is a line of these.
fn change(row: &Row) -> Option<Change> {
    // The cells of the old version, of the new version and of the architecture.
    let (kind, old, new, architecture) = match row.kind {
        texts::REMOVED => (ChangeKind::Removed, Some(2), None, 3),
        texts::CHANGED => (ChangeKind::Changed, Some(2), Some(2), 3),
        texts::UPGRADED => (ChangeKind::Upgraded, Some(2), Some(3), 4),
        texts::DOWNGRADED => (ChangeKind::Downgraded, Some(2), Some(3), 4),
        texts::ADDED => (ChangeKind::Added, None, Some(2), 3),
        _ => return None,
    };
    let fields = row.cells[architecture + 1].split(' ');
    Some(Change {
        kind,
        number: row.number(0),
        package: row.text(1),
        old_version: old.map(|cell| row.text(cell)),
        new_version: new.map(|cell| row.text(cell)),
        architecture: row.text(architecture),
        fields: fields
            .filter(|it| !it.is_empty())
            .map(str::to_owned)
            .collect(),
        old: Vec::new(),
        new: Vec::new(),
        text: String::new(),
    })
}

/// Returns what changed in meaning between two files: each paragraph that was removed, added,
/// changed, upgraded or downgraded. With `values` the values that differ are returned too. If the new file is
/// refused, the error is [`Error::SecondRefused`].
///
/// ```
/// use debctl::{diff, ChangeKind, Compared};
///
/// let old = "Package: aa\nVersion: 1\nArchitecture: all\n";
/// let change = &diff(Compared::Packages, true, old, old.replace('1', "2"))?[0];
/// assert_eq!((change.kind, &change.new_version), (ChangeKind::Upgraded, &Some("2".to_owned())));
/// assert_eq!(change.new, ["Version: 2"]);
/// assert_eq!(change.text, "upgraded 1 aa 1 2 all Version\n -Version: 1\n +Version: 2");
/// # Ok::<(), debctl::Error>(())
/// ```
pub fn diff(
    kind: Compared,
    values: bool,
    old: impl AsRef<[u8]>,
    new: impl AsRef<[u8]>,
) -> Result<Vec<Change>, Error> {
    let (kind, old, new) = (kind.kind(), old.as_ref(), new.as_ref());
    let compared = (kind as u8, u8::from(values));
    let call =
        |out: &mut [u8], length: &mut usize| library::diff(compared, (old, new), out, length);
    let (answer, text) = written(lines_room(2 * (old.len() + new.len())), call);
    answered_of(answer, (kind, old), (kind, new))?;
    Ok(changes(&string(text)))
}

/// Returns the changes in the lines that the library wrote.
fn changes(text: &str) -> Vec<Change> {
    let mut changes: Vec<Change> = Vec::new();
    let mut start = 0;
    for row in rows(Form::DiffLines, text) {
        let is_value = match change(&row) {
            Some(change) => {
                changes.push(change);
                false
            }
            None => true,
        };
        let last = changes
            .last_mut()
            .expect("a change comes before its values");
        if is_value {
            let is_old = row.kind == texts::OLD_LINE;
            let lines = if is_old { &mut last.old } else { &mut last.new };
            lines.push(row.text(0));
            last.text.push('\n');
        }
        last.text.push_str(&text[start..row.end - 1]);
        start = row.end;
    }
    changes
}
