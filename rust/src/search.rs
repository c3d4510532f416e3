//! What is asked of the sets of packages that are searched.

use crate::texts::lines_room;
use std::num::NonZeroU32;

/// What [`installable`](crate::installable), [`witness`](crate::witness) and
/// [`buildable`](crate::buildable) ask of sets of packages, and how long the search may take.
///
/// ```
/// use debctl::{installable, Members, Search};
///
/// let index = "Package: aa\nVersion: 1\nArchitecture: all\nDepends: bb\n\n\
///     Package: bb\nVersion: 1\nArchitecture: all\n";
/// let search = Search {
///     without: &[b"bb"],
///     why: true,
///     ..Search::default()
/// };
/// let report = installable(Members::All, false, search, "amd64", index)?;
/// let lines: Vec<_> = report.text.lines().collect();
/// assert_eq!(lines[0], "uninstallable 1 aa 1 all");
/// assert_eq!(lines[1..], [" 1 aa 1 all needs bb: 2", " 2 bb 1 all is left out"]);
/// # Ok::<(), debctl::Error>(())
/// ```
#[derive(Clone, Copy, Debug, Default, PartialEq, Eq, Hash)]
pub struct Search<'a> {
    /// Whether a set must have a package of each name that a package of the target architecture, or
    /// of all, has with `Essential: yes`.
    pub essential: bool,
    /// The names of packages that are left out: none is in a set, essential, or has a line. Numbers
    /// count them.
    pub without: &'a [&'a [u8]],
    /// Whether lines that begin with a space say after an uninstallable package why it is.
    pub why: bool,
    /// The most steps of the search for one package, 100,000 if there is none. All searches take at
    /// most so many, and 100 for each package.
    pub budget: Option<NonZeroU32>,
}

impl Search<'_> {
    /// Returns the budget as the library takes it.
    pub(crate) fn steps(&self) -> u32 {
        self.budget.map_or(0, NonZeroU32::get)
    }

    /// Returns room for lines of that length, and for reasons, which are longer.
    pub(crate) fn room(&self, length: usize) -> usize {
        match self.why {
            true => lines_room(8 * length),
            false => length,
        }
    }
}
