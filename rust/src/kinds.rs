//! Kinds of documents, and what is asked of them.

use std::fmt;
use std::str::FromStr;

/// A kind of document.
#[derive(Clone, Copy, Debug, PartialEq, Eq, Hash)]
#[non_exhaustive]
#[repr(u8)]
pub enum Kind {
    /// The control file of a binary package: one paragraph.
    Binary = 0,
    /// An index of binary packages: any number of paragraphs.
    Packages = 1,
    /// The description of a source package: one paragraph.
    Source = 2,
    /// An index of source packages: any number of paragraphs.
    Sources = 3,
    /// Any control data; its values aren't checked.
    Any = 4,
    /// The status file of dpkg: any number of paragraphs.
    Status = 5,
}

const KINDS: [Kind; 6] = [
    Kind::Binary,
    Kind::Packages,
    Kind::Source,
    Kind::Sources,
    Kind::Any,
    Kind::Status,
];

impl Kind {
    /// Returns the name that the program debctl takes after `--kind`.
    pub fn name(self) -> &'static str {
        match self {
            Kind::Binary => "binary",
            Kind::Packages => "packages",
            Kind::Source => "source",
            Kind::Sources => "sources",
            Kind::Any => "any",
            Kind::Status => "status",
        }
    }
}

impl fmt::Display for Kind {
    fn fmt(&self, out: &mut fmt::Formatter<'_>) -> fmt::Result {
        out.pad(self.name())
    }
}

/// There is no kind with this name.
#[derive(Clone, Debug, PartialEq, Eq, Hash)]
pub struct UnknownKind(String);

impl fmt::Display for UnknownKind {
    fn fmt(&self, out: &mut fmt::Formatter<'_>) -> fmt::Result {
        write!(out, "unknown kind: {:?}", self.0)
    }
}

impl std::error::Error for UnknownKind {}

impl FromStr for Kind {
    type Err = UnknownKind;

    fn from_str(name: &str) -> Result<Kind, UnknownKind> {
        let mut kinds = KINDS.iter().copied();
        let found = kinds.find(|kind| kind.name() == name);
        found.ok_or_else(|| UnknownKind(name.to_owned()))
    }
}

/// The kind of a file, and which of its relations are asked.
#[derive(Clone, Copy, Debug, PartialEq, Eq, Hash)]
#[non_exhaustive]
pub enum Asked {
    /// An index of binary packages: Pre-Depends and Depends, and Recommends if that is wanted.
    Packages {
        /// Recommends is asked too.
        recommends: bool,
    },
    /// The control file of a binary package: the same fields.
    Binary {
        /// Recommends is asked too.
        recommends: bool,
    },
    /// An index of source packages: the three fields Build-Depends.
    Sources,
    /// The description of a source package: the same fields.
    Source,
}

impl Asked {
    /// Returns the kind, and whether Recommends is asked.
    pub(crate) fn parts(self) -> (Kind, bool) {
        match self {
            Asked::Packages { recommends } => (Kind::Packages, recommends),
            Asked::Binary { recommends } => (Kind::Binary, recommends),
            Asked::Sources => (Kind::Sources, false),
            Asked::Source => (Kind::Source, false),
        }
    }
}

/// Which packages of a file are a set, for [`healthy`](crate::healthy),
/// [`installable`](crate::installable) and [`witness`](crate::witness).
#[derive(Clone, Copy, Debug, PartialEq, Eq, Hash)]
#[non_exhaustive]
pub enum Members {
    /// All packages of an index of binary packages.
    All,
    /// The installed packages of a status file of dpkg.
    Installed,
}

impl Members {
    /// Returns the kind of the file.
    pub(crate) fn kind(self) -> Kind {
        match self {
            Members::All => Kind::Packages,
            Members::Installed => Kind::Status,
        }
    }
}

/// The kind of a file of source packages, for [`buildable`](crate::buildable).
#[derive(Clone, Copy, Debug, PartialEq, Eq, Hash)]
#[non_exhaustive]
pub enum SourceKind {
    /// An index of source packages.
    Sources,
    /// The description of a source package.
    Source,
}

impl SourceKind {
    /// Returns the kind of the file.
    pub(crate) fn kind(self) -> Kind {
        match self {
            SourceKind::Sources => Kind::Sources,
            SourceKind::Source => Kind::Source,
        }
    }
}

/// The kind of two files that are compared.
#[derive(Clone, Copy, Debug, PartialEq, Eq, Hash)]
#[non_exhaustive]
pub enum Compared {
    /// Indexes of binary packages.
    Packages,
    /// Control files of binary packages.
    Binary,
    /// Indexes of source packages.
    Sources,
    /// Descriptions of source packages.
    Source,
    /// Status files of dpkg. A package may have no version and no architecture there, which are empty
    /// texts in a change.
    Status,
}

impl Compared {
    pub(crate) fn kind(self) -> Kind {
        match self {
            Compared::Packages => Kind::Packages,
            Compared::Binary => Kind::Binary,
            Compared::Sources => Kind::Sources,
            Compared::Source => Kind::Source,
            Compared::Status => Kind::Status,
        }
    }
}
