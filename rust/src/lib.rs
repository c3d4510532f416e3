//! Debian control data: versions, files of control data and their fields, why they are refused, and
//! questions to an index of packages.
//!
//! Each function calls one of the library `libdebctl`, whose answers are proved, and adds no rule
//! of its own. A text is a `&str`, a slice of bytes, or anything else that is `AsRef<[u8]>`.
//!
//! ```
//! use debctl::{check, compare, explain, normalise, Code, Kind};
//! use std::cmp::Ordering;
//!
//! assert_eq!(compare("1.0~rc1", "1.0"), Ok(Ordering::Less));
//! let text = "vERSION: 01.0-0\npackage:hello\nArchitecture: amd64\n";
//! let canonical = b"Architecture: amd64\nPackage: hello\nVersion: 1.0\n";
//! assert_eq!(normalise(Kind::Packages, text)?, canonical);
//! let refused = "Package: hello\nVersion: 1-\n";
//! let error = check(Kind::Packages, refused).unwrap_err();
//! let refusal = error.refusal().expect("a refusal");
//! assert_eq!((refusal.code, refusal.line), (Code::BadVersion, 2));
//! assert_eq!(refusal.field.as_deref(), Some("Version"));
//! let why = explain(Kind::Packages, refused)?;
//! assert_eq!(why.reason.as_deref(), Some("RevisionEmpty"));
//! assert!(why.text.starts_with("line: 2\ncode: 18\nname: BadVersion\nfield: Version\n"));
//! # Ok::<(), debctl::Error>(())
//! ```

#![warn(missing_docs)]

mod changes;
mod explanations;
mod files;
mod index;
mod kinds;
mod latest;
mod library;
mod not_installable;
mod paragraphs;
mod reader;
mod refusals;
mod relations;
mod reports;
mod search;
mod select;
mod texts;
mod versions;

pub use changes::{diff, Change, ChangeKind};
pub use explanations::{
    explain, explain_all, explain_relation, explain_version, AllExplained, Explanation,
};
pub use files::{check, check_all, normalise, same, AllChecked};
pub use index::{Details, Index, Options, Package};
pub use kinds::{Asked, Compared, Kind, Members, SourceKind, UnknownKind};
pub use latest::{latest, Latest, LatestError};
pub use not_installable::{InstallFault, InstallReason, NotInstallable};
pub use paragraphs::{paragraphs, Field, Iter, Paragraph, Paragraphs};
pub use reader::{ReadError, Reader};
pub use refusals::{Code, Error, Refusal};
pub use relations::{applies, relations, satisfies, spelled_relations, Alternative};
pub use reports::{
    buildable, healthy, installable, query, query_why, unmet, witness, BuildReport, Group,
    HealthFault, HealthReason, HealthReport, InstallReport, Reason, Report, UnmetGroup,
    UnmetReport, Verdict, WitnessReport,
};
pub use search::Search;
pub use select::{
    explain_condition, select, select_table, SelectError, SelectForm, Selected, Selection,
};
pub use versions::{canonical, compare, key, Version};

/// Returns the version of the library `libdebctl` that is linked.
///
/// ```
/// assert_eq!(debctl::library_version(), env!("CARGO_PKG_VERSION"));
/// ```
pub fn library_version() -> String {
    let number = library::version();
    format!("{}.{}.{}", number / 10000, number / 100 % 100, number % 100)
}
