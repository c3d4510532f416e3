//! Packages that can't be installed, and why.

use crate::reports::package;
use crate::texts::{self, rows, Form, Row};
use crate::Package;

/// A package that can't be installed, or may not be; or a source package that can't be built, or
/// may not be, whose architecture is `source`.
#[derive(Clone, Debug, PartialEq, Eq, Hash)]
#[non_exhaustive]
pub struct NotInstallable {
    /// The package. The number counts the packages of the report alone.
    pub package: Package,
    /// What is known about it.
    pub fault: InstallFault,
    /// Why it is [`InstallFault::Uninstallable`], if that is asked: all of these together.
    pub reasons: Vec<InstallReason>,
}

/// What is known about a package that isn't found to be installable, or to be buildable.
#[derive(Clone, Copy, Debug, PartialEq, Eq, Hash)]
#[non_exhaustive]
pub enum InstallFault {
    /// It can't be.
    Uninstallable,
    /// An architecture wildcard decides whether it can be.
    Unsure,
    /// The search took all its steps.
    Undecided,
}

/// One of the reasons why a package can't be installed, or a source package can't be built.
#[derive(Clone, Debug, PartialEq, Eq, Hash)]
#[non_exhaustive]
pub enum InstallReason {
    /// A package needs a group.
    Need {
        /// The package that needs it.
        package: Package,
        /// The canonical text of the group; `NAME (Essential)` if every package needs one of this
        /// name.
        group: String,
        /// The numbers of the packages that meet it.
        candidates: Vec<u64>,
    },
    /// A package and another one aren't in one set.
    Exclusion {
        /// The package that excludes the other one.
        package: Package,
        /// The other one.
        excluded: Package,
    },
    /// No set contains a package, as it was asked to be left out.
    LeftOut {
        /// The package.
        package: Package,
    },
}

/// Returns the packages of the lines of a report, each with the reasons below it.
pub(crate) fn not_installable_of(text: &str) -> Vec<NotInstallable> {
    let mut packages: Vec<NotInstallable> = Vec::new();
    for row in rows(Form::InstallableLines, text) {
        let fault = match row.kind {
            texts::UNINSTALLABLE => InstallFault::Uninstallable,
            texts::UNSURE => InstallFault::Unsure,
            texts::UNDECIDED => InstallFault::Undecided,
            _ => {
                let last = packages.last_mut().expect("a package comes first");
                last.reasons.push(install_reason(&row));
                continue;
            }
        };
        packages.push(NotInstallable {
            package: package(&row, 0),
            fault,
            reasons: Vec::new(),
        });
    }
    packages
}

/// Returns the reason that a row is.
fn install_reason(row: &Row) -> InstallReason {
    let package = |first| package(row, first);
    match row.kind {
        texts::NEED => InstallReason::Need {
            package: package(0),
            group: row.text(4),
            candidates: match row.cells[5] {
                "none" => Vec::new(),
                numbers => numbers.split(' ').map(texts::number).collect(),
            },
        },
        texts::EXCLUSION => InstallReason::Exclusion {
            package: package(0),
            excluded: package(4),
        },
        _ => InstallReason::LeftOut {
            package: package(0),
        },
    }
}

#[cfg(test)]
mod tests {
    use super::*;

    fn package(number: u64, name: &str, version: &str, architecture: &str) -> Package {
        Package {
            number,
            name: name.to_owned(),
            version: version.to_owned(),
            architecture: architecture.to_owned(),
            file: None,
        }
    }

    fn need(package: &Package, group: &str, candidates: &[u64]) -> InstallReason {
        InstallReason::Need {
            package: package.clone(),
            group: group.to_owned(),
            candidates: candidates.to_vec(),
        }
    }

    fn is(package: &Package, fault: InstallFault, reasons: &[InstallReason]) -> NotInstallable {
        NotInstallable {
            package: package.clone(),
            fault,
            reasons: reasons.to_vec(),
        }
    }

    #[test]
    fn reasons_belong_to_the_package_before_them() {
        let text = "unsure 1 aa 1 all\nuninstallable 2 bb 1:2 amd64\n \
            2 bb 1:2 amd64 needs cc:any (>= 1:2) | dd: 3 12\n \
            3 cc 1:3 all needs ee: none\n \
            3 cc 1:3 all needs ff (Essential): 7\n \
            12 dd 4 i386 excludes 2 bb 1:2 amd64\n \
            7 ff 1 all is left out\nundecided 8 gg 1 all\n";
        let (aa, gg) = (package(1, "aa", "1", "all"), package(8, "gg", "1", "all"));
        let (bb, cc) = (
            package(2, "bb", "1:2", "amd64"),
            package(3, "cc", "1:3", "all"),
        );
        let reasons = [
            need(&bb, "cc:any (>= 1:2) | dd", &[3, 12]),
            need(&cc, "ee", &[]),
            need(&cc, "ff (Essential)", &[7]),
            InstallReason::Exclusion {
                package: package(12, "dd", "4", "i386"),
                excluded: bb.clone(),
            },
            InstallReason::LeftOut {
                package: package(7, "ff", "1", "all"),
            },
        ];
        let wanted = [
            is(&aa, InstallFault::Unsure, &[]),
            is(&bb, InstallFault::Uninstallable, &reasons),
            is(&gg, InstallFault::Undecided, &[]),
        ];
        assert_eq!(not_installable_of(text), wanted);
    }

    #[test]
    fn a_package_may_have_many_reasons() {
        let line = " 1 aa 1 all needs bb: none\n";
        let text = format!("uninstallable 1 aa 1 all\n{}", line.repeat(5000));
        let found = not_installable_of(&text);
        assert_eq!((found.len(), found[0].reasons.len()), (1, 5000));
    }
}
