//! Which packages meet a relation, which relations of a file nothing meets, whether a set of
//! packages is healthy, which packages can't be installed and with which ones a package can be, and
//! which source packages can't be built.

use crate::library::{self, Answer, Text};
use crate::not_installable::{not_installable_of, NotInstallable};
use crate::refusals::answered_of;
use crate::texts::{self, rows, string, written, Form, Row};
use crate::{Asked, Error, Kind, Members, Package, Search, SourceKind};
use std::fmt;

/// The report on a relation.
#[derive(Clone, Debug, PartialEq, Eq, Hash)]
#[non_exhaustive]
pub struct Report {
    /// Whether no group is unmet.
    pub met: bool,
    /// The groups of the relation, in the order of their canonical texts.
    pub groups: Vec<Group>,
    /// The lines of the report.
    pub text: String,
}

/// A group of a relation that is asked.
#[derive(Clone, Debug, PartialEq, Eq, Hash)]
#[non_exhaustive]
pub struct Group {
    /// The answer.
    pub verdict: Verdict,
    /// The canonical text.
    pub text: String,
    /// The packages that meet it, in ascending order.
    pub packages: Vec<Package>,
    /// Why it is unmet or ignored, if that is asked.
    pub reasons: Vec<Reason>,
}

/// The answer for a group.
#[derive(Clone, Copy, Debug, PartialEq, Eq, Hash)]
#[non_exhaustive]
pub enum Verdict {
    /// Some package meets it.
    Met,
    /// No package meets it.
    Unmet,
    /// None of its alternatives applies to the target and the profiles.
    Ignored,
    /// The answer depends on an architecture wildcard: no package meets it, or it is ignored. Only
    /// [`unmet`] has this answer.
    Unsure,
}

/// Why an alternative of a group isn't met.
#[derive(Clone, Debug, PartialEq, Eq, Hash)]
#[non_exhaustive]
pub struct Reason {
    /// The canonical text of the alternative.
    pub alternative: String,
    /// The reason, such as `is earlier`.
    pub reason: String,
    /// The package that doesn't meet it, if the reason is about one.
    pub package: Option<Package>,
}

/// The report on the relations of a file.
#[derive(Clone, Debug, PartialEq, Eq, Hash)]
#[non_exhaustive]
pub struct UnmetReport {
    /// Whether there is no group in the report.
    pub met: bool,
    /// The groups that no package meets, or perhaps none.
    pub groups: Vec<UnmetGroup>,
    /// The lines of the report.
    pub text: String,
}

/// A group of a file's relations that no package meets, or perhaps none.
#[derive(Clone, Debug, PartialEq, Eq, Hash)]
#[non_exhaustive]
pub struct UnmetGroup {
    /// The answer: [`Verdict::Unmet`] or [`Verdict::Unsure`].
    pub verdict: Verdict,
    /// The number of its paragraph in the file, from 1.
    pub number: u64,
    /// The name of the package.
    pub package: String,
    /// The canonical version.
    pub version: String,
    /// The architecture.
    pub architecture: String,
    /// The name of the field.
    pub field: String,
    /// The canonical text.
    pub group: String,
}

/// The report on a set of packages.
#[derive(Clone, Debug, PartialEq, Eq, Hash)]
#[non_exhaustive]
pub struct HealthReport {
    /// Whether the set is healthy: there is no reason in the report.
    pub healthy: bool,
    /// Why the set isn't healthy, in the order of the lines.
    pub reasons: Vec<HealthReason>,
    /// The lines of the report.
    pub text: String,
}

/// Why a set of packages isn't healthy.
#[derive(Clone, Debug, PartialEq, Eq, Hash)]
#[non_exhaustive]
pub struct HealthReason {
    /// The package. That of a [`HealthFault::State`] isn't in the set: its number counts all
    /// paragraphs of the status file, and a version or an architecture that it lacks is `-`.
    pub package: Package,
    /// What is wrong about it.
    pub fault: HealthFault,
}

/// What is wrong about a package of a set.
#[derive(Clone, Debug, PartialEq, Eq, Hash)]
#[non_exhaustive]
pub enum HealthFault {
    /// No package of the set meets a group of a field.
    Unmet {
        /// The name of the field.
        field: String,
        /// The canonical text of the group.
        group: String,
        /// Whether the answer depends on an architecture wildcard.
        unsure: bool,
    },
    /// A group of a field excludes a package of the set.
    Conflict {
        /// The name of the field.
        field: String,
        /// The canonical text of the group.
        group: String,
        /// The package that is excluded.
        by: Package,
        /// Whether the answer depends on an architecture wildcard.
        unsure: bool,
    },
    /// A later package has the same name, and the two can't be installed together.
    Duplicate {
        /// The later package.
        with: Package,
    },
    /// The package of a status file is neither installed nor removed.
    State {
        /// Its status, such as `half-installed`; `-` if Status hasn't three words.
        status: String,
    },
}

/// The report on which packages of a file can't be installed.
#[derive(Clone, Debug, PartialEq, Eq, Hash)]
#[non_exhaustive]
pub struct InstallReport {
    /// Whether each package can be installed: there is no package in the report.
    pub installable: bool,
    /// The packages that can't be installed, or may not be, in the order of the lines.
    pub packages: Vec<NotInstallable>,
    /// The lines of the report.
    pub text: String,
}

/// The report on a search for a healthy set that contains a package.
#[derive(Clone, Debug, PartialEq, Eq, Hash)]
#[non_exhaustive]
pub struct WitnessReport {
    /// Whether a set is found.
    pub found: bool,
    /// The packages of the set, in the order of the lines; none, if no set is found.
    pub packages: Vec<Package>,
    /// If no set is found, the packages for which the search finds none, in the order of the lines.
    pub not_installable: Vec<NotInstallable>,
    /// The lines of the report.
    pub text: String,
}

/// The report on which source packages of a file can't be built.
#[derive(Clone, Debug, PartialEq, Eq, Hash)]
#[non_exhaustive]
pub struct BuildReport {
    /// Whether each source package can be built: there is none in the report.
    pub buildable: bool,
    /// The source packages that can't be built, or may not be, in the order of the lines.
    pub packages: Vec<NotInstallable>,
    /// The lines of the report.
    pub text: String,
}

impl fmt::Display for Report {
    fn fmt(&self, out: &mut fmt::Formatter<'_>) -> fmt::Result {
        out.write_str(&self.text)
    }
}

impl fmt::Display for UnmetReport {
    fn fmt(&self, out: &mut fmt::Formatter<'_>) -> fmt::Result {
        out.write_str(&self.text)
    }
}

impl fmt::Display for HealthReport {
    fn fmt(&self, out: &mut fmt::Formatter<'_>) -> fmt::Result {
        out.write_str(&self.text)
    }
}

impl fmt::Display for InstallReport {
    fn fmt(&self, out: &mut fmt::Formatter<'_>) -> fmt::Result {
        out.write_str(&self.text)
    }
}

impl fmt::Display for WitnessReport {
    fn fmt(&self, out: &mut fmt::Formatter<'_>) -> fmt::Result {
        out.write_str(&self.text)
    }
}

impl fmt::Display for BuildReport {
    fn fmt(&self, out: &mut fmt::Formatter<'_>) -> fmt::Result {
        out.write_str(&self.text)
    }
}

/// Returns the package in the cells of a row, of which the first is its number.
pub(crate) fn package(row: &Row, first: usize) -> Package {
    Package {
        number: row.number(first),
        name: row.text(first + 1),
        version: row.text(first + 2),
        architecture: row.text(first + 3),
        file: None,
    }
}

/// Returns the package in the cells of a row, of which one is its file.
fn package_of_file(row: &Row, first: usize, file: usize) -> Package {
    Package {
        file: Some(row.number(file)),
        ..package(row, first)
    }
}

/// Returns the report that a call wrote.
pub(crate) fn report((answer, text): (Answer, Vec<u8>)) -> Report {
    let text = string(text);
    let mut groups: Vec<Group> = Vec::new();
    for row in rows(Form::Report, &text) {
        let verdict = match row.kind {
            texts::MET => Verdict::Met,
            texts::UNMET => Verdict::Unmet,
            texts::IGNORED => Verdict::Ignored,
            _ => {
                let group = groups.last_mut().expect("a group comes first");
                add_to_group(group, &row);
                continue;
            }
        };
        groups.push(Group {
            verdict,
            text: row.text(0),
            packages: Vec::new(),
            reasons: Vec::new(),
        });
    }
    Report {
        met: answer.status == library::YES,
        groups,
        text,
    }
}

/// Adds a package or a reason to its group.
fn add_to_group(group: &mut Group, row: &Row) {
    let (package, reason) = match row.kind {
        texts::PACKAGE => return group.packages.push(package(row, 0)),
        texts::PACKAGE_OF_FILE => {
            return group.packages.push(package_of_file(row, 0, 4));
        }
        texts::PACKAGE_REASON => (Some(package(row, 1)), row.text(5)),
        texts::PACKAGE_REASON_OF_FILE => (Some(package_of_file(row, 1, 6)), row.text(5)),
        _ => (None, row.text(1)),
    };
    group.reasons.push(Reason {
        alternative: row.text(0),
        package,
        reason,
    });
}

/// Returns the report on a file that a call wrote.
pub(crate) fn unmet_report((answer, text): (Answer, Vec<u8>)) -> UnmetReport {
    let text = string(text);
    let group = |row: Row| UnmetGroup {
        verdict: match row.kind {
            texts::UNSURE_GROUP => Verdict::Unsure,
            _ => Verdict::Unmet,
        },
        number: row.number(0),
        package: row.text(1),
        version: row.text(2),
        architecture: row.text(3),
        field: row.text(4),
        group: row.text(5),
    };
    UnmetReport {
        met: answer.status == library::YES,
        groups: rows(Form::UnmetLines, &text).map(group).collect(),
        text,
    }
}

/// Returns the reason that a row is.
fn health_reason(row: Row) -> HealthReason {
    let fault = match row.kind {
        texts::DUPLICATE => HealthFault::Duplicate {
            with: Package {
                number: row.number(4),
                name: row.text(1),
                version: row.text(5),
                architecture: row.text(6),
                file: None,
            },
        },
        texts::STATE => HealthFault::State {
            status: row.text(4),
        },
        texts::CONFLICT | texts::UNSURE_CONFLICT => HealthFault::Conflict {
            field: row.text(4),
            group: row.text(5),
            by: package(&row, 6),
            unsure: row.kind == texts::UNSURE_CONFLICT,
        },
        _ => HealthFault::Unmet {
            field: row.text(4),
            group: row.text(5),
            unsure: row.kind != texts::UNMET_NEED,
        },
    };
    HealthReason {
        package: package(&row, 0),
        fault,
    }
}

/// Returns texts as the library takes them.
pub(crate) fn texts_of<'a>(texts: &[&'a [u8]]) -> Vec<Text<'a>> {
    texts.iter().map(|text| Text::of(text)).collect()
}

/// Finds the packages of an index that meet a relation, for a target architecture and with these
/// build profiles active.
///
/// ```
/// use debctl::{query, Verdict};
///
/// let index = "Package: mailer\nVersion: 2\nArchitecture: all\nProvides: mta\n";
/// let report = query("amd64", &[], "mta, hello", index)?;
/// assert_eq!(report.groups[0].verdict, Verdict::Unmet);
/// assert_eq!(report.groups[1].packages[0].name, "mailer");
/// assert_eq!(report.text, "unmet hello\nmet mta\n 1 mailer 2 all\n");
/// # Ok::<(), debctl::Error>(())
/// ```
pub fn query(
    target: impl AsRef<[u8]>,
    profiles: &[&[u8]],
    relation: impl AsRef<[u8]>,
    index: impl AsRef<[u8]>,
) -> Result<Report, Error> {
    let asked = (relation.as_ref(), index.as_ref());
    query_index(false, (target.as_ref(), profiles), asked)
}

/// Returns what [`query`] does, with the reasons why a group is unmet or ignored.
///
/// ```
/// let index = "Package: aa\nVersion: 2\nArchitecture: all\n";
/// let report = debctl::query_why("amd64", &[], "aa (>= 3)", index)?;
/// let reason = &report.groups[0].reasons[0];
/// assert_eq!((reason.alternative.as_str(), reason.reason.as_str()), ("aa (>= 3)", "is earlier"));
/// # Ok::<(), debctl::Error>(())
/// ```
pub fn query_why(
    target: impl AsRef<[u8]>,
    profiles: &[&[u8]],
    relation: impl AsRef<[u8]>,
    index: impl AsRef<[u8]>,
) -> Result<Report, Error> {
    let asked = (relation.as_ref(), index.as_ref());
    query_index(true, (target.as_ref(), profiles), asked)
}

fn query_index(
    why: bool,
    (target, profiles): (&[u8], &[&[u8]]),
    (relation, index): (&[u8], &[u8]),
) -> Result<Report, Error> {
    let profiles = texts_of(profiles);
    let call = |out: &mut [u8], length: &mut usize| {
        library::query(why, (target, &profiles), (relation, index), out, length)
    };
    let (answer, text) = written(index.len() + 16 * relation.len() + 4096, call);
    let file = (Kind::Packages, index);
    Ok(report((answered_of(answer, file, file)?, text)))
}

/// Finds the relations of a file that no package of an index meets, for a target architecture and
/// with these build profiles active: the lines that the program `debctl unmet` writes. Source
/// packages are asked if they are built for the target; [`Index::unmet_with`](crate::Index::unmet_with)
/// has more options. If the file is refused, the error is [`Error::SecondRefused`].
pub fn unmet(
    asked: Asked,
    target: impl AsRef<[u8]>,
    profiles: &[&[u8]],
    index: impl AsRef<[u8]>,
    file: impl AsRef<[u8]>,
) -> Result<UnmetReport, Error> {
    let (target, index, file) = (target.as_ref(), index.as_ref(), file.as_ref());
    let (kind, recommends) = asked.parts();
    let asked = (kind as u8, u8::from(recommends));
    let profiles = texts_of(profiles);
    let call = |out: &mut [u8], length: &mut usize| {
        library::unmet(asked, (target, &profiles), (index, file), out, length)
    };
    let (answer, text) = written(file.len() + 4096, call);
    let answer = answered_of(answer, (Kind::Packages, index), (kind, file))?;
    Ok(unmet_report((answer, text)))
}

/// Finds why a set of packages isn't consistent, for a target architecture: the lines that the
/// program `debctl healthy` writes. The set is the packages of an index, or the installed ones of a
/// status file; then a package that is neither installed nor removed is a reason, too. With
/// `recommends` a package needs what it recommends.
///
/// ```
/// use debctl::{healthy, HealthFault, Members};
///
/// let index = "Package: aa\nVersion: 1\nArchitecture: all\nConflicts: bb\n\n\
///     Package: bb\nVersion: 2\nArchitecture: all\n";
/// let report = healthy(Members::All, false, "amd64", index)?;
/// assert!(!report.healthy);
/// assert_eq!(report.reasons[0].package.name, "aa");
/// assert_eq!(report.text, "conflict 1 aa 1 all Conflicts bb by 2 bb 2 all\n");
///
/// let status = "Package: aa\nStatus: deinstall ok config-files\nVersion: 1\n\
///     Architecture: all\nConflicts: bb\n\n\
///     Package: bb\nStatus: install ok installed\nVersion: 2\nArchitecture: all\n";
/// assert!(healthy(Members::Installed, false, "amd64", status)?.healthy);
///
/// let status = status.replace("ok installed", "ok unpacked");
/// let report = healthy(Members::Installed, false, "amd64", status)?;
/// assert_eq!(report.text, "state 2 bb 2 all unpacked\n");
/// let fault = &report.reasons[0].fault;
/// assert!(matches!(fault, HealthFault::State { status } if status == "unpacked"));
/// # Ok::<(), debctl::Error>(())
/// ```
pub fn healthy(
    members: Members,
    recommends: bool,
    target: impl AsRef<[u8]>,
    index: impl AsRef<[u8]>,
) -> Result<HealthReport, Error> {
    let (target, file) = (target.as_ref(), (members.kind(), index.as_ref()));
    let asked = (file.0 as u8, u8::from(recommends));
    let call =
        |out: &mut [u8], length: &mut usize| library::healthy(asked, (target, file.1), out, length);
    let (answer, text) = written(file.1.len() + 4096, call);
    let answer = answered_of(answer, file, file)?;
    let text = string(text);
    Ok(HealthReport {
        healthy: answer.status == library::YES,
        reasons: rows(Form::HealthLines, &text).map(health_reason).collect(),
        text,
    })
}

/// Finds which packages of a file can't be installed, for a target architecture: no set of packages
/// of the file that is healthy, as [`healthy`] has it, contains them. The lines are those that the
/// program `debctl installable` writes. With `recommends` a package needs what it recommends.
///
/// ```
/// use debctl::{installable, InstallFault, Members, Search};
///
/// let index = "Package: aa\nVersion: 1\nArchitecture: all\nDepends: bb\nConflicts: cc\n\n\
///     Package: bb\nVersion: 1\nArchitecture: all\nDepends: cc\n\n\
///     Package: cc\nVersion: 1\nArchitecture: all\n";
/// let report = installable(Members::All, false, Search::default(), "amd64", index)?;
/// assert!(!report.installable);
/// assert_eq!(report.text, "uninstallable 1 aa 1 all\n");
/// assert_eq!(report.packages[0].package.name, "aa");
/// assert_eq!(report.packages[0].fault, InstallFault::Uninstallable);
/// # Ok::<(), debctl::Error>(())
/// ```
pub fn installable(
    members: Members,
    recommends: bool,
    search: Search<'_>,
    target: impl AsRef<[u8]>,
    index: impl AsRef<[u8]>,
) -> Result<InstallReport, Error> {
    let (target, file) = (target.as_ref(), (members.kind(), index.as_ref()));
    let asked = (file.0 as u8, u8::from(recommends));
    let without = texts_of(search.without);
    let call = |out: &mut [u8], length: &mut usize| {
        library::installable(asked, (&search, &without), (target, file.1), out, length)
    };
    let (answer, text) = written(search.room(file.1.len()), call);
    let answer = answered_of(answer, file, file)?;
    let text = string(text);
    Ok(InstallReport {
        installable: answer.status == library::YES,
        packages: not_installable_of(&text),
        text,
    })
}

/// Finds a set of packages of a file that contains a package with this name and is healthy, as
/// [`healthy`] has it, for a target architecture: that of the first package with the name for which
/// the search finds one. No architecture wildcard decides whether it is healthy. The lines are those
/// that the program `debctl installable --witness` writes: those of the set or, if none is found,
/// those that [`installable`] has for the packages with the name.
///
/// ```
/// use debctl::{witness, InstallFault, Members, Search};
///
/// let aa = "Package: aa\nVersion: 1\nArchitecture: all\nDepends: bb | cc\n\n\
///     Package: bb\nVersion: 1\nArchitecture: all\nConflicts: aa\n";
/// let cc = "\nPackage: cc\nVersion: 1\nArchitecture: all\n";
/// let all = Members::All;
/// let report = witness(all, false, Search::default(), "amd64", "aa", format!("{aa}{cc}"))?;
/// assert!(report.found);
/// assert_eq!(report.text, " 1 aa 1 all\n 3 cc 1 all\n");
/// assert_eq!(report.packages[1].name, "cc");
/// let report = witness(all, false, Search::default(), "amd64", "aa", aa)?;
/// assert!(!report.found);
/// assert_eq!(report.not_installable[0].fault, InstallFault::Uninstallable);
/// # Ok::<(), debctl::Error>(())
/// ```
pub fn witness(
    members: Members,
    recommends: bool,
    search: Search<'_>,
    target: impl AsRef<[u8]>,
    name: impl AsRef<[u8]>,
    index: impl AsRef<[u8]>,
) -> Result<WitnessReport, Error> {
    let (target, name) = (target.as_ref(), name.as_ref());
    let file = (members.kind(), index.as_ref());
    let asked = (file.0 as u8, u8::from(recommends));
    let without = texts_of(search.without);
    let call = |out: &mut [u8], length: &mut usize| {
        library::witness(
            asked,
            (&search, &without),
            (target, name, file.1),
            out,
            length,
        )
    };
    let (answer, text) = written(search.room(file.1.len()), call);
    let found = answered_of(answer, file, file)?.status == library::YES;
    let text = string(text);
    let (set, others) = if found {
        (&text[..], "")
    } else {
        ("", &text[..])
    };
    Ok(WitnessReport {
        found,
        packages: rows(Form::Report, set)
            .map(|row| package(&row, 0))
            .collect(),
        not_installable: not_installable_of(others),
        text,
    })
}

/// Finds which source packages of a file can't be built with the packages of an index, for a target
/// architecture and with these build profiles active: no healthy set of these packages has
/// build-essential and what the Build-Depends fields need, and none that the Build-Conflicts fields
/// exclude. Each source package is asked by itself. The lines are those that the program `debctl
/// installable --kind sources` writes. If the file is refused, the error is
/// [`Error::SecondRefused`].
///
/// The budget of the search is for one source package. All searches take at most so many steps, and
/// 100 for each package of both files.
///
/// ```
/// use debctl::{buildable, InstallFault, Search, SourceKind};
///
/// let index = "Package: build-essential\nVersion: 1\nArchitecture: amd64\n";
/// let sources = "Package: ss\nVersion: 1\nBuild-Depends: bb <!nocheck>\n";
/// let ask = |profiles: &[&[u8]]| {
///     let search = Search::default();
///     buildable(SourceKind::Sources, search, "amd64", profiles, index, sources)
/// };
/// let report = ask(&[])?;
/// assert!(!report.buildable);
/// assert_eq!(report.text, "uninstallable 1 ss 1 source\n");
/// assert_eq!(report.packages[0].fault, InstallFault::Uninstallable);
/// assert!(ask(&[b"nocheck"])?.buildable);
/// # Ok::<(), debctl::Error>(())
/// ```
pub fn buildable(
    kind: SourceKind,
    search: Search<'_>,
    target: impl AsRef<[u8]>,
    profiles: &[&[u8]],
    index: impl AsRef<[u8]>,
    file: impl AsRef<[u8]>,
) -> Result<BuildReport, Error> {
    let (target, index, file) = (target.as_ref(), index.as_ref(), file.as_ref());
    let (profiles, without) = (texts_of(profiles), texts_of(search.without));
    let call = |out: &mut [u8], length: &mut usize| {
        library::buildable(
            kind.kind() as u8,
            (&search, &without),
            (target, &profiles),
            (index, file),
            out,
            length,
        )
    };
    let (answer, text) = written(search.room(2 * file.len() + 64), call);
    let answer = answered_of(answer, (Kind::Packages, index), (kind.kind(), file))?;
    let text = string(text);
    Ok(BuildReport {
        buildable: answer.status == library::YES,
        packages: not_installable_of(&text),
        text,
    })
}
