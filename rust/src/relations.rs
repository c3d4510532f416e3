//! Relations, by their groups and alternatives.

use crate::library::{self, AlternativeAt};
use crate::refusals::answered;
use crate::texts::{canonical_room, filled, given, string};
use crate::{query, Error, Paragraph, Verdict};
use std::fmt;

/// One alternative of a group of a relation.
///
/// It displays as the text of a relation: the canonical one, if its parts are.
#[derive(Clone, Debug, PartialEq, Eq, Hash)]
#[non_exhaustive]
pub struct Alternative {
    /// The name of the package.
    pub name: String,
    /// The architecture qualifier, which follows the name after a colon.
    pub qualifier: Option<String>,
    /// The operator and the version of the bound.
    pub bound: Option<(String, String)>,
    /// The names of the architecture list, each with `!` before it or none.
    pub architectures: Vec<String>,
    /// The lists of the restriction formula; an item may have `!` before it.
    pub profiles: Vec<Vec<String>>,
}

impl fmt::Display for Alternative {
    fn fmt(&self, out: &mut fmt::Formatter<'_>) -> fmt::Result {
        out.write_str(&self.name)?;
        if let Some(qualifier) = &self.qualifier {
            write!(out, ":{qualifier}")?;
        }
        if let Some((operator, version)) = &self.bound {
            write!(out, " ({operator} {version})")?;
        }
        if !self.architectures.is_empty() {
            write!(out, " [{}]", self.architectures.join(" "))?;
        }
        for items in &self.profiles {
            write!(out, " <{}>", items.join(" "))?;
        }
        Ok(())
    }
}

/// Returns the groups of a relation, in the order of their canonical texts, each with its
/// alternatives. All parts are canonical: a version may be spelled otherwise in the relation.
///
/// ```
/// let groups = debctl::relations("bb, aa (>= 01) | cc")?;
/// assert_eq!(groups[0][0].name, "aa");
/// assert_eq!(groups[0][0].bound, Some((">=".into(), "1".into())));
/// # Ok::<(), debctl::Error>(())
/// ```
pub fn relations(text: impl AsRef<[u8]>) -> Result<Vec<Vec<Alternative>>, Error> {
    let text = text.as_ref();
    let call = |out: &mut [u8], length: &mut usize| library::relation_canonical(text, out, length);
    spelled_relations(given(canonical_room(text), call)?.1)
}

/// Returns the groups of a relation in the order of its text, with repeats, each with its
/// alternatives. All parts are as they are spelled.
///
/// ```
/// let groups = debctl::spelled_relations("bb, aa (>= 01) | cc")?;
/// assert_eq!(groups[0][0].name, "bb");
/// assert_eq!(groups[1][0].bound, Some((">=".into(), "01".into())));
/// # Ok::<(), debctl::Error>(())
/// ```
pub fn spelled_relations(text: impl AsRef<[u8]>) -> Result<Vec<Vec<Alternative>>, Error> {
    let text = text.as_ref();
    let call = |table: &mut [AlternativeAt], count: &mut usize| {
        library::relation_parts(text, table, count)
    };
    let separators = text
        .iter()
        .filter(|byte| matches!(byte, b',' | b'|'))
        .count();
    let (answer, table) = filled(separators + 1, call);
    answered(answer)?;
    let mut groups: Vec<Vec<Alternative>> = Vec::new();
    for at in &table {
        if at.group > groups.len() {
            groups.push(Vec::new());
        }
        groups[at.group - 1].push(alternative(text, at));
    }
    Ok(groups)
}

/// Returns the alternative whose parts are there.
fn alternative(text: &[u8], at: &AlternativeAt) -> Alternative {
    let part = |start: usize, length: usize| string(text[start..][..length].to_vec());
    let some = |start, length| Some(part(start, length)).filter(|part| !part.is_empty());
    let formula = part(at.formula, at.formula_length);
    let lists = formula.split('>').filter_map(|list| list.split_once('<'));
    let version = some(at.version, at.version_length);
    Alternative {
        name: part(at.name, at.name_length),
        qualifier: some(at.qualifier, at.qualifier_length),
        bound: version.map(|version| (part(at.operator, at.operator_length), version)),
        architectures: items(&part(at.architectures, at.architectures_length)),
        profiles: lists.map(|(_, list)| items(list)).collect(),
    }
}

/// Returns the items of a list, between which are spaces, tabs and newlines.
fn items(list: &str) -> Vec<String> {
    let items = list.split([' ', '\t', '\n']);
    items
        .filter(|it| !it.is_empty())
        .map(str::to_owned)
        .collect()
}

/// Returns whether an alternative applies to a target architecture with these build profiles
/// active, by its architecture list and its restriction formula.
///
/// ```
/// let groups = debctl::relations("aa [amd64] <!nocheck>")?;
/// assert!(debctl::applies(&groups[0][0], "amd64", &[])?);
/// assert!(!debctl::applies(&groups[0][0], "amd64", &[b"nocheck"])?);
/// assert!(!debctl::applies(&groups[0][0], "i386", &[])?);
/// # Ok::<(), debctl::Error>(())
/// ```
pub fn applies(
    alternative: &Alternative,
    target: impl AsRef<[u8]>,
    profiles: &[&[u8]],
) -> Result<bool, Error> {
    let report = query(target, profiles, alternative.to_string(), "")?;
    Ok(report.groups[0].verdict != Verdict::Ignored)
}

/// Returns whether a package satisfies an alternative on a target architecture: by its name, what
/// it provides, its version and its architecture. Whether the alternative applies is left out, see
/// [`applies`]. The paragraph must be accepted in an index of packages.
///
/// ```
/// use debctl::{paragraphs, relations, satisfies, Kind};
///
/// let index = "Package: mailer\nVersion: 2\nArchitecture: all\nProvides: mta\n";
/// let paragraphs = paragraphs(Kind::Packages, index)?;
/// let mailer = paragraphs.iter().next().expect("a paragraph")?;
/// assert!(satisfies(&relations("mta")?[0][0], &mailer, "amd64")?);
/// assert!(!satisfies(&relations("mailer (>= 3)")?[0][0], &mailer, "amd64")?);
/// # Ok::<(), debctl::Error>(())
/// ```
pub fn satisfies(
    alternative: &Alternative,
    package: &Paragraph<'_>,
    target: impl AsRef<[u8]>,
) -> Result<bool, Error> {
    let unrestricted = Alternative {
        architectures: Vec::new(),
        profiles: Vec::new(),
        ..alternative.clone()
    };
    Ok(query(target, &[], unrestricted.to_string(), package.to_text())?.met)
}
