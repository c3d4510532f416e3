//! Questions to several files: to an index of several, for unmet relations with options, and for the
//! latest versions. A refusal has the place of its file as the count, and `OLD` if it is that of the
//! old index.

use crate::printed::Printed;
use crate::{differing, done, names_of, told, with_rows, KINDS};
use debctl::{
    latest, query, Asked, Code, Error, Index, Kind, Latest, LatestError, Options, Report,
};

const OLD: usize = 999;

/// The line of an error of a file at a place.
fn told_at(error: &Error, place: u64) -> String {
    match error {
        Error::Refused(_) => told(error).replace(" 0\n", &format!(" {place}\n")),
        _ => told(error),
    }
}

/// An index of several files, or the line of its error.
fn read_all(texts: &[Vec<u8>]) -> Result<Index, String> {
    let mut index = Index::read(&texts[0]).map_err(|error| told_at(&error, 1))?;
    for (at, text) in texts.iter().enumerate().skip(1) {
        index = index
            .read_more(text)
            .map_err(|error| told_at(&error, at as u64 + 1))?;
    }
    Ok(index)
}

/// Whether the index has of each package of a report the file that the report has.
fn files_agree(index: &Index, report: &Report) -> bool {
    let mut packages = report.groups.iter().flat_map(|it| {
        let of_reasons = it.reasons.iter().filter_map(|it| it.package.as_ref());
        it.packages.iter().chain(of_reasons)
    });
    packages.all(|it| it.file.is_some() && index.file(it.number) == it.file)
}

/// What is asked of several indexes: the target, the relation, the indexes and the profiles. The words
/// are refused before the indexes, but not a wildcard.
pub fn of_files(call: &str, number: usize, files: &[Vec<u8>]) -> Result<String, String> {
    let (target, relation) = (&files[0], &files[1]);
    let (texts, profiles) = files[2..].split_at(number);
    let profiles: Vec<&[u8]> = profiles.iter().map(Vec::as_slice).collect();
    if let Err(error) = query(target, &profiles, relation, "") {
        if error.refusal().map(|it| it.code) != Some(Code::Wildcard) {
            return Err(told(&error));
        }
    }
    let index = read_all(texts)?;
    let report = match call {
        "why-files" => index.query_why(target, &profiles, relation),
        _ => index.query(target, &profiles, relation),
    }
    .map_err(|error| told(&error))?;
    let differs = differing("files differ", files_agree(&index, &report));
    Ok(with_rows(&done(report.met, 0), &report.text, &report.printed()) + &differs)
}

/// The old index, if there is one, or the line of its error.
fn read_old(texts: &[Vec<u8>]) -> Result<Option<Index>, String> {
    let old = texts.first().map(Index::read).transpose();
    old.map_err(|error| told_at(&error, OLD as u64))
}

/// What is asked of a file with options: the target, that of packages without one, the file, the names
/// that are left out, the old index, the indexes and the profiles.
pub fn with_options(number: usize, files: &[Vec<u8>]) -> Result<String, String> {
    let (target, all_for, file) = (&files[0], &files[1], &files[2]);
    let names = names_of(&files[3]);
    let (olds, more) = files[4..].split_at(number / 32 % 2);
    let (texts, profiles) = more.split_at(number / 64);
    let profiles: Vec<&[u8]> = profiles.iter().map(Vec::as_slice).collect();
    let recommends = number / 8 % 2 == 1;
    let asked = match KINDS[number % 8] {
        Kind::Binary => Asked::Binary { recommends },
        Kind::Packages => Asked::Packages { recommends },
        Kind::Source => Asked::Source,
        _ => Asked::Sources,
    };
    let mut options = Options {
        all_sources: number / 16 % 2 == 1,
        all_for: Some(&all_for[..]).filter(|it| !it.is_empty()),
        without: &names,
        unless: None,
    };
    let empty = Index::read("").map_err(|error| told(&error))?;
    if let Err(error @ Error::Refused(_)) = empty.unmet_with(asked, options, target, &profiles, "")
    {
        return Err(told(&error));
    }
    let old = read_old(olds)?;
    options.unless = old.as_ref();
    let index = read_all(texts)?
        .without(&names)
        .map_err(|error| told(&error))?;
    let report = index
        .unmet_with(asked, options, target, &profiles, file)
        .map_err(|error| told(&error))?;
    Ok(with_rows(
        &done(report.met, 0),
        &report.text,
        &report.printed(),
    ))
}

/// The latest versions: the version before which they are, and the files.
pub fn of_latest(number: usize, files: &[Vec<u8>]) -> Vec<u8> {
    let texts: Vec<&[u8]> = files[1..].iter().map(Vec::as_slice).collect();
    let asked = Latest {
        sources: KINDS[number % 8] == Kind::Sources,
        by_architecture: number >= 8,
        before: Some(&files[0]),
    };
    match latest(asked, &texts) {
        Ok(found) => [done(true, 0).into_bytes(), found].concat(),
        Err(LatestError { text, error, .. }) => told_at(&error, text.unwrap_or(0)).into_bytes(),
    }
}
