//! Answers one question after another, as `tests/languages/driver.c` does.
//! What an answer has as values is printed again from them; where that isn't its text, a line says
//! so.

#[path = "driver/printed.rs"]
mod printed;
#[path = "driver/selected.rs"]
mod selected;
#[path = "driver/several.rs"]
mod several;

use debctl::{
    buildable, canonical, check, check_all, compare, diff, explain, explain_all, explain_relation,
    explain_version, healthy, installable, key, normalise, paragraphs, query, query_why, relations,
    same, spelled_relations, unmet, witness, AllChecked, Asked, Compared, Error, Explanation,
    Index, Kind, Members, ReadError, Reader, Refusal, Report, Search, SourceKind, Version,
};
use printed::Printed;
use selected::{of_condition, of_selection};
use several::{of_files, of_latest, with_options};
use std::io::{stdin, stdout, BufRead, Read, Write};
use std::num::NonZeroU32;

const KINDS: [Kind; 6] = [
    Kind::Binary,
    Kind::Packages,
    Kind::Source,
    Kind::Sources,
    Kind::Any,
    Kind::Status,
];

/// The line of an error.
fn told(error: &Error) -> String {
    let status = match error {
        Error::Refused(_) => 2,
        Error::SecondRefused(_) => 3,
        _ => 5,
    };
    match error.refusal() {
        Some(refusal) => format!("{status} {} {} 0\n", refusal.code.number(), refusal.line),
        None => format!("{status} 0 0 0\n"),
    }
}

/// The line of an answer without an error.
fn done(is_yes: bool, count: u64) -> String {
    format!("{} 0 0 {count}\n", u8::from(!is_yes))
}

/// The line of all refusals of a file: the first, and how many paragraphs pass.
fn head_of(all: &AllChecked) -> String {
    match all.refused.first() {
        Some(first) => format!("2 {} {} {}\n", first.code.number(), first.line, all.passed),
        None => done(true, all.passed),
    }
}

/// A line that says what differs, if it does.
fn differing(what: &str, is_same: bool) -> String {
    match is_same {
        true => String::new(),
        false => format!("{what}\n"),
    }
}

/// An answer, with the text that its values print.
fn with_rows(head: &str, text: &str, printed: &str) -> String {
    format!("{head}{text}{}", differing("rows differ", text == printed))
}

/// Whether the parts of a version are its text.
fn has_its_parts(text: &[u8]) -> bool {
    let version = match Version::new(text) {
        Ok(version) => version,
        Err(_) => return true,
    };
    let epoch = version.epoch().map_or(String::new(), |it| format!("{it}:"));
    let revision = version
        .revision()
        .map_or(String::new(), |it| format!("-{it}"));
    format!("{epoch}{}{revision}", version.upstream()) == version.text()
}

/// Whether the parts of a relation mean what it does.
fn has_its_alternatives(text: &[u8]) -> bool {
    let spelled = match spelled_relations(text) {
        Ok(spelled) => spelled,
        Err(_) => return relations(text).is_err(),
    };
    let groups: Vec<String> = spelled.iter().map(|group| printed::group(group)).collect();
    relations(groups.join(", ")) == relations(text)
}

/// Whether a reader that reads a file in pieces reads as many paragraphs, with these fields.
fn reads_alike(kind: Kind, file: &[u8], checked: &Result<u64, Error>) -> bool {
    let whole = paragraphs(kind, file).expect("memory");
    let mut whole = whole.iter().filter_map(Result::ok);
    let mut reader = Reader::new(kind, Pieces(file));
    let mut count = 0;
    loop {
        let read = match reader.next_paragraph() {
            Ok(None) => return whole.next().is_none() && checked == &Ok(count),
            Ok(Some(paragraph)) => paragraph,
            Err(ReadError::File(error)) => {
                let head = checked.as_ref().err().map(told);
                return whole.next().is_none() && head == Some(told(&error));
            }
            Err(error) => panic!("{error}"),
        };
        count += 1;
        if !whole
            .next()
            .map_or(false, |it| it.fields().eq(read.fields()))
        {
            return false;
        }
    }
}

/// A file that is read in pieces of at most 7 bytes, or of a hundredth of it.
struct Pieces<'a>(&'a [u8]);

impl Read for Pieces<'_> {
    fn read(&mut self, out: &mut [u8]) -> std::io::Result<usize> {
        let length = out.len().min(7 + self.0.len() / 100);
        self.0.read(&mut out[..length])
    }
}

/// Whether an index keeps of each package what a report says of it.
fn keeps_packages(index: &Index, report: &Result<Report, Error>) -> bool {
    let groups = report.iter().flat_map(|it| &it.groups);
    let mut packages = groups.flat_map(|it| {
        let of_reasons = it.reasons.iter().filter_map(|it| it.package.as_ref());
        it.packages.iter().chain(of_reasons)
    });
    packages.all(|it| {
        let (package, details) = (index.package(it.number), index.details(it.number));
        let kept = details.map(|it| it.map(|it| it.package));
        package == kept && kept == Ok(Some(it.clone()))
    })
}

fn of_explanation(explained: &Explanation) -> String {
    let head = match &explained.refusal {
        Some(refusal) => told(&Error::Refused(refusal.clone())),
        None => done(true, explained.passed.unwrap_or(0)),
    };
    with_rows(&head, &explained.text, &explained.printed())
}

/// What is asked of an index: the target, the relation, the index and the profiles.
fn of_query(call: &str, files: &[Vec<u8>]) -> Result<String, Error> {
    let (target, relation, index) = (&files[0], &files[1], &files[2]);
    let profiles: Vec<&[u8]> = files[3..].iter().map(Vec::as_slice).collect();
    let why = call == "why";
    let whole = match why {
        true => query_why(target, &profiles, relation, index),
        false => query(target, &profiles, relation, index),
    };
    let answers_alike = Index::read(index).map_or(true, |index| {
        let again = match why {
            true => index.query_why(target, &profiles, relation),
            false => index.query(target, &profiles, relation),
        };
        again == whole && keeps_packages(&index, &whole)
    });
    let differs = differing("index differs", answers_alike)
        + &differing("parts differ", has_its_alternatives(relation));
    Ok(match whole {
        Ok(report) => with_rows(&done(report.met, 0), &report.text, &report.printed()),
        Err(error) => told(&error),
    } + &differs)
}

/// What is asked of a file: the target, the index, the file and the profiles.
fn of_unmet(number: usize, files: &[Vec<u8>]) -> Result<String, Error> {
    let (target, index, file) = (&files[0], &files[1], &files[2]);
    let recommends = number >= 8;
    let asked = match KINDS[number % 8] {
        Kind::Binary => Asked::Binary { recommends },
        Kind::Packages => Asked::Packages { recommends },
        Kind::Source => Asked::Source,
        _ => Asked::Sources,
    };
    let profiles: Vec<&[u8]> = files[3..].iter().map(Vec::as_slice).collect();
    let whole = unmet(asked, target, &profiles, index, file);
    let loaded = Index::read(index).map(|it| it.unmet(asked, target, &profiles, file));
    let differs = differing("index differs", loaded.map_or(true, |it| it == whole));
    Ok(match whole {
        Ok(report) => with_rows(&done(report.met, 0), &report.text, &report.printed()),
        Err(error) => told(&error),
    } + &differs)
}

/// The names that are left out.
fn names_of(file: &[u8]) -> Vec<&[u8]> {
    match file {
        [] => Vec::new(),
        _ => file.split(|byte| *byte == b',').collect(),
    }
}

/// What a search asks of sets.
fn search_of<'a>(number: usize, without: &'a [&'a [u8]]) -> Search<'a> {
    Search {
        essential: number / 16 % 2 == 1,
        without,
        why: number / 32 % 2 == 1,
        budget: NonZeroU32::new((number / 64) as u32),
    }
}

/// What is asked of a set: the target and the file, or the target, the name and the file; then the
/// names that are left out, of a search.
fn of_set(call: &str, number: usize, files: &[Vec<u8>]) -> Result<String, Error> {
    let (target, index) = (&files[0], &files[usize::from(call == "witness") + 1]);
    let members = match KINDS[number % 8] {
        Kind::Status => Members::Installed,
        _ => Members::All,
    };
    let recommends = number / 8 % 2 == 1;
    if call == "healthy" {
        let report = healthy(members, recommends, target, index)?;
        return Ok(with_rows(
            &done(report.healthy, 0),
            &report.text,
            &report.printed(),
        ));
    }
    let without = names_of(&files[files.len() - 1]);
    let search = search_of(number, &without);
    if call == "witness" {
        let report = witness(members, recommends, search, target, &files[1], index)?;
        return Ok(with_rows(
            &done(report.found, 0),
            &report.text,
            &report.printed(),
        ));
    }
    let report = installable(members, recommends, search, target, index)?;
    Ok(with_rows(
        &done(report.installable, 0),
        &report.text,
        &report.printed(),
    ))
}

/// What is asked of source packages: the target, the index, the file, the names that are left out and
/// the profiles.
fn of_sources(number: usize, files: &[Vec<u8>]) -> Result<String, Error> {
    let (target, index, file) = (&files[0], &files[1], &files[2]);
    let kind = match KINDS[number % 8] {
        Kind::Source => SourceKind::Source,
        _ => SourceKind::Sources,
    };
    let profiles: Vec<&[u8]> = files[4..].iter().map(Vec::as_slice).collect();
    let without = names_of(&files[3]);
    let search = search_of(number, &without);
    let report = buildable(kind, search, target, &profiles, index, file)?;
    Ok(with_rows(
        &done(report.buildable, 0),
        &report.text,
        &report.printed(),
    ))
}

/// What changed between two files.
fn of_diff(number: usize, files: &[Vec<u8>]) -> Result<String, Error> {
    let kind = match KINDS[number % 8] {
        Kind::Binary => Compared::Binary,
        Kind::Packages => Compared::Packages,
        Kind::Source => Compared::Source,
        Kind::Status => Compared::Status,
        _ => Compared::Sources,
    };
    let changes = diff(kind, number >= 8, &files[0], &files[1])?;
    let text: String = changes.iter().map(|it| format!("{it}\n")).collect();
    Ok(with_rows(
        &done(changes.is_empty(), 0),
        &text,
        &changes.printed(),
    ))
}

/// What is asked of versions.
fn of_versions(call: &str, files: &[Vec<u8>]) -> Result<Vec<u8>, Error> {
    let mut bytes = match call {
        "compare" => match compare(&files[0], &files[1]) {
            Ok(order) => format!("0 0 {}\n", order as i8).into_bytes(),
            Err(error) => told(&error).replace(" 0 0\n", " 0\n").into_bytes(),
        },
        "canonical" => (done(true, 0) + &canonical(&files[0])?).into_bytes(),
        _ => [done(true, 0).into_bytes(), key(&files[0])?].concat(),
    };
    if !files.iter().all(|text| has_its_parts(text)) {
        bytes.extend_from_slice(b"parts differ\n");
    }
    Ok(bytes)
}

fn answer(call: &str, number: usize, files: &[Vec<u8>]) -> Result<Vec<u8>, Error> {
    let text = match call {
        "compare" | "canonical" | "key" => return of_versions(call, files),
        "normalise" => {
            let canonical = normalise(KINDS[number], &files[0])?;
            let head = done(true, check(KINDS[number], &files[0])?);
            return Ok([head.into_bytes(), canonical].concat());
        }
        "query" | "why" => of_query(call, files)?,
        "query-files" | "why-files" => of_files(call, number, files).unwrap_or_else(|it| it),
        "unmet-with" => with_options(number, files).unwrap_or_else(|it| it),
        "latest" => return Ok(of_latest(number, files)),
        "explain-condition" => of_condition(KINDS[number], &files[0])?,
        "select" | "count" => return Ok(of_selection(number, files)),
        "unmet" => of_unmet(number, files)?,
        "healthy" | "installable" | "witness" => of_set(call, number, files)?,
        "buildable" => of_sources(number, files)?,
        "diff" => of_diff(number, files)?,
        "check" => {
            let checked = check(KINDS[number], &files[0]);
            let is_same = reads_alike(KINDS[number], &files[0], &checked);
            let head = checked.map_or_else(|error| told(&error), |count| done(true, count));
            head + &differing("reader differs", is_same)
        }
        "explain" => of_explanation(&explain(KINDS[number], &files[0])?),
        "explain-relation" => {
            let is_same = has_its_alternatives(&files[0]);
            of_explanation(&explain_relation(&files[0])?) + &differing("parts differ", is_same)
        }
        "explain-version" => {
            let is_same = has_its_parts(&files[0]);
            of_explanation(&explain_version(&files[0])?) + &differing("parts differ", is_same)
        }
        "check-all" => {
            let all = check_all(KINDS[number], &files[0])?;
            let line = |it: &Refusal| format!("{} {}\n", it.line, it.code.number());
            head_of(&all) + &all.refused.iter().map(line).collect::<String>()
        }
        "explain-all" => {
            let head = head_of(&check_all(KINDS[number], &files[0])?);
            let all = explain_all(KINDS[number], &files[0])?;
            with_rows(&head, &all.text, &all.printed())
        }
        "same" => done(same(KINDS[number], &files[0], &files[1])?, 0),
        _ => panic!("no call {call}"),
    };
    Ok(text.into_bytes())
}

/// The next line of a file, without its end; `None` at the end of the file.
fn next_line(file: &mut impl BufRead) -> Option<String> {
    let line = file.lines().next()?;
    Some(line.expect("standard input can be read"))
}

/// A text after a line with its length.
fn next_text(file: &mut impl BufRead) -> Vec<u8> {
    let line = next_line(file).expect("a length");
    let mut text = vec![0; line.parse().expect("a length")];
    file.read_exact(&mut text).expect("a text");
    text
}

fn main() {
    let (mut questions, mut answers) = (stdin().lock(), stdout().lock());
    while let Some(line) = next_line(&mut questions) {
        let words: Vec<&str> = line.split(' ').collect();
        let number = words[1].parse().expect("a number");
        let count = words[2].parse().expect("a count");
        let texts: Vec<_> = (0..count).map(|_| next_text(&mut questions)).collect();
        let bytes =
            answer(words[0], number, &texts).unwrap_or_else(|error| told(&error).into_bytes());
        let written = write!(answers, "{}\n", bytes.len())
            .and_then(|()| answers.write_all(&bytes))
            .and_then(|()| answers.flush());
        written.expect("standard output takes all");
    }
}
