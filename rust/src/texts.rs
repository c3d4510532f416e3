//! The texts that calls write, and the rows of their lines.

use crate::library::{self, Answer};
use crate::refusals::{answered, Error};

/// Returns the answer of a call that writes to a buffer, and what it wrote. If there isn't enough
/// room, it is called again with as much as it needs. Room that isn't used costs no memory.
pub(crate) fn written(
    room: usize,
    call: impl Fn(&mut [u8], &mut usize) -> Answer,
) -> (Answer, Vec<u8>) {
    let (answer, mut out) = filled(room, call);
    if out.len() < out.capacity() / 2 {
        out.shrink_to_fit();
    }
    (answer, out)
}

/// Returns the same, of a text that isn't about a file, or the error of the answer.
pub(crate) fn given(
    room: usize,
    call: impl Fn(&mut [u8], &mut usize) -> Answer,
) -> Result<(Answer, Vec<u8>), Error> {
    let (answer, out) = written(room, call);
    Ok((answered(answer)?, out))
}

/// Returns the answer of a call that writes to a table, and the rows that it wrote. If there isn't
/// enough room, it is called again with as many as it needs.
pub(crate) fn filled<Entry: Clone + Default>(
    room: usize,
    call: impl Fn(&mut [Entry], &mut usize) -> Answer,
) -> (Answer, Vec<Entry>) {
    let mut length = room;
    loop {
        let mut out = vec![Entry::default(); length];
        let answer = call(&mut out, &mut length);
        if answer.status != library::NO_ROOM {
            out.truncate(length);
            return (answer, out);
        }
        #[cfg(test)]
        tests::REPEATED.with(|it| it.set(it.get() + 1));
    }
}

/// Returns room for the canonical text of a file or of a relation: spaces at most double it.
pub(crate) fn canonical_room(text: &[u8]) -> usize {
    2 * text.len() + 64
}

/// Returns room for lines of that length. What has many more lines than usual is written twice.
pub(crate) fn lines_room(length: usize) -> usize {
    length.min(1 << 28) + 4096
}

/// Returns a text of the library, which is UTF-8.
pub(crate) fn string(text: Vec<u8>) -> String {
    String::from_utf8(text).expect("the library writes UTF-8")
}

/// What wrote a text.
#[derive(Clone, Copy)]
pub(crate) enum Form {
    Report = 0,
    UnmetLines = 1,
    DiffLines = 2,
    Explanation = 3,
    HealthLines = 4,
    InstallableLines = 5,
}

/// A line of a text: its kind, its cells, and where the line ends.
pub(crate) struct Row<'a> {
    pub kind: u8,
    pub cells: [&'a str; 10],
    pub end: usize,
}

pub(crate) const MET: u8 = 0;
pub(crate) const UNMET: u8 = 1;
pub(crate) const IGNORED: u8 = 2;
pub(crate) const PACKAGE: u8 = 3;
pub(crate) const PACKAGE_REASON: u8 = 5;
pub(crate) const UNSURE_GROUP: u8 = 7;
pub(crate) const REMOVED: u8 = 8;
pub(crate) const CHANGED: u8 = 9;
pub(crate) const UPGRADED: u8 = 10;
pub(crate) const ADDED: u8 = 11;
pub(crate) const OLD_LINE: u8 = 12;
pub(crate) const KEY: u8 = 14;
pub(crate) const END: u8 = 15;
pub(crate) const OK: u8 = 16;
pub(crate) const DOWNGRADED: u8 = 19;
pub(crate) const UNMET_NEED: u8 = 20;
pub(crate) const CONFLICT: u8 = 22;
pub(crate) const UNSURE_CONFLICT: u8 = 23;
pub(crate) const DUPLICATE: u8 = 24;
pub(crate) const STATE: u8 = 25;
pub(crate) const UNINSTALLABLE: u8 = 26;
pub(crate) const UNSURE: u8 = 27;
pub(crate) const UNDECIDED: u8 = 28;
pub(crate) const NEED: u8 = 29;
pub(crate) const EXCLUSION: u8 = 30;
pub(crate) const PACKAGE_OF_FILE: u8 = 32;
pub(crate) const PACKAGE_REASON_OF_FILE: u8 = 33;

impl Row<'_> {
    /// Returns the number in a cell.
    pub(crate) fn number(&self, cell: usize) -> u64 {
        number(self.cells[cell])
    }

    /// Returns a copy of a cell.
    pub(crate) fn text(&self, cell: usize) -> String {
        self.cells[cell].to_owned()
    }
}

/// Returns a number that the library wrote.
pub(crate) fn number(digits: &str) -> u64 {
    digits.parse().expect("the library writes a number")
}

/// How many lines are read at once.
const LINES: usize = 1024;

/// Returns the rows of the lines of a text that the library wrote.
pub(crate) fn rows(form: Form, text: &str) -> impl Iterator<Item = Row<'_>> {
    let mut start = 0;
    let next = move || {
        let lines = text[start..].split_inclusive('\n').take(LINES);
        let length: usize = lines.map(str::len).sum();
        let rows = rows_in(form, &text[start..start + length], start);
        start += length;
        Some(rows).filter(|_| length > 0)
    };
    std::iter::from_fn(next).flatten()
}

/// Returns the rows of some lines, which start at an offset in their text.
fn rows_in(form: Form, text: &str, start: usize) -> Vec<Row<'_>> {
    let call = |table: &mut [library::Row], count: &mut usize| {
        library::rows(form as u8, text.as_bytes(), table, count)
    };
    let lines = text.split_inclusive('\n');
    let (answer, table) = filled(lines.clone().count(), call);
    assert_eq!(answer.status, library::YES, "the library wrote these lines");
    let mut end = start;
    let row = |(line, row): (&str, &library::Row)| {
        end += line.len();
        let cells = row.cells.map(|cell| &text[cell.start..][..cell.length]);
        let kind = row.kind;
        Row { kind, cells, end }
    };
    lines.zip(&table).map(row).collect()
}

/// The first room for what a call writes is enough, so that no work is done twice.
#[cfg(test)]
mod tests {
    use crate::*;
    use std::cell::Cell;

    thread_local! {
        /// How many calls were repeated.
        pub(super) static REPEATED: Cell<u32> = Cell::default();
    }

    const COUNT: usize = 3000;

    /// An index of packages, with their versions.
    fn index(version: &str) -> String {
        let package = |at| {
            format!(
                "Package: p{at}\nVersion: {version}.{at}\nArchitecture: all\n\
                 Depends:p{at}(>=1),pp|qq\n\n"
            )
        };
        (0..COUNT).map(package).collect()
    }

    /// Source packages that can't be built.
    fn sources() -> String {
        let source = |at| format!("Package: s{at}\nVersion: 1\n\n");
        (0..COUNT).map(source).collect()
    }

    /// Packages of which each needs the next one, and two of one name that need what isn't there.
    fn needs() -> String {
        let package = |at| {
            let needs = format!("Version: {at}\nArchitecture: all\nDepends: p{}", at + 1);
            let same = format!("Package: aa\nVersion: {at}\nArchitecture: all\nDepends: zz");
            format!("Package: p{at}\n{needs}\n\n{same}\n\n")
        };
        let last = format!("Package: p{COUNT}\nVersion: 1\nArchitecture: all\n");
        (0..COUNT).map(package).collect::<String>() + &last
    }

    fn answer(asked: usize, old: &str, new: &str, loaded: &Index) -> Result<(), Error> {
        let wrong = old.replace("Version: ", "Version: _");
        let relation: String = (0..COUNT).map(|at| format!("aa{at}|bb(<{at}),")).collect();
        let package = format!("Package: aa\nVersion: 1\nArchitecture: all\nDepends:{relation}");
        let asks = Asked::Packages { recommends: true };
        let search = Search::default();
        match asked {
            0 => drop(normalise(Kind::Packages, old)?),
            1 => drop(normalise(Kind::Any, "a:\n\n".repeat(COUNT))?),
            2 => drop(normalise(Kind::Packages, package)?),
            3 => drop(diff(Compared::Packages, true, old, new)?),
            4 => drop(diff(Compared::Packages, true, "", new)?),
            5 => drop(check_all(Kind::Packages, wrong)?),
            6 => drop(explain(Kind::Packages, wrong)?),
            7 => drop((
                explain_relation("aa (")?,
                explain_version("1_".repeat(COUNT))?,
            )),
            8 => drop(query_why("amd64", &[], "p1 (>= 9), p2, qq", old)?),
            9 => drop(unmet(asks, "amd64", &[], old, old)?),
            10 => drop(loaded.query_why("amd64", &[], "p1 (>= 9), p2, qq")?),
            11 => drop(loaded.unmet(asks, "amd64", &[], old)?),
            12 => drop((loaded.packages("p1"), loaded.providers("p1"))),
            13 => drop((loaded.package(1)?, loaded.details(1)?)),
            14 => drop((key("1:2.0~rc1-3")?, canonical("1:2.0~rc1-3")?)),
            15 => drop(healthy(Members::All, true, "amd64", old)?),
            16 => drop(installable(Members::All, true, search, "amd64", old)?),
            17 => drop(buildable(
                SourceKind::Sources,
                search,
                "amd64",
                &[],
                old,
                sources(),
            )?),
            18 => {
                let all = Members::All;
                let report = witness(all, false, search, "amd64", "p0", needs())?;
                assert_eq!(report.packages.len(), COUNT + 1);
                let report = witness(all, false, search, "amd64", "aa", needs())?;
                assert_eq!(report.not_installable.len(), COUNT);
            }
            19 => drop(relations(relation)?),
            _ => {
                let (kind, conditions) = (Kind::Packages, &[][..]);
                let asked = Selection {
                    kind,
                    conditions,
                    others: false,
                };
                let selected = [SelectForm::Control(&[]), SelectForm::JsonLines].map(|form| {
                    let selected = select(asked, form, old);
                    selected.expect("it is accepted").count
                });
                let rows = select_table(asked, &[b"Package", b"Depends"], old);
                assert_eq!(rows.expect("it is accepted").len(), COUNT);
                assert_eq!(selected, [COUNT as u64; 2]);
            }
        }
        Ok(())
    }

    #[test]
    fn the_first_room_is_enough() -> Result<(), Error> {
        let (old, new) = (index("1"), index("2"));
        let loaded = Index::read(&old)?;
        for asked in 0..=20 {
            let before = REPEATED.with(Cell::get);
            answer(asked, &old, &new, &loaded)?;
            assert_eq!(REPEATED.with(Cell::get), before, "call {asked}");
        }
        Ok(())
    }
}
