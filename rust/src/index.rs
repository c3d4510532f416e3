//! An index that is read once and asked often.

use crate::library::{self, Answer};
use crate::refusals::{answered, answered_of};
use crate::reports::{report, texts_of, unmet_report};
use crate::texts::{filled, given, string, written};
use crate::{paragraphs, Alternative, Asked, Error, Kind, Report, UnmetReport};
use std::fmt;

/// A package of an index, or of another file.
#[derive(Clone, Debug, PartialEq, Eq, Hash)]
#[non_exhaustive]
pub struct Package {
    /// The number of its paragraph in the file, from 1; in an index of several files it counts on.
    pub number: u64,
    /// The name.
    pub name: String,
    /// The canonical version.
    pub version: String,
    /// The architecture.
    pub architecture: String,
    /// The file that it is of, from 1, if it is of an index that was read of several files.
    pub file: Option<u64>,
}

/// All that an index keeps of a package.
#[derive(Clone, Debug, PartialEq, Eq, Hash)]
#[non_exhaustive]
pub struct Details {
    /// The package.
    pub package: Package,
    /// The line at which its paragraph starts in the file, from 1.
    pub line: u64,
    /// Its Multi-Arch, if it has one.
    pub multi_arch: Option<String>,
    /// What it provides, each with the version in its bound, if there is one.
    pub provides: Vec<Alternative>,
}

/// An index of packages, which is read once and asked often, by any number of threads at once.
///
/// ```
/// let text = "Package: mailer\nVersion: 2\nArchitecture: all\nProvides: mta\n";
/// let index = debctl::Index::read(text)?;
/// assert_eq!(index.query("amd64", &[], "mta")?.text, "met mta\n 1 mailer 2 all\n");
/// assert_eq!((index.providers("mta"), index.packages("mta")), (vec![1], vec![]));
/// # Ok::<(), debctl::Error>(())
/// ```
pub struct Index {
    memory: library::Index,
    length: u64,
    files: usize,
}

/// What [`Index::unmet_with`] asks besides.
#[derive(Clone, Copy, Debug, Default)]
pub struct Options<'a> {
    /// Whether source packages are asked that aren't built for the target, too.
    pub all_sources: bool,
    /// The architecture for which a binary package is asked whose own can't be a target, as `all`; if
    /// there is none, the target.
    pub all_for: Option<&'a [u8]>,
    /// The names of binary packages that aren't asked. [`Index::without`] takes the packages with
    /// these names out of an index.
    pub without: &'a [&'a [u8]],
    /// If there is one, a group has a line only if this index meets or ignores it for sure.
    pub unless: Option<&'a Index>,
}

impl fmt::Debug for Index {
    fn fmt(&self, out: &mut fmt::Formatter<'_>) -> fmt::Result {
        out.debug_struct("Index")
            .field("len", &self.length)
            .finish_non_exhaustive()
    }
}

impl Index {
    /// Reads an index; it doesn't borrow the text.
    pub fn read(text: impl AsRef<[u8]>) -> Result<Index, Error> {
        let file = (Kind::Packages, text.as_ref());
        let (memory, answer) = library::Index::read(file.1);
        let length = answered_of(answer, file, file)?.count;
        let files = 1;
        Ok(Index {
            memory,
            length,
            files,
        })
    }

    /// Reads one more file of packages. They follow those that the index has: their numbers count on.
    /// Reports then name the file of each package. After an error there is no index.
    ///
    /// ```
    /// let aa = "Package: aa\nVersion: 1\nArchitecture: all\n";
    /// let index = debctl::Index::read(aa)?.read_more(aa.replace('1', "2"))?;
    /// let report = index.query("amd64", &[], "aa (>> 1)")?;
    /// assert_eq!(report.text, "met aa (>> 1)\n 2 aa 2 all @2\n");
    /// assert_eq!(report.groups[0].packages[0].file, Some(2));
    /// assert_eq!((index.len(), index.file(1), index.file(3)), (2, Some(1), None));
    /// # Ok::<(), debctl::Error>(())
    /// ```
    pub fn read_more(mut self, text: impl AsRef<[u8]>) -> Result<Index, Error> {
        let file = (Kind::Packages, text.as_ref());
        let answer = self.memory.read_more(file.1);
        self.length = answered_of(answer, file, file)?.count;
        self.files += 1;
        Ok(self)
    }

    /// Takes the packages that have one of these names out of the index. The others keep their order,
    /// and have new numbers from 1. The only error is [`Error::Memory`].
    ///
    /// ```
    /// let aa = "Package: aa\nVersion: 1\nArchitecture: all\n";
    /// let both = format!("{aa}\n{}", aa.replace("aa", "bb"));
    /// let index = debctl::Index::read(both)?.without(&[b"aa"])?;
    /// assert_eq!((index.len(), index.packages("bb")), (1, vec![1]));
    /// # Ok::<(), debctl::Error>(())
    /// ```
    pub fn without(mut self, names: &[&[u8]]) -> Result<Index, Error> {
        let answer = self.memory.without(&texts_of(names));
        self.length = answered(answer)?.count;
        Ok(self)
    }

    /// Returns which file the package with a number is of, from 1 for the one that was read first, or
    /// `None` if there is no such package.
    pub fn file(&self, number: u64) -> Option<u64> {
        let mut file = 0;
        let answer = self.memory.file(number, &mut file);
        Some(file as u64).filter(|_| answer.status == library::YES)
    }

    /// Returns the file of a package, if the index was read of several.
    fn file_named(&self, number: u64) -> Option<u64> {
        self.file(number).filter(|_| self.files > 1)
    }

    /// Returns the number of packages.
    pub fn len(&self) -> u64 {
        self.length
    }

    /// Returns whether there is no package.
    pub fn is_empty(&self) -> bool {
        self.length == 0
    }

    /// Finds the packages that meet a relation, as [`crate::query`] does, without reading the index
    /// again.
    pub fn query(
        &self,
        target: impl AsRef<[u8]>,
        profiles: &[&[u8]],
        relation: impl AsRef<[u8]>,
    ) -> Result<Report, Error> {
        self.ask(false, (target.as_ref(), profiles), relation.as_ref())
    }

    /// Returns what [`Index::query`] does, with the reasons why a group is unmet or ignored.
    pub fn query_why(
        &self,
        target: impl AsRef<[u8]>,
        profiles: &[&[u8]],
        relation: impl AsRef<[u8]>,
    ) -> Result<Report, Error> {
        self.ask(true, (target.as_ref(), profiles), relation.as_ref())
    }

    fn ask(
        &self,
        why: bool,
        (target, profiles): (&[u8], &[&[u8]]),
        relation: &[u8],
    ) -> Result<Report, Error> {
        let profiles = texts_of(profiles);
        let call = |out: &mut [u8], length: &mut usize| {
            let environment = (target, &profiles[..]);
            self.memory.query(why, environment, relation, out, length)
        };
        Ok(report(given(16 * relation.len() + 4096, call)?))
    }

    /// Finds the relations of a file that no package meets, as [`crate::unmet`] does, without
    /// reading the index again. If the file is refused, the error is [`Error::SecondRefused`].
    pub fn unmet(
        &self,
        asked: Asked,
        target: impl AsRef<[u8]>,
        profiles: &[&[u8]],
        file: impl AsRef<[u8]>,
    ) -> Result<UnmetReport, Error> {
        let (target, file) = (target.as_ref(), file.as_ref());
        let (kind, recommends) = asked.parts();
        let asked = (kind as u8, u8::from(recommends));
        let profiles = texts_of(profiles);
        let call = |out: &mut [u8], length: &mut usize| {
            let environment = (target, &profiles[..]);
            self.memory.unmet(asked, environment, file, out, length)
        };
        let (answer, text) = written(file.len() + 4096, call);
        Ok(unmet_report((
            answered_of(answer, (kind, file), (kind, file))?,
            text,
        )))
    }

    /// Returns what [`Index::unmet`] does, with options. `all_sources` changes nothing for binary
    /// packages, and the other options but `unless` nothing for source packages.
    ///
    /// ```
    /// use debctl::{Asked, Index, Options};
    ///
    /// let aa = "Package: aa\nVersion: 1\nArchitecture: all\n";
    /// let (old, new) = (Index::read(aa)?, Index::read("")?);
    /// let file = "Package: cc\nVersion: 1\nArchitecture: all\nDepends: aa, bb\n";
    /// let asked = Asked::Packages { recommends: false };
    /// let options = Options { unless: Some(&old), ..Options::default() };
    /// let report = new.unmet_with(asked, options, "amd64", &[], file)?;
    /// assert_eq!(report.text, "unmet 1 cc 1 all Depends aa\n");
    /// # Ok::<(), debctl::Error>(())
    /// ```
    pub fn unmet_with(
        &self,
        asked: Asked,
        options: Options<'_>,
        target: impl AsRef<[u8]>,
        profiles: &[&[u8]],
        file: impl AsRef<[u8]>,
    ) -> Result<UnmetReport, Error> {
        let (target, file) = (target.as_ref(), file.as_ref());
        let (kind, recommends) = asked.parts();
        let is_binary = matches!(kind, Kind::Packages | Kind::Binary);
        let bits = u8::from(recommends)
            + 2 * u8::from(options.all_sources && !is_binary)
            + 4 * u8::from(options.unless.is_some());
        let all_for = options.all_for.filter(|_| is_binary).unwrap_or_default();
        let (profiles, without) = (texts_of(profiles), texts_of(options.without));
        let unless = options.unless.unwrap_or(self);
        let call = |out: &mut [u8], length: &mut usize| {
            self.memory.unmet_with(
                (&unless.memory, &without),
                (kind as u8, bits),
                (target, all_for, &profiles),
                file,
                out,
                length,
            )
        };
        let (answer, text) = written(file.len() + 4096, call);
        let answer = answered_of(answer, (kind, file), (kind, file))?;
        Ok(unmet_report((answer, text)))
    }

    /// Returns the numbers of the packages that have a name, counted from 1, in ascending order.
    pub fn packages(&self, name: impl AsRef<[u8]>) -> Vec<u64> {
        let name = name.as_ref();
        filled(16, |out, count: &mut usize| {
            self.memory.packages(name, out, count)
        })
        .1
    }

    /// Returns the numbers of the packages that provide a name, in some version or without one,
    /// likewise. A package is among them for its own name only if it provides that.
    pub fn providers(&self, name: impl AsRef<[u8]>) -> Vec<u64> {
        let name = name.as_ref();
        filled(16, |out, count: &mut usize| {
            self.memory.providers(name, out, count)
        })
        .1
    }

    /// Returns the package with a number, which is counted from 1, or `None` if there is none. The
    /// only error is [`Error::Memory`].
    pub fn package(&self, number: u64) -> Result<Option<Package>, Error> {
        let call = |out: &mut [u8], length: &mut usize| self.memory.package(number, out, length);
        let (answer, words) = given(256, call)?;
        Ok(found(answer).map(|_| {
            let words = string(words);
            let mut words = words.split(' ').map(str::to_owned);
            let mut next = || words.next().expect("there are three words");
            Package {
                number,
                name: next(),
                version: next(),
                architecture: next(),
                file: self.file_named(number),
            }
        }))
    }

    /// Returns all that the index keeps of the package with a number, or `None` if there is none.
    /// The only error is [`Error::Memory`].
    ///
    /// ```
    /// let text = "\nPackage: mailer\nVersion: 2\nArchitecture: all\nProvides: mta (= 1)\n";
    /// let details = debctl::Index::read(text)?.details(1)?.expect("there is one");
    /// assert_eq!((details.line, details.multi_arch), (2, None));
    /// assert_eq!(details.provides[0].to_string(), "mta (= 1)");
    /// # Ok::<(), debctl::Error>(())
    /// ```
    pub fn details(&self, number: u64) -> Result<Option<Details>, Error> {
        let call = |out: &mut [u8], length: &mut usize| self.memory.details(number, out, length);
        let (answer, text) = given(1024, call)?;
        if found(answer).is_none() {
            return Ok(None);
        }
        let paragraphs = paragraphs(Kind::Any, text)?;
        let paragraph = paragraphs.iter().next().expect("there is a paragraph")?;
        let value = |name| paragraph.text(name).map(str::to_owned);
        let required = |name| value(name).expect("the paragraph has this field");
        let provides = paragraph.relations("Provides")?.unwrap_or_default();
        Ok(Some(Details {
            package: Package {
                number,
                name: required("Package"),
                version: required("Version"),
                architecture: required("Architecture"),
                file: self.file_named(number),
            },
            line: answer.line,
            multi_arch: value("Multi-Arch"),
            provides: provides.into_iter().flatten().collect(),
        }))
    }
}

/// Returns the answer of a call about a package, or `None` if there is no such package.
fn found(answer: Answer) -> Option<Answer> {
    Some(answer).filter(|answer| answer.status != library::NO)
}
