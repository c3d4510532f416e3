//! The paragraphs of a file, and their fields.

use crate::library::{self, Answer, Span};
use crate::refusals::answered_of;
use crate::{normalise, relations, spelled_relations, Alternative, Error, Kind};
use std::fmt;

/// The fields of some paragraphs of a file, in the tables of the library.
#[derive(Clone)]
pub(crate) struct Tables {
    pub kind: Kind,
    pub spans: Vec<Span>,
    names: Vec<u8>,
    values: Vec<u8>,
}

impl Tables {
    pub(crate) fn new(kind: Kind) -> Tables {
        Tables {
            kind,
            spans: Vec::new(),
            names: Vec::new(),
            values: Vec::new(),
        }
    }

    /// Fills the tables by a call, and returns its answer. If there isn't enough room for so many
    /// fields of so many bytes, the call is repeated with as much as it needs.
    pub(crate) fn fill(
        &mut self,
        count: usize,
        length: usize,
        call: impl Fn((&mut [Span], &mut [u8], &mut [u8]), &mut [usize; 3]) -> Answer,
    ) -> Answer {
        let mut rooms = [count, length / 2 + 64, length + 64];
        loop {
            let (spans, names, values) = (&mut self.spans, &mut self.names, &mut self.values);
            resize(spans, rooms[0]);
            resize(names, rooms[1]);
            resize(values, rooms[2]);
            let answer = call((spans, names, values), &mut rooms);
            if answer.status != library::NO_ROOM {
                spans.truncate(rooms[0]);
                names.truncate(rooms[1]);
                values.truncate(rooms[2]);
                return answer;
            }
        }
    }

    /// Returns the paragraph whose fields start with a span, or `None` if there is no such span.
    pub(crate) fn paragraph_at(&self, first: usize) -> Option<Paragraph<'_>> {
        let spans = &self.spans[first..];
        let number = spans.first()?.paragraph;
        let end = spans.iter().position(|span| span.paragraph != number);
        Some(Paragraph {
            tables: self,
            spans: &spans[..end.unwrap_or(spans.len())],
        })
    }

    /// Returns the line at which the last paragraph starts, or `None` if there is no paragraph.
    pub(crate) fn last_line(&self) -> Option<u64> {
        let last = self.spans.last()?.paragraph;
        let first = self.spans.partition_point(|span| span.paragraph < last);
        Some(u64::from(self.spans[first].line))
    }

    /// Returns the field in a span.
    fn field<'a>(&'a self, span: &Span) -> Field<'a> {
        let part = |from: &'a [u8], at: u32, length: u32| &from[at as usize..][..length as usize];
        let name = part(&self.names, span.name, span.name_length);
        Field {
            name: std::str::from_utf8(name).expect("a name is ASCII"),
            value: part(&self.values, span.value, span.value_length),
            line: u64::from(span.line),
        }
    }
}

/// Gives a table as much room. A new one of bytes isn't written to here, so that room costs no
/// memory.
fn resize<Entry: Clone + Default>(table: &mut Vec<Entry>, room: usize) {
    if table.capacity() < room {
        *table = vec![Entry::default(); room];
    } else {
        table.resize(room, Entry::default());
    }
}

/// The fields of a file: those of all its paragraphs, or, if it is refused, of those before the one
/// at which it is.
#[derive(Clone)]
pub struct Paragraphs {
    tables: Tables,
    error: Option<Error>,
}

/// Reads the paragraphs of a file. The only error is [`Error::Memory`]; if the file is refused, the
/// last item of the iterator says so.
///
/// ```
/// use debctl::{paragraphs, Kind};
///
/// let text = "Package: hello\nDepends: bb, aa (>= 1) | cc\n\nPackage: world\n";
/// for paragraph in &paragraphs(Kind::Any, text)? {
///     let paragraph = paragraph?;
///     println!("{} {:?}", paragraph.line(), paragraph.text("package"));
/// }
/// # Ok::<(), debctl::Error>(())
/// ```
pub fn paragraphs(kind: Kind, text: impl AsRef<[u8]>) -> Result<Paragraphs, Error> {
    let text = text.as_ref();
    let mut tables = Tables::new(kind);
    let lines = text.iter().filter(|byte| **byte == b'\n').count() + 1;
    let answer = tables.fill(lines, text.len(), |tables, lengths| {
        library::fields(kind as u8, text, tables, lengths)
    });
    let error = match answered_of(answer, (kind, text), (kind, text)) {
        Err(Error::Memory) => return Err(Error::Memory),
        other => other.err(),
    };
    Ok(Paragraphs { tables, error })
}

impl Paragraphs {
    /// Returns the paragraphs in file order. After them comes the error of a file that is refused.
    pub fn iter(&self) -> Iter<'_> {
        Iter {
            all: self,
            next: 0,
            error: self.error.as_ref(),
        }
    }
}

impl fmt::Debug for Paragraphs {
    fn fmt(&self, out: &mut fmt::Formatter<'_>) -> fmt::Result {
        out.debug_list().entries(self).finish()
    }
}

impl<'a> IntoIterator for &'a Paragraphs {
    type Item = Result<Paragraph<'a>, Error>;
    type IntoIter = Iter<'a>;

    fn into_iter(self) -> Iter<'a> {
        self.iter()
    }
}

/// The paragraphs that are left of a file.
#[derive(Clone, Debug)]
pub struct Iter<'a> {
    all: &'a Paragraphs,
    next: usize,
    error: Option<&'a Error>,
}

impl<'a> Iterator for Iter<'a> {
    type Item = Result<Paragraph<'a>, Error>;

    fn next(&mut self) -> Option<Result<Paragraph<'a>, Error>> {
        match self.all.tables.paragraph_at(self.next) {
            Some(paragraph) => {
                self.next += paragraph.spans.len();
                Some(Ok(paragraph))
            }
            None => self.error.take().map(|error| Err(error.clone())),
        }
    }
}

/// A field of a paragraph.
#[derive(Clone, Copy, PartialEq, Eq, Hash)]
#[non_exhaustive]
pub struct Field<'a> {
    /// The name, as spelled in the file.
    pub name: &'a str,
    /// The text after the colon with the lines that continue it, without spaces and tabs at both
    /// ends.
    pub value: &'a [u8],
    /// The line at which the field starts in its file, from 1.
    pub line: u64,
}

impl<'a> Field<'a> {
    /// Returns the value as text.
    pub fn text(&self) -> &'a str {
        std::str::from_utf8(self.value).expect("an accepted paragraph is UTF-8")
    }
}

impl fmt::Debug for Field<'_> {
    fn fmt(&self, out: &mut fmt::Formatter<'_>) -> fmt::Result {
        out.debug_struct("Field")
            .field("name", &self.name)
            .field("value", &self.text())
            .field("line", &self.line)
            .finish()
    }
}

/// A paragraph of a file that passes.
#[derive(Clone, Copy)]
pub struct Paragraph<'a> {
    tables: &'a Tables,
    pub(crate) spans: &'a [Span],
}

impl<'a> Paragraph<'a> {
    /// Returns the line at which the paragraph starts in its file, from 1.
    pub fn line(&self) -> u64 {
        u64::from(self.spans[0].line)
    }

    /// Returns the fields in file order.
    pub fn fields(&self) -> impl Iterator<Item = Field<'a>> + 'a {
        let tables = self.tables;
        self.spans.iter().map(move |span| tables.field(span))
    }

    /// Returns the field with a name, without case, or `None` if there is no such field.
    pub fn field(&self, name: &str) -> Option<Field<'a>> {
        self.fields()
            .find(|field| field.name.eq_ignore_ascii_case(name))
    }

    /// Returns the value of the field with a name, without case, or `None` if there is no such
    /// field.
    pub fn get(&self, name: &str) -> Option<&'a [u8]> {
        Some(self.field(name)?.value)
    }

    /// Returns the same as text.
    pub fn text(&self, name: &str) -> Option<&'a str> {
        Some(self.field(name)?.text())
    }

    /// Returns the canonical text of the value of the field with a name, or `None` if there is no
    /// such field: two values mean the same if and only if theirs are the same.
    pub fn canonical(&self, name: &str) -> Result<Option<Vec<u8>>, Error> {
        let kind = self.tables.kind;
        let canonical = paragraphs(kind, normalise(kind, self.to_text())?)?;
        let paragraph = canonical.iter().next().transpose()?;
        Ok(paragraph.and_then(|one| one.get(name).map(<[u8]>::to_vec)))
    }

    /// Returns the groups of the relation that the value of the field with a name is, or `None` if
    /// there is no such field. An error if the value isn't a relation. See [`crate::relations()`].
    pub fn relations(&self, name: &str) -> Result<Option<Vec<Vec<Alternative>>>, Error> {
        self.get(name).map(relations).transpose()
    }

    /// Returns the same as they are spelled. See [`crate::spelled_relations`].
    pub fn spelled_relations(&self, name: &str) -> Result<Option<Vec<Vec<Alternative>>>, Error> {
        self.get(name).map(spelled_relations).transpose()
    }

    /// Returns a file of this paragraph alone. It is no longer than in its file, so that the limit
    /// of a paragraph's length holds.
    pub(crate) fn to_text(self) -> Vec<u8> {
        let mut text = Vec::new();
        for field in self.fields() {
            text.extend_from_slice(field.name.as_bytes());
            text.push(b':');
            text.extend_from_slice(field.value);
            text.push(b'\n');
        }
        text
    }
}

impl fmt::Debug for Paragraph<'_> {
    fn fmt(&self, out: &mut fmt::Formatter<'_>) -> fmt::Result {
        out.debug_list().entries(self.fields()).finish()
    }
}
