//! A reader of a file that is read in pieces.

use crate::library;
use crate::paragraphs::Tables;
use crate::refusals::{answered, with_field};
use crate::{Error, Kind, Paragraph, Refusal};
use std::fmt;
use std::io::{self, Read};

/// How many bytes are read at once.
const PIECE: usize = 1 << 16;

/// How many bytes of a file are kept at most, and a piece: more than two paragraphs have.
const RECENT: usize = 3 << 24;

/// Reads the paragraphs of a file from anything that is [`Read`], in pieces. It holds the
/// paragraphs that end in one piece, and the text from the last of them on.
///
/// ```
/// use debctl::{Kind, Reader};
///
/// let file = &b"Package: hello\nDepends: libc6\n\nPackage: world\n"[..];
/// let mut reader = Reader::new(Kind::Any, file);
/// while let Some(paragraph) = reader.next_paragraph()? {
///     println!("{} {:?}", paragraph.line(), paragraph.text("Package"));
/// }
/// # Ok::<(), debctl::ReadError>(())
/// ```
pub struct Reader<Source> {
    source: Source,
    memory: library::Reader,
    piece: Box<[u8]>,
    recent: Recent,
    tables: Tables,
    next: usize,
    error: Option<Error>,
    is_ended: bool,
}

/// Why a file can't be read to its end.
#[derive(Debug)]
#[non_exhaustive]
pub enum ReadError {
    /// The file is refused, or out of memory.
    File(Error),
    /// Reading failed.
    Read(io::Error),
}

impl fmt::Display for ReadError {
    fn fmt(&self, out: &mut fmt::Formatter<'_>) -> fmt::Result {
        match self {
            ReadError::File(error) => error.fmt(out),
            ReadError::Read(error) => error.fmt(out),
        }
    }
}

impl std::error::Error for ReadError {
    fn source(&self) -> Option<&(dyn std::error::Error + 'static)> {
        match self {
            ReadError::File(error) => Some(error),
            ReadError::Read(error) => Some(error),
        }
    }
}

impl From<Error> for ReadError {
    fn from(error: Error) -> ReadError {
        ReadError::File(error)
    }
}

impl From<io::Error> for ReadError {
    fn from(error: io::Error) -> ReadError {
        ReadError::Read(error)
    }
}

impl<Source: Read> Reader<Source> {
    /// Returns a reader of a document of a kind.
    pub fn new(kind: Kind, source: Source) -> Reader<Source> {
        Reader {
            source,
            memory: library::Reader::start(kind as u8),
            piece: vec![0; PIECE].into_boxed_slice(),
            recent: Recent::new(),
            tables: Tables::new(kind),
            next: 0,
            error: None,
            is_ended: false,
        }
    }

    /// Returns the next paragraph, which borrows the reader, or `None` after the last one of a file
    /// that is accepted. After the paragraphs that pass, a file that is refused has an error, which
    /// each later call returns too. After [`ReadError::Read`] the next call reads on.
    pub fn next_paragraph(&mut self) -> Result<Option<Paragraph<'_>>, ReadError> {
        while self.next == self.tables.spans.len() {
            if let Some(error) = &self.error {
                return Err(error.clone().into());
            }
            if self.is_ended {
                return Ok(None);
            }
            self.read_piece()?;
        }
        let paragraph = self.tables.paragraph_at(self.next);
        self.next += paragraph.map_or(0, |it| it.spans.len());
        Ok(paragraph)
    }

    /// Reads a piece, and the fields of the paragraphs that end in it.
    fn read_piece(&mut self) -> io::Result<()> {
        let length = loop {
            match self.source.read(&mut self.piece) {
                Err(error) if error.kind() == io::ErrorKind::Interrupted => {}
                other => break other?,
            }
        };
        self.is_ended = length == 0;
        let piece = &self.piece[..length];
        let answer = self.memory.feed(piece, self.is_ended);
        let memory = &self.memory;
        self.tables.fill(PIECE / 24, length, |tables, lengths| {
            memory.fields(tables, lengths)
        });
        self.next = 0;
        self.recent.add(piece);
        let last = self.tables.last_line();
        if let Some(line) = last {
            self.recent.passed(line, piece);
        }
        self.error = match answered(answer) {
            Err(Error::Refused(refusal)) => Some(self.recent.refused(self.tables.kind, refusal)),
            other => other.err(),
        };
        if last.is_none() && are_blank(piece) {
            self.recent.passed(self.recent.next, piece);
        }
        Ok(())
    }
}

/// Returns whether no paragraph is open after these bytes, since they are blank lines.
fn are_blank(piece: &[u8]) -> bool {
    lines_in(piece) > 2 && piece.iter().all(|byte| b" \t\n".contains(byte))
}

/// Returns how many lines end in these bytes.
fn lines_in(piece: &[u8]) -> u64 {
    piece.iter().filter(|byte| **byte == b'\n').count() as u64
}

/// The text of a file from the last paragraph on that passes, which the explanation of a refusal
/// needs. Lines are counted in the file.
struct Recent {
    text: Vec<u8>,
    /// The line at which the text starts.
    line: u64,
    /// The line at which that paragraph starts.
    first: u64,
    /// The lines at which the last piece and the next one start.
    last: u64,
    next: u64,
}

impl Recent {
    fn new() -> Recent {
        Recent {
            text: Vec::new(),
            line: 1,
            first: 1,
            last: 1,
            next: 1,
        }
    }

    /// Adds a piece, unless a paragraph has begun that is too long to be explained.
    fn add(&mut self, piece: &[u8]) {
        self.last = self.next;
        self.next += lines_in(piece);
        if self.text.len() <= RECENT {
            self.text.extend_from_slice(piece);
        }
    }

    /// Drops what is before the last piece if a paragraph starts in that, at this line.
    fn passed(&mut self, line: u64, piece: &[u8]) {
        self.first = line;
        if line > self.last {
            self.text.clear();
            self.text.extend_from_slice(piece);
            self.line = self.last;
        }
    }

    /// Returns the error of a refusal, with its field.
    fn refused(&self, kind: Kind, refusal: Refusal) -> Error {
        let lines = (self.first - self.line) as usize;
        let text = self.text.splitn(lines + 1, |byte| *byte == b'\n').last();
        let file = (kind, text.unwrap_or_default());
        with_field(refusal, file, self.first).map_or_else(|error| error, Error::Refused)
    }
}

impl<Source> fmt::Debug for Reader<Source> {
    fn fmt(&self, out: &mut fmt::Formatter<'_>) -> fmt::Result {
        out.debug_struct("Reader")
            .field("kind", &self.tables.kind)
            .finish_non_exhaustive()
    }
}
