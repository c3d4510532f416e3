//! The reader that reads a file in pieces.

use debctl::{paragraphs, Code, Error, Kind, ReadError, Reader};
use std::io::{self, Read};

/// A source that returns pieces of these lengths in turn, and is interrupted before each.
struct Pieces<'a> {
    text: &'a [u8],
    lengths: Vec<usize>,
    reads: usize,
}

impl<'a> Pieces<'a> {
    fn of(text: &'a [u8], lengths: &[usize]) -> Pieces<'a> {
        let (lengths, reads) = (lengths.to_vec(), 0);
        Pieces {
            text,
            lengths,
            reads,
        }
    }
}

impl Read for Pieces<'_> {
    fn read(&mut self, out: &mut [u8]) -> io::Result<usize> {
        self.reads += 1;
        if self.reads % 2 == 1 {
            return Err(io::ErrorKind::Interrupted.into());
        }
        let wanted = self.lengths[self.reads / 2 % self.lengths.len()];
        let length = wanted.min(self.text.len()).min(out.len());
        let (piece, rest) = self.text.split_at(length);
        out[..length].copy_from_slice(piece);
        self.text = rest;
        Ok(length)
    }
}

type Fields = Vec<(u64, String, Vec<u8>)>;

type Refused = Option<(Code, u64, Option<String>)>;

/// All fields of a file by the reader, and the code, the line and the field of its refusal.
fn by_reader(kind: Kind, source: impl Read) -> (Vec<Fields>, Refused) {
    let (mut all, mut reader) = (Vec::new(), Reader::new(kind, source));
    loop {
        match reader.next_paragraph() {
            Ok(Some(paragraph)) => all.push(
                paragraph
                    .fields()
                    .map(|it| (it.line, it.name.to_owned(), it.value.to_owned()))
                    .collect(),
            ),
            Ok(None) => {
                assert!(reader.next_paragraph().expect("the end").is_none());
                return (all, None);
            }
            Err(ReadError::File(Error::Refused(refusal))) => {
                assert!(reader.next_paragraph().is_err());
                return (all, Some((refusal.code, refusal.line, refusal.field)));
            }
            Err(error) => panic!("{error}"),
        }
    }
}

/// The same in memory.
fn by_paragraphs(kind: Kind, text: &[u8]) -> (Vec<Fields>, Refused) {
    let (mut all, mut refused) = (Vec::new(), None);
    for paragraph in &paragraphs(kind, text).expect("memory") {
        match paragraph {
            Ok(paragraph) => all.push(
                paragraph
                    .fields()
                    .map(|it| (it.line, it.name.to_owned(), it.value.to_owned()))
                    .collect(),
            ),
            Err(error) => {
                refused = error
                    .refusal()
                    .map(|it| (it.code, it.line, it.field.clone()));
            }
        }
    }
    (all, refused)
}

#[test]
fn pieces_have_the_paragraphs_of_the_file() {
    let good = b"\n\nPackage: aa\nVersion: 1\nArchitecture: all\nDepends: bb,\n cc\n \t\n\
        Package: bb\r\n\n\n\nPackage:cc\nVersion:2\nArchitecture:amd64";
    let texts = [
        &good[..],
        b"",
        b"\n",
        b"a: 1\n\n\nb: 2\n\nbad\n\nc: 3\n",
        b"a: 1\nA: 2\n",
        b"a: \xc3",
        b"a: 1\n\n\xc3\xa9: 2\n",
    ];
    for kind in [Kind::Any, Kind::Packages, Kind::Binary] {
        for text in texts {
            let wanted = by_paragraphs(kind, text);
            for lengths in [&[1][..], &[2], &[3, 1, 7], &[1000]] {
                assert_eq!(by_reader(kind, Pieces::of(text, lengths)), wanted);
            }
        }
    }
}

/// Paragraphs that are longer than a piece, and many short ones in it.
#[test]
fn pieces_have_long_and_short_paragraphs() {
    let long = format!("a: {}\nb: 1\n\n", "x\n y".repeat(100_000));
    let short: String = (0..40_000).map(|at| format!("f{at}:\n\n")).collect();
    let text = format!("{short}{long}{short}{long}");
    let wanted = by_paragraphs(Kind::Any, text.as_bytes());
    assert_eq!(wanted.0.len(), 80_002);
    assert_eq!(by_reader(Kind::Any, text.as_bytes()), wanted);
    assert_eq!(
        by_reader(Kind::Any, Pieces::of(text.as_bytes(), &[5000])),
        wanted
    );
}

/// The field of a refusal is known, however far the refused paragraph is from the start of the file,
/// and in however many pieces it is.
#[test]
fn a_refusal_has_its_field() {
    let refused = format!("B:\n{}b: 1\n", " x\n".repeat(25_000));
    let befores = [
        "a:\n\n".repeat(20_000),
        "a:\n".into(),
        "\n".repeat(70_000),
        String::new(),
    ];
    for before in befores {
        let text = format!("{before}\n{refused}");
        let wanted = by_paragraphs(Kind::Any, text.as_bytes());
        let (code, line, field) = wanted.1.clone().expect("a refusal");
        assert_eq!((code, field.as_deref()), (Code::DuplicateField, Some("b")));
        assert_eq!(line, before.matches('\n').count() as u64 + 25_003);
        for length in [7, 1000, 100_000] {
            assert!(by_reader(Kind::Any, Pieces::of(text.as_bytes(), &[length])) == wanted);
        }
    }
}

/// The field is known also if the refusal comes with a piece of blank lines.
#[test]
fn a_refusal_has_its_field_before_blank_lines() {
    let text = b"a: 1\nA: 2\n\n\n\n\n\n\n";
    let (_, refused) = by_reader(Kind::Any, Pieces::of(text, &[5, 10]));
    assert_eq!(refused, Some((Code::DuplicateField, 2, Some("A".to_owned()))));
}

/// A source that fails once between two pieces.
struct Failing(u8);

impl Read for Failing {
    fn read(&mut self, out: &mut [u8]) -> io::Result<usize> {
        self.0 += 1;
        let text = match self.0 {
            1 => &b"a: 1\n\nb"[..],
            2 => return Err(io::ErrorKind::TimedOut.into()),
            3 => b": 2\n",
            _ => b"",
        };
        out[..text.len()].copy_from_slice(text);
        Ok(text.len())
    }
}

#[test]
fn a_failed_read_is_an_error() -> Result<(), ReadError> {
    let mut reader = Reader::new(Kind::Any, Failing(0));
    let first = reader.next_paragraph()?.map(|it| it.line());
    assert_eq!(first, Some(1));
    let failed = reader.next_paragraph().map(|it| it.map(|it| it.line()));
    assert!(matches!(&failed, Err(ReadError::Read(it)) if it.kind() == io::ErrorKind::TimedOut));
    assert_eq!(failed.unwrap_err().to_string(), "timed out");
    let second = reader.next_paragraph()?.expect("a paragraph");
    assert_eq!((second.line(), second.text("b")), (3, Some("2")));
    assert!(reader.next_paragraph()?.is_none());
    Ok(())
}

/// Neither an index nor a reader is bound to a thread.
#[test]
fn a_reader_goes_to_a_thread() {
    fn is_free<T: Send + Sync>() {}
    is_free::<debctl::Index>();
    is_free::<Reader<io::Empty>>();
    is_free::<debctl::Paragraphs>();
    let mut reader = Reader::new(Kind::Any, &b"a: 1\n"[..]);
    let count = std::thread::spawn(move || {
        let mut count = 0;
        while reader.next_paragraph().expect("no refusal").is_some() {
            count += 1;
        }
        count
    });
    assert_eq!(count.join().expect("no panic"), 1);
    drop(Reader::new(Kind::Packages, io::empty()));
}
