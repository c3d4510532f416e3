//! The paragraphs of a file that are selected: forms, bytes, empty lists, and errors.

use debctl::{
    explain_condition, select, select_table, Code, Error, Kind, SelectError, SelectForm, Selected,
    Selection,
};

const TWO: &str = "Package: aa\nVersion: 1.9\nArchitecture: all\nNote: a\tb\\é\n\n\
                   package: bb \nVersion: 1.10\nArchitecture: all\n";

fn asked<'a>(conditions: &'a [&'a [u8]]) -> Selection<'a> {
    Selection {
        kind: Kind::Packages,
        conditions,
        others: false,
    }
}

/// How many paragraphs are selected, and their text.
fn found(selected: Selected) -> (u64, String) {
    let text = String::from_utf8(selected.text).expect("UTF-8");
    (selected.count, text)
}

#[test]
fn each_form_is_written() -> Result<(), SelectError> {
    let newer = asked(&[b"Version >> 1.9"]);
    let second = TWO.split("\n\n").nth(1).expect("two").to_owned();
    let whole = select(newer, SelectForm::Control(&[]), TWO)?;
    assert_eq!(found(whole), (1, second));
    let fields = SelectForm::Control(&[b"VERSION", b"package", b"Size"]);
    let lines = (1, "Version: 1.10\npackage: bb \n".to_owned());
    assert_eq!(found(select(newer, fields, TWO)?), lines);
    let others = Selection {
        others: true,
        ..newer
    };
    let table = SelectForm::Table(&[b"Package", b"note"]);
    let line = (1, "aa\ta\\tb\\\\é\n".to_owned());
    assert_eq!(found(select(others, table, TWO)?), line);
    let (count, json) = found(select(asked(&[]), SelectForm::JsonLines, TWO)?);
    assert_eq!((count, json.lines().count()), (2, 2));
    assert!(json.starts_with("{\"line\":1,\"fields\":{"));
    let counted = select(asked(&[]), SelectForm::Count, TWO)?;
    assert_eq!(found(counted), (2, String::new()));
    assert_eq!(select(asked(&[b"Size"]), fields, TWO)?, Selected::default());
    assert_eq!(select(asked(&[]), fields, "")?, Selected::default());
    Ok(())
}

#[test]
fn a_table_has_its_rows() -> Result<(), SelectError> {
    let rows = select_table(asked(&[]), &[b"note", b"Package"], TWO)?;
    assert_eq!(rows, [["a\tb\\é".as_bytes(), b"aa"], [&b""[..], b"bb"]]);
    assert_eq!(select_table(asked(&[]), &[], TWO)?, [[[0u8; 0]; 0]; 2]);
    assert!(select_table(asked(&[b"Size"]), &[b"Size"], TWO)?.is_empty());
    let any = Selection {
        kind: Kind::Any,
        ..asked(&[])
    };
    let bytes: Vec<char> = ('\0'..='\u{ff}').filter(|it| *it != '\n').collect();
    let value: String = bytes.into_iter().collect();
    let rows = select_table(any, &[b"a"], format!("A: |{value}|\n b\n"))?;
    assert_eq!(rows, [[format!("|{value}|\n b").into_bytes()]]);
    Ok(())
}

/// The number of a condition, its reason and its offset.
fn refused(answer: Result<Selected, SelectError>) -> (u64, String, String) {
    match answer {
        Err(SelectError::Condition { number, text, .. }) => {
            let value = |key| {
                text.lines()
                    .find_map(|line: &str| line.strip_prefix(key))
                    .map(str::to_owned)
            };
            let (reason, place) = (value("reason: "), value("place: "));
            (number, reason.expect("a reason"), place.expect("an offset"))
        }
        other => panic!("{other:?}"),
    }
}

#[test]
fn conditions_are_refused_before_the_file() {
    let ask = |conditions: &[&[u8]]| select(asked(conditions), SelectForm::Count, "x");
    let told = |number, reason: &str, place: &str| (number, reason.to_owned(), place.to_owned());
    assert_eq!(
        refused(ask(&[b"Package", b"Package >= aa"])),
        told(2, "NoOrder", "8")
    );
    assert_eq!(refused(ask(&[b""])), told(1, "NameExpected", "0"));
    assert_eq!(
        refused(ask(&[b"Package = \xff\0"])),
        told(1, "ValueBad", "10")
    );
    let error = ask(&[b"Size >= 1k"]).expect_err("an error");
    assert_eq!(error.to_string(), "condition 1: ValueBad");
    match ask(&[b"Note = \xff\0"]) {
        Err(SelectError::File(Error::Refused(refusal))) => {
            assert_eq!((refusal.code, refusal.line), (Code::NoColon, 1));
        }
        other => panic!("{other:?}"),
    }
}

#[test]
fn a_refusal_has_its_field() {
    let error = select(asked(&[]), SelectForm::JsonLines, "Package: aa\nSize: 1k\n");
    match error {
        Err(SelectError::File(error)) => {
            let refusal = error.refusal().expect("a refusal");
            assert_eq!(refusal.field.as_deref(), Some("Size"));
            assert_eq!(
                SelectError::from(error.clone()).to_string(),
                error.to_string()
            );
        }
        other => panic!("{other:?}"),
    }
}

#[test]
fn conditions_are_explained() -> Result<(), Error> {
    assert_eq!(explain_condition(Kind::Packages, "Version >= 1")?, "ok\n");
    assert_eq!(explain_condition(Kind::Any, b"Note ~ \xff\0")?, "ok\n");
    let why = explain_condition(Kind::Any, b"Version >= \t\xff\\")?;
    let lines = "place: 8\nreason: NoOrder\nvalue: Version >= \\t\u{fffd}\\\\\n\
                 rule: Only versions and numbers have an order.\n";
    assert_eq!(why, lines);
    Ok(())
}
