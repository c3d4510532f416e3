//! The paragraphs of a file that are selected.

use crate::{done, told, KINDS};
use debctl::{
    explain_condition, select, select_table, Error, Kind, SelectError, SelectForm, Selected,
    Selection,
};

/// What is asked of a file: the file, the conditions and the names of fields. The number is that of the
/// kind, 8 more for the others, 16 times the form, and 64 times how many conditions there are.
pub fn of_selection(number: usize, files: &[Vec<u8>]) -> Vec<u8> {
    let (file, texts) = (&files[0], &files[1..]);
    let texts: Vec<&[u8]> = texts.iter().map(Vec::as_slice).collect();
    let (conditions, names) = texts.split_at(number / 64);
    let (kind, others) = (KINDS[number % 8], number / 8 % 2 == 1);
    let asked = Selection {
        kind,
        conditions,
        others,
    };
    let form = match number / 16 % 4 {
        0 => SelectForm::Control(names),
        1 => SelectForm::Table(names),
        2 => SelectForm::JsonLines,
        _ => SelectForm::Count,
    };
    match select(asked, form, file) {
        Ok(selected) => {
            let head = done(selected.count > 0, selected.count).into_bytes();
            let differs = match has_its_rows(asked, form, file, &selected) {
                true => "",
                false => "rows differ\n",
            };
            [head, selected.text, differs.into()].concat()
        }
        Err(SelectError::Condition { number, text, .. }) => {
            format!("3 0 0 {number}\n{text}").into_bytes()
        }
        Err(SelectError::File(error)) => told(&error).into_bytes(),
        Err(error) => panic!("{error}"),
    }
}

/// Why a text is no condition.
pub fn of_condition(kind: Kind, text: &[u8]) -> Result<String, Error> {
    let text = explain_condition(kind, text)?;
    let status = if text == "ok\n" { 0 } else { 2 };
    Ok(format!("{status} 0 0 0\n{text}"))
}

/// Whether the rows of a table, written again, are its lines.
fn has_its_rows(asked: Selection, form: SelectForm, file: &[u8], selected: &Selected) -> bool {
    let names = match form {
        SelectForm::Table(names) => names,
        _ => return true,
    };
    let rows = select_table(asked, names, file).expect("it was selected");
    let line = |row: &Vec<Vec<u8>>| {
        let cells: Vec<Vec<u8>> = row.iter().map(|it| cell(it)).collect();
        [cells.join(&b'\t'), b"\n".to_vec()].concat()
    };
    let text: Vec<u8> = rows.iter().flat_map(line).collect();
    rows.len() as u64 == selected.count && text == selected.text
}

/// A cell of a table, from its text.
fn cell(text: &[u8]) -> Vec<u8> {
    let escaped = |byte: &u8| match byte {
        b'\t' => b"\\t".to_vec(),
        b'\n' => b"\\n".to_vec(),
        b'\\' => b"\\\\".to_vec(),
        0..=31 | 127 => format!("\\x{byte:02x}").into_bytes(),
        _ => vec![*byte],
    };
    text.iter().flat_map(escaped).collect()
}
