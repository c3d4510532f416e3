//! The calls that take slices.
//!
//! Of each: every pointer comes from a slice with its length, and a slice that may be written
//! overlaps no other. The library keeps none of them.

use super::declared::*;
use crate::Search;

pub fn version_compare(left: &[u8], right: &[u8]) -> Comparison {
    unsafe { deb_version_compare(left.as_ptr(), left.len(), right.as_ptr(), right.len()) }
}

pub fn version_canonical(text: &[u8], out: &mut [u8], length: &mut usize) -> Answer {
    written!(
        deb_version_canonical(text.as_ptr(), text.len()),
        out,
        length
    )
}

pub fn version_key(text: &[u8], out: &mut [u8], length: &mut usize) -> Answer {
    written!(deb_version_key(text.as_ptr(), text.len()), out, length)
}

pub fn version_parts(text: &[u8]) -> VersionParts {
    unsafe { deb_version_parts(text.as_ptr(), text.len()) }
}

pub fn relation_canonical(text: &[u8], out: &mut [u8], length: &mut usize) -> Answer {
    written!(
        deb_relation_canonical(text.as_ptr(), text.len()),
        out,
        length
    )
}

pub fn version() -> u32 {
    unsafe { deb_library_version() }
}

/// `count` becomes how many alternatives there are.
pub fn relation_parts(text: &[u8], table: &mut [AlternativeAt], count: &mut usize) -> Answer {
    written!(deb_relation_parts(text.as_ptr(), text.len()), table, count)
}

pub fn explain_version(text: &[u8], out: &mut [u8], length: &mut usize) -> Answer {
    written!(deb_explain_version(text.as_ptr(), text.len()), out, length)
}

pub fn explain_relation(text: &[u8], out: &mut [u8], length: &mut usize) -> Answer {
    written!(deb_explain_relation(text.as_ptr(), text.len()), out, length)
}

pub fn check(kind: u8, text: &[u8]) -> Answer {
    unsafe { deb_check(kind, text.as_ptr(), text.len()) }
}

pub fn normalise(kind: u8, text: &[u8], out: &mut [u8], length: &mut usize) -> Answer {
    written!(deb_normalise(kind, text.as_ptr(), text.len()), out, length)
}

/// `lengths` becomes how many fields there are, and the lengths of the names and of the values.
pub fn fields(
    kind: u8,
    text: &[u8],
    (fields, names, values): (&mut [Span], &mut [u8], &mut [u8]),
    lengths: &mut [usize; 3],
) -> Answer {
    let [field_count, names_length, values_length] = lengths;
    unsafe {
        deb_fields(
            kind,
            text.as_ptr(),
            text.len(),
            fields.as_mut_ptr(),
            fields.len(),
            field_count,
            names.as_mut_ptr(),
            names.len(),
            names_length,
            values.as_mut_ptr(),
            values.len(),
            values_length,
        )
    }
}

pub fn explain(kind: u8, text: &[u8], out: &mut [u8], length: &mut usize) -> Answer {
    written!(deb_explain(kind, text.as_ptr(), text.len()), out, length)
}

pub fn explain_all(kind: u8, text: &[u8], out: &mut [u8], length: &mut usize) -> Answer {
    written!(
        deb_explain_all(kind, text.as_ptr(), text.len()),
        out,
        length
    )
}

pub fn same(kind: u8, text: &[u8], other: &[u8]) -> Answer {
    unsafe { deb_same(kind, text.as_ptr(), text.len(), other.as_ptr(), other.len()) }
}

/// `compared` is the kind of the files, and how much is written.
pub fn diff(
    compared: (u8, u8),
    (old, new): (&[u8], &[u8]),
    out: &mut [u8],
    length: &mut usize,
) -> Answer {
    let (kind, detail) = compared;
    written!(
        deb_diff(
            kind,
            detail,
            old.as_ptr(),
            old.len(),
            new.as_ptr(),
            new.len()
        ),
        out,
        length
    )
}

/// `count` becomes how many rows there are.
pub fn rows(form: u8, text: &[u8], table: &mut [Row], count: &mut usize) -> Answer {
    written!(deb_rows(form, text.as_ptr(), text.len()), table, count)
}

/// With `why` the reasons are written too.
pub fn query(
    why: bool,
    (target, profiles): (&[u8], &[Text]),
    (relation, index): (&[u8], &[u8]),
    out: &mut [u8],
    length: &mut usize,
) -> Answer {
    let function = if why { deb_query_why } else { deb_query };
    written!(
        function(
            target.as_ptr(),
            target.len(),
            profiles.as_ptr(),
            profiles.len(),
            relation.as_ptr(),
            relation.len(),
            index.as_ptr(),
            index.len()
        ),
        out,
        length
    )
}

/// `asked` is the kind of the file, and whether Recommends is asked.
pub fn unmet(
    asked: (u8, u8),
    (target, profiles): (&[u8], &[Text]),
    (index, text): (&[u8], &[u8]),
    out: &mut [u8],
    length: &mut usize,
) -> Answer {
    written!(
        deb_unmet(
            asked.0,
            asked.1,
            target.as_ptr(),
            target.len(),
            profiles.as_ptr(),
            profiles.len(),
            index.as_ptr(),
            index.len(),
            text.as_ptr(),
            text.len()
        ),
        out,
        length
    )
}

/// `asked` is the kind of the files, and which paragraphs are of one package.
pub fn latest(
    asked: (u8, u8),
    (before, texts): (&[u8], &[Text]),
    out: &mut [u8],
    length: &mut usize,
) -> Answer {
    written!(
        deb_latest(
            asked.0,
            asked.1,
            before.as_ptr(),
            before.len(),
            texts.as_ptr(),
            texts.len()
        ),
        out,
        length
    )
}

/// `asked` is the kind of the file, whether the others are selected, and the form; the texts are
/// the conditions and the names of fields.
pub fn select(
    asked: (u8, u8, u8),
    (conditions, names): (&[Text], &[Text]),
    text: &[u8],
    out: &mut [u8],
    length: &mut usize,
) -> Answer {
    written!(
        deb_select(
            asked.0,
            asked.1,
            asked.2,
            conditions.as_ptr(),
            conditions.len(),
            names.as_ptr(),
            names.len(),
            text.as_ptr(),
            text.len()
        ),
        out,
        length
    )
}

pub fn explain_condition(kind: u8, text: &[u8], out: &mut [u8], length: &mut usize) -> Answer {
    written!(
        deb_explain_condition(kind, text.as_ptr(), text.len()),
        out,
        length
    )
}

/// `asked` is the kind of the file, and whether Recommends is asked.
pub fn healthy(
    asked: (u8, u8),
    (target, index): (&[u8], &[u8]),
    out: &mut [u8],
    length: &mut usize,
) -> Answer {
    written!(
        deb_healthy(
            asked.0,
            asked.1,
            target.as_ptr(),
            target.len(),
            index.as_ptr(),
            index.len()
        ),
        out,
        length
    )
}

/// `asked` is the kind of the file, and whether Recommends is asked; `search` is what is asked of
/// sets, and the names that are left out.
pub fn installable(
    asked: (u8, u8),
    search: (&Search, &[Text]),
    (target, index): (&[u8], &[u8]),
    out: &mut [u8],
    length: &mut usize,
) -> Answer {
    let (search, without) = search;
    written!(
        deb_installable(
            asked.0,
            asked.1,
            u8::from(search.essential),
            u8::from(search.why),
            search.steps(),
            target.as_ptr(),
            target.len(),
            without.as_ptr(),
            without.len(),
            index.as_ptr(),
            index.len()
        ),
        out,
        length
    )
}

/// `asked` and `search` are those of `installable`.
pub fn witness(
    asked: (u8, u8),
    search: (&Search, &[Text]),
    (target, name, index): (&[u8], &[u8], &[u8]),
    out: &mut [u8],
    length: &mut usize,
) -> Answer {
    let (search, without) = search;
    written!(
        deb_witness(
            asked.0,
            asked.1,
            u8::from(search.essential),
            u8::from(search.why),
            search.steps(),
            target.as_ptr(),
            target.len(),
            name.as_ptr(),
            name.len(),
            without.as_ptr(),
            without.len(),
            index.as_ptr(),
            index.len()
        ),
        out,
        length
    )
}

/// `search` is that of `installable`.
pub fn buildable(
    kind: u8,
    search: (&Search, &[Text]),
    (target, profiles): (&[u8], &[Text]),
    (index, text): (&[u8], &[u8]),
    out: &mut [u8],
    length: &mut usize,
) -> Answer {
    let (search, without) = search;
    written!(
        deb_buildable(
            kind,
            u8::from(search.essential),
            u8::from(search.why),
            search.steps(),
            target.as_ptr(),
            target.len(),
            profiles.as_ptr(),
            profiles.len(),
            without.as_ptr(),
            without.len(),
            index.as_ptr(),
            index.len(),
            text.as_ptr(),
            text.len()
        ),
        out,
        length
    )
}
