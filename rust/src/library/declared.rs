//! The functions of `debctl.h` as they are declared there, and the types of their arguments.

use std::marker::PhantomData;

#[repr(C)]
#[derive(Clone, Copy, Default)]
pub struct Answer {
    pub status: u8,
    pub code: u8,
    pub line: u64,
    pub count: u64,
}

#[repr(C)]
pub struct Comparison {
    pub status: u8,
    pub code: u8,
    pub order: i8,
}

/// The parts of a version, as offsets and lengths in its text.
#[repr(C)]
pub struct VersionParts {
    pub status: u8,
    pub code: u8,
    pub has_epoch: u8,
    pub has_revision: u8,
    pub epoch_length: usize,
    pub upstream: usize,
    pub upstream_length: usize,
    pub revision: usize,
    pub revision_length: usize,
}

/// A field of a file, in the tables that `deb_fields` writes.
#[repr(C)]
#[derive(Clone, Copy, Debug, Default)]
pub struct Span {
    pub paragraph: u32,
    pub line: u32,
    pub name: u32,
    pub name_length: u32,
    pub value: u32,
    pub value_length: u32,
}

/// An alternative of a relation, in the table that `deb_relation_parts` writes.
#[repr(C)]
#[derive(Clone, Copy, Default)]
pub struct AlternativeAt {
    pub group: usize,
    pub name: usize,
    pub name_length: usize,
    pub qualifier: usize,
    pub qualifier_length: usize,
    pub operator: usize,
    pub operator_length: usize,
    pub version: usize,
    pub version_length: usize,
    pub architectures: usize,
    pub architectures_length: usize,
    pub formula: usize,
    pub formula_length: usize,
}

/// A part of a text.
#[repr(C)]
#[derive(Clone, Copy, Default)]
pub struct Part {
    pub start: usize,
    pub length: usize,
}

/// A line of a text, in the table that `deb_rows` writes.
#[repr(C)]
#[derive(Clone, Copy, Default)]
pub struct Row {
    pub kind: u8,
    pub cell_count: u8,
    pub cells: [Part; 10],
}

/// A text among several.
#[repr(C)]
pub struct Text<'a> {
    bytes: *const u8,
    length: usize,
    lent: PhantomData<&'a [u8]>,
}

impl<'a> Text<'a> {
    pub fn of(text: &'a [u8]) -> Text<'a> {
        Text {
            bytes: text.as_ptr(),
            length: text.len(),
            lent: PhantomData,
        }
    }
}

/// A piece of the memory of an index or of a reader, aligned as malloc aligns.
#[repr(C, align(16))]
#[derive(Clone, Copy)]
pub struct Room([u8; 16]);

impl Room {
    /// Returns memory for `size` bytes.
    pub fn with_size(size: usize) -> Box<[Room]> {
        vec![Room([0; 16]); size / 16 + 1].into_boxed_slice()
    }
}

extern "C" {
    pub fn deb_library_version() -> u32;
    pub fn deb_version_compare(
        left: *const u8,
        left_length: usize,
        right: *const u8,
        right_length: usize,
    ) -> Comparison;
    pub fn deb_version_canonical(
        text: *const u8,
        text_length: usize,
        out: *mut u8,
        out_size: usize,
        length: *mut usize,
    ) -> Answer;
    pub fn deb_version_key(
        text: *const u8,
        text_length: usize,
        out: *mut u8,
        out_size: usize,
        length: *mut usize,
    ) -> Answer;
    pub fn deb_version_parts(text: *const u8, text_length: usize) -> VersionParts;
    pub fn deb_relation_canonical(
        text: *const u8,
        text_length: usize,
        out: *mut u8,
        out_size: usize,
        length: *mut usize,
    ) -> Answer;
    pub fn deb_relation_parts(
        text: *const u8,
        text_length: usize,
        alternatives: *mut AlternativeAt,
        alternatives_size: usize,
        alternative_count: *mut usize,
    ) -> Answer;
    pub fn deb_explain_version(
        text: *const u8,
        text_length: usize,
        out: *mut u8,
        out_size: usize,
        length: *mut usize,
    ) -> Answer;
    pub fn deb_explain_relation(
        text: *const u8,
        text_length: usize,
        out: *mut u8,
        out_size: usize,
        length: *mut usize,
    ) -> Answer;
    pub fn deb_check(kind: u8, text: *const u8, text_length: usize) -> Answer;
    pub fn deb_normalise(
        kind: u8,
        text: *const u8,
        text_length: usize,
        out: *mut u8,
        out_size: usize,
        length: *mut usize,
    ) -> Answer;
    pub fn deb_fields(
        kind: u8,
        text: *const u8,
        text_length: usize,
        fields: *mut Span,
        fields_size: usize,
        field_count: *mut usize,
        names: *mut u8,
        names_size: usize,
        names_length: *mut usize,
        values: *mut u8,
        values_size: usize,
        values_length: *mut usize,
    ) -> Answer;
    pub fn deb_explain(
        kind: u8,
        text: *const u8,
        text_length: usize,
        out: *mut u8,
        out_size: usize,
        length: *mut usize,
    ) -> Answer;
    pub fn deb_explain_all(
        kind: u8,
        text: *const u8,
        text_length: usize,
        out: *mut u8,
        out_size: usize,
        length: *mut usize,
    ) -> Answer;
    pub fn deb_same(
        kind: u8,
        text: *const u8,
        text_length: usize,
        other: *const u8,
        other_length: usize,
    ) -> Answer;
    pub fn deb_diff(
        kind: u8,
        detail: u8,
        old: *const u8,
        old_length: usize,
        new: *const u8,
        new_length: usize,
        out: *mut u8,
        out_size: usize,
        length: *mut usize,
    ) -> Answer;
    pub fn deb_rows(
        form: u8,
        text: *const u8,
        text_length: usize,
        rows: *mut Row,
        rows_size: usize,
        row_count: *mut usize,
    ) -> Answer;
    pub fn deb_query(
        target: *const u8,
        target_length: usize,
        profiles: *const Text,
        profile_count: usize,
        relation: *const u8,
        relation_length: usize,
        index: *const u8,
        index_length: usize,
        out: *mut u8,
        out_size: usize,
        length: *mut usize,
    ) -> Answer;
    pub fn deb_query_why(
        target: *const u8,
        target_length: usize,
        profiles: *const Text,
        profile_count: usize,
        relation: *const u8,
        relation_length: usize,
        index: *const u8,
        index_length: usize,
        out: *mut u8,
        out_size: usize,
        length: *mut usize,
    ) -> Answer;
    pub fn deb_unmet(
        kind: u8,
        recommends: u8,
        target: *const u8,
        target_length: usize,
        profiles: *const Text,
        profile_count: usize,
        index: *const u8,
        index_length: usize,
        text: *const u8,
        text_length: usize,
        out: *mut u8,
        out_size: usize,
        length: *mut usize,
    ) -> Answer;
    pub fn deb_healthy(
        kind: u8,
        recommends: u8,
        target: *const u8,
        target_length: usize,
        index: *const u8,
        index_length: usize,
        out: *mut u8,
        out_size: usize,
        length: *mut usize,
    ) -> Answer;
    pub fn deb_installable(
        kind: u8,
        recommends: u8,
        essential: u8,
        reasons: u8,
        budget: u32,
        target: *const u8,
        target_length: usize,
        without: *const Text,
        without_count: usize,
        index: *const u8,
        index_length: usize,
        out: *mut u8,
        out_size: usize,
        length: *mut usize,
    ) -> Answer;
    pub fn deb_witness(
        kind: u8,
        recommends: u8,
        essential: u8,
        reasons: u8,
        budget: u32,
        target: *const u8,
        target_length: usize,
        name: *const u8,
        name_length: usize,
        without: *const Text,
        without_count: usize,
        index: *const u8,
        index_length: usize,
        out: *mut u8,
        out_size: usize,
        length: *mut usize,
    ) -> Answer;
    pub fn deb_buildable(
        kind: u8,
        essential: u8,
        reasons: u8,
        budget: u32,
        target: *const u8,
        target_length: usize,
        profiles: *const Text,
        profile_count: usize,
        without: *const Text,
        without_count: usize,
        index: *const u8,
        index_length: usize,
        text: *const u8,
        text_length: usize,
        out: *mut u8,
        out_size: usize,
        length: *mut usize,
    ) -> Answer;
    pub fn deb_index_size() -> usize;
    pub fn deb_index_read(
        index: *mut Room,
        text: *const u8,
        text_length: usize,
        answer: *mut Answer,
    );
    pub fn deb_index_read_more(
        index: *mut Room,
        text: *const u8,
        text_length: usize,
        answer: *mut Answer,
    );
    pub fn deb_index_without(
        index: *mut Room,
        names: *const Text,
        name_count: usize,
        answer: *mut Answer,
    );
    pub fn deb_index_free(index: *mut Room);
    pub fn deb_index_query(
        index: *const Room,
        target: *const u8,
        target_length: usize,
        profiles: *const Text,
        profile_count: usize,
        relation: *const u8,
        relation_length: usize,
        out: *mut u8,
        out_size: usize,
        length: *mut usize,
    ) -> Answer;
    pub fn deb_index_query_why(
        index: *const Room,
        target: *const u8,
        target_length: usize,
        profiles: *const Text,
        profile_count: usize,
        relation: *const u8,
        relation_length: usize,
        out: *mut u8,
        out_size: usize,
        length: *mut usize,
    ) -> Answer;
    pub fn deb_index_unmet(
        index: *const Room,
        kind: u8,
        recommends: u8,
        target: *const u8,
        target_length: usize,
        profiles: *const Text,
        profile_count: usize,
        text: *const u8,
        text_length: usize,
        out: *mut u8,
        out_size: usize,
        length: *mut usize,
    ) -> Answer;
    pub fn deb_index_unmet_with(
        index: *const Room,
        unless: *const Room,
        kind: u8,
        options: u8,
        target: *const u8,
        target_length: usize,
        all_for: *const u8,
        all_for_length: usize,
        profiles: *const Text,
        profile_count: usize,
        without: *const Text,
        without_count: usize,
        text: *const u8,
        text_length: usize,
        out: *mut u8,
        out_size: usize,
        length: *mut usize,
    ) -> Answer;
    pub fn deb_index_packages(
        index: *const Room,
        name: *const u8,
        name_length: usize,
        numbers: *mut u64,
        numbers_size: usize,
        count: *mut usize,
    ) -> Answer;
    pub fn deb_index_providers(
        index: *const Room,
        name: *const u8,
        name_length: usize,
        numbers: *mut u64,
        numbers_size: usize,
        count: *mut usize,
    ) -> Answer;
    pub fn deb_index_package(
        index: *const Room,
        number: u64,
        out: *mut u8,
        out_size: usize,
        length: *mut usize,
    ) -> Answer;
    pub fn deb_index_details(
        index: *const Room,
        number: u64,
        out: *mut u8,
        out_size: usize,
        length: *mut usize,
    ) -> Answer;
    pub fn deb_index_file(index: *const Room, number: u64, file: *mut usize) -> Answer;
    pub fn deb_latest(
        kind: u8,
        by: u8,
        before: *const u8,
        before_length: usize,
        texts: *const Text,
        text_count: usize,
        out: *mut u8,
        out_size: usize,
        length: *mut usize,
    ) -> Answer;
    pub fn deb_select(
        kind: u8,
        others: u8,
        form: u8,
        conditions: *const Text,
        condition_count: usize,
        names: *const Text,
        name_count: usize,
        text: *const u8,
        text_length: usize,
        out: *mut u8,
        out_size: usize,
        length: *mut usize,
    ) -> Answer;
    pub fn deb_explain_condition(
        kind: u8,
        text: *const u8,
        text_length: usize,
        out: *mut u8,
        out_size: usize,
        length: *mut usize,
    ) -> Answer;
    pub fn deb_reader_size() -> usize;
    pub fn deb_reader_start(reader: *mut Room, kind: u8, answer: *mut Answer);
    pub fn deb_reader_feed(
        reader: *mut Room,
        text: *const u8,
        text_length: usize,
        is_last: u8,
        answer: *mut Answer,
    );
    pub fn deb_reader_fields(
        reader: *const Room,
        fields: *mut Span,
        fields_size: usize,
        field_count: *mut usize,
        names: *mut u8,
        names_size: usize,
        names_length: *mut usize,
        values: *mut u8,
        values_size: usize,
        values_length: *mut usize,
    ) -> Answer;
    pub fn deb_reader_free(reader: *mut Room);
}
