//! What the library keeps between calls: a loaded index, and a reader that is fed pieces. Each lies
//! in memory of ours, which is never moved, and is freed when it is dropped.

use super::declared::*;

/// The memory of a loaded index, which `deb_index_read` has filled.
pub struct Index(Box<[Room]>);

// The calls that ask only read the memory, and what it leads to, and any thread may free it.
unsafe impl Send for Index {}
unsafe impl Sync for Index {}

impl Drop for Index {
    fn drop(&mut self) {
        unsafe { deb_index_free(self.0.as_mut_ptr()) }
    }
}

impl Index {
    pub fn read(text: &[u8]) -> (Index, Answer) {
        let mut memory = Room::with_size(unsafe { deb_index_size() });
        let mut answer = Answer::default();
        unsafe { deb_index_read(memory.as_mut_ptr(), text.as_ptr(), text.len(), &mut answer) };
        (Index(memory), answer)
    }

    pub fn read_more(&mut self, text: &[u8]) -> Answer {
        let (memory, mut answer) = (self.0.as_mut_ptr(), Answer::default());
        unsafe { deb_index_read_more(memory, text.as_ptr(), text.len(), &mut answer) };
        answer
    }

    pub fn without(&mut self, names: &[Text]) -> Answer {
        let (memory, mut answer) = (self.0.as_mut_ptr(), Answer::default());
        unsafe { deb_index_without(memory, names.as_ptr(), names.len(), &mut answer) };
        answer
    }

    /// `file` becomes the file of a package.
    pub fn file(&self, number: u64, file: &mut usize) -> Answer {
        unsafe { deb_index_file(self.0.as_ptr(), number, file) }
    }

    /// With `why` the reasons are written too.
    pub fn query(
        &self,
        why: bool,
        (target, profiles): (&[u8], &[Text]),
        relation: &[u8],
        out: &mut [u8],
        length: &mut usize,
    ) -> Answer {
        let function = if why {
            deb_index_query_why
        } else {
            deb_index_query
        };
        written!(
            function(
                self.0.as_ptr(),
                target.as_ptr(),
                target.len(),
                profiles.as_ptr(),
                profiles.len(),
                relation.as_ptr(),
                relation.len()
            ),
            out,
            length
        )
    }

    /// `asked` is the kind of the file, and whether Recommends is asked.
    pub fn unmet(
        &self,
        asked: (u8, u8),
        (target, profiles): (&[u8], &[Text]),
        text: &[u8],
        out: &mut [u8],
        length: &mut usize,
    ) -> Answer {
        written!(
            deb_index_unmet(
                self.0.as_ptr(),
                asked.0,
                asked.1,
                target.as_ptr(),
                target.len(),
                profiles.as_ptr(),
                profiles.len(),
                text.as_ptr(),
                text.len()
            ),
            out,
            length
        )
    }

    /// `asked` is the kind of the file, and the options; the environment is the target, that of
    /// packages without one, and the profiles.
    pub fn unmet_with(
        &self,
        (unless, without): (&Index, &[Text]),
        asked: (u8, u8),
        (target, all_for, profiles): (&[u8], &[u8], &[Text]),
        text: &[u8],
        out: &mut [u8],
        length: &mut usize,
    ) -> Answer {
        written!(
            deb_index_unmet_with(
                self.0.as_ptr(),
                unless.0.as_ptr(),
                asked.0,
                asked.1,
                target.as_ptr(),
                target.len(),
                all_for.as_ptr(),
                all_for.len(),
                profiles.as_ptr(),
                profiles.len(),
                without.as_ptr(),
                without.len(),
                text.as_ptr(),
                text.len()
            ),
            out,
            length
        )
    }

    pub fn packages(&self, name: &[u8], out: &mut [u64], count: &mut usize) -> Answer {
        let memory = self.0.as_ptr();
        written!(
            deb_index_packages(memory, name.as_ptr(), name.len()),
            out,
            count
        )
    }

    pub fn providers(&self, name: &[u8], out: &mut [u64], count: &mut usize) -> Answer {
        let memory = self.0.as_ptr();
        written!(
            deb_index_providers(memory, name.as_ptr(), name.len()),
            out,
            count
        )
    }

    pub fn package(&self, number: u64, out: &mut [u8], length: &mut usize) -> Answer {
        written!(deb_index_package(self.0.as_ptr(), number), out, length)
    }

    pub fn details(&self, number: u64, out: &mut [u8], length: &mut usize) -> Answer {
        written!(deb_index_details(self.0.as_ptr(), number), out, length)
    }
}

/// The memory of a reader, which `deb_reader_start` has filled.
pub struct Reader(Box<[Room]>);

// As for an index; a piece is fed through the only reference.
unsafe impl Send for Reader {}
unsafe impl Sync for Reader {}

impl Drop for Reader {
    fn drop(&mut self) {
        unsafe { deb_reader_free(self.0.as_mut_ptr()) }
    }
}

impl Reader {
    pub fn start(kind: u8) -> Reader {
        let mut memory = Room::with_size(unsafe { deb_reader_size() });
        unsafe { deb_reader_start(memory.as_mut_ptr(), kind, &mut Answer::default()) };
        Reader(memory)
    }

    pub fn feed(&mut self, text: &[u8], is_last: bool) -> Answer {
        let (memory, mut answer) = (self.0.as_mut_ptr(), Answer::default());
        let is_last = u8::from(is_last);
        unsafe { deb_reader_feed(memory, text.as_ptr(), text.len(), is_last, &mut answer) };
        answer
    }

    /// `lengths` becomes how many fields there are, and the lengths of the names and of the values.
    pub fn fields(
        &self,
        (fields, names, values): (&mut [Span], &mut [u8], &mut [u8]),
        lengths: &mut [usize; 3],
    ) -> Answer {
        let [field_count, names_length, values_length] = lengths;
        unsafe {
            deb_reader_fields(
                self.0.as_ptr(),
                fields.as_mut_ptr(),
                fields.len(),
                field_count,
                names.as_mut_ptr(),
                names.len(),
                names_length,
                values.as_mut_ptr(),
                values.len(),
                values_length,
            )
        }
    }
}
