//! The functions of `debctl.h`, over slices.

/// A call that writes to a table or a buffer: its function, and its arguments before that.
macro_rules! written {
    ($function:ident($($argument:expr),*), $out:ident, $length:ident) => {
        unsafe { $function($($argument,)* $out.as_mut_ptr(), $out.len(), $length) }
    };
}

mod calls;
mod declared;
mod held;

pub use calls::*;
pub use declared::{AlternativeAt, Answer, Row, Span, Text};
pub use held::{Index, Reader};

pub const YES: u8 = 0;
pub const NO: u8 = 1;
pub const REFUSED: u8 = 2;
pub const SECOND_REFUSED: u8 = 3;
pub const NO_ROOM: u8 = 4;
pub const NO_MEMORY: u8 = 5;
