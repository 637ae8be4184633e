//! What several tests use.
#![allow(dead_code, unused_imports)]

use peer::line::{Header, Marks};
pub use peer::lot::Lot;

/// A header of one bit from its numbers: n, t, T, sender, value, marks.
pub fn header(n: u8, t: u8, upper: u8, sender: u8, value: u8, marks: u32) -> Header {
    Header { n, t, upper, sender, value, w: 0, marks: Marks(marks) }
}

/// A header of a number of w bits.
pub fn numbered(header: Header, w: u8, value: u8) -> Header {
    Header { w, value, ..header }
}
