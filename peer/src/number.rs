//! Recipe numbers: "a number of w bits, w from 1 to 8", each bit one broadcast.

use crate::line::{require, Cause};

/// The most bits of a number.
pub const MOST_BITS: u8 = 8;

/// How many bits a number has, 1 to 8. It can only be had through [`Width::new`].
#[derive(Clone, Copy, PartialEq, Eq, Debug)]
pub struct Width(u8);

impl Width {
    /// "0 standing for 1 there and in every call that takes w". Cause 15.
    pub fn new(w: u8) -> Result<Width, Cause> {
        require(w <= MOST_BITS, Cause::Width)?;
        Ok(Width(w.max(1)))
    }

    pub fn count(self) -> usize {
        self.0.into()
    }

    /// The bits, bit 0 first.
    pub fn bits(self) -> impl DoubleEndedIterator<Item = u8> {
        0..self.0
    }

    /// Whether there is such a bit.
    pub fn has(self, bit: u8) -> bool {
        bit < self.0
    }

    /// Whether a number is below 2 to the power w.
    pub fn holds(self, number: u8) -> bool {
        u16::from(number) < 1 << self.0
    }
}
