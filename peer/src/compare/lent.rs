//! Buffers that a call is handed, lent or only to be read, with bytes around them that no call may write.

use std::ops::Range;

use crate::ffi::{self, Handed};
use crate::lot::Lot;

/// So many bytes stand before and behind what is lent.
const AROUND: usize = 64;

/// A buffer for a call.
#[derive(Clone, PartialEq)]
pub struct Lent(Vec<u8>);

impl Lent {
    /// A buffer of this length, filled with bytes that a call would hardly write.
    pub fn new(lot: &mut Lot, len: usize) -> Lent {
        let (start, step) = (lot.byte(), lot.byte() | 1);
        let byte = |place: usize| start.wrapping_add((place as u8).wrapping_mul(step));
        Lent((0..AROUND + len + AROUND).map(byte).collect())
    }

    /// A buffer that holds these bytes.
    fn holding(lot: &mut Lot, bytes: &[u8]) -> Lent {
        let mut lent = Lent::new(lot, bytes.len());
        lent.bytes().copy_from_slice(bytes);
        lent
    }

    /// Where the bytes stand that the call is handed.
    fn range(&self) -> Range<usize> {
        AROUND..self.0.len() - AROUND
    }

    /// What is lent.
    pub fn bytes(&mut self) -> &mut [u8] {
        let range = self.range();
        &mut self.0[range]
    }

    /// What is lent, for a verified call.
    pub fn handed(&mut self) -> Handed<'_> {
        let range = self.range();
        Handed::within(&mut self.0, range)
    }

    /// The first place where two buffers differ, from the first byte that is lent, and both bytes.
    fn differs(&self, other: &Lent) -> Option<(i64, u8, u8)> {
        let place = self.0.iter().zip(&other.0).position(|(a, b)| a != b)?;
        Some((place as i64 - AROUND as i64, self.0[place], other.0[place]))
    }
}

/// A buffer before the call, and as each implementation leaves it.
pub struct Lending {
    name: &'static str,
    before: Lent,
    pub ours: Lent,
    pub theirs: Lent,
}

impl Lending {
    pub fn new(lot: &mut Lot, name: &'static str, len: usize) -> Lending {
        Lending::of(name, Lent::new(lot, len))
    }

    /// A buffer that holds these bytes before the call.
    pub fn holding(lot: &mut Lot, name: &'static str, bytes: &[u8]) -> Lending {
        Lending::of(name, Lent::holding(lot, bytes))
    }

    fn of(name: &'static str, before: Lent) -> Lending {
        Lending { name, ours: before.clone(), theirs: before.clone(), before }
    }

    /// What is wrong with what the verified call has left, if anything is.
    fn fault(&self, refused: bool) -> Option<String> {
        if refused && self.theirs != self.before {
            return Some(format!("{} is written in a refused call", self.name));
        }
        let (byte, ours, theirs) = self.ours.differs(&self.theirs)?;
        Some(format!("{} byte {byte}: peer {ours}, verified {theirs}", self.name))
    }
}

/// A buffer that the verified call may only read. This implementation can't write what it is given to read.
pub struct Reading {
    name: &'static str,
    before: Lent,
    theirs: Lent,
}

impl Reading {
    pub fn new(name: &'static str, bytes: &[u8]) -> Reading {
        let before = Lent::holding(&mut Lot(bytes.len() as u64), bytes);
        Reading { name, theirs: before.clone(), before }
    }

    /// The bytes, for a verified call.
    pub fn handed(&mut self) -> ffi::ReadOnly<'_> {
        ffi::ReadOnly(self.theirs.handed())
    }

    /// What is wrong with what the verified call has left, if anything is.
    pub fn fault(&self) -> Option<String> {
        let (byte, before, after) = self.before.differs(&self.theirs)?;
        Some(format!("{}, only to be read, byte {byte}: {before} before, {after} after", self.name))
    }
}

/// What differs between two answers and what they have written, if anything does; or what has changed that
/// was only to be read.
pub fn difference(ours: u8, theirs: u8, lent: &[&Lending], read: &[&Reading]) -> Option<String> {
    if ours != theirs {
        return Some(format!("peer answers {ours}, verified {theirs}"));
    }
    fault(ours != 0, lent, read)
}

/// The same of the buffers alone, where the answers are equal.
pub fn fault(refused: bool, lent: &[&Lending], read: &[&Reading]) -> Option<String> {
    let changed = read.iter().find_map(|reading| reading.fault());
    changed.or_else(|| lent.iter().find_map(|lending| lending.fault(refused)))
}

#[cfg(test)]
mod tests {
    use super::*;

    #[test]
    fn what_is_found_in_a_buffer() {
        let mut lending = Lending::new(&mut Lot(1), "the table", 9);
        assert_eq!(difference(8, 9, &[&lending], &[]).unwrap(), "peer answers 8, verified 9");
        assert_eq!(difference(8, 8, &[&lending], &[]), None);
        lending.theirs.bytes()[3] ^= 1;
        assert_eq!(difference(8, 8, &[&lending], &[]).unwrap(), "the table is written in a refused call");
        assert!(difference(0, 0, &[&lending], &[]).unwrap().starts_with("the table byte 3: peer "));
        lending.ours.bytes()[3] ^= 1;
        assert_eq!(difference(0, 0, &[&lending], &[]), None);
        assert_eq!(difference(8, 8, &[&lending], &[]).unwrap(), "the table is written in a refused call");
    }

    #[test]
    fn bytes_around_a_buffer() {
        let mut lending = Lending::new(&mut Lot(1), "the log", 9);
        lending.theirs.0[AROUND + 9] ^= 1;
        assert!(difference(0, 0, &[&lending], &[]).unwrap().starts_with("the log byte 9: peer "));
        lending.theirs.0[AROUND - 1] ^= 1;
        assert!(difference(0, 0, &[&lending], &[]).unwrap().starts_with("the log byte -1: peer "));
    }

    #[test]
    fn bytes_that_a_buffer_holds() {
        let mut lending = Lending::holding(&mut Lot(1), "the station", &[4, 1, 1]);
        assert_eq!(lending.ours.bytes(), [4, 1, 1]);
        assert_eq!(difference(7, 7, &[&lending], &[]), None);
        lending.theirs.bytes()[2] = 2;
        assert_eq!(difference(7, 7, &[&lending], &[]).unwrap(), "the station is written in a refused call");
        assert_eq!(difference(0, 0, &[&lending], &[]).unwrap(), "the station byte 2: peer 1, verified 2");
    }

    #[test]
    fn what_is_only_to_be_read() {
        for (byte, place) in [("-1", AROUND - 1), ("0", AROUND), ("2", AROUND + 2), ("3", AROUND + 3)] {
            let mut reading = Reading::new("the row", &[4, 1, 1]);
            assert_eq!(reading.theirs.bytes(), [4, 1, 1]);
            assert_eq!(difference(0, 0, &[], &[&reading]), None);
            reading.theirs.0[place] ^= 1;
            let told = format!("the row, only to be read, byte {byte}: ");
            assert!(difference(0, 0, &[], &[&reading]).unwrap().starts_with(&told));
            assert!(difference(8, 8, &[], &[&reading]).unwrap().starts_with(&told));
        }
    }
}
