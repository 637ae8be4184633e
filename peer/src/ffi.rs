//! The verified implementation's calls, from its static libraries. All unsafe code stands here.
//!
//! Bytes are handed over as a pointer and a length. An answer of 64 bits has the refusal's number in its highest byte,
//! 0 where nothing is refused, and the values below, lowest byte first.
#![allow(unsafe_code)]

use std::marker::PhantomData;
use std::ops::Range;

use crate::line::Header;
use crate::lot::Lot;
use crate::station::{Offer, Station, STATION};

mod exported {
    unsafe extern "C" {
        pub fn vembopu_read(sheet: *const u8, sheet_len: usize, table: *mut u8, table_len: usize) -> u8;
        pub fn vembopu_read_bit(
            sheet: *const u8,
            sheet_len: usize,
            bit: u8,
            table: *mut u8,
            table_len: usize,
        ) -> u8;
        pub fn vembopu_sheet_len(
            header: *const u8,
            header_len: usize,
            table: *const u8,
            table_len: usize,
        ) -> u64;
        pub fn vembopu_write(
            header: *const u8,
            header_len: usize,
            table: *const u8,
            table_len: usize,
            sheet: *mut u8,
            sheet_len: usize,
        ) -> u64;
        pub fn vembopu_generate(
            header: *const u8,
            header_len: usize,
            seed: u32,
            table: *mut u8,
            table_len: usize,
        ) -> u8;
        pub fn vembopu_rehearse(
            n: u8,
            t: u8,
            upper: u8,
            sender: u8,
            value: u8,
            w: u8,
            marks: u32,
            table: *const u8,
            table_len: usize,
            log: *mut u8,
            log_len: usize,
            outcomes: *mut u8,
            outcomes_len: usize,
        ) -> u8;
        pub fn vembopu_exchange(
            n: u8,
            t: u8,
            upper: u8,
            marks: u32,
            inputs: *const u8,
            inputs_len: usize,
            table: *const u8,
            table_len: usize,
            outcomes: *mut u8,
            outcomes_len: usize,
        ) -> u8;
        pub fn vembopu_check(
            n: u8,
            t: u8,
            upper: u8,
            sender: u8,
            log: *const u8,
            log_len: usize,
            outcomes: *const u8,
            outcomes_len: usize,
        ) -> u64;
        pub fn vembopu_open(n: u8, t: u8, upper: u8, sender: u8, own: u8, value: u8) -> u64;
        pub fn vembopu_ballot(n: u8, t: u8, upper: u8, sender: u8, own: u8, state: u64) -> u64;
        pub fn vembopu_advance(
            n: u8,
            t: u8,
            upper: u8,
            sender: u8,
            own: u8,
            state: u64,
            row: *const u8,
            row_len: usize,
        ) -> u64;
        pub fn vembopu_advance_lent(station: *mut u8, row: *const u8, row_len: usize) -> u8;
        pub fn vembopu_offer(
            n: u8,
            t: u8,
            upper: u8,
            sender: u8,
            own: u8,
            state: u64,
            row: *const u8,
            row_len: usize,
        ) -> u64;
        pub fn vembopu_accept(
            n: u8,
            t: u8,
            upper: u8,
            sender: u8,
            own: u8,
            state: u64,
            row: *const u8,
            row_len: usize,
            offer: u64,
        ) -> u64;
        pub fn vembopu_accept_lent(station: *mut u8, row: *const u8, row_len: usize, offer: u64) -> u8;
        pub fn vembopu_result(n: u8, t: u8, upper: u8, sender: u8, own: u8, state: u64) -> u64;
    }
}

/// Bytes within a buffer that are handed to a call. The pointer is one to the whole buffer, so that what a
/// call writes beside the bytes is seen there.
pub struct Handed<'a> {
    start: *mut u8,
    len: usize,
    buffer: PhantomData<&'a mut [u8]>,
}

impl<'a> Handed<'a> {
    /// A whole buffer.
    pub fn all(buffer: &'a mut [u8]) -> Handed<'a> {
        let len = buffer.len();
        Handed::within(buffer, 0..len)
    }

    pub fn within(buffer: &'a mut [u8], range: Range<usize>) -> Handed<'a> {
        assert!(range.start <= range.end && range.end <= buffer.len(), "the bytes stand in the buffer");
        let start = buffer.as_mut_ptr().wrapping_add(range.start);
        Handed { start, len: range.len(), buffer: PhantomData }
    }
}

/// Bytes that a call may only read. They stand where it could write, so that it would be seen if it did.
pub struct ReadOnly<'a>(pub Handed<'a>);

/// Where an answer has the refusal's number.
const REFUSAL: u32 = 56;

/// The number in its place, above these values.
pub fn refused(number: u8, values: u64) -> u64 {
    u64::from(number) << REFUSAL | values
}

/// The refusal's number of an answer, 0 where nothing is refused.
pub fn refusal(answer: u64) -> u8 {
    (answer >> REFUSAL) as u8
}

/// A station's state as a number: round, value, z, grade and count, lowest byte first.
pub fn state(station: &Station) -> u64 {
    let Station { round, value, z, grade, count, .. } = *station;
    u64::from_le_bytes([round, value, z, grade, count, 0, 0, 0])
}

/// An offer as a number: the following state, then its ballot, lowest byte first, and nothing above.
pub fn offer_bits(offer: &Offer) -> u64 {
    let Offer { round, value, z, grade, count, ballot } = *offer;
    u64::from_le_bytes([round, value, z, grade, count, ballot, 0, 0])
}

/// The offer of any 64 bits. None where something stands above it.
pub fn offer_of(bits: u64) -> Option<Offer> {
    match bits.to_le_bytes() {
        [round, value, z, grade, count, ballot, 0, 0] => {
            Some(Offer { round, value, z, grade, count, ballot })
        }
        _ => None,
    }
}

/// The state as it is handed in: with any three bytes above it, which aren't looked at. They are the same ones for the same
/// station.
fn handed_state(station: &Station) -> u64 {
    let sum = station.to_bytes().iter().fold(0, |sum: u64, &byte| 31 * sum + u64::from(byte));
    state(station) | Lot(sum).word() >> 40 << 40
}

/// Reads a sheet into the lent tables of all its bits: the refusal's number.
pub fn read(sheet: ReadOnly, table: Handed) -> u8 {
    let sheet = &sheet.0;
    // SAFETY: the bytes are each in a buffer of its own, borrowed through the call.
    unsafe { exported::vembopu_read(sheet.start, sheet.len, table.start, table.len) }
}

/// Reads one bit of a sheet into its lent table: the refusal's number.
pub fn read_bit(sheet: ReadOnly, bit: u8, table: Handed) -> u8 {
    let sheet = &sheet.0;
    // SAFETY: as for `read`.
    unsafe { exported::vembopu_read_bit(sheet.start, sheet.len, bit, table.start, table.len) }
}

/// The bytes that the sheet of a header and its tables needs.
pub fn sheet_len(header: ReadOnly, table: ReadOnly) -> u64 {
    let (header, table) = (&header.0, &table.0);
    // SAFETY: as for `read`.
    unsafe { exported::vembopu_sheet_len(header.start, header.len, table.start, table.len) }
}

/// Writes the sheet of a header and its tables into a lent buffer: how many records it has.
pub fn write(header: ReadOnly, table: ReadOnly, sheet: Handed) -> u64 {
    let (header, table) = (&header.0, &table.0);
    // SAFETY: as for `read`.
    unsafe {
        exported::vembopu_write(header.start, header.len, table.start, table.len, sheet.start, sheet.len)
    }
}

/// Generates the tables of a header's bits from a seed into a lent buffer: the refusal's number.
pub fn generate(header: ReadOnly, seed: u32, table: Handed) -> u8 {
    let header = &header.0;
    // SAFETY: as for `read`.
    unsafe { exported::vembopu_generate(header.start, header.len, seed, table.start, table.len) }
}

/// Rehearses the broadcasts of a number: the refusal's number.
pub fn rehearse(header: &Header, table: ReadOnly, log: Handed, outcomes: Handed) -> u8 {
    let Header { n, t, upper, sender, value, w, marks } = *header;
    let table = &table.0;
    // SAFETY: as for `read`.
    unsafe {
        exported::vembopu_rehearse(
            n,
            t,
            upper,
            sender,
            value,
            w,
            marks.0,
            table.start,
            table.len,
            log.start,
            log.len,
            outcomes.start,
            outcomes.len,
        )
    }
}

/// The graded exchange had alone: the refusal's number.
pub fn exchange(
    (n, t, upper): (u8, u8, u8),
    marks: u32,
    inputs: ReadOnly,
    table: ReadOnly,
    outcomes: Handed,
) -> u8 {
    let (inputs, table) = (&inputs.0, &table.0);
    // SAFETY: as for `read`.
    unsafe {
        exported::vembopu_exchange(
            n,
            t,
            upper,
            marks,
            inputs.start,
            inputs.len,
            table.start,
            table.len,
            outcomes.start,
            outcomes.len,
        )
    }
}

/// Checks a log and its outcomes: the marks of the stations that broke the rules.
pub fn check((n, t, upper): (u8, u8, u8), sender: u8, log: ReadOnly, outcomes: ReadOnly) -> u64 {
    let (log, outcomes) = (&log.0, &outcomes.0);
    // SAFETY: as for `read`.
    unsafe { exported::vembopu_check(n, t, upper, sender, log.start, log.len, outcomes.start, outcomes.len) }
}

/// Opens a station: its state.
pub fn open((n, t, upper): (u8, u8, u8), sender: u8, own: u8, value: u8) -> u64 {
    // SAFETY: numbers only.
    unsafe { exported::vembopu_open(n, t, upper, sender, own, value) }
}

/// A station's ballot for the current round.
pub fn ballot(station: &Station) -> u64 {
    let Station { n, t, upper, sender, own, .. } = *station;
    // SAFETY: numbers only.
    unsafe { exported::vembopu_ballot(n, t, upper, sender, own, handed_state(station)) }
}

/// A station takes a row: its next state, or the same where the row is refused.
pub fn advance(station: &Station, row: ReadOnly) -> u64 {
    let Station { n, t, upper, sender, own, .. } = *station;
    let row = &row.0;
    // SAFETY: as for `read`.
    unsafe { exported::vembopu_advance(n, t, upper, sender, own, handed_state(station), row.start, row.len) }
}

/// A lent station takes a row where it stands: the refusal's number.
pub fn advance_lent(station: Handed, row: ReadOnly) -> u8 {
    assert_eq!(station.len, STATION, "a lent station has so many bytes");
    let row = &row.0;
    // SAFETY: as for `read`.
    unsafe { exported::vembopu_advance_lent(station.start, row.start, row.len) }
}

/// What a station would be after a row, and its ballot then, 255 if it would be done.
pub fn offer(station: &Station, row: ReadOnly) -> u64 {
    let Station { n, t, upper, sender, own, .. } = *station;
    let row = &row.0;
    // SAFETY: as for `read`.
    unsafe { exported::vembopu_offer(n, t, upper, sender, own, handed_state(station), row.start, row.len) }
}

/// A station takes a row whose offer this is: its next state, or the same where the row or the offer is refused.
pub fn accept(station: &Station, row: ReadOnly, offer: u64) -> u64 {
    let Station { n, t, upper, sender, own, .. } = *station;
    let (state, row) = (handed_state(station), &row.0);
    // SAFETY: as for `read`.
    unsafe { exported::vembopu_accept(n, t, upper, sender, own, state, row.start, row.len, offer) }
}

/// A lent station takes a row whose offer this is where it stands: the refusal's number.
pub fn accept_lent(station: Handed, row: ReadOnly, offer: u64) -> u8 {
    assert_eq!(station.len, STATION, "a lent station has so many bytes");
    let row = &row.0;
    // SAFETY: as for `read`.
    unsafe { exported::vembopu_accept_lent(station.start, row.start, row.len, offer) }
}

/// A station's result: byte 0 is 0 and byte 1 the round, or byte 0 is 1, then value, grade, flag and count.
pub fn result(station: &Station) -> u64 {
    let Station { n, t, upper, sender, own, .. } = *station;
    // SAFETY: numbers only.
    unsafe { exported::vembopu_result(n, t, upper, sender, own, handed_state(station)) }
}

/// Calls that write to what they may only read, for the tests.
#[cfg(test)]
pub mod planted {
    use std::cell::Cell;

    use crate::compare::report::Compared;

    thread_local! {
        /// Which of the buffers to be read that are handed over from now on, and which of its bytes.
        static WRITE: Cell<Option<(usize, isize)>> = const { Cell::new(None) };
    }

    /// Compares once for each of the first three buffers, with a write to it, and gives the buffers that are
    /// told to have changed there. None is told of a buffer that isn't handed over.
    pub fn found(byte: isize, mut compare: impl FnMut() -> Compared) -> Vec<&'static str> {
        let mut told = |buffer| {
            WRITE.set(Some((buffer, byte)));
            compare().difference.unwrap_or_default()
        };
        let names = |told: String| {
            let changed = |name: &&str| told.contains(&format!("{name}, only to be read, byte {byte}: "));
            let all =
                ["the sheet", "the header", "the table", "the inputs", "the log", "the outcomes", "the row"];
            all.into_iter().filter(changed).collect()
        };
        let found = (0..3).flat_map(|buffer| -> Vec<&str> { names(told(buffer)) }).collect();
        WRITE.set(None);
        found
    }

    impl Drop for super::ReadOnly<'_> {
        /// After the call.
        fn drop(&mut self) {
            match WRITE.get() {
                // SAFETY: a test names a byte of the whole buffer.
                Some((0, byte)) => unsafe { *self.0.start.offset(byte) ^= 1 },
                Some((later, byte)) => return WRITE.set(Some((later - 1, byte))),
                None => {}
            }
            WRITE.set(None);
        }
    }
}
