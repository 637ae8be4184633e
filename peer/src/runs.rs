//! The stored runs of crate `stored_runs`: what its program must print of them.
//!
//! A run is the sheet's length and the lent table's, two bytes each, low byte first, then the sheet.

use std::fmt::Write;

use crate::line::{Cause, Header, LARGEST_TABLE, STATIONS};
use crate::outcome::OUTCOME;
use crate::rehearsal::rehearse;
use crate::sheet;

/// A run as it is stored.
struct Stored<'a> {
    sheet: &'a [u8],
    /// The length of the table that is lent.
    lent: usize,
}

/// Takes the first run off the input. None where the input ends before.
fn take<'a>(input: &mut &'a [u8]) -> Option<Stored<'a>> {
    let (lengths, rest) = input.split_first_chunk::<4>()?;
    let [sheet, lent] = [[lengths[0], lengths[1]], [lengths[2], lengths[3]]].map(u16::from_le_bytes);
    let (sheet, rest) = rest.split_at_checked(usize::from(sheet))?;
    *input = rest;
    Some(Stored { sheet, lent: usize::from(lent) })
}

/// The buffers that the runs share.
struct Buffers {
    table: Vec<u8>,
    outcomes: [u8; OUTCOME * STATIONS],
}

impl Buffers {
    fn new() -> Buffers {
        Buffers { table: vec![255; LARGEST_TABLE], outcomes: [255; OUTCOME * STATIONS] }
    }

    /// Reads a run's sheet and, if it is accepted, rehearses it. What is printed after the run's number. Where the largest
    /// table of one bit is too short, zeros are lent.
    fn run(&mut self, stored: &Stored) -> String {
        let mut longer = vec![0; stored.lent];
        let table = self.table.get_mut(..stored.lent).unwrap_or(&mut longer);
        let reading = sheet::read(stored.sheet, table);
        let mut line = format!("{}; table {}", words(&reading), checksum(table));
        if let Ok(header) = reading {
            let mut log = vec![255; stored.lent];
            let outcomes = &mut self.outcomes[..OUTCOME * usize::from(header.n)];
            rehearse(&header, table, &mut log, outcomes).expect("an accepted sheet's run");
            let sums = [checksum(&log), checksum(outcomes)];
            write!(line, "; accepted:{}; sums{}", numbers(outcomes), numbers(&sums)).expect("a string");
        }
        line
    }
}

/// Each number, and a space before it.
fn numbers<N: ToString>(numbers: &[N]) -> String {
    numbers.iter().map(|number| format!(" {}", number.to_string())).collect()
}

/// The header's numbers, w as it stands there, or the refusal.
fn words(reading: &Result<Header, Cause>) -> String {
    match reading {
        Ok(Header { n, t, upper, sender, value, w, marks }) => {
            format!("{n} {t} {upper} {sender} {value} {w} {}", marks.0)
        }
        Err(cause) => format!("refused {}", cause.number()),
    }
}

/// One number for a list of bytes, in which each byte and its place counts.
fn checksum(bytes: &[u8]) -> u32 {
    bytes.iter().fold(0, |sum: u32, &byte| sum.wrapping_mul(31).wrapping_add(u32::from(byte) + 1))
}

/// What is printed of all runs of the input, a line each.
pub fn runs(mut input: &[u8]) -> String {
    let mut buffers = Buffers::new();
    let mut text = String::new();
    for number in 1.. {
        let Some(stored) = take(&mut input) else { break };
        writeln!(text, "run {number}: {}", buffers.run(&stored)).expect("a string");
    }
    text
}
