//! The calls of one station compared, in any state.

use super::input::Told;
use super::lent::{self, Lending, Reading};
use super::lines::header;
use super::report::Compared;
use crate::ffi;
use crate::line::Cause;
use crate::lot::Lot;
use crate::outcome::Outcome;
use crate::station::{Answer, Station, STATION};

/// The numbers that opening can answer.
pub const OPEN: [u8; 5] = [0, 2, 3, 4, 5];
/// The numbers that ballot and result can answer.
pub const ASK: [u8; 5] = [0, 2, 3, 4, 7];
/// The numbers that handing over a row can answer.
pub const ADVANCE: [u8; 6] = [0, 2, 3, 4, 7, 8];

/// An answer as the verified call gives it: the values, or the number above those that a refusal leaves.
pub fn word(answer: Result<u64, Cause>, left: u64) -> u64 {
    answer.unwrap_or_else(|cause| ffi::refused(cause.number(), left))
}

pub fn result_values(answer: Answer) -> u64 {
    u64::from_le_bytes(match answer {
        Answer::Running { round } => [0, round, 0, 0, 0, 0, 0, 0],
        Answer::Done(Outcome { value, grade, flag, count }) => [1, value, grade, flag, count, 0, 0, 0],
    })
}

/// What differs between two answers, if anything does.
pub fn difference(ours: u64, theirs: u64) -> Option<String> {
    (ours != theirs).then(|| format!("peer answers {ours:#x}, verified {theirs:#x}"))
}

pub fn compared(ours: u64, difference: Option<String>, told: impl FnOnce(Told) -> Told) -> Compared {
    let difference = difference.map(|what| told(Told::new(&what)).text());
    Compared { number: ffi::refusal(ours), difference }
}

/// A station's number, now and then none.
fn own(lot: &mut Lot, n: u8, sender: u8) -> u8 {
    let byte = lot.byte();
    match lot.below(24) {
        0 => lot.pick(&[0, n.wrapping_add(1), byte]),
        1..=6 => sender,
        _ => 1 + lot.below(u64::from(n.max(1))) as u8,
    }
}

/// A station, mostly one that is in order.
pub fn station(lot: &mut Lot) -> Station {
    let header = header(lot);
    let (n, t, upper, sender) = (header.n, header.t, header.upper, header.sender);
    let own = own(lot, n, sender);
    let last = t.wrapping_mul(3).wrapping_add(6);
    let inside = 1 + lot.below(u64::from(last.max(1))) as u8;
    let [round, value, z, grade] = match lot.below(12) {
        0 => lot.word().to_le_bytes()[..4].try_into().expect("four bytes"),
        1 | 2 => {
            let round = lot.pick(&[0, 1, last, last.wrapping_add(1), last.wrapping_add(2), 255]);
            [round, lot.pick(&[0, 1, 2]), lot.below(4) as u8, lot.below(4) as u8]
        }
        3 => [last.wrapping_add(1), lot.below(2) as u8, lot.below(3) as u8, lot.below(3) as u8],
        _ => [inside, lot.below(2) as u8, lot.below(3) as u8, lot.below(3) as u8],
    };
    Station { n, t, upper, sender, own, round, value, z, grade, count: count(lot, round) }
}

/// A count, mostly one that is below the round.
fn count(lot: &mut Lot, round: u8) -> u8 {
    let byte = lot.byte();
    match lot.below(12) {
        0 => lot.pick(&[round, round, round.wrapping_add(1), 255, byte]),
        1..=3 => round.saturating_sub(1),
        _ => lot.below(u64::from(round.max(1))) as u8,
    }
}

/// A row, mostly of n bytes: any ballots, as many ones as zeros or nearly so, or one value with others near a threshold.
pub fn row(lot: &mut Lot, station: &Station) -> Vec<u8> {
    let n = usize::from(station.n);
    let len = match lot.below(20) {
        0 => lot.pick(&[0, 1, n + 1, n.saturating_sub(1), 32, 33, 2 * n]),
        _ => n,
    };
    match lot.below(4) {
        0 => (0..len).map(|_| lot.ballot()).collect(),
        1 => balanced(lot, len),
        _ => near_threshold(lot, station, len),
    }
}

/// As many ones as zeros, or one more or less, among bytes that are neither.
fn balanced(lot: &mut Lot, len: usize) -> Vec<u8> {
    let zeros = lot.below(len as u64 / 2 + 1) as usize;
    let ones = lot.pick(&[zeros, zeros, zeros + 1, zeros.saturating_sub(1)]);
    let mut row = [vec![0; zeros], vec![1; ones]].concat();
    row.resize_with(len, || lot.pick(&[2, 2, 3, 254, 255]));
    lot.shuffle(&mut row);
    row
}

/// One value, with any ballots instead of some, as many as a threshold or half of the line.
fn near_threshold(lot: &mut Lot, station: &Station, len: usize) -> Vec<u8> {
    let mut row = vec![lot.below(2) as u8; len];
    let near = lot.pick(&[station.t, station.upper, station.n / 2]).wrapping_add(lot.below(2) as u8);
    for _ in 0..near.min(station.n) {
        let (at, ballot) = (lot.below(len.max(1) as u64) as usize, lot.ballot());
        row.get_mut(at).into_iter().for_each(|byte| *byte = ballot);
    }
    row
}

pub fn open(lot: &mut Lot) -> Compared {
    let header = header(lot);
    let own = own(lot, header.n, header.sender);
    open_with((header.n, header.t, header.upper), header.sender, own, header.value)
}

pub fn ballot(lot: &mut Lot) -> Compared {
    ballot_of(&station(lot))
}

pub fn advance(lot: &mut Lot) -> Compared {
    let station = station(lot);
    advance_by(&station, &row(lot, &station))
}

pub fn advance_lent(lot: &mut Lot) -> Compared {
    let station = station(lot);
    let row = row(lot, &station);
    advance_lent_by(&row, &mut Lending::holding(lot, "the station", &station.to_bytes()))
}

pub fn result(lot: &mut Lot) -> Compared {
    result_of(&station(lot))
}

/// A station opened by both.
pub fn open_with(line: (u8, u8, u8), sender: u8, own: u8, value: u8) -> Compared {
    let opened = Station::open(line, sender, own, value);
    let ours = word(opened.map(|station| ffi::state(&station)), 0);
    compared(ours, difference(ours, ffi::open(line, sender, own, value)), |told| {
        told.line(line).number("sender", sender).number("own", own).number("value", value)
    })
}

/// A station's ballot told by both.
pub fn ballot_of(station: &Station) -> Compared {
    let ours = word(station.ballot().map(u64::from), 0);
    compared(ours, difference(ours, ffi::ballot(station)), |told| told.station(station))
}

/// A row taken by both.
pub fn advance_by(station: &Station, row: &[u8]) -> Compared {
    let mut read = Reading::new("the row", row);
    let ours = word(station.take(row).map(|next| ffi::state(&next)), ffi::state(station));
    let theirs = ffi::advance(station, read.handed());
    let differs = difference(ours, theirs).or_else(|| read.fault());
    compared(ours, differs, |told| told.station(station).bytes("row", row))
}

/// A row taken by both where the station's bytes stand.
pub fn advance_lent_by(row: &[u8], lent: &mut Lending) -> Compared {
    let mut read = Reading::new("the row", row);
    let bytes: &mut [u8; STATION] = lent.ours.bytes().try_into().expect("a station's bytes");
    let station = Station::from_bytes(*bytes);
    let ours = station.take(row).map(|next| *bytes = next.to_bytes());
    let number = ours.map_or_else(Cause::number, |()| 0);
    let theirs = ffi::advance_lent(lent.theirs.handed(), read.handed());
    let told = |what: String| Told::new(&what).station(&station).bytes("row", row).text();
    Compared { number, difference: lent::difference(number, theirs, &[lent], &[&read]).map(told) }
}

/// A station's result told by both.
pub fn result_of(station: &Station) -> Compared {
    let ours = word(station.result().map(result_values), 0);
    compared(ours, difference(ours, ffi::result(station)), |told| told.station(station))
}

#[cfg(test)]
mod tests {
    use super::*;
    use crate::exchange::Tally;

    /// Balances up to half of the row, and rows with one zero or one one more.
    #[test]
    fn balanced_rows() {
        let mut lot = Lot(1);
        for len in [0, 1, 2, 5, 32, 33] {
            let rows: Vec<Vec<u8>> = (0..400).map(|_| balanced(&mut lot, len)).collect();
            assert!(rows.iter().all(|row| row.len() == len));
            let tallies = rows.iter().map(|row| Tally::of_second(row));
            let counts: Vec<(u8, u8)> = tallies.map(|tally| (tally.zeros, tally.ones)).collect();
            assert!(counts.iter().all(|(zeros, ones)| zeros.abs_diff(*ones) <= 1), "{counts:?}");
            let half = len as u8 / 2;
            let wanted = (0..=half).map(|many| (many, many));
            let wanted = wanted.chain((1..=half).flat_map(|many| [(many, many - 1), (many - 1, many)]));
            assert!(wanted.clone().all(|wanted| counts.contains(&wanted)), "{len}: {counts:?}");
        }
    }
}
