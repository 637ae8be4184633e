//! Offers and acceptances compared: of any station and row, any 64 bits handed in as the offer.

use super::input::Told;
use super::lent::{self, Lending, Reading};
use super::report::Compared;
use super::stations::{compared, difference, row, station, word};
use crate::ffi;
use crate::line::{Cause, SILENCE};
use crate::lot::Lot;
use crate::station::{Station, STATION};

/// The numbers that an acceptance can answer. An offer's are those of a row that is taken.
pub const ACCEPT: [u8; 7] = [0, 2, 3, 4, 7, 8, 17];

/// Where the ballot stands among an offer's bytes.
const BALLOT: usize = 5;

/// What asking for an offer answers: its bits, or the refusal's number above nothing.
pub fn answer(station: &Station, row: &[u8]) -> u64 {
    word(station.offer(row).map(|offer| ffi::offer_bits(&offer)), 0)
}

/// Bits that are handed in as the offer: one time in 3 what asking for it answers, otherwise what is near it or could be
/// taken for it.
pub fn drawn(lot: &mut Lot, station: &Station, row: &[u8]) -> u64 {
    let answer_here = answer(station, row);
    match lot.below(12) {
        0..=3 => answer_here,
        4 | 5 => answer_here ^ 1 << lot.below(64),
        6 => another_byte(lot, answer_here),
        7 => answer(station, &another_row(lot, station, row)),
        8 => answer(&another_station(lot, station), row),
        9 => old_state(lot, station),
        10 => ffi::refused(lot.pick(&[2, 3, 4, 7, 8, 17]), lot.pick(&[0, answer_here])),
        _ => lot.word(),
    }
}

/// One byte replaced. Half of the time it is the ballot, by one of the state's bytes or by silence.
fn another_byte(lot: &mut Lot, bits: u64) -> u64 {
    let mut bytes = bits.to_le_bytes();
    if lot.one_in(2) {
        bytes[BALLOT] = lot.pick(&[bytes[0], bytes[1], bytes[2], bytes[3], bytes[4], SILENCE]);
    } else {
        let byte = lot.byte();
        bytes[lot.below(8) as usize] = lot.pick(&[0, 1, 2, 255, byte]);
    }
    u64::from_le_bytes(bytes)
}

/// The row with another ballot in it, or another row.
fn another_row(lot: &mut Lot, station: &Station, before: &[u8]) -> Vec<u8> {
    let mut other = before.to_vec();
    let (at, ballot) = (lot.below(before.len().max(1) as u64) as usize, lot.ballot());
    match other.get_mut(at) {
        Some(byte) if lot.one_in(2) => *byte = ballot,
        _ => return row(lot, station),
    }
    other
}

/// The station with another number or another byte of its state.
fn another_station(lot: &mut Lot, station: &Station) -> Station {
    let mut bytes = station.to_bytes();
    let at = lot.below(STATION as u64) as usize;
    let near = bytes[at].wrapping_add(lot.pick(&[1, 255]));
    bytes[at] = lot.pick(&[0, 1, 2, near]);
    Station::from_bytes(bytes)
}

/// The state before the row, alone, with its own ballot or with silence.
fn old_state(lot: &mut Lot, station: &Station) -> u64 {
    let ballot = lot.pick(&[0, station.ballot().unwrap_or(0), SILENCE]);
    ffi::state(station) | u64::from(ballot) << (8 * BALLOT)
}

pub fn offer(lot: &mut Lot) -> Compared {
    let station = station(lot);
    offer_by(&station, &row(lot, &station))
}

pub fn accept(lot: &mut Lot) -> Compared {
    let (station, row, bits) = station_row_and_bits(lot);
    accept_by(&station, &row, bits)
}

pub fn accept_lent(lot: &mut Lot) -> Compared {
    let (station, row, bits) = station_row_and_bits(lot);
    accept_lent_by(&row, bits, &mut Lending::holding(lot, "the station", &station.to_bytes()))
}

fn station_row_and_bits(lot: &mut Lot) -> (Station, Vec<u8>, u64) {
    let station = station(lot);
    let row = row(lot, &station);
    let bits = drawn(lot, &station, &row);
    (station, row, bits)
}

/// An offer made by both.
pub fn offer_by(station: &Station, row: &[u8]) -> Compared {
    let mut read = Reading::new("the row", row);
    let ours = answer(station, row);
    let theirs = ffi::offer(station, read.handed());
    let differs = difference(ours, theirs).or_else(|| read.fault());
    compared(ours, differs, |told| told.station(station).bytes("row", row))
}

/// This implementation's acceptance of any bits. Those that are no offer at all come after the causes of the station and the
/// row too.
fn accepted(station: &Station, row: &[u8], bits: u64) -> Result<Station, Cause> {
    match ffi::offer_of(bits) {
        Some(offer) => station.accept(row, &offer),
        None => station.offer(row).and(Err(Cause::Offer)),
    }
}

fn told(what: Told, station: &Station, row: &[u8], bits: u64) -> Told {
    what.station(station).bytes("row", row).bytes("offer", &bits.to_le_bytes())
}

/// An offer accepted by both.
pub fn accept_by(station: &Station, row: &[u8], bits: u64) -> Compared {
    let mut read = Reading::new("the row", row);
    let ours = word(accepted(station, row, bits).map(|next| ffi::state(&next)), ffi::state(station));
    let theirs = ffi::accept(station, read.handed(), bits);
    let differs = difference(ours, theirs).or_else(|| read.fault());
    compared(ours, differs, |what| told(what, station, row, bits))
}

/// An offer accepted by both where the station's bytes stand.
pub fn accept_lent_by(row: &[u8], bits: u64, lent: &mut Lending) -> Compared {
    let mut read = Reading::new("the row", row);
    let bytes: &mut [u8; STATION] = lent.ours.bytes().try_into().expect("a station's bytes");
    let station = Station::from_bytes(*bytes);
    let ours = accepted(&station, row, bits).map(|next| *bytes = next.to_bytes());
    let number = ours.map_or_else(Cause::number, |()| 0);
    let theirs = ffi::accept_lent(lent.theirs.handed(), read.handed(), bits);
    let told = |what: String| told(Told::new(&what), &station, row, bits).text();
    Compared { number, difference: lent::difference(number, theirs, &[lent], &[&read]).map(told) }
}

#[cfg(test)]
mod tests {
    use super::*;
    use std::collections::BTreeSet;

    /// Station 3 of n 4, t 1, T 1, sender 2 in an exchange's second round, a row, and its offer: the next round is king 1's.
    fn example() -> (Station, [u8; 4], u64) {
        let (station, row) = (Station::from_bytes([4, 1, 1, 2, 3, 3, 1, 1, 0, 0]), [0, 0, 0, 77]);
        (station, row, u64::from_le_bytes([4, 0, 1, 2, 1, 255, 0, 0]))
    }

    #[test]
    fn bits_of_offers() {
        let (station, row, bits) = example();
        assert_eq!(answer(&station, &row), bits);
        assert_eq!(ffi::offer_of(bits), station.offer(&row).ok());
        assert_eq!(accepted(&station, &row, bits), station.take(&row));
        for bit in 0..64 {
            assert_eq!(accepted(&station, &row, bits ^ 1 << bit), Err(Cause::Offer), "bit {bit}");
        }
        // a refused offer's answer has the number alone
        assert_eq!(answer(&station, &row[1..]), 8 << 56);
        assert_eq!(
            [8 << 56, 0, u64::MAX].map(|bits| accepted(&station, &row[1..], bits)),
            [Err(Cause::Length); 3]
        );
    }

    /// The offer, it with each bit flipped alone, with each byte replaced alone, with another ballot of its own; the old state;
    /// the answer of a refused offer; the offers of other rows and stations; bits all over.
    #[test]
    fn every_kind_of_bits_is_drawn() {
        let (station, row, bits) = example();
        let mut lot = Lot(1);
        let all: BTreeSet<u64> = (0..20_000).map(|_| drawn(&mut lot, &station, &row)).collect();
        let flipped = (0..64).map(|bit| bits ^ 1 << bit);
        let ballots = [4, 0, 1, 2].map(|ballot| bits & !(255 << 40) | ballot << 40);
        let old = [0, 1, 255].map(|ballot| ffi::state(&station) | ballot << 40);
        let refused = [2, 3, 4, 7, 8, 17].map(|number| number << 56);
        let rows = [[0, 0, 1, 77], [0, 0, 0, 1]].map(|row| answer(&station, &row));
        let stations = [(5, 2), (7, 0), (9, 1)].map(|(at, byte)| {
            let mut bytes = station.to_bytes();
            bytes[at] = byte;
            answer(&Station::from_bytes(bytes), &row)
        });
        let wanted = [&[bits][..], &ballots, &old, &refused, &rows, &stations].concat();
        for wanted in wanted.into_iter().chain(flipped) {
            assert!(all.contains(&wanted), "{wanted:#x}");
        }
        let far = |other: &&u64| (0..8).all(|byte| (*other ^ bits) >> (8 * byte) & 255 != 0);
        assert!(all.iter().filter(far).count() > 500);
    }

    /// Bits all over, and the offer of another row, where the station or the row is refused.
    #[test]
    fn no_bits_go_before_the_row() {
        let (station, row, bits) = example();
        for (station, row, cause) in [
            (Station { n: 33, ..station }, &row[..], Cause::StationCount),
            (Station { upper: 2, ..station }, &row, Cause::Thresholds),
            (Station { own: 5, ..station }, &row, Cause::StationNumber),
            (Station { count: 3, ..station }, &row, Cause::StationState),
            (Station { round: 10, ..station }, &row, Cause::StationState),
            (station, &row[1..], Cause::Length),
        ] {
            let mut lot = Lot(2);
            let any: Vec<u64> = (0..200).map(|_| drawn(&mut lot, &station, row)).collect();
            for bits in any.into_iter().chain([bits, 0]) {
                assert_eq!(accepted(&station, row, bits), Err(cause));
            }
        }
    }
}
