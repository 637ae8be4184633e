//! What is told coarsely of an input and its answer, so that a new kind is noticed.

use std::collections::BTreeSet;

use super::pool::Features;
use crate::exchange::Tally;
use crate::line::{Header, Line, Marks, Part, SILENCE};
use crate::outcome::{self, Outcome};
use crate::sheet::{self, HEADER_LEN, RECORD_LEN};
use crate::station::{Answer, Offer, Station};

/// How an exchange's second round is told.
const SECOND: u8 = 2;

/// These features, at most eight.
pub fn features(list: &[u8]) -> Features {
    let mut features = [0; 8];
    features[..list.len()].copy_from_slice(list);
    features
}

/// A number told by how many bits it has.
pub fn bits(number: usize) -> u8 {
    (usize::BITS - number.leading_zeros()) as u8
}

/// Of a sheet: its line, how far its chain goes, which ballots it tells, how many stations are marked, how many bits its number
/// has and how many of them its chain tells of.
pub fn of_sheet(sheet: &[u8]) -> Features {
    let Ok(header) = sheet::header(sheet) else { return features(&[bits(sheet.len())]) };
    let Header { n, t, w, marks, .. } = header;
    if header.judge().is_err() {
        return features(&[0, bits(n.into())]);
    }
    let chained = chained(sheet);
    let kind = |ballot: u8| 1 << if ballot == SILENCE { 4 } else { ballot.min(3) };
    let kinds = chained.iter().fold(0, |kinds, &(ballot, _)| kinds | kind(ballot));
    let told = chained.iter().fold(0u8, |told, &(_, bit)| told | 1 << bit.min(7)).count_ones();
    let [walked, told, marked] = [chained.len(), told as usize, marks.count() as usize].map(bits);
    features(&[0, bits(n.into()), bits(t.into()), walked, kinds, marked, bits(w.into()), told])
}

/// The ballots and bits of the records that a chain reaches until it ends, leaves the sheet or comes back.
fn chained(sheet: &[u8]) -> Vec<(u8, u8)> {
    let k = (sheet.len() - HEADER_LEN) / RECORD_LEN;
    let next = |at: usize| usize::from(u16::from_le_bytes([sheet[at], sheet[at + 1]]));
    let mut reached = vec![false; k + 1];
    let (mut index, mut chained) = (next(6), Vec::new());
    while (1..=k).contains(&index) && !reached[index] {
        reached[index] = true;
        let at = HEADER_LEN + RECORD_LEN * (index - 1);
        chained.push((sheet[at + 3], sheet[at + 6]));
        index = next(at + 4);
    }
    chained
}

/// How many of the thresholds f exceeds.
fn beside(line: &Line, marks: Marks) -> u8 {
    let exceeded = |threshold: u8| u8::from(marks.count() > threshold.into());
    exceeded(line.t()) + exceeded(line.upper())
}

/// Of an accepted run or exchange: its line, f beside the thresholds, which values, 0 or another, with which grades came, counts
/// of how many bits, how many bits the number has and how many different ones are decided.
pub fn of_outcomes(line: &Line, w: u8, marks: Marks, outcomes: &[u8]) -> Features {
    let kind = |outcome: &Outcome| 1 << (3 * u8::from(outcome.value > 0) + outcome.grade);
    let good = || outcome::outcomes(outcomes).filter(|outcome| !outcome.is_bad());
    let kinds = good().fold(0, |kinds, outcome| kinds | kind(&outcome));
    let counts = good().fold(0, |counts, outcome| counts | 1 << bits(outcome.count.into()));
    let decided = bits(good().map(|outcome| outcome.value).collect::<BTreeSet<u8>>().len());
    let [n, t, w] = [line.n(), line.t().into(), w.into()].map(bits);
    features(&[n, t, beside(line, marks), kinds, counts, w, decided])
}

/// Of tables that are generated: their line, how many stations are marked, how many bits the number has, how many bytes the seed.
pub fn of_generated(header: &Header, seed: u32) -> Features {
    let Header { n, t, w, marks, .. } = *header;
    let [n, t, marked, w] = [n.into(), t.into(), marks.count() as usize, w.into()].map(bits);
    features(&[n, t, marked, w, bits(seed as usize).div_ceil(8)])
}

/// Of a log that is checked: its line, how many stations broke the rules, whether the sender did.
pub fn of_broken(line: &Line, sender: u8, broke: Marks) -> Features {
    let many = bits(broke.count() as usize);
    features(&[bits(line.n()), bits(line.t().into()), beside(line, broke), many, broke.bad(sender).into()])
}

/// Of an accepted row: the round's part, the station before and after, whether the round is counted; of an exchange's second
/// round how large a balance is.
pub fn of_row(station: &Station, row: &[u8], next: &Station) -> Features {
    let state = |s: &Station| 9 * s.value + 3 * s.z + s.grade;
    let (counted, part) = (next.count - station.count, part(station));
    let balance = if part == SECOND { balance(row) } else { 0 };
    features(&[bits(station.n.into()), part, state(station), state(next), counted, balance])
}

/// Of an offer: the round's part, the following state, whether the round is counted, the ballot, whether that state is done.
pub fn of_offer(station: &Station, offer: &Offer) -> Features {
    let Offer { round, value, z, grade, count, ballot } = *offer;
    let (state, counted) = (9 * value + 3 * z + grade, count - station.count);
    let done = u8::from(round > line_of(station).rounds());
    features(&[bits(station.n.into()), part(station), state, counted, ballot, done])
}

/// Of bits that differ from the offer in these: the round's part, the lowest byte that differs, whether another one does.
pub fn of_another_offer(station: &Station, different: u64) -> Features {
    let lowest = different.trailing_zeros() / 8;
    let others = different >> (8 * lowest) > 255;
    features(&[bits(station.n.into()), part(station), lowest as u8, others.into()])
}

/// 0 where the zeros and ones of a second round's row are not as many, else 1 and how many bits their number has.
fn balance(row: &[u8]) -> u8 {
    let Tally { zeros, ones, .. } = Tally::of_second(row);
    if zeros == ones {
        1 + bits(zeros.into())
    } else {
        0
    }
}

/// Of a station that is refused: its n, and its count beside its round.
pub fn of_refused(station: &Station) -> Features {
    features(&[bits(station.n.into()), (1 + station.count.cmp(&station.round) as i8) as u8])
}

/// Of an accepted ballot: the round's part, the byte.
pub fn of_ballot(station: &Station, ballot: u8) -> Features {
    features(&[bits(station.n.into()), part(station), ballot])
}

/// Of a result: running, or done with its outcome.
pub fn of_result(answer: Answer) -> Features {
    match answer {
        Answer::Running { round } => features(&[0, bits(round.into())]),
        Answer::Done(Outcome { value, grade, flag, count }) => {
            features(&[1, value, grade, flag, bits(count.into())])
        }
    }
}

fn line_of(station: &Station) -> Line {
    Line::new(station.n, station.t, station.upper).expect("an accepted line")
}

/// What the current round of an accepted station is for.
fn part(station: &Station) -> u8 {
    match line_of(station).part(station.round) {
        Part::Sender => 0,
        Part::First => 1,
        Part::Second => SECOND,
        Part::King(king) => 3 + u8::from(king == station.own),
    }
}

#[cfg(test)]
mod tests {
    use super::*;

    #[test]
    fn how_far_a_chain_goes() {
        let sheet = |first: u8, nexts: &[u8]| {
            let mut sheet = vec![4, 1, 1, 1, 1, 0, first, 0, 8, 0, 0, 0];
            let records = nexts.iter().zip(10..);
            records.for_each(|(&next, ballot)| sheet.extend([1, 4, 1, ballot, next, 0, ballot - 10, 0]));
            sheet
        };
        assert_eq!(chained(&sheet(0, &[0])), []);
        assert_eq!(chained(&sheet(1, &[])), []);
        assert_eq!(chained(&sheet(2, &[0, 1])), [(11, 1), (10, 0)]);
        assert_eq!(chained(&sheet(1, &[2, 3, 1])), [(10, 0), (11, 1), (12, 2)]);
        assert_eq!(chained(&sheet(1, &[2, 9, 0])), [(10, 0), (11, 1)]);
        let mut of_number = sheet(1, &[2, 3, 0]);
        of_number[5] = 3;
        assert_eq!(of_sheet(&of_number), [0, 3, 1, 2, 8, 1, 2, 2]);
    }

    #[test]
    fn generated_tables() {
        let header = Header { n: 32, t: 10, upper: 10, sender: 1, value: 1, w: 8, marks: Marks(0xffc0_0000) };
        let told = [1, 255, 256, u32::MAX].map(|seed| of_generated(&header, seed));
        assert_eq!(told.map(|told| told[4]), [1, 1, 2, 4]);
        assert_eq!(told[0][..4], [6, 4, 4, 4]);
    }

    #[test]
    fn counts_of_refused_stations() {
        let told = |count| of_refused(&Station::from_bytes([4, 1, 1, 1, 1, 5, 2, 0, 0, count]));
        assert_eq!([4, 5, 6].map(|count| told(count)[..2].to_vec()), [[3, 0], [3, 1], [3, 2]]);
    }

    #[test]
    fn balances_of_rows() {
        let told = |round: u8, row: [u8; 4]| {
            let station = Station::from_bytes([4, 1, 1, 1, 1, round, 1, 2, 0, 0]);
            of_row(&station, &row, &station.take(&row).unwrap())
        };
        let rows = [[2; 4], [0, 1, 2, 255], [1, 0, 0, 1], [0, 1, 1, 2], [0, 0, 1, 2]];
        assert_eq!(rows.map(|row| told(3, row)[5]), [1, 2, 3, 0, 0]);
        assert_eq!(rows.map(|row| told(2, row)[5]), [0; 5]);
    }

    /// A king's own ballot in its round, and the last round's 255; bits that differ from an offer in one byte and in more.
    #[test]
    fn offers() {
        let told = |bytes: [u8; 10], row: [u8; 4]| {
            let station = Station::from_bytes(bytes);
            of_offer(&station, &station.offer(&row).unwrap())
        };
        assert_eq!(told([4, 1, 1, 2, 1, 3, 0, 2, 0, 0], [1, 1, 1, 77]), [3, 2, 17, 1, 1, 0, 0, 0]);
        assert_eq!(told([4, 1, 1, 2, 1, 9, 0, 2, 0, 0], [0, 1, 2, 2]), [3, 2, 6, 0, 255, 1, 0, 0]);
        let station = Station::from_bytes([4, 1, 1, 2, 3, 4, 0, 2, 0, 0]);
        let differ = [1, 128, 0xff00, 0x0101, 1 << 63, 3 << 47, u64::MAX];
        let told = differ.map(|different| of_another_offer(&station, different));
        let expected = [[0, 0], [0, 0], [1, 0], [0, 1], [7, 0], [5, 1], [0, 1]];
        assert_eq!(told.map(|told| [told[2], told[3]]), expected);
        assert!(told.iter().all(|told| told[..2] == [3, 3]));
    }

    #[test]
    fn sizes_and_outcomes() {
        assert_eq!([0, 1, 2, 3, 4, 4_096].map(bits), [0, 1, 2, 2, 3, 13]);
        let line = Line::new(4, 0, 1).unwrap();
        let told = |w: u8, marks: u32, outcomes: &[u8]| of_outcomes(&line, w, Marks(marks), outcomes);
        let bad = [255; 4];
        assert_eq!(told(0, 0, &[[0, 2, 0, 0], [0, 2, 0, 0]].concat()), [3, 0, 0, 4, 1, 0, 1, 0]);
        assert_eq!(told(1, 2, &[[0, 0, 1, 3], bad, [1, 2, 0, 0]].concat()), [3, 0, 1, 33, 5, 1, 2, 0]);
        assert_eq!(told(0, 6, &[[0, 0, 1, 1], bad, bad].concat()), [3, 0, 2, 1, 2, 0, 1, 0]);
        assert_eq!(told(8, 1, &[bad, [255, 2, 0, 0], [7, 1, 1, 0]].concat()), [3, 0, 1, 48, 1, 4, 2, 0]);
        assert_eq!(of_broken(&line, 2, Marks(0b1010)), [3, 0, 2, 2, 1, 0, 0, 0]);
        assert_eq!(of_broken(&line, 1, Marks(0b0010)), [3, 0, 1, 1, 0, 0, 0, 0]);
    }
}
