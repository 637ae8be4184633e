//! Offers and their acceptance, from request 8's sentences; and what is told of them round by round.

mod common;

use common::{header, numbered, Lot};
use peer::line::{Cause, Header, Line};
use peer::listing::Run;
use peer::offers::offers;
use peer::outcome::outcome;
use peer::station::{Answer, Offer, Station};

fn offer(round: u8, value: u8, z: u8, grade: u8, count: u8, ballot: u8) -> Offer {
    Offer { round, value, z, grade, count, ballot }
}

/// Station 3 of n 4, t 1, T 1, sender 2, opened with 1: what it offers of each row, worked through by hand.
#[test]
fn offers_of_one_round_after_another() {
    let mut station = Station::open((4, 1, 1), 2, 3, 1).unwrap();
    let mut step = |row: [u8; 4]| {
        let offer = station.offer(&row).unwrap();
        station = station.accept(&row, &offer).unwrap();
        offer
    };
    // the sender's garbled ballot is read as 0, which the station sends in round 2
    assert_eq!(step([1, 7, 1, 1]), offer(2, 0, 2, 0, 1, 0));
    // two zeros are too few: a blank
    assert_eq!(step([1, 255, 0, 0]), offer(3, 0, 2, 0, 1, 2));
    // in king 1's round station 3 is silent
    assert_eq!(step([0, 1, 2, 0]), offer(4, 0, 2, 0, 1, 255));
    assert_eq!(step([1, 255, 77, 255]), offer(5, 1, 2, 0, 1, 1));
    assert_eq!(step([77, 2, 1, 0]), offer(6, 1, 2, 0, 2, 2));
    assert_eq!(step([1, 1, 1, 255]), offer(7, 1, 2, 2, 2, 255));
    assert_eq!(step([0, 2, 0, 0]), offer(8, 1, 2, 2, 3, 1));
    assert_eq!(step([1, 1, 1, 0]), offer(9, 1, 1, 2, 3, 1));
    // done: 255, and neither its value nor its z
    assert_eq!(step([1, 0, 1, 1]), offer(10, 1, 1, 2, 3, 255));
    assert_eq!(station.offer(&[1; 4]), Err(Cause::StationState));
}

/// A king's offer before its round shows its y.
#[test]
fn the_offer_of_a_king() {
    let king = Station::from_bytes([4, 1, 1, 2, 1, 3, 1, 1, 0, 0]);
    assert_eq!(king.offer(&[0, 0, 2, 2]), Ok(offer(4, 0, 1, 0, 0, 0)));
}

/// "255 if that state is done", whatever value it ends with; the round before it is another ballot.
#[test]
fn the_ballot_of_a_done_state() {
    let lines = (1..=32).map(|n| Line::new(n, (n - 1) / 3, (n - 1) / 3).unwrap());
    for (line, value) in lines.flat_map(|line| [(line, 0), (line, 1)]) {
        let last = line.rounds();
        let bytes = [line.n() as u8, line.t(), line.upper(), 1, 1, last, value, value, 2, 0];
        let station = Station::from_bytes(bytes);
        let row = vec![value; line.n()];
        assert_eq!(station.offer(&row), Ok(offer(last + 1, value, value, 2, 0, 255)));
        let before = Station { round: last - 1, ..station };
        assert_eq!(before.offer(&row), Ok(offer(last, value, value, 2, 0, value)));
    }
}

/// A station and a row, mostly accepted ones.
fn drawn(lot: &mut Lot) -> (Station, Vec<u8>) {
    let Header { n, t, upper, sender, .. } = lot.header(12);
    let line = Line::new(n, t, upper).unwrap();
    let (own, round) = (1 + lot.below(n.into()) as u8, 1 + lot.below(line.rounds().into()) as u8);
    let round = lot.pick(&[round, round, line.rounds()]);
    let [value, z, grade] = [2, 3, 3].map(|end| lot.below(end) as u8);
    let mut bytes = [n, t, upper, sender, own, round, value, z, grade, lot.below(round.into()) as u8];
    if lot.one_in(6) {
        bytes[lot.below(10) as usize] = lot.pick(&[0, 1, 2, 3, 33, 255]);
    }
    let len = if lot.one_in(12) { lot.near(line.n()) } else { line.n() };
    (Station::from_bytes(bytes), lot.ballots(&line, len))
}

/// "Offer and acceptance together do what taking the row did", refusals too; the offer's ballot is the one that the following
/// station tells; "a new offer on that row equals the first", also of a station that is read back from its bytes.
#[test]
fn offer_and_acceptance_take_the_row() {
    let (mut lot, mut ballots, mut refused) = (Lot(80), [0; 256], [0; 18]);
    for _ in 0..60_000 {
        let (station, row) = drawn(&mut lot);
        let (offered, taken) = (station.offer(&row), station.take(&row));
        assert_eq!(offered.and_then(|offer| station.accept(&row, &offer)), taken, "{station:?} {row:?}");
        assert_eq!(offered.err(), taken.err(), "{station:?} {row:?}");
        assert_eq!(Station::from_bytes(station.to_bytes()).offer(&row), offered);
        let (Ok(offer), Ok(next)) = (offered, taken) else {
            refused[usize::from(offered.unwrap_err().number())] += 1;
            continue;
        };
        let Offer { round, value, z, grade, count, ballot } = offer;
        assert_eq!(Station { round, value, z, grade, count, ..station }, next);
        match next.result().unwrap() {
            Answer::Running { .. } => assert_eq!(Ok(ballot), next.ballot()),
            Answer::Done(_) => assert_eq!((ballot, next.ballot()), (255, Err(Cause::StationState))),
        }
        ballots[usize::from(ballot)] += 1;
    }
    assert!([0, 1, 2, 255].iter().all(|&ballot: &usize| ballots[ballot] > 1_000), "{ballots:?}");
    assert!([2, 3, 4, 7, 8].iter().all(|&cause: &usize| refused[cause] > 100), "{refused:?}");
}

/// The offer with another byte in one of its six places.
fn changed(offer: &Offer, place: usize, byte: u8) -> Offer {
    let Offer { round, value, z, grade, count, ballot } = *offer;
    let mut bytes = [round, value, z, grade, count, ballot];
    bytes[place] = byte;
    let [round, value, z, grade, count, ballot] = bytes;
    Offer { round, value, z, grade, count, ballot }
}

/// Of all bytes in each place of an offer the right one alone is accepted.
#[test]
fn each_byte_of_an_offer() {
    let mut lot = Lot(81);
    for _ in 0..300 {
        let (station, row) = drawn(&mut lot);
        let Ok(offer) = station.offer(&row) else { continue };
        for (place, byte) in (0..6).flat_map(|place| (0..=255).map(move |byte| (place, byte))) {
            let other = changed(&offer, place, byte);
            let expected = if other == offer { station.take(&row) } else { Err(Cause::Offer) };
            assert_eq!(station.accept(&row, &other), expected, "{station:?} {row:?} {other:?}");
        }
    }
}

/// The offer of another row or of another station is accepted exactly where this one's is the same; the old state with its
/// ballot is never one.
#[test]
fn offers_of_others() {
    let (mut lot, mut seen) = (Lot(82), [[0; 2]; 2]);
    for _ in 0..30_000 {
        let (station, row) = drawn(&mut lot);
        let Ok(own) = station.offer(&row) else { continue };
        let Station { round, value, z, grade, count, .. } = station;
        let old = offer(round, value, z, grade, count, station.ballot().unwrap());
        assert_eq!(station.accept(&row, &old), Err(Cause::Offer));
        let mut other_row = row.clone();
        other_row[lot.below(row.len() as u64) as usize] = lot.ballot();
        let mut bytes = station.to_bytes();
        bytes[lot.below(10) as usize] = lot.below(4) as u8;
        let others = [station.offer(&other_row), Station::from_bytes(bytes).offer(&row)];
        for (other, seen) in others.iter().zip(&mut seen) {
            let Ok(other) = other else { continue };
            let expected = if *other == own { station.take(&row) } else { Err(Cause::Offer) };
            assert_eq!(station.accept(&row, other), expected);
            seen[usize::from(*other == own)] += 1;
        }
    }
    assert!(seen.as_flattened().iter().all(|&many| many > 500), "{seen:?}");
}

/// A refused acceptance leaves the station before the row: the right offer is accepted after any number of wrong ones.
#[test]
fn wrong_offers_leave_the_station() {
    let (station, row) = (Station::open((4, 1, 1), 2, 2, 1).unwrap(), [255, 1, 255, 255]);
    let right = station.offer(&row).unwrap();
    let mut kept = station;
    for wrong in (0..6).map(|place| changed(&right, place, 9)) {
        let accepted = kept.accept(&row, &wrong).map(|next| kept = next);
        assert_eq!((accepted, kept), (Err(Cause::Offer), station));
    }
    assert_eq!(kept.accept(&row, &right), station.take(&row));
    // the same offer is not one of the next round
    let next = station.take(&row).unwrap();
    assert_eq!(next.accept(&row, &right), Err(Cause::Offer));
}

/// Good stations of runs drawn by lot, each step an offer and its acceptance: an offer shows what the log has of the station
/// in the next round, and the last acceptance makes its outcome.
#[test]
fn runs_by_offers() {
    let mut lot = Lot(83);
    for _ in 0..400 {
        let header = lot.header(9);
        let line = header.judge().unwrap();
        let run = Run::new(header, &lot.table(&line)).unwrap();
        for own in line.stations().filter(|&own| !header.marks.bad(own)) {
            let numbers = (header.n, header.t, header.upper);
            let mut station = Station::open(numbers, header.sender, own, header.value).unwrap();
            for round in 1..=line.rounds() {
                let row = line.heard(&run.log, round, own);
                let offer = station.offer(&row).unwrap();
                let said = (round < line.rounds()).then(|| run.log[line.place(round + 1, own, 1)]);
                assert_eq!((offer.round, offer.ballot), (round + 1, said.unwrap_or(255)));
                station = station.accept(&row, &offer).unwrap();
            }
            assert_eq!(station.result(), Ok(Answer::Done(outcome(&run.outcomes, own))));
        }
    }
}

/// A ballot byte of its word.
fn byte(word: &str) -> u8 {
    match word {
        "blank" => 2,
        "silence" => 255,
        _ => word.parse().unwrap(),
    }
}

/// One line of a station's offers, taken apart: what stands before the row, the row, the state, and the ballot if there is one.
fn parts(line: &str) -> (&str, Vec<u8>, [u8; 5], Option<u8>) {
    let (begin, rest) = line.split_once(": row ").unwrap();
    let (row, shown) = rest.split_once("; offer ").unwrap();
    let fields: Vec<&str> = shown.split(", ").collect();
    let names = ["round", "value", "z", "grade", "garbled"];
    let state = std::array::from_fn(|at| byte(fields[at].strip_prefix(names[at]).unwrap().trim()));
    let ballot = fields[5].strip_prefix("ballot ").map(byte);
    assert!(fields.len() == 6 && (ballot.is_some() || fields[5] == "done"), "{line}");
    (begin, row.split(' ').map(byte).collect(), state, ballot)
}

/// Runs of numbers drawn by lot: a line for each bit and round, with what the station hears, the state that it passes to, and
/// the ballot that the log has of it in the next round, or that it is done.
#[test]
fn what_is_told_of_runs() {
    let mut lot = Lot(84);
    for _ in 0..300 {
        let one_bit = lot.header(6);
        let header = if lot.one_in(2) { lot.numbered_short(&one_bit) } else { one_bit };
        let run = Run::new(header, &lot.tables(&header)).unwrap();
        let (line, width) = (run.line, header.width().unwrap());
        for own in line.stations().filter(|&own| !header.marks.bad(own)) {
            let text = offers(&run, own).unwrap();
            let mut told = text.lines().map(parts);
            for bit in width.bits() {
                let (of_bit, log) = (header.of_bit(bit), &run.log[line.bit_range(bit)]);
                let numbers = (header.n, header.t, header.upper);
                let mut station = Station::open(numbers, header.sender, own, of_bit.value).unwrap();
                for round in 1..=line.rounds() {
                    let (begin, row, state, ballot) = told.next().unwrap();
                    let bit = if width.count() > 1 { format!("bit {bit} ") } else { String::new() };
                    assert_eq!(begin, format!("{bit}round {round}"));
                    assert_eq!(row, line.heard(log, round, own));
                    station = station.take(&row).unwrap();
                    assert_eq!(state, station.to_bytes()[5..]);
                    let said = (round < line.rounds()).then(|| log[line.place(round + 1, own, 1)]);
                    assert_eq!(ballot, said);
                }
            }
            assert_eq!(told.next(), None);
        }
    }
}

/// Only a good station's offers are told.
#[test]
fn stations_without_offers() {
    let run = Run::new(numbered(header(4, 1, 1, 1, 1, 0b1000), 2, 3), &[255; 288]).unwrap();
    let told = |own: u8| offers(&run, own).unwrap_err();
    assert_eq!(told(0), "station 0: stations are numbered from 1");
    assert_eq!(told(4), "station 4 is bad: it may show anything");
    assert_eq!([5, 33, 255].map(told), [5, 33, 255].map(|own| format!("station {own} is beyond n 4")));
}
