//! Demands 2 and 3 on runs drawn by lot, and what the document says of the log and of effects.

mod common;

use common::Lot;
use peer::exchange::{alone, Tally};
use peer::line::{Header, Line, Part};
use peer::outcome::{outcome, outcomes, place, Outcome, BAD};
use peer::rehearsal::rehearse;
use peer::station::{Answer, Station};

fn run(header: &Header, table: &[u8]) -> (Vec<u8>, Vec<u8>) {
    let line = header.judge().unwrap();
    let (mut log, mut outcomes) = (vec![9; line.table_len()], vec![9; line.outcomes_len()]);
    rehearse(header, table, &mut log, &mut outcomes).unwrap();
    (log, outcomes)
}

fn good(header: &Header) -> Vec<u8> {
    (1..=header.n).filter(|&i| !header.marks.bad(i)).collect()
}

/// The outcomes of the good stations.
fn decided(header: &Header, outcomes: &[u8]) -> Vec<Outcome> {
    good(header).into_iter().map(|station| outcome(outcomes, station)).collect()
}

fn guarantees(header: &Header, outcomes: &[u8]) {
    let f = header.marks.count();
    let decided = decided(header, outcomes);
    let agreed = decided.windows(2).all(|two| two[0].value == two[1].value);
    let flagged = |outcome: &Outcome| outcome.flag == 1;
    if f <= header.t.into() {
        assert!(agreed && !decided.iter().any(flagged), "{header:?} {outcomes:?}");
    }
    if f <= header.upper.into() && !header.marks.bad(header.sender) {
        assert!(decided.iter().all(|outcome| outcome.value == header.value), "{header:?} {outcomes:?}");
    }
    if f <= header.upper.into() && !agreed {
        assert!(decided.iter().all(flagged), "{header:?} {outcomes:?}");
    }
    if decided.iter().any(flagged) {
        assert!(f > header.t.into(), "{header:?} {outcomes:?}");
    }
}

/// How many runs end with a flag, and in how many two good stations decide differently.
#[derive(Default, Debug)]
struct Seen {
    flags: usize,
    splits: usize,
}

impl Seen {
    /// Holds a run to its guarantees.
    fn run(&mut self, header: &Header, table: &[u8]) {
        let (_, outcomes) = run(header, table);
        guarantees(header, &outcomes);
        let decided = decided(header, &outcomes);
        self.flags += usize::from(decided.iter().any(|outcome| outcome.flag == 1));
        self.splits += usize::from(decided.windows(2).any(|two| two[0].value != two[1].value));
    }

    /// Without flags and splits the guarantees would say little.
    fn reaches(&self, flags: usize, splits: usize) {
        assert!(self.flags >= flags && self.splits >= splits, "{self:?}");
    }
}

#[test]
fn demand_3() {
    let (mut lot, mut seen) = (Lot(10), Seen::default());
    for _ in 0..60_000 {
        let (header, line) = lot.header_near_thresholds(9);
        seen.run(&header, &lot.table(&line));
    }
    seen.reaches(500, 50);
}

#[test]
fn demand_3_on_long_lines() {
    let (mut lot, mut seen) = (Lot(11), Seen::default());
    for _ in 0..500 {
        let (header, line) = lot.header_near_thresholds(32);
        seen.run(&header, &lot.table(&line));
    }
    seen.reaches(200, 10);
}

/// Every table of one bad station's effective bytes in the smallest line with t 1 would be too many;
/// with n 3, t 0, T 1 they are 2 to the 10 for ballots 0 and 1.
#[test]
fn demand_3_on_every_split_of_case_c() {
    let header = common::header(3, 0, 1, 1, 0, 0b001);
    let line = header.judge().unwrap();
    let mut seen = Seen::default();
    for bits in 0..1 << 10 {
        let mut table = vec![255; line.table_len()];
        for (bit, (round, to)) in [1, 2, 3, 5, 6].iter().flat_map(|&r| [(r, 2), (r, 3)]).enumerate() {
            table[line.place(round, 1, to)] = (bits >> bit & 1) as u8;
        }
        seen.run(&header, &table);
    }
    seen.reaches(500, 30);
}

/// The bytes sent to one station in one round.
fn column(line: &Line, log: &[u8], round: u8, to: u8) -> Vec<u8> {
    line.stations().map(|from| log[line.place(round, from, to)]).collect()
}

/// A good station, run singly on its columns of the log, sends the log's bytes and reaches its outcome.
fn follows(header: &Header, line: &Line, log: &[u8], outcomes: &[u8], own: u8, value: u8) {
    let numbers = (header.n, header.t, header.upper);
    let mut station = Station::open(numbers, header.sender, own, value).unwrap();
    for round in 1..=line.rounds() {
        assert_eq!(station.result(), Ok(Answer::Running { round }));
        let ballot = station.ballot().unwrap();
        assert!(line.stations().all(|to| log[line.place(round, own, to)] == ballot));
        station = station.take(&column(line, log, round, own)).unwrap();
    }
    assert_eq!(station.result(), Ok(Answer::Done(outcome(outcomes, own))));
}

#[test]
fn demand_2() {
    let mut lot = Lot(12);
    for most in [5u8, 9, 32] {
        for _ in 0..20_000 / usize::from(most).pow(2) {
            let header = lot.header(most);
            let line = header.judge().unwrap();
            let table = lot.table(&line);
            let (log, outcomes) = run(&header, &table);
            for own in line.stations() {
                if header.marks.bad(own) {
                    assert_eq!(outcomes[place(own)], BAD);
                    let places = (1..=line.rounds()).flat_map(|r| (1..=header.n).map(move |j| (r, j)));
                    let mut places = places.map(|(round, to)| line.place(round, own, to));
                    assert!(places.all(|place| log[place] == table[place]));
                } else {
                    let value = if own == header.sender { header.value } else { lot.below(2) as u8 };
                    follows(&header, &line, &log, &outcomes, own, value);
                }
            }
        }
    }
}

/// "A changeover that nobody carries by majority should not happen": a good station decides 1 exactly if more ones than zeros
/// reached it in the last round.
#[test]
fn a_changeover_is_carried_by_a_majority() {
    let (mut lot, mut balances) = (Lot(17), [0; 2]);
    for _ in 0..6_000 {
        let header = lot.header(9);
        let line = header.judge().unwrap();
        let (log, outcomes) = run(&header, &lot.table(&line));
        for own in good(&header) {
            let heard = column(&line, &log, line.rounds(), own);
            let [zeros, ones] = [0, 1].map(|bit| heard.iter().filter(|&&byte| byte == bit).count());
            assert_eq!(outcome(&outcomes, own).value == 1, ones > zeros, "{header:?} {heard:?}");
            balances[usize::from(zeros > 0)] += usize::from(zeros == ones);
        }
    }
    assert!(balances.iter().all(|&many| many > 100), "{balances:?}");
}

/// Whether a station should speak in a round.
fn speaks(header: &Header, line: &Line, round: u8, station: u8) -> bool {
    match line.part(round) {
        Part::Sender => station == header.sender,
        Part::King(king) => station == king,
        Part::First | Part::Second => true,
    }
}

/// Tables drawn by lot, each with another that is made of it: with both the good stations send the same and end with
/// the same values, grades and flags. Gives in how many the counts differ.
fn same_effect(seed: u64, another: impl Fn(&mut Lot, &Header, &Line, &[u8]) -> Vec<u8>) -> u32 {
    let (mut lot, mut other_counts) = (Lot(seed), 0);
    for _ in 0..3_000 {
        let header = lot.header(7);
        let line = header.judge().unwrap();
        let table = lot.table(&line);
        let other = another(&mut lot, &header, &line, &table);
        let ((log, ends), (other_log, other_ends)) = (run(&header, &table), run(&header, &other));
        let uncounted = |ends| outcomes(ends).map(|end| Outcome { count: 0, ..end }).collect::<Vec<_>>();
        assert_eq!(uncounted(&ends), uncounted(&other_ends));
        other_counts += u32::from(ends != other_ends);
        for (place, (byte, other)) in log.iter().zip(&other_log).enumerate() {
            let from = (place / line.n() % line.n() + 1) as u8;
            assert!(header.marks.bad(from) || byte == other);
        }
    }
    other_counts
}

/// Table bytes of good senders, and of bad ones that should not speak, have no effect, on the counts neither.
#[test]
fn what_has_no_effect() {
    let other_counts = same_effect(13, |lot, header, line, table| {
        let mut other = table.to_vec();
        for round in 1..=line.rounds() {
            for from in line.stations() {
                if !header.marks.bad(from) || !speaks(header, line, round, from) {
                    line.stations().for_each(|to| other[line.place(round, from, to)] = lot.byte());
                }
            }
        }
        other
    });
    assert_eq!(other_counts, 0);
}

/// Which byte other than 0 and 1 stands in a table has no effect but on the counts: blank, garbled or silence.
#[test]
fn foreign_bytes_are_alike() {
    let other_counts = same_effect(16, |lot, _, _, table| {
        let mut foreign = |byte| if byte <= 1 { byte } else { lot.pick(&[2, 3, 77, 254, 255]) };
        table.iter().map(|&byte| foreign(byte)).collect()
    });
    assert!(other_counts > 500, "{other_counts}");
}

/// The exchange had alone is what single stations make of rounds 2 and 3.
#[test]
fn exchange_alone() {
    let mut lot = Lot(14);
    for _ in 0..5_000 {
        let header = lot.header(9);
        let line = header.judge().unwrap();
        let table = lot.table(&line)[..2 * line.round_len()].to_vec();
        let mut inputs: Vec<u8> = (0..header.n).map(|_| lot.below(2) as u8).collect();
        let bad = |i: u8| header.marks.bad(i);
        line.stations().filter(|&i| bad(i)).for_each(|i| inputs[usize::from(i - 1)] = lot.byte());
        let mut outcomes = vec![9; line.outcomes_len()];
        let numbers = (header.n, header.t, header.upper);
        alone(numbers, header.marks, &inputs, &table, &mut outcomes).unwrap();

        let open =
            |i: u8| Station { round: 2, ..Station::open(numbers, 1, i, inputs[usize::from(i - 1)]).unwrap() };
        let mut stations: Vec<_> =
            line.stations().map(|i| if bad(i) { None } else { Some(open(i)) }).collect();
        for round in 1..=2 {
            let told: Vec<_> = stations.iter().map(|s| s.map(|s| s.ballot().unwrap())).collect();
            for (to, station) in (1..).zip(stations.iter_mut()) {
                let row = |i: u8| told[usize::from(i - 1)].unwrap_or(table[line.place(round, i, to)]);
                let row: Vec<u8> = line.stations().map(row).collect();
                *station = station.map(|s| s.take(&row).unwrap());
            }
        }
        for (station, outcome) in stations.iter().zip(outcomes.chunks(BAD.len())) {
            let expected = station.map_or(BAD, |s| [s.value, s.grade, u8::from(s.grade < 2), s.count]);
            assert_eq!(outcome, expected);
        }
    }
}

/// The bytes 0, the bytes 1 and the others make n; all others but silence, and in the second round blank, are garbled.
#[test]
fn tallies_make_n() {
    let mut lot = Lot(15);
    for _ in 0..20_000 {
        let n = 1 + lot.below(32) as usize;
        let row: Vec<u8> = (0..n).map(|_| lot.ballot()).collect();
        let bytes = |byte: u8| row.iter().filter(|&&other| other == byte).count() as u8;
        let (zeros, ones, neither) = (bytes(0), bytes(1), n as u8 - bytes(0) - bytes(1));
        let garbled = neither - bytes(255);
        assert_eq!(Tally::of_first(&row), Tally { zeros, ones, neither, garbled });
        assert_eq!(Tally::of_second(&row), Tally { zeros, ones, neither, garbled: garbled - bytes(2) });
    }
}
