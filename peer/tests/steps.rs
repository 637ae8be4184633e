//! The steps one by one, on rows worked through by hand.

mod common;

use common::header;
use peer::exchange::{alone, Tally};
use peer::line::{Line, Marks};
use peer::outcome::{flag, Outcome};
use peer::rehearsal::rehearse;
use peer::station::{Answer, Station};

/// Bytes other than 0 and 1: blank, garbled, silence.
const FOREIGN: [u8; 5] = [2, 3, 77, 254, 255];

#[test]
fn a_foreign_byte_counts_for_neither_value() {
    let row = [0, 1, 2, 255, 77, 3, 1];
    assert_eq!(Tally::of_first(&row), Tally { zeros: 1, ones: 2, neither: 4, garbled: 3 });
    assert_eq!(Tally::of_second(&row), Tally { zeros: 1, ones: 2, neither: 4, garbled: 2 });
}

#[test]
fn step_2_wants_n_minus_upper() {
    let line = Line::new(7, 1, 2).unwrap();
    let z = |row: [u8; 7], x| Tally::of_first(&row).z(&line, x);
    assert_eq!(z([1, 1, 1, 1, 1, 0, 0], 1), 1);
    assert_eq!(z([1, 1, 1, 1, 1, 0, 0], 0), 2);
    assert_eq!(z([1, 1, 1, 1, 0, 0, 0], 1), 2);
    for byte in FOREIGN {
        assert_eq!(z([0, 0, 0, 0, 0, byte, byte], 0), 0);
        assert_eq!(z([0, 0, 0, 0, byte, 1, 1], 0), 2, "{byte} counts for 0");
        assert_eq!(z([1, 1, 1, 1, byte, 0, 0], 1), 2, "{byte} counts for 1");
    }
}

#[test]
fn steps_4_and_5() {
    let line = Line::new(7, 1, 2).unwrap();
    let graded = |row: [u8; 7]| Tally::of_second(&row).graded(&line);
    assert_eq!(graded([0, 0, 0, 0, 0, 0, 1]), (0, 2));
    assert_eq!(graded([0, 0, 0, 0, 0, 2, 2]), (0, 1));
    assert_eq!(graded([0, 0, 0, 0, 2, 2, 2]), (0, 0));
    assert_eq!(graded([1, 1, 1, 1, 1, 1, 255]), (1, 2));
    assert_eq!(graded([1, 1, 1, 1, 1, 0, 0]), (1, 1));
    assert_eq!(graded([1, 1, 1, 1, 0, 0, 0]), (1, 0));
    // equal counts give 0, also where all are blank; a one more gives 1
    assert_eq!(graded([0, 0, 0, 1, 1, 1, 2]), (0, 0));
    assert_eq!(graded([1, 255, 2, 77, 2, 2, 0]), (0, 0));
    assert_eq!(graded([2; 7]), (0, 0));
    assert_eq!(graded([2, 2, 2, 1, 2, 2, 2]), (1, 0));
    assert_eq!([flag(0), flag(1), flag(2)], [1, 1, 0]);
}

/// Every line that is accepted.
fn lines() -> impl Iterator<Item = Line> {
    let upper = |n| (0..=n).flat_map(move |t| (t..=n).map(move |upper| (n, t, upper)));
    (1..=32).flat_map(upper).filter_map(|(n, t, upper)| Line::new(n, t, upper).ok())
}

/// What a second round's row of this line with so many zeros and ones gives.
fn graded(line: &Line, zeros: u8, ones: u8) -> (u8, u8) {
    let neither = line.n() as u8 - zeros - ones;
    Tally { zeros, ones, neither, garbled: 0 }.graded(line)
}

/// "In step 4 equal counts now give 0", and "A balance always has grade 0".
#[test]
fn a_balance_has_grade_0() {
    for line in lines() {
        for many in 0..=line.n() as u8 / 2 {
            assert_eq!(graded(&line, many, many), (0, 0), "{line:?}, {many} and {many}");
        }
    }
}

/// y is 1 exactly where a majority carries it; the grade goes by how many ballots are for y.
#[test]
fn every_count_of_every_line() {
    for line in lines() {
        let n = line.n() as u8;
        for (zeros, ones) in (0..=n).flat_map(|zeros| (0..=n - zeros).map(move |ones| (zeros, ones))) {
            let (y, grade) = graded(&line, zeros, ones);
            let for_y = if y == 1 { ones } else { zeros };
            let expected = u8::from(for_y >= n - line.t()) + u8::from(for_y >= n - line.upper());
            assert_eq!((y == 1, grade), (ones > zeros, expected), "{line:?}, {zeros} and {ones}");
        }
    }
}

#[test]
fn an_exchange_of_four() {
    let exchange = |inputs: [u8; 4], marks, table: &[u8; 32]| {
        let mut outcomes = [9; 16];
        alone((4, 1, 1), Marks(marks), &inputs, table, &mut outcomes).unwrap();
        outcomes
    };
    // all good, two and two: all blank, so 0 with grade 0
    assert_eq!(exchange([0, 0, 1, 1], 0, &[1; 32])[..], [[0, 0, 1, 0]; 4].concat());
    // three zeros are n−T: the fourth is blank, and three zeros are n−t
    assert_eq!(exchange([0, 0, 0, 1], 0, &[1; 32])[..], [[0, 2, 0, 0]; 4].concat());
    // station 4 bad: a foreign byte counts for neither value, so two of three are too few, and all are blank; blank is
    // garbled in the first of the two rounds, silence in none
    for (byte, count) in FOREIGN.into_iter().zip([1, 2, 2, 2, 0]) {
        let foreign = |inputs, good: [u8; 3]| {
            let [value, grade, flag] = good;
            let good = [value, grade, flag, count];
            assert_eq!(
                exchange(inputs, 0b1000, &[byte; 32])[..],
                [good, good, good, [255; 4]].concat(),
                "{byte}"
            );
        };
        foreign([1, 1, 1, 99], [1, 2, 0]);
        foreign([0, 0, 0, 99], [0, 2, 0]);
        foreign([0, 0, 1, 99], [0, 0, 1]);
        foreign([1, 1, 0, 99], [0, 0, 1]);
    }
}

/// Station 4 is bad and makes station 1's z its x, while the other two are blank. In the second round it tells station 1 the
/// other value, which makes a balance, station 2 nothing and station 3 the same value.
#[test]
fn an_exchange_of_four_that_balances() {
    for x in [0, 1] {
        let mut table = [255; 32];
        table[12] = x;
        table[28..31].copy_from_slice(&[1 - x, 255, x]);
        let mut outcomes = [9; 16];
        alone((4, 1, 1), Marks(0b1000), &[x, x, 1 - x, 99], &table, &mut outcomes).unwrap();
        assert_eq!(outcomes[..], [[0, 0, 1, 0], [x, 0, 1, 0], [x, 0, 1, 0], [255; 4]].concat(), "x {x}");
    }
}

#[test]
fn a_station_of_one_round_after_another() {
    let mut station = Station::open((4, 1, 1), 2, 3, 1).unwrap();
    let mut step = |ballot: u8, row: [u8; 4]| {
        assert_eq!(station.ballot(), Ok(ballot));
        station = station.take(&row).unwrap();
        (station.round, station.value, station.z, station.grade, station.count)
    };
    // the sender's ballot is garbled: read as 0; z and grade stay as they were
    assert_eq!(step(255, [1, 7, 1, 1]), (2, 0, 2, 0, 1));
    // silence counts for neither value: two zeros are too few
    assert_eq!(step(0, [1, 255, 0, 0]), (3, 0, 2, 0, 1));
    // two zeros, one one, a blank: y 0, grade 0
    assert_eq!(step(2, [0, 1, 2, 0]), (4, 0, 2, 0, 1));
    // king 1 is obeyed at grade 0; nobody expects a ballot from station 3
    assert_eq!(step(255, [1, 255, 77, 255]), (5, 1, 2, 0, 1));
    // two garbled ballots make one garbled round
    assert_eq!(step(1, [77, 2, 1, 0]), (6, 1, 2, 0, 2));
    assert_eq!(step(2, [1, 1, 1, 255]), (7, 1, 2, 2, 2));
    // king 2 is not obeyed at grade 2, and its garbled ballot is counted
    assert_eq!(step(255, [0, 2, 0, 0]), (8, 1, 2, 2, 3));
    assert_eq!(step(1, [1, 1, 1, 0]), (9, 1, 1, 2, 3));
    // a balance: y 0 though it stood for 1
    assert_eq!(step(1, [0, 1, 1, 0]), (10, 0, 1, 0, 3));
    assert_eq!(station.result(), Ok(Answer::Done(Outcome { value: 0, grade: 0, flag: 1, count: 3 })));
}

#[test]
fn a_king_tells_its_y() {
    let mut king = Station::open((4, 1, 1), 2, 1, 0).unwrap();
    for row in [[0, 1, 0, 0], [1, 1, 0, 0], [0, 0, 2, 2]] {
        king = king.take(&row).unwrap();
    }
    // it entered the exchange with 1 and left it with 0
    assert_eq!(king.ballot(), Ok(0));
}

/// With grade 0 a station takes the king's ballot, with grade 1 or 2 it keeps its own y.
#[test]
fn a_king_is_obeyed_at_grade_0() {
    for (grade, value) in [(0, 0), (1, 1), (2, 1)] {
        let station = Station::from_bytes([4, 1, 1, 2, 3, 4, 1, 2, grade, 0]);
        assert_eq!(station.take(&[0, 1, 1, 1]).unwrap().value, value, "grade {grade}");
    }
}

/// A garbled, blank or missing sender's ballot is read as 0, whatever a station was opened with.
#[test]
fn a_foreign_sender() {
    for (byte, value) in FOREIGN.iter().flat_map(|&byte| [(byte, 0), (byte, 1)]) {
        for own in 1..=4 {
            let station = Station::open((4, 1, 1), 2, own, value).unwrap();
            assert_eq!(station.take(&[1, byte, 1, 1]).unwrap().value, 0, "{byte}");
        }
    }
}

/// A garbled, blank or missing king's ballot leaves a station with its own y, at every grade.
#[test]
fn a_foreign_king() {
    for (byte, y) in FOREIGN.iter().flat_map(|&byte| [(byte, 0), (byte, 1)]) {
        for grade in 0..=2 {
            let station = Station::from_bytes([4, 1, 1, 2, 3, 4, y, 2, grade, 0]);
            assert_eq!(station.take(&[byte, 1 - y, 1 - y, 1 - y]).unwrap().value, y, "{byte}, grade {grade}");
        }
    }
}

/// What a foreign king leaves is the y of this phase's exchange, not the x that the station entered it with.
#[test]
fn a_foreign_king_leaves_y() {
    let left_with = |rows: [[u8; 4]; 3]| {
        let mut station = Station::open((4, 1, 1), 2, 3, 0).unwrap();
        for row in rows {
            station = station.take(&row).unwrap();
        }
        assert_eq!((station.round, station.grade), (4, 0));
        station.take(&[255; 4]).unwrap().ballot().unwrap()
    };
    // x 1, then two zeros beside two blanks; x 0, then two ones
    assert_eq!(left_with([[255, 1, 255, 255], [0, 0, 1, 1], [0, 0, 2, 2]]), 0);
    assert_eq!(left_with([[255, 0, 255, 255], [1, 1, 0, 0], [2, 1, 2, 1]]), 1);
    // x 1, then a balance
    assert_eq!(left_with([[255, 1, 255, 255], [0, 0, 1, 1], [2, 2, 2, 2]]), 0);
    assert_eq!(left_with([[255, 1, 255, 255], [0, 0, 1, 1], [0, 1, 2, 2]]), 0);
}

/// A run in which station 1 is bad, the sender and king 1, tells these bytes in the first three rounds and is silent otherwise.
/// The others send these in the first three rounds, and from round 5 on all of them this value, king 2 too.
fn a_silent_king(told: [[u8; 4]; 3], sent: [[u8; 3]; 3], value: u8) {
    let mut table = [255; 9 * 16];
    table.chunks_mut(16).zip(told).for_each(|(round, told)| round[..4].copy_from_slice(&told));
    let (mut log, mut outcomes) = ([9; 9 * 16], [9; 16]);
    rehearse(&header(4, 1, 1, 1, 0, 0b0001), &table, &mut log, &mut outcomes).unwrap();
    let (none, all) = ([255; 3], [value; 3]);
    let later = [none, all, all, [value, 255, 255], all, all];
    for ((said, ballots), round) in log.chunks(16).zip(sent.into_iter().chain(later)).zip(1..) {
        assert_eq!(said[4..], ballots.map(|ballot| [ballot; 4]).concat(), "round {round}");
    }
    let good = [value, 2, 0, 0];
    assert_eq!(outcomes[..], [[255; 4], good, good, good].concat());
}

/// A silent king leaves a station of grade 0 with its y, be it 0 or 1.
#[test]
fn the_log_of_a_silent_king() {
    let (none, silence) = ([255; 3], [255; 4]);
    // station 2's z is its x, the other two are blank: too few for a grade
    a_silent_king([[255, 0, 0, 1], [255, 0, 255, 255], silence], [none, [0, 0, 1], [0, 2, 2]], 0);
    a_silent_king([[255, 1, 1, 0], [255, 1, 255, 255], silence], [none, [1, 1, 0], [1, 2, 2]], 1);
}

/// A balance of blanks alone, and one of a zero and a one: y is 0 at all, also where two of three stood for 1.
#[test]
fn the_log_of_a_balance() {
    let (none, silence) = ([255; 3], [255; 4]);
    for x in [0, 1] {
        let (first, x_sent) = ([255, x, x, 1 - x], [x, x, 1 - x]);
        a_silent_king([first, silence, silence], [none, x_sent, [2, 2, 2]], 0);
        a_silent_king([first, [255, x, 255, 255], [1 - x; 4]], [none, x_sent, [x, 2, 2]], 0);
    }
}

/// Good stations that don't speak are logged as silent.
#[test]
fn the_log_of_a_quiet_line() {
    let (mut log, mut outcomes) = ([9; 6 * 4], [9; 8]);
    rehearse(&header(2, 0, 0, 2, 1, 0), &[0; 24], &mut log, &mut outcomes).unwrap();
    let all = [1, 1, 1, 1];
    let expected = [[255, 255, 1, 1], all, all, [1, 1, 255, 255], all, all];
    assert_eq!(log, expected.concat()[..]);
    assert_eq!(outcomes, [1, 2, 0, 0, 1, 2, 0, 0]);
}
