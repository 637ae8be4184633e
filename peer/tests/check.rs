//! The checker of logs: each refusal and their order, the marks of runs, the least marking, and what changes the set.

mod common;

use common::{header, Lot};
use peer::by_round::check_by_round;
use peer::check::check;
use peer::line::{Cause, Header, Line, Marks};
use peer::logs::{draw, Logged};
use peer::outcome::{place, OUTCOME};
use peer::rehearsal::rehearse;

/// The set, plainly and round by round.
fn broke(logged: &Logged) -> u32 {
    let Logged { numbers, sender, log, outcomes } = logged;
    let set = check(*numbers, *sender, log, outcomes);
    assert_eq!(check_by_round(*numbers, *sender, log, outcomes), set, "{logged:?}");
    set.expect("a log of its line").0
}

fn line(logged: &Logged) -> Line {
    let (n, t, upper) = logged.numbers;
    Line::new(n, t, upper).unwrap()
}

/// The bit of a station.
fn bit(station: u8) -> u32 {
    1 << (station - 1)
}

/// Marks on all of the line's stations.
fn all(line: &Line) -> u32 {
    ((1u64 << line.n()) - 1) as u32
}

/// Whether the log is a run with these marks and a value, the unmarked stations' outcomes as logged. Its table is the log.
fn is_run(logged: &Logged, marks: u32) -> bool {
    let ((n, t, upper), line) = (logged.numbers, line(logged));
    [0, 1].iter().any(|&value| {
        let (mut log, mut outcomes) = (vec![9; line.table_len()], vec![9; line.outcomes_len()]);
        let header = header(n, t, upper, logged.sender, value, marks);
        rehearse(&header, &logged.log, &mut log, &mut outcomes).unwrap();
        let good = |place: &usize| !header.marks.bad((place / OUTCOME + 1) as u8);
        log == logged.log && (0..outcomes.len()).filter(good).all(|i| outcomes[i] == logged.outcomes[i])
    })
}

/// The set by rehearsals alone: a station is in it if the log is no run with all the others marked.
fn by_rehearsals(logged: &Logged) -> u32 {
    let line = line(logged);
    Marks::of(line.stations().filter(|&own| !is_run(logged, all(&line) & !bit(own)))).0
}

/// A run of a line of at most so many stations.
fn run(lot: &mut Lot, most: u8) -> (Logged, Header, Line) {
    let header = lot.header(most);
    let line = header.judge().unwrap();
    (Logged::of_run(&header, &lot.table(&line)), header, line)
}

/// Each cause stands alone, then all of them together: as one after the other is mended, the next is given.
#[test]
fn one_cause_after_the_other() {
    let (log, outcomes) = (vec![0; 6 * 16 + 1], vec![0; 17]);
    let number = |(n, t, upper): (u8, u8, u8), sender: u8, log_len: usize, outcomes_len: usize| {
        let answer = check((n, t, upper), sender, &log[..log_len], &outcomes[..outcomes_len]);
        answer.map_or_else(Cause::number, |_| 0)
    };
    assert_eq!(number((4, 0, 1), 4, 96, 16), 0);
    for (n, t, upper, sender, log_len, outcomes_len, cause) in [
        (0, 0, 0, 1, 96, 16, 2),
        (33, 0, 1, 4, 96, 16, 2),
        (4, 2, 1, 4, 96, 16, 3),
        (4, 0, 2, 4, 96, 16, 3),
        (4, 255, 255, 4, 96, 16, 3),
        (4, 0, 1, 0, 96, 16, 4),
        (4, 0, 1, 5, 96, 16, 4),
        (4, 0, 1, 4, 95, 16, 8),
        (4, 0, 1, 4, 97, 16, 8),
        (4, 0, 1, 4, 0, 16, 8),
        (4, 0, 1, 4, 96, 15, 8),
        (4, 0, 1, 4, 96, 17, 8),
        (4, 0, 1, 4, 96, 0, 8),
        // mended one after the other
        (0, 1, 0, 9, 97, 17, 2),
        (4, 1, 0, 9, 97, 17, 3),
        (4, 0, 1, 9, 97, 17, 4),
        (4, 0, 1, 1, 97, 17, 8),
        (4, 0, 1, 1, 96, 17, 8),
        (4, 0, 1, 1, 96, 16, 0),
    ] {
        assert_eq!(number((n, t, upper), sender, log_len, outcomes_len), cause);
    }
}

/// Every n with every f: the marks of a run come back, bit 31 too.
#[test]
fn a_run_yields_its_marks() {
    let mut lot = Lot(30);
    for n in 1..=32 {
        for f in 0..=u32::from(n) {
            let (line, mut header) = loop {
                let header = lot.header(n);
                if header.n == n {
                    break (header.judge().unwrap(), header);
                }
            };
            header.marks = lot.marks(&line, f);
            let logged = Logged::of_run(&header, &lot.table(&line));
            assert_eq!(broke(&logged), header.marks.0, "{header:?}");
        }
    }
    for marks in [1 << 31, 0x7fff_ffff, 0xffff_ffff] {
        let header = header(32, 10, 10, 32, 1, marks);
        let logged = Logged::of_run(&header, &lot.table(&header.judge().unwrap()));
        assert_eq!(broke(&logged), marks);
    }
}

/// A marked station that keeps the rules and whose outcome is told as it ends is not in the set.
#[test]
fn a_marked_station_that_keeps_the_rules() {
    let good = Logged::of_run(&header(4, 1, 1, 1, 1, 0), &[7; 144]);
    let mut logged = Logged::of_run(&header(4, 1, 1, 1, 1, 0b1000), &good.log);
    assert_eq!((&logged.log, broke(&logged)), (&good.log, 0b1000));
    logged.outcomes = good.outcomes;
    assert_eq!(broke(&logged), 0);
}

/// The log is a run with the set's marks, and with no marking that lacks one of them.
#[test]
fn the_least_marking() {
    let (mut lot, mut sizes) = (Lot(31), [0; 6]);
    for _ in 0..6_000 {
        let logged = draw(&mut lot, 5);
        let set = broke(&logged);
        assert!(is_run(&logged, set), "{logged:?}");
        let mut others = (0..=all(&line(&logged))).filter(|marks| marks & set != set);
        assert!(!others.any(|marks| is_run(&logged, marks)), "{logged:?}");
        sizes[set.count_ones() as usize] += 1;
    }
    assert!(sizes.iter().all(|&many| many > 50), "{sizes:?}");
}

/// On lines of every length.
#[test]
fn the_same_set_by_rehearsals() {
    let mut lot = Lot(32);
    for (most, many) in [(1, 300), (4, 3_000), (9, 1_000), (32, 60)] {
        for _ in 0..many {
            let logged = draw(&mut lot, most);
            assert_eq!(broke(&logged), by_rehearsals(&logged), "{logged:?}");
        }
    }
}

/// Of one station's logs and outcomes of the bytes 0, 1, 2 and 255 two keep the rules.
#[test]
fn every_log_of_one_station() {
    let bytes = |number: u32, len: u32| -> Vec<u8> {
        (0..len).map(|place| [0, 1, 2, 255][(number >> (2 * place) & 3) as usize]).collect()
    };
    let mut kept = Vec::new();
    for (log, outcome) in (0..1 << 12).flat_map(|log| (0..1 << 8).map(move |outcome| (log, outcome))) {
        let (log, outcomes) = (bytes(log, 6), bytes(outcome, 4));
        if check((1, 0, 0), 1, &log, &outcomes) == Ok(Marks(0)) {
            kept.push((log, outcomes));
        }
    }
    assert_eq!(kept, [(vec![0; 6], vec![0, 2, 0, 0]), (vec![1; 6], vec![1, 2, 0, 0])]);
}

/// A run without bad stations, of this value, the sender's row of round 1 replaced.
fn told(sender: u8, value: u8, row: [u8; 4]) -> Logged {
    let mut logged = Logged::of_run(&header(4, 1, 1, sender, value, 0), &[9; 144]);
    logged.log[4 * (usize::from(sender) - 1)..][..4].copy_from_slice(&row);
    logged
}

/// A sender that tells nothing, or another byte than 0 and 1, keeps the rules with no value. The others read 0, and count the
/// round where the byte is garbled.
#[test]
fn a_sender_without_a_value() {
    for sender in 1..=4 {
        assert_eq!([0, 1].map(|value| broke(&told(sender, value, [value; 4]))), [0, 0]);
        for row in [[255; 4], [2; 4], [77; 4], [0, 0, 255, 0], [0, 2, 0, 0], [255, 2, 77, 0]] {
            let mut logged = told(sender, 0, row);
            let garbled = (1..).zip(row).filter(|(_, byte)| ![0, 255].contains(byte)).map(|(own, _)| own);
            let uncounted = Marks::of(garbled.clone()).0;
            assert_eq!(broke(&logged), bit(sender) | uncounted, "sender {sender}, {row:?}");
            garbled.for_each(|own| logged.outcomes[place(own).end - 1] = 1);
            assert_eq!(broke(&logged), bit(sender), "sender {sender}, {row:?}");
        }
    }
}

/// A sender that tells one station another value breaks the rules, and so does that station if it goes on as the others.
#[test]
fn a_sender_with_two_values() {
    for (sender, to, value) in (0..32).map(|q| (q / 8 + 1, q / 2 % 4 + 1, q % 2)) {
        let mut row = [value; 4];
        row[usize::from(to) - 1] = 1 - value;
        assert_eq!(broke(&told(sender, value, row)), bit(sender) | bit(to), "{sender}, {to}, {value}");
        // told the other value, all should have gone on otherwise
        assert_eq!(broke(&told(sender, value, [1 - value; 4])), 0b1111);
    }
}

/// What bad stations tell each other is of no effect on the set.
#[test]
fn what_a_bad_station_received() {
    let mut lot = Lot(33);
    for _ in 0..1_000 {
        let (mut logged, header, line) = run(&mut lot, 9);
        for place in line.bad_places(header.marks) {
            if header.marks.bad((place % line.n() + 1) as u8) {
                logged.log[place] = lot.byte();
            }
        }
        assert_eq!(broke(&logged), header.marks.0, "{header:?}");
    }
}

/// With one byte of the log changed a good sender is in the set, the receiver may be, and no other good station is.
#[test]
fn one_byte_of_the_log() {
    let (mut lot, mut receivers) = (Lot(34), [0; 2]);
    for _ in 0..200 {
        let (run, header, line) = run(&mut lot, 5);
        for place in 0..line.table_len() {
            let [from, to] = [place / line.n() % line.n(), place % line.n()].map(|i| i as u8 + 1);
            let mut logged = run.clone();
            logged.log[place] ^= lot.pick(&[1, 2, 3, 254, 255]);
            let set = broke(&logged);
            assert_eq!(set & !bit(to), (header.marks.0 | bit(from)) & !bit(to), "{logged:?}");
            assert_eq!(set, by_rehearsals(&logged), "{logged:?}");
            receivers[usize::from(set & bit(to) != 0)] += usize::from(from != to && !header.marks.bad(to));
        }
    }
    assert!(receivers.iter().all(|&many| many > 500), "{receivers:?}");
}

/// With one byte of a good station's outcome changed it is in the set too, and nobody else.
#[test]
fn one_byte_of_an_outcome() {
    let mut lot = Lot(35);
    for _ in 0..20 {
        let (mut logged, header, line) = run(&mut lot, 5);
        for own in line.stations().filter(|&own| !header.marks.bad(own)) {
            for (place, other) in place(own).flat_map(|place| (1..=255).map(move |other| (place, other))) {
                logged.outcomes[place] ^= other;
                assert_eq!(broke(&logged), header.marks.0 | bit(own), "{logged:?}");
                logged.outcomes[place] ^= other;
            }
        }
    }
}
