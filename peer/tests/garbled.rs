//! The count of garbled rounds, from request 4's sentences: which bytes are garbled, whose are expected, and that nothing else
//! depends on it.

mod common;

use common::{header, Lot};
use peer::ballot::Ballot;
use peer::exchange::alone;
use peer::line::{Cause, Header, Line, Marks, Part};
use peer::logs::Logged;
use peer::outcome::{outcomes, OUTCOME};
use peer::station::{Answer, Station};

/// A kind of round of each: of the sender, the first and second of an exchange, of king 1.
const PARTS: [Part; 4] = [Part::Sender, Part::First, Part::Second, Part::King(1)];

/// "A byte is garbled if it is not 255 and its round has no meaning for it; blank is garbled outside the second round of an
/// exchange."
#[test]
fn every_byte_in_every_kind_of_round() {
    for (part, byte) in PARTS.iter().flat_map(|&part| (0..=255).map(move |byte| (part, byte))) {
        let expected = match byte {
            0 | 1 => Ballot::Bit(byte),
            2 if part == Part::Second => Ballot::Blank,
            255 => Ballot::Silence,
            _ => Ballot::Garbled,
        };
        assert_eq!(part.read(byte), expected, "{part:?}, {byte}");
    }
}

/// Station 3 of n 4, t 1, T 1, sender 2, in this round, with this many rounds counted.
fn station(round: u8, count: u8) -> Station {
    Station::from_bytes([4, 1, 1, 2, 3, round, 0, 2, 0, count])
}

/// How many rounds the station counts that takes this row in this round.
fn counted(round: u8, row: [u8; 4]) -> u8 {
    station(round, 0).take(&row).unwrap().count
}

/// Each round's kind, and from whom a ballot is expected in it.
fn rounds() -> impl Iterator<Item = (u8, Part, Vec<u8>)> {
    (1..=9).map(|round| match Line::new(4, 1, 1).unwrap().part(round) {
        Part::Sender => (round, Part::Sender, vec![2]),
        Part::King(king) => (round, Part::King(king), vec![king]),
        part => (round, part, vec![1, 2, 3, 4]),
    })
}

/// One byte of any kind among zeros: it is counted if it is garbled there and from one who should speak. In an exchange the
/// station's own is expected too; in the other rounds a bystander's byte isn't counted, whatever it is.
#[test]
fn one_byte_from_each_station() {
    for (round, part, expected) in rounds() {
        for (from, byte) in (1..=4u8).flat_map(|from| (0..=255).map(move |byte| (from, byte))) {
            let mut row = [0; 4];
            row[usize::from(from) - 1] = byte;
            let garbled = byte != 255 && byte > if part == Part::Second { 2 } else { 1 };
            let counts = u8::from(garbled && expected.contains(&from));
            assert_eq!(counted(round, row), counts, "round {round}, {byte} from {from}");
        }
    }
}

/// Silence from all is no garbled round, and blank from all is none in the second round of an exchange.
#[test]
fn silence_and_blanks() {
    for (round, part, _) in rounds() {
        assert_eq!(counted(round, [255; 4]), 0, "round {round}");
        assert_eq!(counted(round, [2; 4]), u8::from(part != Part::Second), "round {round}");
    }
}

/// It is the rounds that are counted: several garbled ballots in one of them count once.
#[test]
fn two_garbled_ballots_in_one_round() {
    for row in [[77, 77, 0, 0], [3, 0, 254, 0], [77; 4], [77, 255, 2, 77]] {
        for round in [2, 3, 5, 6, 8, 9] {
            assert_eq!(counted(round, row), 1, "round {round}, {row:?}");
        }
    }
}

/// A king's garbled ballot is counted at every grade, also where the king isn't obeyed.
#[test]
fn a_garbled_king_at_every_grade() {
    for (grade, byte) in (0..=2).flat_map(|grade| [2, 3, 77, 254].map(|byte| (grade, byte))) {
        let station = Station { grade, ..station(4, 3) };
        assert_eq!(station.take(&[byte, 0, 0, 0]).unwrap().count, 4, "{byte}, grade {grade}");
    }
}

/// A row of another length is refused, and leaves the station as it was, with its count; so does a station that is done.
#[test]
fn a_refused_row_leaves_the_count() {
    let before = station(2, 1);
    let mut kept = before;
    for len in [0, 1, 3, 5, 32] {
        let taken = kept.take(&vec![77; len]).map(|next| kept = next);
        assert_eq!((taken, kept), (Err(Cause::Length), before));
    }
    assert_eq!(kept.take(&[77; 4]).unwrap().count, 2);
    assert_eq!(station(10, 9).take(&[77; 4]), Err(Cause::StationState));
}

/// "A state whose count is not below its round is refused by 7."
#[test]
fn counts_beside_the_round() {
    for (round, count) in (1..=10).flat_map(|round| (0..=255).map(move |count| (round, count))) {
        let station = station(round, count);
        let (below, done) = (count < round, round == 10);
        let refused = |refused: bool| if refused { 7 } else { 0 };
        let number = |cause: Option<Cause>| cause.map_or(0, Cause::number);
        assert_eq!(number(station.result().err()), refused(!below), "{round} {count}");
        assert_eq!(number(station.ballot().err()), refused(!below || done), "{round} {count}");
        assert_eq!(number(station.take(&[0; 4]).err()), refused(!below || done), "{round} {count}");
        // 7 comes before a row's length
        assert_eq!(number(station.take(&[0; 3]).err()), if below && !done { 8 } else { 7 });
    }
}

/// Every round can be counted: the bad one of two stations is sender and king and garbled all the time; so is all that the
/// station of the largest line receives.
#[test]
fn the_largest_count() {
    let header = header(2, 0, 0, 1, 0, 0b01);
    let logged = Logged::of_run(&header, &[77; 24]);
    assert_eq!(outcomes(&logged.outcomes).map(|end| end.count).collect::<Vec<u8>>(), [255, 6]);
    let rows = (1..=36).try_fold(Station::open((32, 10, 10), 7, 9, 0).unwrap(), |s, _| s.take(&[77; 32]));
    let Ok(Answer::Done(end)) = rows.unwrap().result() else { panic!("it is done") };
    assert_eq!(end.count, 36);
}

/// By a plain count over the log: the rounds in which an expected byte that the station received is garbled.
fn plain_count(header: &Header, line: &Line, log: &[u8], to: u8) -> u8 {
    let garbled = |round: u8, from: u8, meanings: &[u8]| {
        let byte = log[line.place(round, from, to)];
        byte != 255 && !meanings.contains(&byte)
    };
    let counts = |&round: &u8| match line.part(round) {
        Part::Sender => garbled(round, header.sender, &[0, 1]),
        Part::First => line.stations().any(|from| garbled(round, from, &[0, 1])),
        Part::Second => line.stations().any(|from| garbled(round, from, &[0, 1, 2])),
        Part::King(king) => garbled(round, king, &[0, 1]),
    };
    (1..=line.rounds()).filter(counts).count() as u8
}

/// The run's count is the plain one and at most R; with no station marked every count is 0.
#[test]
fn counts_of_runs() {
    let (mut lot, mut seen) = (Lot(50), [0; 40]);
    for turn in 0..4_000 {
        let mut header = lot.header(if turn % 20 == 1 { 32 } else { 6 });
        if turn % 8 == 0 {
            header.marks = Marks(0);
        }
        let line = header.judge().unwrap();
        let logged = Logged::of_run(&header, &lot.table(&line));
        for (station, end) in line.stations().zip(outcomes(&logged.outcomes)) {
            if header.marks.bad(station) {
                assert_eq!(end.to_bytes(), [255; OUTCOME]);
                continue;
            }
            assert_eq!(end.count, plain_count(&header, &line, &logged.log, station), "{header:?}");
            assert!(end.count <= line.rounds() && (header.marks.0 != 0 || end.count == 0), "{header:?}");
            seen[usize::from(end.count)] += 1;
        }
    }
    assert!(seen[..8].iter().all(|&many| many > 50), "{seen:?}");
}

/// A station with another count goes on alike: its ballots, value, z, grade and flag don't depend on it.
#[test]
fn nothing_depends_on_the_count() {
    let mut lot = Lot(51);
    for _ in 0..500 {
        let header = lot.header(9);
        let line = header.judge().unwrap();
        let (first, more) =
            (1 + lot.below(line.rounds().into()) as u8, lot.below(line.rounds().into()) as u8);
        let opened = Station::open((header.n, header.t, header.upper), header.sender, 1, 0).unwrap();
        let mut one = Station { round: first, ..opened };
        let mut other = Station { count: more % first, ..one };
        let apart = other.count;
        for _ in first..=line.rounds() {
            assert_eq!(one.ballot(), other.ballot());
            let row = lot.ballots(&line, line.n());
            (one, other) = (one.take(&row).unwrap(), other.take(&row).unwrap());
            assert_eq!(Station { count: one.count + apart, ..one }, other);
        }
        let [Ok(Answer::Done(end)), Ok(Answer::Done(other_end))] = [one.result(), other.result()] else {
            panic!("they are done")
        };
        assert_eq!((end.value, end.grade, end.flag), (other_end.value, other_end.grade, other_end.flag));
    }
}

/// The exchange had alone counts its own two rounds. Station 3 is bad and tells each another pair of bytes.
#[test]
fn an_exchange_alone() {
    let pairs = [([0, 1], 0), ([255, 2], 0), ([2, 2], 1), ([2, 77], 2), ([1, 254], 1), ([3, 255], 1)];
    for (pair, count) in pairs {
        let mut table = [77; 32];
        for (round, byte) in pair.into_iter().enumerate() {
            (table[16 * round + 8], table[16 * round + 9]) = (byte, 255);
        }
        let mut ends = [9; 4 * OUTCOME];
        alone((4, 1, 1), Marks(0b0100), &[1, 1, 9, 1], &table, &mut ends).unwrap();
        assert_eq!(outcomes(&ends).map(|end| end.count).collect::<Vec<u8>>(), [count, 0, 255, 2], "{pair:?}");
    }
}
