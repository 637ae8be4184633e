//! Every refusal: the lowest cause that holds is given, and the lent buffers are left as they were.

mod common;

use common::Lot;
use peer::by_round::check_by_round;
use peer::check::check;
use peer::exchange::alone;
use peer::generator::generate;
use peer::line::{Cause, Header, Line, Marks, LARGEST_TABLE};
use peer::outcome::OUTCOME;
use peer::rehearsal::rehearse;
use peer::sheet;
use peer::station::{Answer, Offer, Station};
use peer::writer;

/// 0 for an accepted call, otherwise the cause's number.
fn code<T>(answer: Result<T, Cause>) -> u8 {
    answer.map_or_else(Cause::number, |_| 0)
}

/// The lowest number whose cause holds, 0 if none does.
fn lowest(causes: &[(u8, bool)]) -> u8 {
    causes.iter().filter(|(_, holds)| *holds).map(|(number, _)| *number).min().unwrap_or(0)
}

fn no_stations(n: u8) -> bool {
    n == 0 || n > 32
}

fn no_thresholds(n: u8, t: u8, upper: u8) -> bool {
    t > upper || i32::from(t) + 2 * i32::from(upper) >= i32::from(n)
}

fn mark_beyond(n: u8, marks: u32) -> bool {
    (u32::from(n)..32).any(|bit| marks >> bit & 1 == 1)
}

/// w and a number, both often near the edge of what is allowed. A long line has few bits, since its tables take long.
fn edge_number(lot: &mut Lot, n: u8) -> (u8, u8) {
    let widest = if n > 8 { 2 } else { 8 };
    let w = lot.pick(&[0, 0, 1, 2, widest - 1, widest, widest, 9, 255]);
    let above = 1u32.wrapping_shl(w.max(1).into()) as u8;
    (w, lot.pick(&[0, 1, 2, above.wrapping_sub(1), above.wrapping_sub(1), above, 255]))
}

/// Whether a number is 2 to the power w or above.
fn no_number(w: u8, value: u8) -> bool {
    f64::from(value) >= 2f64.powi(w.max(1).into())
}

/// How many bits w stands for, any number where it is refused.
fn bits(w: u8) -> usize {
    match w {
        0 => 1,
        1..=8 => w.into(),
        _ => 1,
    }
}

/// The exact lengths of table and outcomes; any numbers where the line is refused.
fn lengths(n: u8, t: u8, rounds: usize) -> (usize, usize) {
    if no_stations(n) || t > 32 {
        return (7, 3);
    }
    (rounds * usize::from(n) * usize::from(n), OUTCOME * usize::from(n))
}

#[test]
fn rehearsals() {
    let mut lot = Lot(1);
    let mut seen = [0; 16];
    for _ in 0..15_000 {
        let (n, t, upper) = lot.edge_numbers();
        let sender = lot.pick(&[1, 1, n, n, 0, n.wrapping_add(1)]);
        let (w, value) = edge_number(&mut lot, n);
        let marks = lot.edge_marks(n);
        let (exact, ends) = lengths(n, t, bits(w) * (3 * usize::from(t) + 6));
        let table = vec![1; lot.near(exact)];
        let mut log = vec![99; lot.near(exact)];
        let mut outcomes = vec![99; lot.near(ends)];
        let lowest = lowest(&[
            (2, no_stations(n)),
            (3, no_thresholds(n, t, upper)),
            (4, sender == 0 || sender > n),
            (5, no_number(w, value)),
            (6, mark_beyond(n, marks)),
            (8, table.len() != exact || log.len() != exact || outcomes.len() != ends),
        ]);
        // "first in a call without a sheet"
        let expected = if w > 8 { 15 } else { lowest };
        let header = Header { n, t, upper, sender, value, w, marks: Marks(marks) };
        assert_eq!(code(rehearse(&header, &table, &mut log, &mut outcomes)), expected, "{header:?}");
        let untouched = log.iter().chain(&outcomes).all(|&byte| byte == 99);
        assert!(untouched == (expected != 0), "{header:?}");
        seen[usize::from(expected)] += 1;
    }
    assert!([0, 2, 3, 4, 5, 6, 8, 15].iter().all(|&cause: &usize| seen[cause] > 20), "{seen:?}");
}

/// What a table makes: a record for each byte of a marked sender that is not silence. The line has n stations.
fn records(n: u8, marks: u32, table: &[u8]) -> usize {
    let from = |place: usize| place / usize::from(n) % usize::from(n);
    let said = |&(place, &byte): &(usize, &u8)| byte != 255 && marks >> from(place) & 1 == 1;
    table.iter().enumerate().filter(said).count()
}

/// The first cause that holds, of causes in the order in which they are judged; 0 if none does.
fn first(causes: &[(u8, bool)]) -> u8 {
    causes.iter().find(|(_, holds)| *holds).map_or(0, |(cause, _)| *cause)
}

/// A header handed in by itself, its bytes often near the edge of what is allowed and now and then too many or too few, with any
/// first index; how many bytes its tables have, and its causes in their order.
fn edge_header(lot: &mut Lot) -> (Header, Vec<u8>, usize, Vec<(u8, bool)>) {
    let (n, t, upper) = lot.edge_numbers();
    let sender = lot.pick(&[1, 1, n, n, 0, n.wrapping_add(1)]);
    let (w, value) = edge_number(lot, n);
    let marks = lot.edge_marks(n);
    let header = Header { n, t, upper, sender, value, w, marks: Marks(marks) };
    let mut bytes = sheet::write(&header, &[]);
    bytes[6..8].copy_from_slice(&lot.word().to_le_bytes()[..2]);
    bytes.resize(lot.near(12), 0);
    let (exact, _) = lengths(n, t, bits(w) * (3 * usize::from(t) + 6));
    let causes = vec![
        (1, bytes.len() != 12),
        (15, w > 8),
        (2, no_stations(n)),
        (3, no_thresholds(n, t, upper)),
        (4, sender == 0 || sender > n),
        (5, no_number(w, value)),
        (6, mark_beyond(n, marks)),
    ];
    (header, bytes, exact, causes)
}

/// 8 for the table comes before 14, 8 for the sheet after it.
#[test]
fn writing() {
    let mut lot = Lot(5);
    let mut seen = [0; 17];
    for _ in 0..20_000 {
        let (Header { n, marks, .. }, header, exact, mut causes) = edge_header(&mut lot);
        let table = vec![lot.pick(&[0, 1, 254, 255]); lot.near(exact)];
        let k = if no_stations(n) { 0 } else { records(n, marks.0, &table) };
        let mut sheet = vec![99; lot.near(12 + 8 * k)];
        causes.extend([(8, table.len() != exact), (14, k > 4_096)]);
        let needed = first(&causes);
        let expected = if needed != 0 { needed } else { first(&[(8, sheet.len() != 12 + 8 * k)]) };
        assert_eq!(code(writer::sheet_len(&header, &table)), needed, "{header:?}");
        assert_eq!(code(writer::write(&header, &table, &mut sheet)), expected, "{header:?}");
        assert!(sheet.iter().all(|&byte| byte == 99) == (expected != 0), "{header:?}");
        // 8 for the sheet is counted apart
        seen[if needed == expected { usize::from(expected) } else { 16 }] += 1;
    }
    assert!([0, 1, 2, 3, 4, 5, 6, 8, 14, 15, 16].iter().all(|&cause: &usize| seen[cause] > 20), "{seen:?}");
}

/// "Seed zero is refused by 16, after the header's causes and before 8."
#[test]
fn generating() {
    let mut lot = Lot(7);
    let mut seen = [0; 17];
    for _ in 0..20_000 {
        let (_, header, exact, mut causes) = edge_header(&mut lot);
        let mut table = vec![99; lot.near(exact)];
        let seed = lot.pick(&[0, 1, 1 << 31, u32::MAX]);
        causes.extend([(16, seed == 0), (8, table.len() != exact)]);
        let expected = first(&causes);
        assert_eq!(code(generate(&header, seed, &mut table)), expected, "{header:?} {seed}");
        assert!(table.iter().all(|&byte| byte == 99) == (expected != 0), "{header:?} {seed}");
        seen[usize::from(expected)] += 1;
    }
    assert!([0, 1, 2, 3, 4, 5, 6, 8, 15, 16].iter().all(|&cause: &usize| seen[cause] > 20), "{seen:?}");
}

#[test]
fn checking() {
    let mut lot = Lot(6);
    let mut seen = [0; 14];
    for _ in 0..20_000 {
        let (n, t, upper) = lot.edge_numbers();
        let sender = lot.pick(&[1, 1, n, n, 0, n.wrapping_add(1)]);
        let (exact, ends) = lengths(n, t, 3 * usize::from(t) + 6);
        let (log, outcomes) = (vec![1; lot.near(exact)], vec![1; lot.near(ends)]);
        let expected = lowest(&[
            (2, no_stations(n)),
            (3, no_thresholds(n, t, upper)),
            (4, sender == 0 || sender > n),
            (8, log.len() != exact || outcomes.len() != ends),
        ]);
        for check in [check, check_by_round] {
            assert_eq!(
                code(check((n, t, upper), sender, &log, &outcomes)),
                expected,
                "{n} {t} {upper} {sender}"
            );
        }
        seen[usize::from(expected)] += 1;
    }
    assert!([0, 2, 3, 4, 8].iter().all(|&cause: &usize| seen[cause] > 20), "{seen:?}");
}

#[test]
fn exchanges() {
    let mut lot = Lot(2);
    let mut seen = [0; 14];
    for _ in 0..30_000 {
        let (n, t, upper) = lot.edge_numbers();
        let marks = lot.edge_marks(n);
        let (exact, ends) = lengths(n, t, 2);
        let mut inputs = vec![1; lot.near(usize::from(n))];
        if lot.one_in(2) && !inputs.is_empty() {
            let at = lot.below(inputs.len() as u64) as usize;
            inputs[at] = lot.pick(&[0, 2, 255]);
        }
        let table = vec![1; lot.near(exact)];
        let mut outcomes = vec![99; lot.near(ends)];
        let input_off =
            inputs.iter().enumerate().any(|(i, &input)| input > 1 && (i > 31 || marks >> i & 1 == 0));
        let inputs_off_length = inputs.len() != usize::from(n);
        let expected = lowest(&[
            (2, no_stations(n)),
            (3, no_thresholds(n, t, upper)),
            (5, !inputs_off_length && input_off),
            (6, mark_beyond(n, marks)),
            (8, inputs_off_length || table.len() != exact || outcomes.len() != ends),
        ]);
        let answer = alone((n, t, upper), Marks(marks), &inputs, &table, &mut outcomes);
        assert_eq!(code(answer), expected, "{n} {t} {upper} {marks} {inputs:?}");
        assert!(outcomes.iter().all(|&byte| byte == 99) == (expected != 0));
        seen[usize::from(expected)] += 1;
    }
    assert!([0, 2, 3, 5, 6, 8].iter().all(|&cause: &usize| seen[cause] > 20), "{seen:?}");
}

#[test]
fn opening() {
    let mut lot = Lot(3);
    let mut seen = [0; 14];
    for _ in 0..30_000 {
        let (n, t, upper) = lot.edge_numbers();
        let sender = lot.pick(&[1, 1, n, n, 0, n.wrapping_add(1)]);
        let own = lot.pick(&[1, 1, n, n, 0, n.wrapping_add(1)]);
        let value = lot.pick(&[0, 1, 2, 255]);
        let expected = lowest(&[
            (2, no_stations(n)),
            (3, no_thresholds(n, t, upper)),
            (4, sender == 0 || sender > n || own == 0 || own > n),
            (5, value > 1),
        ]);
        let opened = Station::open((n, t, upper), sender, own, value);
        if let Ok(station) = opened {
            assert_eq!(station.to_bytes(), [n, t, upper, sender, own, 1, value, 2, 0, 0]);
        }
        assert_eq!(code(opened), expected);
        seen[usize::from(expected)] += 1;
    }
    assert!([0, 2, 3, 4, 5].iter().all(|&cause: &usize| seen[cause] > 20), "{seen:?}");
}

/// A station whose bytes are often near the edge of what is allowed.
fn edge_station(lot: &mut Lot) -> Station {
    let (n, t, upper) = lot.edge_numbers();
    let sender = lot.pick(&[1, 1, 1, n, n, 0, n.wrapping_add(1)]);
    let own = lot.pick(&[1, 1, 1, n, n, 0, n.wrapping_add(1)]);
    let last = t.wrapping_mul(3).wrapping_add(6);
    let round = lot.pick(&[0, 1, 2, 3, 4, last, last.wrapping_add(1), last.wrapping_add(2)]);
    let (value, z) = (lot.pick(&[0, 1, 1, 2]), lot.pick(&[0, 1, 2, 2, 3]));
    let grade = lot.pick(&[0, 1, 2, 2, 3]);
    let count = match lot.below(6) {
        0 => lot.pick(&[round, round.wrapping_add(1), 255]),
        1 => round.wrapping_sub(1),
        _ => lot.below(u64::from(round.max(1))) as u8,
    };
    Station::from_bytes([n, t, upper, sender, own, round, value, z, grade, count])
}

#[test]
fn station_states() {
    // offers have a lot of their own, so that stations and rows are as they are drawn without them
    let (mut lot, mut offers) = (Lot(4), Lot(17));
    // by_count: how often a count that isn't below its round stands with another cause, and alone
    let (mut seen, mut accepting, mut by_count) = ([0; 14], [0; 18], [0; 2]);
    for _ in 0..60_000 {
        let station = edge_station(&mut lot);
        let Station { n, t, upper, sender, own, round, value, z, grade, count } = station;
        let last = t.wrapping_mul(3).wrapping_add(6);
        let done = round == last.wrapping_add(1);
        let row = vec![1; lot.near(usize::from(n))];
        let mut causes = vec![
            (2, no_stations(n)),
            (3, no_thresholds(n, t, upper)),
            (4, sender == 0 || sender > n || own == 0 || own > n),
            (7, round == 0 || round > last.wrapping_add(1) || value > 1 || z > 2 || grade > 2),
        ];
        by_count[usize::from(lowest(&causes) == 0)] += u32::from(count >= round);
        causes.push((7, count >= round));
        let whole = lowest(&causes);
        assert_eq!(code(station.result()), whole, "{station:?}");
        if whole == 0 {
            assert_eq!(matches!(station.result().unwrap(), Answer::Done(_)), done);
        }
        causes.push((7, done));
        assert_eq!(code(station.ballot()), lowest(&causes), "{station:?}");
        causes.push((8, row.len() != usize::from(n)));
        let expected = lowest(&causes);
        assert_eq!(code(station.take(&row)), expected, "{station:?}");
        seen[usize::from(expected)] += 1;
        assert_eq!(code(station.offer(&row)), expected, "{station:?}");
        // 17 comes after 8
        let offer = edge_offer(&mut offers, &station, &row);
        causes.push((17, station.offer(&row) != Ok(offer)));
        let expected = lowest(&causes);
        assert_eq!(code(station.accept(&row, &offer)), expected, "{station:?} {offer:?}");
        accepting[usize::from(expected)] += 1;
    }
    assert!([0, 2, 3, 4, 7, 8].iter().all(|&cause: &usize| seen[cause] > 20), "{seen:?}");
    assert!([0, 2, 3, 4, 7, 8, 17].iter().all(|&cause: &usize| accepting[cause] > 20), "{accepting:?}");
    assert!(by_count.iter().all(|&many| many > 20), "{by_count:?}");
}

/// The offer of a row, or one that is nearly it; any offer where there is none.
fn edge_offer(lot: &mut Lot, station: &Station, row: &[u8]) -> Offer {
    let [round, value, z, grade, count, ballot, ..] = lot.word().to_le_bytes();
    let any = Offer { round, value, z, grade, count, ballot };
    let right = station.offer(row).unwrap_or(any);
    match lot.below(8) {
        0 => Offer { ballot: lot.pick(&[0, 1, 2, 255]), ..right },
        1 => Offer { round: right.round.wrapping_sub(1), ..right },
        2 => Offer { count: lot.pick(&[0, 1, 2]), ..right },
        3 => any,
        _ => right,
    }
}

#[test]
fn numbers_of_the_causes() {
    for (cause, number) in Cause::ALL.iter().zip(1..) {
        assert_eq!(cause.number(), number);
        assert!(!cause.words().is_empty());
    }
}

#[test]
fn the_largest_table() {
    assert_eq!(Line::new(32, 10, 10).unwrap().table_len(), LARGEST_TABLE);
    for n in 0..=255 {
        for t in 0..=255 {
            let lines = (0..=255).filter_map(|upper| Line::new(n, t, upper).ok());
            assert!(lines.into_iter().all(|line| line.table_len() <= LARGEST_TABLE));
        }
    }
}
