//! The documents' cases A to H, rewritten too, sheets that are no sheets by their length, and the rounds' parts.

mod common;

use common::header;
use peer::line::Line;
use peer::listing::listing;
use peer::sheet::{write, Record};
use peer::writer::rewritten;

fn record(round: u8, from: u8, to: u8, ballot: u8) -> Record {
    Record { bit: 0, round, from, to, ballot }
}

fn thresholds(n: u8, t: u8, upper: u8) -> u8 {
    Line::new(n, t, upper).map_or_else(|cause| cause.number(), |_| 0)
}

/// As request 4 has it.
#[test]
fn case_a() {
    let sheet = [4, 1, 1, 1, 1, 0, 0, 0, 8, 0, 0, 0];
    assert_eq!(rewritten(&sheet), sheet);
    assert_eq!(listing(&sheet), "agree 4 1 1 1 9\n1 1 2 0 0\n2 1 2 0 0\n3 1 2 0 0\n4 - - - -\n");
}

/// As request 6 has it.
#[test]
fn case_b() {
    let told = [record(1, 4, 1, 1), record(1, 4, 2, 0), record(1, 4, 3, 0)];
    let sheet = write(&header(4, 0, 1, 4, 0, 0b1000), &told);
    assert_eq!(listing(&sheet), "agree 4 0 1 4 6\n1 0 1 1 0\n2 0 1 1 0\n3 0 1 1 0\n4 - - - -\n");
    assert_eq!(rewritten(&sheet), sheet);
    // in another order, with silence told, and with a record that isn't chained
    let told = [told[2], record(6, 4, 4, 255), told[0], told[1]];
    let mut untidy = write(&header(4, 0, 1, 4, 0, 0b1000), &told);
    untidy.extend([9; 8]);
    assert_eq!((listing(&untidy), rewritten(&untidy)), (listing(&sheet), sheet));
}

#[test]
fn case_c() {
    let rounds = [1, 2, 3, 5, 6];
    let told: Vec<Record> = rounds.iter().flat_map(|&r| [record(r, 1, 2, 0), record(r, 1, 3, 1)]).collect();
    let sheet = write(&header(3, 0, 1, 1, 0, 0b001), &told);
    assert_eq!(listing(&sheet), "agree 3 0 1 1 6\n1 - - - -\n2 0 1 1 0\n3 1 1 1 0\n");
    assert_eq!(rewritten(&sheet), sheet);
}

#[test]
fn case_d() {
    assert_eq!(listing(&write(&header(1, 0, 0, 1, 0, 0), &[])), "agree 1 0 0 1 6\n1 0 2 0 0\n");
    assert_eq!(listing(&write(&header(1, 0, 0, 1, 0, 1), &[])), "agree 1 0 0 1 6\n1 - - - -\n");
}

#[test]
fn case_e() {
    assert_eq!((thresholds(32, 10, 10), thresholds(32, 11, 11)), (0, 3));
    assert_eq!((thresholds(32, 0, 15), thresholds(32, 0, 16)), (0, 3));
    let largest = listing(&write(&header(32, 10, 10, 1, 1, 0), &[]));
    let stations: String = (1..=32).map(|i| format!("{i} 1 2 0 0\n")).collect();
    assert_eq!(largest, format!("agree 32 10 10 1 36\n{stations}"));
    assert_eq!(listing(&write(&header(32, 11, 11, 1, 1, 0), &[])), "refused 3\n");
}

#[test]
fn case_f() {
    assert_eq!((thresholds(3, 1, 1), thresholds(4, 1, 1)), (3, 0));
}

#[test]
fn case_g() {
    let mut sheet = write(&header(4, 1, 1, 1, 1, 8), &[]);
    sheet[6] = 1;
    assert_eq!(listing(&sheet), "refused 9\n");
    let mut sheet = write(&header(4, 1, 1, 1, 1, 8), &[record(1, 4, 1, 1)]);
    sheet[16] = 1;
    assert_eq!(listing(&sheet), "refused 10\n");
    assert_eq!(rewritten(&sheet), b"refused 10\n");
}

#[test]
fn case_h() {
    assert_eq!(listing(&[0; 13]), "refused 1\n");
    assert_eq!(rewritten(&[0; 13]), b"refused 1\n");
    assert_eq!(listing(&[0; 12]), "refused 2\n");
    assert_eq!(listing(&write(&header(33, 0, 0, 1, 0, 0), &[])), "refused 2\n");
}

#[test]
fn empty_and_too_long_are_refused_by_1() {
    assert_eq!(listing(&[]), "refused 1\n");
    let mut sheet = write(&header(4, 1, 1, 1, 1, 8), &[]);
    sheet.resize(12 + 8 * 4096, 0);
    assert!(listing(&sheet).starts_with("agree 4"));
    sheet.resize(12 + 8 * 4096 + 1, 0);
    assert_eq!(listing(&sheet), "refused 1\n");
    sheet.resize(12 + 8 * 4097, 0);
    assert_eq!(listing(&sheet), "refused 1\n");
}

/// The rounds' parts, as the document counts them.
#[test]
fn parts_of_the_rounds() {
    use peer::line::Part;
    for t in 0..=10 {
        let line = Line::new(32, t, 10).unwrap();
        assert_eq!(line.rounds(), 3 * t + 6);
        assert_eq!(line.part(1), Part::Sender);
        for p in 1..=t + 1 {
            let phase = [line.part(3 * p - 1), line.part(3 * p), line.part(3 * p + 1)];
            assert_eq!(phase, [Part::First, Part::Second, Part::King(p)]);
        }
        assert_eq!([line.part(3 * t + 5), line.part(3 * t + 6)], [Part::First, Part::Second]);
    }
}
