//! The reader of run sheets: each cause alone, the order of the causes, and the table it fills.

mod common;

use common::{header, Lot};
use peer::line::{Cause, Header};
use peer::sheet::{read, records, write, Record};

fn record(round: u8, from: u8, to: u8, ballot: u8) -> Record {
    Record { bit: 0, round, from, to, ballot }
}

/// The sheet of case A with three records.
fn three() -> Vec<u8> {
    let told = [record(1, 4, 1, 0), record(2, 4, 4, 77), record(9, 4, 3, 2)];
    write(&header(4, 1, 1, 1, 1, 0b1000), &told)
}

/// Reads into a table of the length that n 4, t 1 wants; 0 if accepted, and the table is untouched if not.
fn code(sheet: &[u8]) -> u8 {
    let mut table = vec![99; 9 * 16];
    let read = read(sheet, &mut table);
    assert!(read.is_ok() || table.iter().all(|&byte| byte == 99));
    read.map_or_else(Cause::number, |_| 0)
}

/// The sheet of [`three`] with some bytes replaced.
fn edited(edits: &[(usize, u8)]) -> u8 {
    let mut sheet = three();
    edits.iter().for_each(|&(at, byte)| sheet[at] = byte);
    code(&sheet)
}

#[test]
fn bytes_of_a_sheet() {
    let records = [1, 4, 1, 0, 2, 0, 0, 0, 2, 4, 4, 77, 3, 0, 0, 0, 9, 4, 3, 2, 0, 0, 0, 0];
    assert_eq!(three()[..12], [4, 1, 1, 1, 1, 0, 1, 0, 8, 0, 0, 0]);
    assert_eq!(three()[12..], records);
}

#[test]
fn the_table_of_an_accepted_sheet() {
    let mut table = vec![99; 9 * 16];
    let read = read(&three(), &mut table).unwrap();
    assert_eq!(read, header(4, 1, 1, 1, 1, 0b1000));
    let mut expected = vec![255; 9 * 16];
    expected[3 * 4] = 0;
    expected[16 + 3 * 4 + 3] = 77;
    expected[8 * 16 + 3 * 4 + 2] = 2;
    assert_eq!(table, expected);
}

#[test]
fn causes_of_the_header() {
    for length in (0..60).filter(|length| ![12, 20, 28, 36, 44, 52].contains(length)) {
        let mut sheet = three();
        sheet.resize(length, 0);
        assert_eq!(code(&sheet), 1, "length {length}");
    }
    assert_eq!(edited(&[]), 0);
    // byte 5 is w: 1 is what 0 stands for, and 9 is refused before all but the length
    assert_eq!((edited(&[(5, 1)]), edited(&[(5, 1), (0, 0)])), (0, 2));
    assert_eq!((edited(&[(5, 9)]), edited(&[(5, 255), (0, 0), (6, 9)])), (15, 15));
    assert_eq!((edited(&[(5, 2)]), edited(&[(5, 2), (4, 4)])), (8, 5));
    assert_eq!((edited(&[(0, 0), (1, 9)]), edited(&[(0, 33)])), (2, 2));
    assert_eq!((edited(&[(1, 2)]), edited(&[(0, 3), (3, 0)])), (3, 3));
    assert_eq!((edited(&[(3, 0), (4, 2)]), edited(&[(3, 5)])), (4, 4));
    assert_eq!((edited(&[(4, 2), (11, 1)]), edited(&[(3, 4), (4, 255)])), (5, 5));
    assert_eq!((edited(&[(8, 24)]), edited(&[(11, 128), (6, 9)])), (6, 6));
}

#[test]
fn a_table_of_another_length() {
    for length in [0, 143, 145, 36_864] {
        let mut table = vec![99; length];
        let mut sheet = three();
        sheet[6] = 9;
        assert_eq!(read(&sheet, &mut table), Err(Cause::Length));
        assert!(table.iter().all(|&byte| byte == 99));
    }
}

#[test]
fn causes_of_the_chain() {
    assert_eq!((edited(&[(6, 4)]), edited(&[(7, 1)])), (9, 9));
    assert_eq!((edited(&[(32, 4)]), edited(&[(33, 128)])), (9, 9));
    assert_eq!((edited(&[(16, 1)]), edited(&[(32, 1)]), edited(&[(32, 2)])), (10, 10, 10));
    // the chain is walked before any record is judged
    assert_eq!((edited(&[(12, 0), (32, 4)]), edited(&[(12, 0), (32, 1)])), (9, 10));
}

#[test]
fn causes_of_the_records() {
    for (at, byte) in [(12, 0), (12, 10), (13, 0), (13, 5), (14, 0), (14, 5), (18, 1), (19, 1)] {
        assert_eq!(edited(&[(at, byte)]), 11, "byte {at} {byte}");
    }
    assert_eq!(edited(&[(13, 3)]), 12);
    assert_eq!(edited(&[(20, 1), (22, 1)]), 13);
    // the first record with a cause decides, whatever later ones have
    assert_eq!((edited(&[(13, 3), (20, 0)]), edited(&[(20, 1), (22, 1), (28, 0)])), (12, 13));
    // of one record the lowest cause is given
    assert_eq!(edited(&[(13, 3), (18, 1)]), 11);
}

#[test]
fn records_outside_the_chain_are_ignored() {
    let mut sheet = three();
    sheet.extend([255; 8 * 5]);
    assert_eq!(records(&sheet), records(&three()));
    assert_eq!(records(&sheet).map(|(_, chained)| chained.len()), Ok(3));
    // record 2 skipped
    assert_eq!(edited(&[(16, 3), (20, 0), (21, 9), (24, 200)]), 0);
}

/// A sheet's causes told from the document's sentences: sets of records, no walk in the reader's manner.
fn judged(sheet: &[u8], header: &Header) -> u8 {
    let k = (sheet.len() - 12) / 8;
    let line = header.judge().unwrap();
    let next = |index: usize| match index {
        0 => usize::from(sheet[6]) + 256 * usize::from(sheet[7]),
        _ => usize::from(sheet[8 * index + 8]) + 256 * usize::from(sheet[8 * index + 9]),
    };
    // after k+1 steps a chain has ended, has left the records, or goes in a circle
    let mut chain = vec![next(0)];
    while chain.len() <= k + 1 && (1..=k).contains(chain.last().unwrap()) {
        chain.push(next(*chain.last().unwrap()));
    }
    match chain.pop().unwrap() {
        0 => {}
        index if index > k => return 9,
        _ => return 10,
    }
    let field = |index: usize| &sheet[8 * index + 4..8 * index + 12];
    for (at, &index) in chain.iter().enumerate() {
        let bytes = field(index);
        let stations = bytes[1..3].iter().all(|&station| line.stations().any(|i| i == station));
        let no_bit = bytes[6] >= header.w.max(1);
        if bytes[0] == 0 || bytes[0] > line.rounds() || !stations || no_bit || bytes[7] != 0 {
            return 11;
        }
        if header.marks.0 & 1 << (bytes[1] - 1) == 0 {
            return 12;
        }
        let same = |other: &[u8]| other[..3] == bytes[..3] && other[6] == bytes[6];
        if chain[..at].iter().any(|&earlier| same(field(earlier))) {
            return 13;
        }
    }
    0
}

#[test]
fn sheets_by_lot() {
    let mut lot = Lot(20);
    let mut seen = [0; 14];
    for turn in 0..60_000 {
        let one_bit = lot.header(4);
        let header = if turn % 2 == 0 { one_bit } else { lot.numbered(&one_bit) };
        let mut sheet = write(&header, &lot.records(&header));
        for _ in 0..lot.below(3) * u64::from(sheet.len() > 12) {
            let at = 12 + lot.below(sheet.len() as u64 - 12) as usize;
            sheet[at] = lot.below(9) as u8;
        }
        let line = header.judge().unwrap();
        let mut table = vec![99; line.tables_len(header.width().unwrap())];
        let answer = read(&sheet, &mut table);
        let expected = judged(&sheet, &header);
        assert_eq!(answer.map_or_else(Cause::number, |_| 0), expected);
        if expected != 0 {
            assert!(table.iter().all(|&byte| byte == 99));
        }
        seen[usize::from(expected)] += 1;
    }
    assert!([0, 9, 10, 11, 12, 13].iter().all(|&cause: &usize| seen[cause] > 20), "{seen:?}");
}

/// What is written is read back, also the longest sheet.
#[test]
fn written_and_read_back() {
    let mut lot = Lot(21);
    for _ in 0..2_000 {
        let one_bit = lot.header(32);
        let header = lot.numbered(&one_bit);
        let told = lot.records(&header);
        assert_eq!(records(&write(&header, &told)), Ok((header, told)));
    }
    let header = header(32, 10, 10, 1, 1, 0xf);
    let all = (1..=32).flat_map(|r| (1..=4).flat_map(move |i| (1..=32).map(move |j| record(r, i, j, r))));
    let all: Vec<Record> = all.collect();
    assert_eq!(all.len(), 4_096);
    assert_eq!(records(&write(&header, &all)), Ok((header, all)));
}
