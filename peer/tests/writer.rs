//! The writer of run sheets: the bytes that it writes, each refusal and their order, what is read back, and the normal form.

mod common;

use common::{header, Lot};
use peer::line::{Cause, Header, SILENCE};
use peer::listing::listing;
use peer::sheet::{self, read, Record, HEADER_LEN, RECORDS};
use peer::writer::{normal_form, rewritten, sheet_len, write};

/// The header of n 2, t 0, T 0, its second station marked, with a first index that no sheet has.
const HEADER: [u8; 12] = [2, 0, 0, 1, 1, 0, 0x34, 0x12, 2, 0, 0, 0];

/// Six rounds of two stations: the first speaks all the time, the second tells these bytes in these rounds.
fn table(told: &[(usize, [u8; 2])]) -> Vec<u8> {
    let mut table = [7, 7, 255, 255].repeat(6);
    told.iter().for_each(|&(round, row)| table[4 * round - 2..4 * round].copy_from_slice(&row));
    table
}

/// What is written into a buffer of the length that is told; the length is told as the buffer wants it.
fn written(header: &[u8], table: &[u8]) -> Result<Vec<u8>, Cause> {
    let mut sheet = vec![99; sheet_len(header, table)?];
    let k = write(header, table, &mut sheet)?;
    assert_eq!(sheet.len(), 12 + 8 * k);
    Ok(sheet)
}

/// The refusal's number of writing into a buffer of this length, which stays as it was.
fn refusal(header: &[u8], table: &[u8], len: usize) -> u8 {
    let mut sheet = vec![99; len];
    let refused = write(header, table, &mut sheet).expect_err("a refusal");
    assert!(sheet.iter().all(|&byte| byte == 99), "written in a refused call");
    refused.number()
}

/// The header's twelve bytes of a line, with any first index.
fn bytes_of(lot: &mut Lot, header: &Header) -> Vec<u8> {
    let mut bytes = sheet::write(header, &[]);
    bytes[6..8].copy_from_slice(&lot.word().to_le_bytes()[..2]);
    bytes
}

#[test]
fn bytes_of_a_sheet() {
    let sheet = written(&HEADER, &table(&[(1, [255, 0]), (3, [2, 77]), (6, [1, 255])])).unwrap();
    assert_eq!(sheet[..12], [2, 0, 0, 1, 1, 0, 1, 0, 2, 0, 0, 0]);
    assert_eq!(sheet[12..28], [1, 2, 2, 0, 2, 0, 0, 0, 3, 2, 1, 2, 3, 0, 0, 0]);
    assert_eq!(sheet[28..], [3, 2, 2, 77, 4, 0, 0, 0, 6, 2, 1, 1, 0, 0, 0, 0]);
    let without = written(&HEADER, &table(&[])).unwrap();
    assert_eq!(without, [2, 0, 0, 1, 1, 0, 0, 0, 2, 0, 0, 0]);
}

/// Every place of a table alone is one record, or none where its sender isn't marked.
#[test]
fn one_ballot_at_each_place() {
    let header = sheet::write(&header(4, 1, 1, 1, 1, 0b1010), &[]);
    for (round, from, to) in (0..9 * 16).map(|place| (place / 16 + 1, place / 4 % 4 + 1, place % 4 + 1)) {
        let mut table = vec![SILENCE; 9 * 16];
        table[((round - 1) * 4 + from - 1) * 4 + to - 1] = 254;
        let sheet = written(&header, &table).unwrap();
        let record = [round as u8, from as u8, to as u8, 254, 0, 0, 0, 0];
        let marked = from == 2 || from == 4;
        assert_eq!(sheet[12..], record[..8 * usize::from(marked)]);
        assert_eq!(sheet[6..8], [u8::from(marked), 0]);
    }
}

/// The first index handed in is not looked at: every one makes the same sheet.
#[test]
fn any_first_index() {
    for told in [&[][..], &[(2, [0, 1])]] {
        let (table, mut header) = (table(told), HEADER);
        let sheet = written(&header, &table).unwrap();
        for index in 0..=u16::MAX {
            header[6..8].copy_from_slice(&index.to_le_bytes());
            assert_eq!(written(&header, &table).as_ref(), Ok(&sheet), "first index {index}");
        }
    }
}

/// Each cause stands alone, then all of them together: as one after the other is mended, the next is given.
#[test]
fn one_cause_after_the_other() {
    let large = |edit: (usize, u8)| {
        let mut header = sheet::write(&header(32, 0, 15, 1, 1, 0xffff_ffff), &[]);
        header[edit.0] = edit.1;
        header
    };
    let small = |edit: (usize, u8)| {
        let mut header = HEADER;
        header[edit.0] = edit.1;
        header
    };
    let alone = [(5, 9, 15), (0, 0, 2), (0, 33, 2), (1, 1, 3), (3, 0, 4), (3, 3, 4), (4, 2, 5), (8, 4, 6)];
    for (at, byte, cause) in alone {
        assert_eq!(refusal(&small((at, byte)), &table(&[]), 12), cause, "byte {at} {byte}");
    }
    let (full, long) = (vec![0; 6 * 1_024], vec![0; 6 * 1_024 + 1]);
    assert_eq!(refusal(&large((0, 32)), &full, 12 + 8 * 6 * 1_024), 14);

    let mut spoilt = large((5, 9));
    (spoilt[0], spoilt[2], spoilt[3], spoilt[4]) = (33, 16, 0, 2);
    spoilt.push(0);
    assert_eq!(refusal(&spoilt, &long, 1), 1);
    spoilt.pop();
    assert_eq!(refusal(&spoilt, &long, 1), 15);
    // mended one after the other; a mark stands beyond station 31
    let mends = [(5, 0, 2), (0, 31, 3), (2, 15, 4), (3, 31, 5), (4, 1, 6), (11, 127, 8)];
    for (at, byte, next) in mends {
        spoilt[at] = byte;
        assert_eq!(refusal(&spoilt, &long, 1), next, "byte {at} mended");
    }
    let exact = &long[..6 * 961];
    assert_eq!(refusal(&spoilt, exact, 1), 14);
    spoilt[8..].copy_from_slice(&[1, 0, 0, 0]);
    assert_eq!(refusal(&spoilt, exact, 1), 8);
    assert_eq!(written(&spoilt, exact).map(|sheet| sheet.len()), Ok(12 + 8 * 6 * 31));
}

#[test]
fn headers_of_another_length() {
    for len in (0..40).filter(|&len| len != 12) {
        let mut header = HEADER.to_vec();
        header.resize(len, 0);
        assert_eq!(refusal(&header, &table(&[]), 12), 1, "{len} bytes");
        assert_eq!(sheet_len(&header, &table(&[])), Err(Cause::SheetForm));
    }
}

#[test]
fn buffers_of_another_length() {
    let table = table(&[(4, [0, 1])]);
    for len in (0..60).filter(|&len| len != 28) {
        assert_eq!(refusal(&HEADER, &table, len), 8, "{len} bytes");
    }
    for len in (0..50).filter(|&len| len != 24) {
        assert_eq!(refusal(&HEADER, &vec![255; len], 12), 8, "a table of {len} bytes");
    }
}

/// A table of n 32, t 10 whose marked senders, the last ten, say so much, from this place of theirs on.
fn full(count: usize, from: usize) -> (Vec<u8>, Vec<u8>) {
    let header = header(32, 10, 10, 1, 1, 0xffc0_0000);
    let mut table = vec![3; 36 * 1_024];
    let bad = |place: &usize| place / 32 % 32 >= 22;
    let places: Vec<usize> = (0..table.len()).filter(bad).collect();
    places.iter().for_each(|&place| table[place] = SILENCE);
    places.iter().skip(from).take(count).for_each(|&place| table[place] = 4);
    (sheet::write(&header, &[]), table)
}

#[test]
fn as_many_records_as_there_can_be() {
    for from in [0, 17, 36 * 320 - 4_097] {
        let (header, table) = full(RECORDS, from);
        let sheet = written(&header, &table).unwrap();
        assert_eq!((sheet.len(), &sheet[32_776..]), (32_780, &[0; 4][..]));
        assert!(listing(&sheet).starts_with("agree 32"));
        let (header, table) = full(RECORDS + 1, from);
        assert_eq!(sheet_len(&header, &table), Err(Cause::TooManyRecords));
        for len in [12, 32_780, 32_788, 32_789] {
            assert_eq!(refusal(&header, &table, len), 14);
        }
        assert_eq!(refusal(&header, &table[1..], 32_788), 8);
    }
}

/// The reader gives back the header's numbers, and the table with silence at the unmarked senders.
#[test]
fn read_back() {
    let mut lot = Lot(40);
    let mut longest = 0;
    for _ in 0..2_000 {
        let header = lot.header(32);
        let line = header.judge().unwrap();
        let table = lot.table(&line);
        let bytes = bytes_of(&mut lot, &header);
        let Ok(sheet) = written(&bytes, &table) else {
            assert_eq!(sheet_len(&bytes, &table), Err(Cause::TooManyRecords));
            continue;
        };
        let mut back = vec![99; table.len()];
        assert_eq!(read(&sheet, &mut back), Ok(header));
        let from = |place: usize| (place / line.n() % line.n()) as u8 + 1;
        let kept = |(place, &byte)| if header.marks.bad(from(place)) { byte } else { SILENCE };
        assert_eq!(back, table.iter().enumerate().map(kept).collect::<Vec<u8>>());
        longest = longest.max(sheet.len());
    }
    assert!(longest > 12 + 8 * 2_000);
}

/// Rewriting an accepted sheet keeps its listing, its header and the ballots of its chain that are not silence, in the
/// order of the table; rewriting again changes no byte.
#[test]
fn the_normal_form() {
    let mut lot = Lot(41);
    let mut shorter = 0;
    for _ in 0..2_000 {
        let header = lot.header(32);
        let told = lot.records(&header);
        let mut sheet = sheet::write(&header, &told);
        sheet.extend((0..8 * lot.below(4)).map(|_| lot.byte()));
        let mut spoken: Vec<Record> = told.into_iter().filter(|record| record.ballot != SILENCE).collect();
        spoken.sort_by_key(|record| (record.round, record.from, record.to));
        let normal = normal_form(&sheet).unwrap();
        assert_eq!(normal, sheet::write(&header, &spoken));
        assert_eq!(normal_form(&normal).as_ref(), Ok(&normal));
        assert_eq!(listing(&normal), listing(&sheet));
        shorter += u32::from(normal.len() < sheet.len());
    }
    assert!(shorter > 1_000);
}

/// A sheet is rewritten if and only if it is listed, and refused by the same number.
#[test]
fn refused_sheets() {
    let mut lot = Lot(42);
    let mut seen = [0; 16];
    for turn in 0..20_000 {
        let one_bit = lot.header(4);
        let header = if turn % 2 == 0 { one_bit } else { lot.numbered(&one_bit) };
        let mut sheet = sheet::write(&header, &lot.records(&header));
        for _ in 0..lot.below(3) {
            let at = lot.below(sheet.len() as u64) as usize;
            sheet[at] = lot.below(10) as u8;
        }
        sheet.truncate(lot.near(sheet.len()));
        let (normal, listed) = (normal_form(&sheet), listing(&sheet));
        let number = normal.as_ref().map_or_else(|cause| cause.number(), |_| 0);
        match normal {
            Ok(normal) => {
                assert!(rewritten(&sheet) == normal && normal.len() >= HEADER_LEN && !listed.starts_with('r'))
            }
            Err(_) => {
                assert!(rewritten(&sheet) == listed.as_bytes() && listed == format!("refused {number}\n"))
            }
        }
        seen[usize::from(number)] += 1;
    }
    assert!(
        [0, 1, 2, 3, 4, 5, 6, 9, 10, 11, 12, 13, 15].iter().all(|&number: &usize| seen[number] > 5),
        "{seen:?}"
    );
}
