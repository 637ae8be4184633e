//! The writer compared, and what it writes read back.

use super::input::Told;
use super::lent::{fault, Lending, Lent, Reading};
use super::lines;
use super::report::Compared;
use super::stations::{compared, difference, word};
use crate::ffi;
use crate::line::{Cause, Header, Line, SILENCE};
use crate::lot::Lot;
use crate::sheet::{self, HEADER_LEN, LONGEST, RECORDS, RECORD_LEN};
use crate::writer;

/// The numbers that both calls of the writer can answer.
pub const NUMBERS: [u8; 10] = [0, 1, 2, 3, 4, 5, 6, 8, 14, 15];

/// How many stations a line may have: mostly few, since a large table takes long.
pub fn most(lot: &mut Lot) -> u8 {
    if lot.one_in(24) {
        32
    } else {
        lot.pick(&[4, 7, 12])
    }
}

/// A header's bytes. The first index, which isn't looked at, is any.
pub fn header_bytes(lot: &mut Lot, header: &Header) -> Vec<u8> {
    let mut bytes = sheet::write(header, &[]);
    let any = lot.word() as u16;
    let index = lot.pick(&[0, 1, 2, 4_096, 4_097, any]);
    bytes[6..8].copy_from_slice(&index.to_le_bytes());
    bytes
}

/// Now and then other bytes than a header has: fewer, more, or another w.
pub fn spoil(lot: &mut Lot, header: &mut Vec<u8>) {
    let byte = lot.byte();
    if lot.one_in(16) {
        let any = lot.below(40) as usize;
        header.resize(lot.pick(&[0, 5, 6, 8, 11, 13, 20, any]), lot.pick(&[0, 1, byte]));
    }
    if lot.one_in(30) {
        header.get_mut(5).into_iter().for_each(|w| *w = lot.pick(&[0, 1, w.wrapping_add(1), 9, byte]));
    }
}

/// The tables' bytes: mostly silence with some ballots of any station, or ballots all over.
fn table(lot: &mut Lot, line: &Line, len: usize) -> Vec<u8> {
    if lot.one_in(4) {
        return lot.ballots(line, len);
    }
    let mut table = vec![SILENCE; len];
    for _ in 0..lot.below(48).min(4 * len as u64) {
        table[lot.below(len as u64) as usize] = lot.ballot();
    }
    table
}

/// A number of a line whose bad stations have room for more ballots than a sheet has records, in one bit or in all together.
fn large(lot: &mut Lot) -> Header {
    let large =
        [(32, 10, 10, 0), (32, 0, 15, 1), (31, 5, 12, 0), (27, 2, 3, 0), (16, 5, 5, 4), (13, 4, 4, 8)];
    let (n, t, upper, w) = lot.pick(&large);
    let line = Line::new(n, t, upper).expect("a line");
    let fewest = RECORDS / (line.n() * usize::from(line.rounds()) * usize::from(w.max(1))) + 1;
    let more = lot.below((line.n() - fewest) as u64 + 1) as usize;
    let marks = lot.marks(&line, (fewest + more) as u32);
    let (sender, value) = (1 + lot.below(line.n() as u64) as u8, lot.below(2) as u8);
    Header { n, t, upper, sender, value, w, marks }
}

/// Tables with just as many records as a sheet can have, or some fewer or more, from any place on. The good stations
/// speak all the time.
fn full_tables(lot: &mut Lot, header: &Header) -> Vec<u8> {
    let ballot = lot.below(u64::from(SILENCE)) as u8;
    let (line, len) = lines::line_and_tables(header);
    let mut table = vec![ballot; len];
    let starts = (0..len).step_by(line.table_len());
    let in_bit = |start| line.bad_places(header.marks).map(move |place| start + place);
    let mut places: Vec<usize> = starts.flat_map(in_bit).collect();
    let start = lot.below(places.len() as u64) as usize;
    places.rotate_left(start);
    let spoken = lot.pick(&[RECORDS - 1, RECORDS, RECORDS, RECORDS + 1, RECORDS + 1, places.len()]);
    places.iter().skip(spoken).for_each(|&place| table[place] = SILENCE);
    table
}

/// A header's bytes that are accepted and tables of its length, seldom full ones.
fn of_a_line(lot: &mut Lot) -> (Vec<u8>, Vec<u8>) {
    let (header, table) = if lot.one_in(120) {
        let header = large(lot);
        (header, full_tables(lot, &header))
    } else {
        let most = most(lot);
        let one_bit = lot.header(most);
        let header = if lot.one_in(2) { lot.numbered_short(&one_bit) } else { one_bit };
        let (line, len) = lines::line_and_tables(&header);
        (header, table(lot, &line, len))
    };
    (header_bytes(lot, &header), table)
}

/// A header's bytes and tables, of any kind; and the length of their sheet, if they weren't spoilt.
fn drawn(lot: &mut Lot) -> (Vec<u8>, Vec<u8>, usize) {
    let (mut header, mut table) = if lot.one_in(2) {
        of_a_line(lot)
    } else {
        let most = most(lot);
        let header = lines::numbered(lot, most);
        let (line, len) = lines::line_and_tables(&header);
        (header_bytes(lot, &header), table(lot, &line, len))
    };
    let needed = writer::sheet_len(&header, &table).unwrap_or(LONGEST);
    spoil(lot, &mut header);
    let len = lines::len(lot, table.len());
    table.resize(len, lot.pick(&[0, 1, SILENCE]));
    (header, table, needed)
}

/// The length of a lent sheet: mostly the one that is needed.
pub fn lent_len(lot: &mut Lot, exact: usize) -> usize {
    let any = lot.below(2 * exact as u64) as usize;
    match lot.below(10) {
        0 => exact + 1,
        1 => exact - 1,
        2 => lot.pick(&[0, HEADER_LEN, exact + RECORD_LEN, exact - RECORD_LEN, LONGEST + RECORD_LEN, any]),
        _ => exact,
    }
}

pub fn sheet_len(lot: &mut Lot) -> Compared {
    let (header, table, _) = drawn(lot);
    sheet_len_of(&header, &table)
}

pub fn write(lot: &mut Lot) -> Compared {
    let (header, table, needed) = drawn(lot);
    let len = lent_len(lot, needed);
    write_into(&header, &table, &mut Lending::new(lot, "the sheet", len))
}

fn reading(header: &[u8], table: &[u8]) -> [Reading; 2] {
    [Reading::new("the header", header), Reading::new("the table", table)]
}

/// What both calls answer: a number, here of bytes or records.
fn answer(answer: Result<usize, Cause>) -> u64 {
    word(answer.map(|number| number as u64), 0)
}

/// The length of a sheet told by both.
pub fn sheet_len_of(header: &[u8], table: &[u8]) -> Compared {
    let mut read = reading(header, table);
    let ours = answer(writer::sheet_len(header, table));
    let [first, second] = read.each_mut().map(Reading::handed);
    let theirs = ffi::sheet_len(first, second);
    let differs = difference(ours, theirs).or_else(|| fault(ffi::refusal(ours) != 0, &[], &read.each_ref()));
    compared(ours, differs, |told| told.bytes("header", header).bytes("table", table))
}

/// A sheet written into a lent buffer by both.
pub fn write_into(header: &[u8], table: &[u8], sheet: &mut Lending) -> Compared {
    let mut read = reading(header, table);
    let ours = answer(writer::write(header, table, sheet.ours.bytes()));
    let [first, second] = read.each_mut().map(Reading::handed);
    let theirs = ffi::write(first, second, sheet.theirs.handed());
    let differs =
        difference(ours, theirs).or_else(|| fault(ffi::refusal(ours) != 0, &[sheet], &read.each_ref()));
    let len = sheet.theirs.bytes().len() as u64;
    let told = |told: Told| told.bytes("header", header).bytes("table", table).number("sheet length", len);
    compared(ours, differs, told)
}

/// A sheet that is accepted, written and read back by the verified calls alone.
pub fn read_back(lot: &mut Lot) -> Compared {
    let (header, table, len) = loop {
        let (header, table) = of_a_line(lot);
        if let Ok(len) = writer::sheet_len(&header, &table) {
            break (header, table, len);
        }
    };
    let lent = [len, table.len(), len].map(|len| Lent::new(lot, len));
    let fault = not_read_back(&header, &table, &silenced(&header, &table), lent);
    let told = |what: String| Told::new(&what).bytes("header", &header).bytes("table", &table).text();
    Compared { number: 0, difference: fault.map(told) }
}

/// What is wrong with what is read back, beside the tables wanted, or rewritten, if anything is.
pub fn not_read_back(header: &[u8], table: &[u8], wanted: &[u8], lent: [Lent; 3]) -> Option<String> {
    let [mut sheet, mut back, mut again] = lent;
    let mut read = reading(header, table);
    let [first, second] = read.each_mut().map(Reading::handed);
    let records = ffi::write(first, second, sheet.handed());
    let mut written = Reading::new("the sheet", sheet.bytes());
    let refused = ffi::read(written.handed(), back.handed());
    let [first, second] = read.each_ref();
    if let Some(changed) = fault(false, &[], &[first, second, &written]) {
        return Some(changed);
    }
    if refused != 0 || back.bytes() != wanted {
        return Some(format!("another table is read back, or refused by {refused}"));
    }
    let [mut first, mut second] = reading(&sheet.bytes()[..HEADER_LEN], back.bytes());
    let rewritten = ffi::write(first.handed(), second.handed(), again.handed());
    let same = rewritten == records && again.bytes() == sheet.bytes();
    (!same).then(|| format!("rewriting changes the sheet: first {records:#x}, then {rewritten:#x}"))
}

/// The tables with silence at the good senders.
fn silenced(header: &[u8], table: &[u8]) -> Vec<u8> {
    let Header { n, marks, .. } = sheet::header(header).expect("a header");
    let mut table = table.to_vec();
    for (row, from) in table.chunks_exact_mut(n.into()).zip((1..=n).cycle()) {
        if !marks.bad(from) {
            row.fill(SILENCE);
        }
    }
    table
}
