//! Run sheets drawn by lot: accepted ones, damaged ones, loose ones and mere bytes.

use super::lines::{spoil, spoil_number};
use crate::line::Header;
use crate::lot::Lot;
use crate::sheet::{self, Record, HEADER_LEN, LONGEST, RECORDS, RECORD_LEN};

/// A sheet of any kind.
pub fn draw(lot: &mut Lot) -> Vec<u8> {
    match lot.below(16) {
        0 => mere_bytes(lot),
        1..=4 => loose(lot),
        5..=9 => accepted(lot),
        _ => damaged(lot),
    }
}

/// Any bytes, of any length or of a sheet's.
fn mere_bytes(lot: &mut Lot) -> Vec<u8> {
    let short = lot.below(64) as usize;
    let len = lot.pick(&[short, short, HEADER_LEN, 20, 12 + 8 * short, LONGEST, LONGEST + 1, LONGEST + 8]);
    let most = lot.pick(&[2, 5, 40, 256]);
    (0..len).map(|_| lot.below(most) as u8).collect()
}

/// A header that is accepted, of one bit or of a number.
fn header(lot: &mut Lot) -> Header {
    let header = lot.header(32);
    if lot.one_in(2) {
        lot.numbered_short(&header)
    } else {
        header
    }
}

/// A sheet that is accepted with its tables, the chain in any order, any bytes in the records outside of it.
fn accepted(lot: &mut Lot) -> Vec<u8> {
    let header = header(lot);
    let records = if lot.one_in(60) { many(lot, &header) } else { lot.records(&header) };
    let spare = RECORDS - records.len();
    let outside = match lot.below(40) {
        0 => spare,
        1..=20 => (lot.below(6) as usize).min(spare),
        _ => 0,
    };
    scattered(lot, &header, &records, outside)
}

/// Many records that the reader accepts, up to as many as a sheet can have.
fn many(lot: &mut Lot, header: &Header) -> Vec<Record> {
    let line = header.judge().expect("an accepted header");
    let bits = header.width().expect("an accepted header").bits();
    let rounds = bits.flat_map(|bit| (1..=line.rounds()).map(move |round| (bit, round)));
    let mut records = Vec::new();
    for (bit, round) in rounds {
        for from in header.marks.stations() {
            records.extend(line.stations().map(|to| Record { bit, round, from, to, ballot: lot.ballot() }));
        }
    }
    lot.shuffle(&mut records);
    let fewer = 1 + lot.below(RECORDS as u64) as usize;
    records.truncate(lot.pick(&[fewer, RECORDS]));
    records
}

/// A sheet whose chain goes through its records in any order. So many stand outside of it.
fn scattered(lot: &mut Lot, header: &Header, records: &[Record], outside: usize) -> Vec<u8> {
    let k = records.len() + outside;
    let mut indices: Vec<u16> = (1..=k as u16).collect();
    if lot.one_in(2) {
        lot.shuffle(&mut indices);
    }
    let mut sheet = sheet::write(header, &[]);
    sheet.extend((0..k * RECORD_LEN).map(|_| lot.byte()));
    let mut next = 0u16;
    for (record, &index) in records.iter().zip(&indices).rev() {
        at(&mut sheet, index.into()).copy_from_slice(&record.bytes(next));
        next = index;
    }
    sheet[6..8].copy_from_slice(&next.to_le_bytes());
    sheet
}

/// A record's bytes.
fn at(sheet: &mut [u8], index: usize) -> &mut [u8] {
    &mut sheet[HEADER_LEN + RECORD_LEN * (index - 1)..][..RECORD_LEN]
}

/// Records with numbers and next indices that are in range or near it.
fn loose(lot: &mut Lot) -> Vec<u8> {
    let mut header = header(lot);
    if lot.one_in(2) {
        header.marks.0 = ((1u64 << header.n) - 1) as u32;
    }
    let k = lot.pick(&[1, 2, 3, 8, 30]);
    let ends = lot.pick(&[0, 0, 1, 2]);
    let mut sheet = sheet::write(&header, &[]);
    sheet[6..8].copy_from_slice(&(1 + lot.below(k) as u16).to_le_bytes());
    for index in 1..=k {
        let off = lot.one_in(2 * k);
        let mut number = |most: u8| lot.below(u64::from(most)) as u8 + u8::from(!off);
        let (round, from, to) = (number(3 * header.t + 6), number(header.n), number(header.n));
        let one_more = lot.one_in(4 * k);
        let bit = lot.below(u64::from(header.w.max(1)) + u64::from(one_more)) as u8;
        let after = (index + 1) % (k + 1);
        let next = if lot.one_in(4) { lot.below(k + ends) } else { after };
        let [low, high] = (next as u16).to_le_bytes();
        sheet.extend([round, from, to, lot.ballot(), low, high, bit, u8::from(lot.one_in(4 * k))]);
    }
    sheet
}

/// An accepted sheet with some damage.
fn damaged(lot: &mut Lot) -> Vec<u8> {
    let mut sheet = accepted(lot);
    damage(lot, &mut sheet);
    while lot.one_in(2) {
        damage(lot, &mut sheet);
    }
    sheet
}

fn damage(lot: &mut Lot, sheet: &mut Vec<u8>) {
    let k = sheet.len().saturating_sub(HEADER_LEN) / RECORD_LEN;
    match lot.below(10) {
        0 => other_length(lot, sheet),
        1 if sheet.len() > 5 => sheet[5] = lot.pick(&[0, 1, sheet[5].wrapping_sub(1), 9, 10, 255]),
        2..=4 => other_header(lot, sheet),
        _ if k > 0 => other_record(lot, sheet, k),
        _ if sheet.len() >= 8 => sheet[6] = lot.pick(&[0, 1, 255]),
        _ => {}
    }
}

fn other_length(lot: &mut Lot, sheet: &mut Vec<u8>) {
    let len = sheet.len();
    let any = lot.below(len as u64 + 20) as usize;
    let len = lot.pick(&[len + 1, len.saturating_sub(1), len + 8, len.saturating_sub(8), any, LONGEST + 8]);
    let byte = lot.byte();
    sheet.resize(len, byte);
}

fn other_header(lot: &mut Lot, sheet: &mut [u8]) {
    let Ok(mut header) = sheet::header(sheet) else { return };
    if lot.one_in(4) {
        spoil_number(lot, &mut header);
    } else {
        spoil(lot, &mut header);
    }
    let first = [sheet[6], sheet[7]];
    sheet[..HEADER_LEN].copy_from_slice(&sheet::write(&header, &[]));
    sheet[6..8].copy_from_slice(&first);
}

/// Changes one of the k records, or where the chain begins.
fn other_record(lot: &mut Lot, sheet: &mut [u8], k: usize) {
    let any = |lot: &mut Lot| 1 + lot.below(k as u64) as usize;
    let (index, other) = (any(lot), any(lot));
    let next = lot.pick(&[0, 1, index, other, k, k + 1, 65_535]) as u16;
    let (n, rounds) = (sheet[0], sheet[1].wrapping_mul(3).wrapping_add(6));
    let station = 1 + lot.below(u64::from(n.max(1))) as u8;
    let place: [u8; RECORD_LEN] = at(sheet, other).try_into().expect("a record's bytes");
    let (byte, w) = (lot.byte(), sheet[5]);
    let record = at(sheet, index);
    match lot.below(11) {
        0 => record[0] = lot.pick(&[0, rounds, rounds.wrapping_add(1), byte]),
        1 => record[1] = lot.pick(&[0, n.wrapping_add(1), byte]),
        2 => record[2] = lot.pick(&[0, n.wrapping_add(1), byte]),
        3 => record[1] = station,
        4 => record[4..6].copy_from_slice(&next.to_le_bytes()),
        5 => record[lot.pick(&[6, 7])] = byte,
        6 => record[..3].copy_from_slice(&place[..3]),
        7 => record[lot.below(8) as usize] ^= 1 << lot.below(8),
        8 => record[6] = lot.pick(&[0, 1, w.wrapping_sub(1), w, w.wrapping_add(1)]),
        9 => (record[0], record[1], record[2], record[6]) = (place[0], place[1], place[2], place[6]),
        _ => sheet[6..8].copy_from_slice(&next.to_le_bytes()),
    }
}
