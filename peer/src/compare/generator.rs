//! The generator compared, and what it fills written and read back.

use super::input::Told;
use super::lent::{difference, Lending, Lent, Reading};
use super::lines;
use super::report::Compared;
use super::writer::{header_bytes, most, not_read_back, spoil};
use crate::ffi;
use crate::generator;
use crate::line::Cause;
use crate::lot::Lot;
use crate::sheet::{self, HEADER_LEN};
use crate::writer;

/// The numbers that the generator can answer.
pub const NUMBERS: [u8; 10] = [0, 1, 2, 3, 4, 5, 6, 8, 15, 16];

/// A seed: a small one, one of few bits, near the largest, or any; now and then 0.
pub fn seed(lot: &mut Lot) -> u32 {
    let any = lot.word() as u32;
    match lot.below(10) {
        0 => 0,
        1..=3 => 1 + lot.below(100) as u32,
        4 => 1 << lot.below(32),
        5 => u32::MAX - lot.below(2) as u32,
        _ => any,
    }
}

/// A header's bytes: accepted, spoilt or any.
fn header(lot: &mut Lot) -> Vec<u8> {
    if lot.one_in(16) {
        let end = lot.pick(&[2, 5, 40, 256]);
        return (0..HEADER_LEN).map(|_| lot.below(end) as u8).collect();
    }
    let most = most(lot);
    let header = lines::numbered(lot, most);
    let mut bytes = header_bytes(lot, &header);
    spoil(lot, &mut bytes);
    bytes
}

/// The length of the lent tables: mostly the one that a header wants.
pub fn tables_len(lot: &mut Lot, header: &[u8]) -> usize {
    let Ok(header) = sheet::header_alone(header) else { return lines::len(lot, 144) };
    let (line, exact) = lines::line_and_tables(&header);
    match lot.below(12) {
        0 => lot.pick(&[exact + 1, exact - 1, 0, line.table_len(), exact + line.table_len()]),
        _ => exact,
    }
}

pub fn generate(lot: &mut Lot) -> Compared {
    let (header, seed) = (header(lot), seed(lot));
    let len = tables_len(lot, &header);
    generate_into(&header, seed, &mut Lending::new(lot, "the table", len))
}

fn told(what: &str, header: &[u8], seed: u32) -> Told {
    Told::new(what).bytes("header", header).number("seed", seed)
}

/// Tables generated into a lent buffer by both.
pub fn generate_into(header: &[u8], seed: u32, table: &mut Lending) -> Compared {
    let mut read = Reading::new("the header", header);
    let number = generator::generate(header, seed, table.ours.bytes()).map_or_else(Cause::number, |()| 0);
    let theirs = ffi::generate(read.handed(), seed, table.theirs.handed());
    let differs = difference(number, theirs, &[table], &[&read]);
    let len = table.theirs.bytes().len() as u64;
    let told = |what: String| told(&what, header, seed).number("table length", len).text();
    Compared { number, difference: differs.map(told) }
}

/// A header's bytes and a seed that are accepted, and the lengths of the tables and of their sheet, which has room for them.
fn with_a_sheet(lot: &mut Lot) -> (Vec<u8>, u32, [usize; 2]) {
    loop {
        let (most, seed) = (most(lot), seed(lot).max(1));
        let one_bit = lot.header(most);
        let header = if lot.one_in(2) { lot.numbered_short(&one_bit) } else { one_bit };
        let tables = generator::tables(&header, seed).expect("an accepted header and seed");
        let bytes = header_bytes(lot, &header);
        if let Ok(len) = writer::sheet_len(&bytes, &tables) {
            return (bytes, seed, [tables.len(), len]);
        }
    }
}

/// Tables that are generated, written and read back by the verified calls alone.
pub fn generated_back(lot: &mut Lot) -> Compared {
    let (header, seed, [len, sheet_len]) = with_a_sheet(lot);
    let table = Lent::new(lot, len);
    let lent = [sheet_len, len, sheet_len].map(|len| Lent::new(lot, len));
    let fault = not_generated_back(&header, seed, table, lent);
    Compared { number: 0, difference: fault.map(|what| told(&what, &header, seed).text()) }
}

/// What is wrong with what is generated, or read back of it, if anything is.
fn not_generated_back(header: &[u8], seed: u32, mut table: Lent, lent: [Lent; 3]) -> Option<String> {
    let mut read = Reading::new("the header", header);
    let refused = ffi::generate(read.handed(), seed, table.handed());
    let refused = (refused != 0).then(|| format!("the tables are refused by {refused}"));
    let table = table.bytes();
    read.fault().or(refused).or_else(|| not_read_back(header, table, table, lent))
}
