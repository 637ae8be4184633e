//! The reader compared, of all bits and of one.

use super::input::Told;
use super::lent::{difference, Lending, Reading};
use super::report::Compared;
use super::{lines, sheets};
use crate::ffi;
use crate::line::{Cause, LARGEST_TABLE};
use crate::lot::Lot;
use crate::sheet;

/// The numbers that both readers can answer.
pub const NUMBERS: [u8; 14] = [0, 1, 2, 3, 4, 5, 6, 8, 9, 10, 11, 12, 13, 15];

/// The length of the lent tables of all bits: mostly the one that the sheet wants.
pub fn tables_len(lot: &mut Lot, sheet: &[u8]) -> usize {
    let (bit, all) = lengths(sheet);
    len(lot, all, bit)
}

/// The length of one bit's lent table: mostly the one that the sheet wants.
pub fn table_len(lot: &mut Lot, sheet: &[u8]) -> usize {
    let (bit, all) = lengths(sheet);
    len(lot, bit, all)
}

/// The bytes of one bit's table and of all bits' that a sheet wants.
fn lengths(sheet: &[u8]) -> (usize, usize) {
    sheet::header(sheet).map_or((144, 144), |header| {
        let (line, all) = lines::line_and_tables(&header);
        (line.table_len(), all)
    })
}

/// A length that is now and then another: one that is near, or the other reader's.
fn len(lot: &mut Lot, exact: usize, other: usize) -> usize {
    match lot.below(24) {
        0 => exact + 1,
        1 => exact - 1,
        2 => 0,
        3 => lot.pick(&[other, other, LARGEST_TABLE]),
        4 => lot.below(LARGEST_TABLE as u64 + 2) as usize,
        _ => exact,
    }
}

/// A bit that a sheet has, now and then none.
pub fn bit(lot: &mut Lot, sheet: &[u8]) -> u8 {
    let count = sheet::header(sheet).and_then(|header| header.width()).map_or(1, |width| width.count() as u8);
    let (inside, byte) = (lot.below(count.into()) as u8, lot.byte());
    match lot.below(24) {
        0 => lot.pick(&[count, count, 8, 255, byte]),
        1..=4 => count - 1,
        _ => inside,
    }
}

/// A sheet of any kind, read into the lent tables of all bits.
pub fn read(lot: &mut Lot) -> Compared {
    let sheet = sheets::draw(lot);
    let len = tables_len(lot, &sheet);
    read_into(&sheet, &mut Lending::new(lot, "the table", len))
}

/// A sheet of any kind, one bit of it read into a lent table.
pub fn read_bit(lot: &mut Lot) -> Compared {
    let sheet = sheets::draw(lot);
    let (len, bit) = (table_len(lot, &sheet), bit(lot, &sheet));
    read_bit_into(&sheet, bit, &mut Lending::new(lot, "the table", len))
}

fn told(what: String, sheet: &[u8], table: &mut Lending) -> Told {
    let len = table.theirs.bytes().len() as u64;
    Told::new(&what).bytes("sheet", sheet).number("table length", len)
}

/// A sheet read into lent tables by both.
pub fn read_into(sheet: &[u8], table: &mut Lending) -> Compared {
    let mut read = Reading::new("the sheet", sheet);
    let number = sheet::read(sheet, table.ours.bytes()).map_or_else(Cause::number, |_| 0);
    let theirs = ffi::read(read.handed(), table.theirs.handed());
    let differs = difference(number, theirs, &[table], &[&read]);
    Compared { number, difference: differs.map(|what| told(what, sheet, table).text()) }
}

/// One bit of a sheet read into a lent table by both.
pub fn read_bit_into(sheet: &[u8], bit: u8, table: &mut Lending) -> Compared {
    let mut read = Reading::new("the sheet", sheet);
    let number = sheet::read_bit(sheet, bit, table.ours.bytes()).map_or_else(Cause::number, |_| 0);
    let theirs = ffi::read_bit(read.handed(), bit, table.theirs.handed());
    let differs = difference(number, theirs, &[table], &[&read]);
    Compared { number, difference: differs.map(|what| told(what, sheet, table).number("bit", bit).text()) }
}
