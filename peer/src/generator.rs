//! The generator of run tables: from a header and a seed to what the bad stations say, the same every time.

use crate::line::{require, Cause, Header, SILENCE};
use crate::sheet;

/// "a 32-bit state, at each step exclusive-or with itself shifted left 13, then right 17, then left 5, bits beyond 32
/// dropped". This is one of Marsaglia's xorshift generators.
pub fn step(state: u32) -> u32 {
    let state = state ^ state << 13;
    let state = state ^ state >> 17;
    state ^ state << 5
}

/// "the new state mod 4, with 255 for 3"
fn ballot(state: u32) -> u8 {
    match state % 4 {
        3 => SILENCE,
        low => low as u8,
    }
}

/// Writes the tables of all bits, row by row: a row is what one station says to all in one round. At the good stations it is
/// silence, and the state stays.
fn fill(header: &Header, seed: u32, tables: &mut [u8]) {
    let mut state = seed;
    for (row, from) in tables.chunks_exact_mut(header.n.into()).zip((1..=header.n).cycle()) {
        if !header.marks.bad(from) {
            row.fill(SILENCE);
            continue;
        }
        for byte in row {
            state = step(state);
            *byte = ballot(state);
        }
    }
}

/// The bytes of the tables. Causes 15 and 2 to 6, then 16.
fn judge(header: &Header, seed: u32) -> Result<usize, Cause> {
    let (line, width) = (header.judge()?, header.width()?);
    require(seed != 0, Cause::Seed)?;
    Ok(line.tables_len(width))
}

/// Generates the tables of all bits into a lent buffer, from a header's bytes, of which the first index is not looked at, and a
/// seed. Causes 1, 15, 2 to 6, 16 and 8; a refusal leaves the buffer as it was.
pub fn generate(header: &[u8], seed: u32, tables: &mut [u8]) -> Result<(), Cause> {
    let header = sheet::header_alone(header)?;
    require(tables.len() == judge(&header, seed)?, Cause::Length)?;
    fill(&header, seed, tables);
    Ok(())
}

/// The same tables in a buffer of their length, so that neither 1 nor 8 can arise.
pub fn tables(header: &Header, seed: u32) -> Result<Vec<u8>, Cause> {
    let mut tables = vec![0; judge(header, seed)?];
    fill(header, seed, &mut tables);
    Ok(tables)
}
