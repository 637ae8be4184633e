//! The writer of run sheets: from a header's bytes and the tables of its number's bits to a sheet in its normal form.

use std::mem::take;

use crate::generator;
use crate::line::{require, Cause, Line, Marks, SILENCE};
use crate::listing::refusal;
use crate::sheet::{self, Record, HEADER_LEN, RECORDS, RECORD_LEN};

/// What a bad station says in one round of one bit's broadcast.
struct Row<'a> {
    bit: u8,
    round: u8,
    from: u8,
    ballots: &'a [u8],
}

/// The rows of the bad stations in the order of the tables: "by bit before round", then from.
fn rows(line: Line, marks: Marks, tables: &[u8]) -> impl Iterator<Item = Row<'_>> {
    let rounds = (0..).flat_map(move |bit| (1..=line.rounds()).map(move |round| (bit, round)));
    tables.chunks_exact(line.round_len()).zip(rounds).flat_map(move |(said, (bit, round))| {
        marks.stations().map(move |from| Row { bit, round, from, ballots: line.from_one(from, said) })
    })
}

/// How many ballots of a row are not silence: at most 32, so a byte holds it, and bytes are counted many at once.
fn spoken(row: &Row) -> u8 {
    row.ballots.iter().map(|&ballot| u8::from(ballot != SILENCE)).sum()
}

/// What is to be written, once it is judged.
struct Judged {
    line: Line,
    marks: Marks,
    records: usize,
}

impl Judged {
    /// The bytes of the sheet.
    fn len(&self) -> usize {
        HEADER_LEN + RECORD_LEN * self.records
    }
}

/// Every cause of writing but the sheet buffer's length, in their order: 1, 15, 2 to 6, 8 of the tables, 14. The first
/// index handed in is not looked at.
fn judge(header: &[u8], tables: &[u8]) -> Result<Judged, Cause> {
    let header = sheet::header_alone(header)?;
    let (line, width) = (header.judge()?, header.width()?);
    require(tables.len() == line.tables_len(width), Cause::Length)?;
    let marks = header.marks;
    let records = rows(line, marks, tables).map(|row| usize::from(spoken(&row))).sum();
    require(records <= RECORDS, Cause::TooManyRecords)?;
    Ok(Judged { line, marks, records })
}

/// The bytes that the sheet of a header and its tables needs: 12 + 8k.
pub fn sheet_len(header: &[u8], tables: &[u8]) -> Result<usize, Cause> {
    judge(header, tables).map(|judged| judged.len())
}

/// Writes the sheet of a header and its tables into a lent buffer of its exact length: how many records it has. A
/// refusal leaves the buffer as it was.
pub fn write(header: &[u8], tables: &[u8], sheet: &mut [u8]) -> Result<usize, Cause> {
    let judged = judge(header, tables)?;
    require(sheet.len() == judged.len(), Cause::Length)?;
    let (written_header, records) = sheet.split_at_mut(HEADER_LEN);
    written_header.copy_from_slice(header);
    written_header[6..8].copy_from_slice(&u16::from(judged.records > 0).to_le_bytes());
    write_records(rows(judged.line, judged.marks, tables), records);
    Ok(judged.records)
}

/// Writes the rows' records, chained 1, 2, 3, into the bytes that they need.
fn write_records<'a>(rows: impl Iterator<Item = Row<'a>>, records: &mut [u8]) {
    let (mut rest, mut next) = (&mut *records, 2);
    for row in rows {
        if rest.is_empty() {
            break;
        }
        let spoken = spoken(&row);
        let (places, after) = take(&mut rest).split_at_mut(RECORD_LEN * usize::from(spoken));
        write_row(&row, next, places);
        (rest, next) = (after, next + u16::from(spoken));
    }
    // the last one ends the chain
    if let [.., low, high, _, _] = records {
        (*low, *high) = (0, 0);
    }
}

/// Writes a row's records; `next` follows on the first of them. Where no ballot is silence there is nothing to choose,
/// which is quicker.
fn write_row(row: &Row, next: u16, places: &mut [u8]) {
    let Row { bit, round, from, ballots } = *row;
    let places = places.chunks_exact_mut(RECORD_LEN);
    let all_spoken = places.len() == ballots.len();
    let put = |((place, next), (&ballot, to)): ((&mut [u8], u16), (&u8, u8))| {
        place.copy_from_slice(&Record { bit, round, from, to, ballot }.bytes(next));
    };
    let (places, ballots) = (places.zip(next..), ballots.iter().zip(1..));
    if all_spoken {
        places.zip(ballots).for_each(put);
    } else {
        places.zip(ballots.filter(|(&ballot, _)| ballot != SILENCE)).for_each(put);
    }
}

/// The sheet of a header and its tables. The buffer has its length, so that 8 is the tables' alone.
fn written(header: &[u8], tables: &[u8]) -> Result<Vec<u8>, Cause> {
    let mut sheet = vec![0; sheet_len(header, tables)?];
    write(header, tables, &mut sheet)?;
    Ok(sheet)
}

/// The normal form of a sheet: written from its first 12 bytes and the tables that it is read to. The causes are the
/// reader's, and 14 cannot arise.
pub fn normal_form(bytes: &[u8]) -> Result<Vec<u8>, Cause> {
    let (_, tables) = sheet::tables(bytes)?;
    written(&bytes[..HEADER_LEN], &tables)
}

/// The sheet of the run that a seed gives to a sheet's header. The causes are the reader's, then 16, then 14.
pub fn generated_form(bytes: &[u8], seed: u32) -> Result<Vec<u8>, Cause> {
    let (header, _) = sheet::records(bytes)?;
    written(&bytes[..HEADER_LEN], &generator::tables(&header, seed)?)
}

/// The normal form of a sheet, or the line of its refusal.
pub fn rewritten(bytes: &[u8]) -> Vec<u8> {
    normal_form(bytes).unwrap_or_else(|cause| refusal(cause).into_bytes())
}
