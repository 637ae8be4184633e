//! The run sheet: a header of 12 bytes and k records of 8, chained by their next index.

use crate::line::{require, Cause, Header, Line, Marks, SILENCE};
use crate::number::Width;

pub const HEADER_LEN: usize = 12;
pub const RECORD_LEN: usize = 8;
/// The most records a sheet can have.
pub const RECORDS: usize = 4_096;
/// The bytes of the longest sheet.
pub const LONGEST: usize = HEADER_LEN + RECORD_LEN * RECORDS;

/// What a bad station tells one station in one round of one bit's broadcast.
#[derive(Clone, Copy, PartialEq, Eq, Debug)]
pub struct Record {
    pub bit: u8,
    pub round: u8,
    pub from: u8,
    pub to: u8,
    pub ballot: u8,
}

impl Record {
    /// The eight bytes, with the index of the next record of the chain.
    pub fn bytes(&self, next: u16) -> [u8; RECORD_LEN] {
        let [low, high] = next.to_le_bytes();
        [self.round, self.from, self.to, self.ballot, low, high, self.bit, 0]
    }

    /// Where its ballot stands in the bits' tables.
    pub fn place(&self, line: &Line) -> usize {
        line.bit_range(self.bit).start + line.place(self.round, self.from, self.to)
    }
}

/// Two bytes, low byte first.
fn two(bytes: &[u8], at: usize) -> usize {
    usize::from(u16::from_le_bytes([bytes[at], bytes[at + 1]]))
}

/// The header's numbers, not judged. Cause 1, which is the length alone.
pub fn header(sheet: &[u8]) -> Result<Header, Cause> {
    let k_records = sheet.len() >= HEADER_LEN && (sheet.len() - HEADER_LEN) % RECORD_LEN == 0;
    require(k_records && sheet.len() <= LONGEST, Cause::SheetForm)?;
    let marks = u32::from_le_bytes([sheet[8], sheet[9], sheet[10], sheet[11]]);
    Ok(Header {
        n: sheet[0],
        t: sheet[1],
        upper: sheet[2],
        sender: sheet[3],
        value: sheet[4],
        w: sheet[5],
        marks: Marks(marks),
    })
}

/// A header handed in by itself, not judged. Cause 1, which is its length alone.
pub fn header_alone(bytes: &[u8]) -> Result<Header, Cause> {
    require(bytes.len() == HEADER_LEN, Cause::SheetForm)?;
    header(bytes)
}

/// The chained records' indices in chain order. Causes 9 and 10. The sheet has passed cause 1.
fn chain(sheet: &[u8]) -> Result<Vec<usize>, Cause> {
    let k = (sheet.len() - HEADER_LEN) / RECORD_LEN;
    let mut reached = vec![false; k + 1];
    let mut indices = Vec::new();
    let mut index = two(sheet, 6);
    while index != 0 {
        require(index <= k, Cause::IndexBeyond)?;
        require(!reached[index], Cause::ReachedAgain)?;
        reached[index] = true;
        indices.push(index);
        index = two(bytes_of(sheet, index), 4);
    }
    Ok(indices)
}

/// The eight bytes of a record. Record 1 stands at byte 12.
fn bytes_of(sheet: &[u8], index: usize) -> &[u8] {
    &sheet[HEADER_LEN + RECORD_LEN * (index - 1)..][..RECORD_LEN]
}

/// One record's fields. Cause 11: "wants only record byte 7 to be zero".
fn record(line: &Line, width: Width, bytes: &[u8]) -> Result<Record, Cause> {
    let record = Record { bit: bytes[6], round: bytes[0], from: bytes[1], to: bytes[2], ballot: bytes[3] };
    let round_in = (1..=line.rounds()).contains(&record.round);
    let stations_in = line.has(record.from) && line.has(record.to);
    require(round_in && stations_in && width.has(record.bit) && bytes[7] == 0, Cause::Record)?;
    Ok(record)
}

/// The records of the chain, in its order. Causes 9 to 13. The sheet has passed the others.
fn chained(sheet: &[u8], line: &Line, width: Width, marks: Marks) -> Result<Vec<Record>, Cause> {
    let indices = chain(sheet)?;
    let mut taken = vec![false; line.tables_len(width)];
    let mut records = Vec::with_capacity(indices.len());
    for index in indices {
        let record = record(line, width, bytes_of(sheet, index))?;
        require(marks.bad(record.from), Cause::FromUnmarked)?;
        let place = record.place(line);
        require(!taken[place], Cause::Repeated)?;
        taken[place] = true;
        records.push(record);
    }
    Ok(records)
}

/// The header and the chained records in their order. Every cause but 8.
pub fn records(sheet: &[u8]) -> Result<(Header, Vec<Record>), Cause> {
    let header = header(sheet)?;
    let line = header.judge()?;
    Ok((header, chained(sheet, &line, header.width()?, header.marks)?))
}

/// Silence everywhere, then each ballot of these records in its place.
fn fill(table: &mut [u8], places: impl Iterator<Item = (usize, u8)>) {
    table.fill(SILENCE);
    places.for_each(|(place, ballot)| table[place] = ballot);
}

/// Reads a sheet into the lent tables of all bits. Every cause but 7; a refusal leaves the tables as they were.
pub fn read(sheet: &[u8], tables: &mut [u8]) -> Result<Header, Cause> {
    let header = header(sheet)?;
    let (line, width) = (header.judge()?, header.width()?);
    require(tables.len() == line.tables_len(width), Cause::Length)?;
    let records = chained(sheet, &line, width, header.marks)?;
    fill(tables, records.iter().map(|record| (record.place(&line), record.ballot)));
    Ok(header)
}

/// Reads one bit of a sheet into its lent table. The whole sheet is judged; a bit not below w is cause 11, after 8 and before
/// the chain. A refusal leaves the table as it was.
pub fn read_bit(sheet: &[u8], bit: u8, table: &mut [u8]) -> Result<Header, Cause> {
    let header = header(sheet)?;
    let (line, width) = (header.judge()?, header.width()?);
    require(table.len() == line.table_len(), Cause::Length)?;
    require(width.has(bit), Cause::Record)?;
    let records = chained(sheet, &line, width, header.marks)?;
    let of_bit = records.iter().filter(|record| record.bit == bit);
    fill(table, of_bit.map(|record| (line.place(record.round, record.from, record.to), record.ballot)));
    Ok(header)
}

/// A sheet's header and the tables of all its bits. Every cause but 8.
pub fn tables(sheet: &[u8]) -> Result<(Header, Vec<u8>), Cause> {
    let told = header(sheet)?;
    let (line, width) = (told.judge()?, told.width()?);
    let mut tables = vec![0; line.tables_len(width)];
    read(sheet, &mut tables)?;
    Ok((told, tables))
}

/// A sheet whose records stand in the order of their chain. At most 4,096 records.
pub fn write(header: &Header, records: &[Record]) -> Vec<u8> {
    assert!(records.len() <= RECORDS, "a sheet has at most {RECORDS} records");
    let next = |index: usize| (if index < records.len() { index + 1 } else { 0 }) as u16;
    let mut sheet = vec![header.n, header.t, header.upper, header.sender, header.value, header.w];
    sheet.extend(next(0).to_le_bytes());
    sheet.extend(header.marks.0.to_le_bytes());
    for (record, index) in records.iter().zip(1..) {
        sheet.extend(record.bytes(next(index)));
    }
    sheet
}
