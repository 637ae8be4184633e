//! What an input is to each call: its first bytes the numbers, the others its row, inputs or table. Numbers that
//! an input is too short for are 0. The lengths of lent buffers are drawn, mostly the right ones.

use super::features::{bits, features, of_another_offer, of_ballot, of_broken, of_generated, of_offer};
use super::features::{of_outcomes, of_refused, of_result, of_row, of_sheet};
use super::pool::{Features, Shape};
use crate::compare::lent::Lending;
use crate::compare::report::Compared;
use crate::compare::{checker, generator, lines, offers, reader, stations, writer};
use crate::line::{Cause, Header, Marks, SILENCE};
use crate::logs::Logged;
use crate::lot::{widest_short, Lot};
use crate::number::MOST_BITS;
use crate::sheet::{self, HEADER_LEN, LONGEST, RECORDS, RECORD_LEN};
use crate::station::{Station, STATION};

/// An input compared, and what is told coarsely of it.
pub struct Tried {
    pub compared: Compared,
    pub features: Features,
}

/// Gives an input to both implementations.
type Give = Box<dyn Fn(&mut Lot, &[u8]) -> Tried>;

/// A call that is given inputs.
pub struct Call {
    pub name: &'static str,
    pub shape: Shape,
    /// It is given one in so many inputs.
    pub one_in: u64,
    /// The numbers that it can answer.
    pub numbers: &'static [u8],
    pub give: Give,
}

impl Call {
    pub fn new(
        name: &'static str,
        shape: Shape,
        one_in: u64,
        numbers: &'static [u8],
        give: impl Fn(&mut Lot, &[u8]) -> Tried + 'static,
    ) -> Call {
        Call { name, shape, one_in, numbers, give: Box::new(give) }
    }
}

/// The calls of the static libraries.
pub fn linked() -> Vec<Call> {
    vec![
        Call::new("read", Shape::Sheet, 1, &reader::NUMBERS, read),
        Call::new("read_bit", Shape::Sheet, 4, &reader::NUMBERS, read_bit),
        Call::new("sheet_len", Shape::Line, 16, &writer::NUMBERS, sheet_len),
        Call::new("write", Shape::Line, 8, &writer::NUMBERS, write),
        Call::new("generate", Shape::Line, 8, &generator::NUMBERS, generate),
        Call::new("rehearse", Shape::Line, 1, &lines::REHEARSE, rehearse),
        Call::new("check", Shape::Line, 8, &checker::NUMBERS, check),
        Call::new("exchange", Shape::Line, 1, &lines::EXCHANGE, exchange),
        Call::new("open", Shape::Station, 1, &stations::OPEN, |_, input| open(input)),
        Call::new("ballot", Shape::Station, 1, &stations::ASK, |_, input| ballot(input)),
        Call::new("advance", Shape::Station, 1, &stations::ADVANCE, advance),
        Call::new("advance_lent", Shape::Station, 1, &stations::ADVANCE, advance_lent),
        Call::new("result", Shape::Station, 1, &stations::ASK, |_, input| result(input)),
        Call::new("offer", Shape::Station, 1, &stations::ADVANCE, offer),
        Call::new("accept", Shape::Station, 1, &offers::ACCEPT, accept),
        Call::new("accept_lent", Shape::Station, 1, &offers::ACCEPT, accept_lent),
    ]
}

/// The first bytes, 0 where there are none.
fn first<const N: usize>(input: &[u8]) -> [u8; N] {
    let mut bytes = [0; N];
    let len = input.len().min(N);
    bytes[..len].copy_from_slice(&input[..len]);
    bytes
}

/// The bytes from this place on.
fn rest(input: &[u8], from: usize) -> &[u8] {
    &input[from.min(input.len())..]
}

/// So many bytes: these, again from the first where they are too few. Silence of none.
fn stretched(bytes: &[u8], len: usize) -> Vec<u8> {
    let bytes = if bytes.is_empty() { &[SILENCE] } else { bytes };
    let mut stretched = bytes.repeat(len.div_ceil(bytes.len()));
    stretched.truncate(len);
    stretched
}

/// A header of any bytes, laid out as in a sheet.
fn header(input: &[u8]) -> Header {
    let [n, t, upper, sender, value, w, _, _, marks @ ..] = first::<HEADER_LEN>(input);
    Header { n, t, upper, sender, value, w, marks: Marks(u32::from_le_bytes(marks)) }
}

/// The header with its own number, or with one whose tables are short: long ones take long, so they are seldom. So are those
/// that are refused for their width alone.
fn number(lot: &mut Lot, input: &[u8]) -> Header {
    let header = header(input);
    let short = widest_short(&header);
    let kept = match header.w {
        w if w <= short => 1,
        w if w <= MOST_BITS => 200,
        _ => 4,
    };
    if lot.one_in(kept) {
        return header;
    }
    let w = header.w % (short + 1);
    Header { w, value: header.value & u8::MAX >> (MOST_BITS - w.max(1)), ..header }
}

fn station(input: &[u8]) -> Station {
    Station::from_bytes(first(input))
}

/// Of a call that isn't accepted only n is told.
pub fn tried(compared: Compared, n: u8, accepted: Option<Features>) -> Tried {
    let features = accepted.unwrap_or_else(|| features(&[bits(n.into())]));
    Tried { compared, features }
}

/// Of a station, if it is refused, its count beside its round too.
fn tried_of(compared: Compared, station: &Station, accepted: Option<Features>) -> Tried {
    Tried { compared, features: accepted.unwrap_or_else(|| of_refused(station)) }
}

/// The input as a sheet with its own number or a short one; half of the time cut to a sheet's length, so that more is read of
/// it than its form.
pub fn sheet(lot: &mut Lot, input: &[u8]) -> Vec<u8> {
    let header = number(lot, input);
    sheet_of(lot, input, &header)
}

/// The same with this header's number.
fn sheet_of(lot: &mut Lot, input: &[u8], header: &Header) -> Vec<u8> {
    let mut sheet = input.to_vec();
    if input.len() >= HEADER_LEN && lot.one_in(2) {
        let k = (input.len() - HEADER_LEN) / RECORD_LEN;
        sheet.truncate(HEADER_LEN + RECORD_LEN * k.min(RECORDS));
    }
    put_number(&mut sheet, header);
    sheet
}

/// Puts a header's number where there is room for it.
fn put_number(bytes: &mut [u8], header: &Header) {
    if let [_, _, _, _, value, w, ..] = bytes {
        (*value, *w) = (header.value, header.w);
    }
}

fn read(lot: &mut Lot, input: &[u8]) -> Tried {
    let sheet = sheet(lot, input);
    let len = reader::tables_len(lot, &sheet);
    let compared = reader::read_into(&sheet, &mut Lending::new(lot, "the table", len));
    Tried { compared, features: of_sheet(&sheet) }
}

fn read_bit(lot: &mut Lot, input: &[u8]) -> Tried {
    let sheet = sheet(lot, input);
    let (len, bit) = (reader::table_len(lot, &sheet), reader::bit(lot, &sheet));
    let compared = reader::read_bit_into(&sheet, bit, &mut Lending::new(lot, "the table", len));
    Tried { compared, features: of_sheet(&sheet) }
}

/// The tables that the sheet is read to, if it is accepted.
fn read_tables(lot: &mut Lot, input: &[u8], header: &Header) -> Option<Vec<u8>> {
    sheet::tables(&sheet_of(lot, input, header)).ok().map(|(_, tables)| tables)
}

/// A number's tables: half of the time the sheet's own, else of any bytes, now and then of another length.
fn tables(lot: &mut Lot, input: &[u8], header: &Header) -> Vec<u8> {
    let (line, exact) = lines::line_and_tables(header);
    let len = lines::tables_len(lot, &line, exact);
    tables_of(lot, input, header, len)
}

/// The same, of this length where they aren't the sheet's own.
fn tables_of(lot: &mut Lot, input: &[u8], header: &Header, len: usize) -> Vec<u8> {
    let read = if lot.one_in(2) { read_tables(lot, input, header) } else { None };
    read.unwrap_or_else(|| stretched(rest(input, HEADER_LEN), len))
}

/// A header handed in by itself, with this one's number, mostly of its length.
fn header_alone(lot: &mut Lot, input: &[u8], header: &Header) -> Vec<u8> {
    let len = lines::len(lot, HEADER_LEN);
    let mut bytes = stretched(input, len);
    put_number(&mut bytes, header);
    bytes
}

/// A header to be written and its tables.
fn header_and_tables(lot: &mut Lot, input: &[u8]) -> (Vec<u8>, Vec<u8>) {
    let header = number(lot, input);
    let tables = tables(lot, input, &header);
    (header_alone(lot, input, &header), tables)
}

fn sheet_len(lot: &mut Lot, input: &[u8]) -> Tried {
    let (header, table) = header_and_tables(lot, input);
    let [n] = first(&header);
    let len = crate::writer::sheet_len(&header, &table).ok();
    let accepted = len.map(|len| features(&[bits(n.into()), bits(len)]));
    tried(writer::sheet_len_of(&header, &table), n, accepted)
}

fn write(lot: &mut Lot, input: &[u8]) -> Tried {
    let (header, table) = header_and_tables(lot, input);
    let [n] = first(&header);
    let needed = crate::writer::sheet_len(&header, &table).unwrap_or(LONGEST);
    let len = writer::lent_len(lot, needed);
    let mut sheet = Lending::new(lot, "the sheet", len);
    let compared = writer::write_into(&header, &table, &mut sheet);
    let accepted = compared.number == 0;
    tried(compared, n, accepted.then(|| of_sheet(sheet.ours.bytes())))
}

/// Tables of the header and a seed: the four bytes after it, or any.
fn generate(lot: &mut Lot, input: &[u8]) -> Tried {
    let told = number(lot, input);
    let bytes = header_alone(lot, input, &told);
    let after = u32::from_le_bytes(first(rest(input, HEADER_LEN)));
    let seed = if lot.one_in(2) { after } else { generator::seed(lot) };
    let len = generator::tables_len(lot, &bytes);
    let compared = generator::generate_into(&bytes, seed, &mut Lending::new(lot, "the table", len));
    let accepted = compared.number == 0;
    tried(compared, told.n, accepted.then(|| of_generated(&header(&bytes), seed)))
}

/// A run of the header's line.
fn rehearse(lot: &mut Lot, input: &[u8]) -> Tried {
    let header = number(lot, input);
    let (line, exact) = lines::line_and_tables(&header);
    let tables = tables(lot, input, &header);
    let lens = (lines::tables_len(lot, &line, exact), lines::len(lot, line.outcomes_len()));
    let mut log = Lending::new(lot, "the log", lens.0);
    let mut outcomes = Lending::new(lot, "the outcomes", lens.1);
    let compared = lines::rehearse_into(&header, &tables, &mut log, &mut outcomes);
    let accepted = compared.number == 0;
    let accepted = accepted.then(|| of_outcomes(&line, header.w, header.marks, outcomes.ours.bytes()));
    tried(compared, header.n, accepted)
}

/// The header with what is refused of it replaced, of one bit.
fn accepted(header: &Header) -> Header {
    let line = lines::line_of((header.n, header.t, header.upper));
    let (n, t, upper) = (line.n() as u8, line.t(), line.upper());
    let sender = if line.has(header.sender) { header.sender } else { 1 };
    let marks = Marks(header.marks.0 & (u32::MAX >> (32 - n)));
    Header { n, t, upper, sender, value: header.value & 1, w: 0, marks }
}

/// A log of the header's line, and outcomes: those of the table's run, or any bytes, then changed or not.
pub fn logged(lot: &mut Lot, input: &[u8]) -> Logged {
    let Header { n, t, upper, sender, .. } = header(input);
    let line = lines::line_of((n, t, upper));
    let accepted = accepted(&header(input));
    let table = tables_of(lot, input, &accepted, line.table_len());
    let mut logged = Logged::of_run(&accepted, &table);
    if lot.one_in(4) {
        (logged.log, logged.outcomes) = (table, stretched(rest(input, HEADER_LEN), line.outcomes_len()));
    }
    while lot.one_in(2) {
        logged.change(lot, &line);
    }
    checker::resize(lot, &mut logged);
    Logged { numbers: (n, t, upper), sender, ..logged }
}

/// The sheet that is written of the header's line and its table; the input as a sheet where it would be too long.
pub fn written(lot: &mut Lot, input: &[u8]) -> Vec<u8> {
    let header = accepted(&header(input));
    let table = tables_of(lot, input, &header, lines::line_and_tables(&header).1);
    let bytes = sheet::write(&header, &[]);
    let mut written = vec![0; crate::writer::sheet_len(&bytes, &table).unwrap_or(0)];
    match crate::writer::write(&bytes, &table, &mut written) {
        Ok(_) => written,
        Err(_) => sheet(lot, input),
    }
}

/// What is told of a log by the checker's answer.
pub fn of_checked(logged: &Logged, answer: Result<Marks, Cause>) -> Option<Features> {
    answer.ok().map(|broke| of_broken(&lines::line_of(logged.numbers), logged.sender, broke))
}

fn check(lot: &mut Lot, input: &[u8]) -> Tried {
    let logged = logged(lot, input);
    tried(checker::check_of(&logged), logged.numbers.0, of_checked(&logged, logged.checked()))
}

/// An exchange of the header's line: the inputs first, half of the time only bits, then the table.
fn exchange(lot: &mut Lot, input: &[u8]) -> Tried {
    let Header { n, t, upper, marks, .. } = header(input);
    let line = lines::line_of((n, t, upper));
    let bytes = rest(input, HEADER_LEN);
    let [inputs_len, table_len, outcomes_len] =
        [line.n(), 2 * line.round_len(), line.outcomes_len()].map(|exact| lines::len(lot, exact));
    let mut inputs = stretched(bytes, inputs_len);
    if lot.one_in(2) {
        inputs.iter_mut().for_each(|byte| *byte &= 1);
    }
    let table = stretched(rest(bytes, inputs_len), table_len);
    let mut outcomes = Lending::new(lot, "the outcomes", outcomes_len);
    let compared = lines::exchange_into((n, t, upper), marks, &inputs, &table, &mut outcomes);
    let accepted = compared.number == 0;
    let accepted = accepted.then(|| of_outcomes(&line, 0, marks, outcomes.ours.bytes()));
    tried(compared, n, accepted)
}

fn open(input: &[u8]) -> Tried {
    let [n, t, upper, sender, own, value] = first(input);
    tried(stations::open_with((n, t, upper), sender, own, value), n, None)
}

fn ballot(input: &[u8]) -> Tried {
    let station = station(input);
    let accepted = station.ballot().ok().map(|ballot| of_ballot(&station, ballot));
    tried_of(stations::ballot_of(&station), &station, accepted)
}

/// A station and its row: mostly of n bytes, else what the input has.
fn station_and_row(lot: &mut Lot, input: &[u8]) -> (Station, Vec<u8>) {
    let station = station(input);
    let bytes = rest(input, STATION);
    let near = lines::len(lot, station.n.into());
    let len = if lot.one_in(16) { bytes.len() } else { near };
    (station, stretched(bytes, len))
}

fn advance(lot: &mut Lot, input: &[u8]) -> Tried {
    let (station, row) = station_and_row(lot, input);
    let accepted = station.take(&row).ok().map(|next| of_row(&station, &row, &next));
    tried_of(stations::advance_by(&station, &row), &station, accepted)
}

fn advance_lent(lot: &mut Lot, input: &[u8]) -> Tried {
    let (station, row) = station_and_row(lot, input);
    let accepted = station.take(&row).ok().map(|next| of_row(&station, &row, &next));
    let mut lent = Lending::holding(lot, "the station", &station.to_bytes());
    tried_of(stations::advance_lent_by(&row, &mut lent), &station, accepted)
}

fn offer(lot: &mut Lot, input: &[u8]) -> Tried {
    let (station, row) = station_and_row(lot, input);
    let accepted = station.offer(&row).ok().map(|offer| of_offer(&station, &offer));
    tried_of(offers::offer_by(&station, &row), &station, accepted)
}

/// A station, its row, and the bits that are handed in as the offer: half of the time drawn, else the offer of the row by
/// exclusive-or with the eight bytes behind it. It is the right one where these are 0 or aren't there.
fn station_row_and_bits(lot: &mut Lot, input: &[u8]) -> (Station, Vec<u8>, u64) {
    let (station, row) = station_and_row(lot, input);
    let behind = u64::from_le_bytes(first(rest(input, STATION + row.len())));
    let bits = match lot.one_in(2) {
        true => offers::answer(&station, &row) ^ behind,
        false => offers::drawn(lot, &station, &row),
    };
    (station, row, bits)
}

/// What is told of an acceptance whose station and row aren't refused: the offer, or what differs from it.
fn of_accepted(station: &Station, row: &[u8], bits: u64) -> Option<Features> {
    let offer = station.offer(row).ok()?;
    Some(match offers::answer(station, row) ^ bits {
        0 => of_offer(station, &offer),
        different => of_another_offer(station, different),
    })
}

fn accept(lot: &mut Lot, input: &[u8]) -> Tried {
    let (station, row, bits) = station_row_and_bits(lot, input);
    let features = of_accepted(&station, &row, bits);
    tried_of(offers::accept_by(&station, &row, bits), &station, features)
}

fn accept_lent(lot: &mut Lot, input: &[u8]) -> Tried {
    let (station, row, bits) = station_row_and_bits(lot, input);
    let features = of_accepted(&station, &row, bits);
    let mut lent = Lending::holding(lot, "the station", &station.to_bytes());
    tried_of(offers::accept_lent_by(&row, bits, &mut lent), &station, features)
}

fn result(input: &[u8]) -> Tried {
    let station = station(input);
    let accepted = station.result().ok().map(of_result);
    tried_of(stations::result_of(&station), &station, accepted)
}

#[cfg(test)]
mod tests {
    use super::*;
    use crate::ffi::planted;

    #[test]
    fn what_an_input_is() {
        assert_eq!(first::<4>(&[7, 8]), [7, 8, 0, 0]);
        assert_eq!(first::<1>(&[7, 8]), [7]);
        assert_eq!(rest(&[7, 8, 9], 2), [9]);
        assert_eq!(rest(&[7, 8, 9], 4), []);
        assert_eq!(stretched(&[7, 8], 5), [7, 8, 7, 8, 7]);
        assert_eq!(stretched(&[], 2), [255, 255]);
        let marks = Marks(0x0403_0201);
        let told = Header { n: 9, t: 8, upper: 7, sender: 6, value: 5, w: 4, marks };
        assert_eq!(header(&[9, 8, 7, 6, 5, 4, 3, 2, 1, 2, 3, 4]), told);
        assert_eq!(header(&[9, 8, 7, 6, 5, 4, 3, 2, 1, 2]).marks, Marks(0x0201));
    }

    #[test]
    fn a_planted_write_to_what_is_only_to_be_read() {
        let sheet = include_bytes!("../../../examples/b.sheet");
        let found = |call: Call| planted::found(0, || (call.give)(&mut Lot(1), sheet).compared);
        let found: Vec<Vec<&str>> = linked().into_iter().map(found).collect();
        let (row, table) = (vec!["the row"], vec!["the table"]);
        let (sheet, written) = (vec!["the sheet"], vec!["the table", "the header"]);
        let read = [sheet.clone(), sheet, written.clone(), written, vec!["the header"], table];
        let lines = [vec!["the outcomes", "the log"], vec!["the table", "the inputs"]];
        let offers = [0; 3].map(|_| row.clone());
        let stations = [vec![], vec![], row.clone(), row, vec![]];
        assert_eq!(found, [&read[..], &lines, &stations, &offers].concat());
    }

    /// A header whose t, sender, value, w and marks are refused.
    #[test]
    fn a_log_of_any_input() {
        let refused = header(&[4, 1, 1, 9, 7, 9, 0, 0, 0xf8, 1, 1, 1]);
        let header = Header { sender: 1, value: 1, w: 0, marks: Marks(8), ..refused };
        assert!(header.judge().is_ok());
        assert_eq!([2, 1].map(|t| accepted(&Header { t, ..refused })), [header; 2]);
        for seed in 0..40 {
            let logged = logged(&mut Lot(seed), &[32, 10, 10, 40]);
            assert_eq!((logged.numbers, logged.sender), ((32, 10, 10), 40));
        }
    }

    /// An input whose header is refused and one that is short give sheets that are accepted; one with too many ballots stays
    /// what it is, here refused.
    #[test]
    fn a_sheet_that_is_written() {
        let sheets = |input: &[u8]| [1, 2, 3, 4].map(|seed| sheet::tables(&written(&mut Lot(seed), input)));
        for input in [&[4, 0, 2, 9, 7, 9, 0, 0, 0xf8, 1, 1, 1, 1, 0][..], &[32, 10, 10, 1]] {
            let header = accepted(&header(input));
            assert!(sheets(input).into_iter().all(|read| read.is_ok_and(|(told, _)| told == header)));
        }
        let spoken = sheets(&[4, 0, 1, 4, 0, 0, 0, 0, 8, 0, 0, 0, 1, 0, 2]).map(|read| read.unwrap().1);
        assert!(spoken.iter().any(|table| table[12..16] == [1, 0, 2, 1]), "{spoken:?}");
        let too_many = [32, 10, 10, 1, 0, 0, 1, 0, 255, 255, 255, 255, 7];
        assert!(sheets(&too_many).iter().all(Result::is_err));
    }

    /// A station of four in round 1: the offer of its row is 2 1 2 0 0, then its ballot 1. Half of the time the bytes
    /// behind the row make the bits; without them the offer is right.
    #[test]
    fn an_offer_of_an_input() {
        let input = [4, 1, 1, 2, 3, 1, 0, 2, 0, 0, 0, 1, 0, 0];
        let bits = |behind: &[u8]| -> Vec<u64> {
            let input = [&input, behind].concat();
            let of = |seed| station_row_and_bits(&mut Lot(seed), &input);
            let of_four = (0..400).map(of).filter(|(_, row, _)| row.len() == 4);
            of_four.map(|(_, _, bits)| bits).collect()
        };
        let of_bits = |all: &[u64], wanted: [u8; 8]| {
            let wanted = u64::from_le_bytes(wanted);
            all.iter().filter(|&&bits| bits == wanted).count() * 5 / all.len()
        };
        let [without, behind, all] = [&[][..], &[0, 1], &[1, 2, 3, 4, 5, 6, 7, 8, 9]].map(bits);
        assert!(of_bits(&without, [2, 1, 2, 0, 0, 1, 0, 0]) >= 2);
        assert!(of_bits(&behind, [2, 0, 2, 0, 0, 1, 0, 0]) >= 2);
        assert!(of_bits(&all, [3, 3, 1, 4, 5, 7, 7, 8]) >= 2);
        assert!(without.iter().any(|bits| *bits != without[0]) && without.len() > 300);
    }

    /// Case A as it stands, and as a station in its first round.
    #[test]
    fn case_a() {
        let sheet = include_bytes!("../../../examples/a.sheet");
        let mut opened = *sheet;
        opened[5] = 1;
        opened[8] = 0;
        let numbers = |input: &[u8], seed: u64| {
            let of = |call: Call| (call.give)(&mut Lot(seed), input).compared;
            let all: Vec<Compared> = linked().into_iter().map(of).collect();
            assert!(all.iter().all(|compared| compared.difference.is_none()));
            all.iter().map(|compared| compared.number).collect::<Vec<u8>>()
        };
        let seeds = 0..40;
        let accepted = [0, 0, 0, 0, 0, 0, 0, 0, 0, 7, 7, 7, 7];
        assert!(seeds.clone().any(|seed| numbers(sheet, seed)[..13] == accepted));
        assert!(seeds.clone().any(|seed| numbers(sheet, seed) == [&accepted[..], &[7; 3]].concat()));
        assert!(seeds.clone().any(|seed| numbers(sheet, seed)[2..4] == [0, 8]));
        // no byte is left for a seed
        assert!(seeds.clone().any(|seed| numbers(sheet, seed)[4] == 16));
        assert!((0..400).any(|seed| numbers(sheet, seed)[6] == 8));
        assert!(seeds.clone().any(|seed| numbers(&opened, seed)[8..13] == [0, 0, 0, 0, 0]));
        assert!(seeds.clone().any(|seed| numbers(&opened, seed)[10..12] == [8, 8]));
        // of offer and acceptance
        assert!((0..400).any(|seed| numbers(&opened, seed)[8..] == [0; 8]));
        for (call, number) in (13..16).map(|call| (call, 8)).chain([(14, 17), (15, 17)]) {
            assert!((0..400).any(|seed| numbers(&opened, seed)[call] == number), "{call}, {number}");
        }
    }

    /// A width that makes long tables is seldom kept, one that is refused now and then; the number is one of the width.
    #[test]
    fn numbers_of_an_input() {
        let kept = |n: u8, w: u8| {
            let t = (n - 1) / 3;
            let of = |seed| number(&mut Lot(seed), &[n, t, t, 1, 0xff, w]);
            let (own, other): (Vec<Header>, Vec<Header>) =
                (0..2_000).map(of).partition(|header| header.w == w);
            let short = |header: &Header| lines::line_and_tables(header).1 <= 36_864;
            assert!(other.iter().all(|header| header.judge().is_ok() && short(header)));
            assert!(own.iter().all(|header| header.value == 0xff));
            own.len()
        };
        assert_eq!([(4, 0), (4, 1), (4, 8), (32, 1)].map(|(n, w)| kept(n, w)), [2_000; 4]);
        let (long, refused) = (kept(32, 8), [9, 255].map(|w| kept(4, w)));
        assert!(
            (1..40).contains(&long) && refused.iter().all(|many| (300..800).contains(many)),
            "{long} {refused:?}"
        );
    }
}
