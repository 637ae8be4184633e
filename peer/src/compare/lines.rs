//! The calls on whole lines compared: the rehearsal and the exchange had alone.

use super::input::Told;
use super::lent::{difference, Lending, Reading};
use super::report::Compared;
use crate::exchange::alone;
use crate::ffi;
use crate::line::{Cause, Header, Line, Marks};
use crate::lot::Lot;
use crate::rehearsal;

/// The numbers that the rehearsal can answer.
pub const REHEARSE: [u8; 8] = [0, 2, 3, 4, 5, 6, 8, 15];
/// The numbers that the exchange had alone can answer.
pub const EXCHANGE: [u8; 6] = [0, 2, 3, 5, 6, 8];

fn number(answer: Result<(), Cause>) -> u8 {
    answer.map_or_else(Cause::number, |()| 0)
}

/// A header of one bit of any line that is accepted, or one that is spoilt.
pub fn header(lot: &mut Lot) -> Header {
    header_of(lot, 32)
}

/// The same of a line of at most so many stations, before it is spoilt.
pub fn header_of(lot: &mut Lot, most: u8) -> Header {
    let mut header = if lot.one_in(2) { lot.header(most) } else { lot.header_near_thresholds(most).0 };
    if lot.one_in(4) {
        spoil(lot, &mut header);
        while lot.one_in(2) {
            spoil(lot, &mut header);
        }
    }
    header
}

/// A header of a number whose tables are mostly short, of a line of at most so many stations, accepted or spoilt.
pub fn numbered(lot: &mut Lot, most: u8) -> Header {
    let mut header = header_of(lot, most);
    if lot.one_in(2) {
        header = lot.numbered_short(&header);
    }
    if lot.one_in(12) {
        spoil_number(lot, &mut header);
    }
    header
}

/// Changes w or the number, mostly to one that is refused or nearly so.
pub fn spoil_number(lot: &mut Lot, header: &mut Header) {
    let byte = lot.byte();
    match lot.below(3) {
        0 => header.w = lot.pick(&[9, 10, 128, 255, byte]),
        1 => header.w = lot.pick(&[0, 1, header.w.wrapping_sub(1), header.w.wrapping_add(1)]),
        _ => {
            let above = 1u8.checked_shl(header.w.max(1).into()).unwrap_or(0);
            header.value = lot.pick(&[above, above.wrapping_sub(1), above.wrapping_add(1), 255, byte]);
        }
    }
}

/// Changes one of a header's numbers, mostly to one that is refused.
pub fn spoil(lot: &mut Lot, header: &mut Header) {
    let byte = lot.byte();
    match lot.below(7) {
        0 => header.n = lot.pick(&[0, 33, 255, header.n.wrapping_sub(1), byte]),
        1 => header.t = lot.pick(&[header.upper.wrapping_add(1), header.t.wrapping_add(1), byte]),
        2 => {
            header.upper =
                lot.pick(&[header.n / 2, header.upper.wrapping_add(1), header.t.wrapping_sub(1), byte])
        }
        3 => (header.n, header.t, header.upper) = lot.edge_numbers(),
        4 => header.sender = lot.pick(&[0, header.n.wrapping_add(1), header.n, byte]),
        5 => header.value = lot.pick(&[2, 255, byte]),
        _ => header.marks.0 ^= lot.edge_marks(header.n),
    }
}

/// A length that is now and then another.
pub fn len(lot: &mut Lot, exact: usize) -> usize {
    match lot.below(60) {
        0 => exact + 1,
        1 => exact.saturating_sub(1),
        2 => lot.pick(&[0, 1, exact / 2, 2 * exact]),
        _ => exact,
    }
}

/// The line of a header's numbers, another one where they are refused.
pub fn line_of((n, t, upper): (u8, u8, u8)) -> Line {
    Line::new(n, t, upper).unwrap_or_else(|_| Line::new(4, 1, 1).expect("a line"))
}

/// The line of a header's numbers, and the bytes of its tables; of one bit where w is refused.
pub fn line_and_tables(header: &Header) -> (Line, usize) {
    let line = line_of((header.n, header.t, header.upper));
    (line, header.width().map_or(line.table_len(), |width| line.tables_len(width)))
}

/// The length of a number's tables or logs, now and then another: seldom one bit's.
pub fn tables_len(lot: &mut Lot, line: &Line, exact: usize) -> usize {
    if lot.one_in(60) {
        line.table_len()
    } else {
        len(lot, exact)
    }
}

pub fn rehearse(lot: &mut Lot) -> Compared {
    let header = numbered(lot, 32);
    let (line, exact) = line_and_tables(&header);
    let [table, log] = [tables_len(lot, &line, exact), tables_len(lot, &line, exact)];
    let outcomes = len(lot, line.outcomes_len());
    let table = lot.ballots(&line, table);
    let mut log = Lending::new(lot, "the log", log);
    let mut outcomes = Lending::new(lot, "the outcomes", outcomes);
    rehearse_into(&header, &table, &mut log, &mut outcomes)
}

/// A run rehearsed by both into lent buffers.
pub fn rehearse_into(header: &Header, table: &[u8], log: &mut Lending, outcomes: &mut Lending) -> Compared {
    let mut read = Reading::new("the table", table);
    let ours = rehearsal::rehearse(header, table, log.ours.bytes(), outcomes.ours.bytes());
    let theirs = ffi::rehearse(header, read.handed(), log.theirs.handed(), outcomes.theirs.handed());
    let number = number(ours);
    let differs = difference(number, theirs, &[log, outcomes], &[&read]);
    let lengths = [log.theirs.bytes().len(), outcomes.theirs.bytes().len()].map(|len| len as u64);
    let told = |what: String| {
        let told = Told::new(&what).header(header).bytes("table", table);
        told.number("log length", lengths[0]).number("outcomes length", lengths[1]).text()
    };
    Compared { number, difference: differs.map(told) }
}

/// An input for each station, near a threshold or not; of a good station now and then one that is refused.
fn inputs(lot: &mut Lot, header: &Header, line: &Line) -> Vec<u8> {
    let most = lot.below(2) as u8;
    let others = lot.pick(&[line.n() as u64, 2 * u64::from(line.upper()) + 2, u64::from(line.t()) + 1]);
    let odd = lot.one_in(6);
    let input = |station: u8| {
        let off = lot.below(line.n() as u64) < others.min(line.n() as u64) / 2;
        let bit = most ^ u8::from(off);
        let any = lot.ballot();
        if header.marks.bad(station) || odd && lot.one_in(8) {
            any
        } else {
            bit
        }
    };
    line.stations().map(input).collect()
}

pub fn exchange(lot: &mut Lot) -> Compared {
    let header = header(lot);
    let numbers = (header.n, header.t, header.upper);
    let line = line_of(numbers);
    let mut inputs = inputs(lot, &header, &line);
    let inputs_len = len(lot, line.n());
    inputs.resize(inputs_len, lot.pick(&[0, 1, 2]));
    let table = len(lot, 2 * line.round_len());
    let table = lot.ballots(&line, table);
    let outcomes = len(lot, line.outcomes_len());
    let mut outcomes = Lending::new(lot, "the outcomes", outcomes);
    exchange_into(numbers, header.marks, &inputs, &table, &mut outcomes)
}

/// An exchange had alone by both, its outcomes into a lent buffer.
pub fn exchange_into(
    numbers: (u8, u8, u8),
    marks: Marks,
    inputs: &[u8],
    table: &[u8],
    outcomes: &mut Lending,
) -> Compared {
    let mut read = [Reading::new("the inputs", inputs), Reading::new("the table", table)];
    let number = number(alone(numbers, marks, inputs, table, outcomes.ours.bytes()));
    let [first, second] = read.each_mut().map(Reading::handed);
    let theirs = ffi::exchange(numbers, marks.0, first, second, outcomes.theirs.handed());
    let differs = difference(number, theirs, &[outcomes], &read.each_ref());
    let outcomes_len = outcomes.theirs.bytes().len() as u64;
    let told = |what: String| {
        let told = Told::new(&what).line(numbers).marks(marks).bytes("inputs", inputs);
        told.bytes("table", table).number("outcomes length", outcomes_len).text()
    };
    Compared { number, difference: differs.map(told) }
}
