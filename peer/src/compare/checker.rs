//! The checker compared, and what it makes of the verified rehearsal's own logs.

use super::input::Told;
use super::lent::{fault, Lent, Reading};
use super::lines;
use super::report::Compared;
use super::stations::{compared, difference, word};
use super::writer::most;
use crate::ffi;
use crate::line::{Header, Marks};
use crate::logs::{self, Logged};
use crate::lot::Lot;

/// The numbers that the checker can answer.
pub const NUMBERS: [u8; 5] = [0, 2, 3, 4, 8];

/// A log and outcomes of any kind, mostly of a line's lengths and with its numbers.
fn drawn(lot: &mut Lot) -> Logged {
    let most = most(lot);
    let mut logged = logs::draw(lot, most);
    if lot.one_in(4) {
        spoil(lot, &mut logged);
    }
    resize(lot, &mut logged);
    logged
}

/// Other numbers, mostly ones that are refused.
fn spoil(lot: &mut Lot, logged: &mut Logged) {
    let (n, t, upper) = logged.numbers;
    let mut header = Header { n, t, upper, sender: logged.sender, value: 0, w: 0, marks: Marks(0) };
    lines::spoil(lot, &mut header);
    while lot.one_in(2) {
        lines::spoil(lot, &mut header);
    }
    logged.numbers = (header.n, header.t, header.upper);
    logged.sender = header.sender;
}

/// Other lengths now and then.
pub fn resize(lot: &mut Lot, logged: &mut Logged) {
    for buffer in [&mut logged.log, &mut logged.outcomes] {
        let len = lines::len(lot, buffer.len());
        buffer.resize(len, lot.byte());
    }
}

pub fn check(lot: &mut Lot) -> Compared {
    check_of(&drawn(lot))
}

/// A log and its outcomes checked by both.
pub fn check_of(logged: &Logged) -> Compared {
    let ours = word(logged.checked().map(|marks| marks.0.into()), 0);
    let (theirs, changed) = verified(logged.numbers, logged.sender, &logged.log, &logged.outcomes);
    compared(ours, difference(ours, theirs).or(changed), |what| told(what, logged))
}

/// Tells a log and its outcomes.
pub fn told(what: Told, logged: &Logged) -> Told {
    let told = what.line(logged.numbers).number("sender", logged.sender);
    told.bytes("log", &logged.log).bytes("outcomes", &logged.outcomes)
}

/// What the verified call answers, and what has changed that it may only read.
fn verified(numbers: (u8, u8, u8), sender: u8, log: &[u8], outcomes: &[u8]) -> (u64, Option<String>) {
    let mut read = [Reading::new("the log", log), Reading::new("the outcomes", outcomes)];
    let [first, second] = read.each_mut().map(Reading::handed);
    let answer = ffi::check(numbers, sender, first, second);
    (answer, fault(false, &[], &read.each_ref()))
}

/// A run rehearsed and then checked by the verified calls alone: its marks.
pub fn marks_back(lot: &mut Lot) -> Compared {
    let most = most(lot);
    let header = lot.header(most);
    let line = header.judge().expect("an accepted header");
    let table = lot.table(&line);
    let lent = [line.table_len(), line.outcomes_len()].map(|len| Lent::new(lot, len));
    let told = |what: String| Told::new(&what).header(&header).bytes("table", &table).text();
    Compared { number: 0, difference: not_marked(&header, &table, lent).map(told) }
}

/// What is wrong with the marks that come back, if anything is.
fn not_marked(header: &Header, table: &[u8], [mut log, mut outcomes]: [Lent; 2]) -> Option<String> {
    let Header { n, t, upper, sender, .. } = *header;
    let mut read = Reading::new("the table", table);
    let refused = ffi::rehearse(header, read.handed(), log.handed(), outcomes.handed());
    let (answer, changed) = verified((n, t, upper), sender, log.bytes(), outcomes.bytes());
    let marks = u64::from(header.marks.0);
    let other = refused != 0 || answer != marks;
    let other = other.then(|| format!("the run is refused by {refused}, or other marks: {answer:#x}"));
    read.fault().or(changed).or(other)
}
