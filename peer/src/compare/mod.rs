//! The verified implementation's calls compared with this one's answers, on inputs drawn by lot.

pub(crate) mod checker;
pub(crate) mod generator;
pub(crate) mod input;
pub(crate) mod lent;
pub(crate) mod lines;
pub(crate) mod offers;
pub(crate) mod reader;
pub(crate) mod report;
mod sheets;
pub(crate) mod stations;
mod whole;
pub(crate) mod writer;

use std::time::{Duration, Instant};

use crate::lot::Lot;
use report::{Compared, Found};

/// A call that is compared.
struct Call {
    name: &'static str,
    /// How many inputs it gets in each turn.
    inputs: u32,
    /// The numbers that it can answer.
    numbers: &'static [u8],
    compare: fn(&mut Lot) -> Compared,
}

const fn call(
    name: &'static str,
    inputs: u32,
    numbers: &'static [u8],
    compare: fn(&mut Lot) -> Compared,
) -> Call {
    Call { name, inputs, numbers, compare }
}

const CALLS: [Call; 20] = [
    call("read", 4, &reader::NUMBERS, reader::read),
    call("read_bit", 1, &reader::NUMBERS, reader::read_bit),
    call("sheet_len", 1, &writer::NUMBERS, writer::sheet_len),
    call("write", 1, &writer::NUMBERS, writer::write),
    call("read back", 1, &[0], writer::read_back),
    call("generate", 2, &generator::NUMBERS, generator::generate),
    call("generated back", 1, &[0], generator::generated_back),
    call("rehearse", 2, &lines::REHEARSE, lines::rehearse),
    call("check", 2, &checker::NUMBERS, checker::check),
    call("marks back", 1, &[0], checker::marks_back),
    call("exchange", 8, &lines::EXCHANGE, lines::exchange),
    call("open", 8, &stations::OPEN, stations::open),
    call("ballot", 16, &stations::ASK, stations::ballot),
    call("advance", 32, &stations::ADVANCE, stations::advance),
    call("advance_lent", 16, &stations::ADVANCE, stations::advance_lent),
    call("result", 16, &stations::ASK, stations::result),
    call("whole run", 1, &[0], whole::run),
    // last, so that all others draw the inputs that they draw without them
    call("offer", 16, &stations::ADVANCE, offers::offer),
    call("accept", 32, &offers::ACCEPT, offers::accept),
    call("accept_lent", 16, &offers::ACCEPT, offers::accept_lent),
];

/// So many turns must have brought every number that a call can answer.
const ENOUGH: u64 = 1_000;

/// The whole comparison. Turn q draws its inputs from seed + q, so that it can be had alone.
pub struct Comparison {
    seed: u64,
    turns: u64,
    found: Vec<Found>,
}

impl Comparison {
    /// Makes so many turns. Differences are said on standard error at once, with what goes on meanwhile.
    pub fn run(seed: u64, turns: u64) -> Comparison {
        let found = CALLS.iter().map(|call| Found::new(call.name, call.numbers)).collect();
        let mut comparison = Comparison { seed, turns, found };
        let mut said = Instant::now();
        for turn in 0..turns {
            comparison.turn(seed.wrapping_add(turn));
            if said.elapsed() >= Duration::from_secs(5) {
                let different = report::different(&comparison.found);
                eprintln!("peer compare: turn {turn} of {turns}, {different} inputs with a difference");
                said = Instant::now();
            }
        }
        comparison
    }

    fn turn(&mut self, seed: u64) {
        let mut lot = Lot(seed);
        for (call, found) in CALLS.iter().zip(&mut self.found) {
            for _ in 0..call.inputs {
                found.count(&(call.compare)(&mut lot), || format!("peer compare {seed} 1"));
            }
        }
    }

    /// How many calls fail.
    pub fn failed(&self) -> usize {
        report::faults(&self.found, self.turns >= ENOUGH).len()
    }

    /// A table of how many inputs were answered by each number, then the faults, then a count of the calls.
    pub fn report(&self) -> String {
        let head = format!("seed {}, {} turns; inputs by refusal number\n", self.seed, self.turns);
        head + &report::table(&self.found) + &report::closing(&self.found, self.turns >= ENOUGH)
    }
}

#[cfg(test)]
mod tests {
    use super::*;
    use crate::ffi::planted;

    /// For each buffer that a call may only read, before its first byte and at it.
    #[test]
    fn a_planted_write_to_what_is_only_to_be_read() {
        for call in &CALLS {
            let expected: &[&str] = match call.name {
                "read" | "read_bit" => &["the sheet"],
                "sheet_len" | "write" => &["the table", "the header"],
                "read back" => &["the table", "the header", "the sheet"],
                "generate" => &["the header"],
                "generated back" => &["the header", "the table", "the header"],
                "rehearse" => &["the table"],
                "check" => &["the outcomes", "the log"],
                "marks back" => &["the table", "the outcomes", "the log"],
                "exchange" => &["the table", "the inputs"],
                "advance" | "advance_lent" | "offer" | "accept" | "accept_lent" => &["the row"],
                "whole run" => &["the row"; 3],
                _ => &[],
            };
            for byte in [-1, 0] {
                let found = planted::found(byte, || (call.compare)(&mut Lot(1)));
                assert_eq!(found, expected, "{}, byte {byte}", call.name);
            }
        }
    }
}
