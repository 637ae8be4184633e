//! What a station of a run offers, round by round, as text: to be laid beside what a bonder showed before a power cut.

use std::fmt::Write;

use crate::line::{BLANK, SILENCE};
use crate::listing::Run;
use crate::station::{Answer, Offer, Station};

/// Why a run has no offers of a station, in words.
fn fault(run: &Run, own: u8) -> Option<String> {
    match own {
        0 => Some("station 0: stations are numbered from 1".to_string()),
        _ if !run.line.has(own) => Some(format!("station {own} is beyond n {}", run.line.n())),
        _ if run.header.marks.bad(own) => Some(format!("station {own} is bad: it may show anything")),
        _ => None,
    }
}

/// A ballot byte, z too, in the words of the text form.
fn word(byte: u8) -> String {
    match byte {
        BLANK => "blank".to_string(),
        SILENCE => "silence".to_string(),
        _ => byte.to_string(),
    }
}

/// The line of one round: the row, the state that its offer shows, and the ballot then, or that the station is done.
fn line(round: u8, row: &[u8], offer: &Offer, done: bool) -> String {
    let row: String = row.iter().map(|&byte| format!(" {}", word(byte))).collect();
    let Offer { round: next, value, z, grade, count, ballot } = *offer;
    let last = if done { "done".to_string() } else { format!("ballot {}", word(ballot)) };
    format!(
        "round {round}: row{row}; offer round {next}, value {value}, z {}, grade {grade}, garbled {count}, {last}",
        word(z)
    )
}

/// The lines of a good station in one bit's run. Each offer is accepted.
fn of_bit(run: &Run, bit: u8, own: u8) -> Vec<String> {
    let (header, log) = (run.header.of_bit(bit), &run.log[run.line.bit_range(bit)]);
    let numbers = (header.n, header.t, header.upper);
    let mut station =
        Station::open(numbers, header.sender, own, header.value).expect("a station of the line");
    let mut lines = Vec::new();
    for round in 1..=run.line.rounds() {
        let row = run.line.heard(log, round, own);
        let offer = station.offer(&row).expect("a row of n bytes");
        station = station.accept(&row, &offer).expect("its own offer");
        lines.push(line(round, &row, &offer, matches!(station.result(), Ok(Answer::Done(_)))));
    }
    lines
}

/// What a good station offers in each round of a run, of each bit where there are several. An error in words where the
/// station isn't one of the run's good ones.
pub fn offers(run: &Run, own: u8) -> Result<String, String> {
    if let Some(fault) = fault(run, own) {
        return Err(fault);
    }
    let width = run.header.width().expect("an accepted run");
    let mut text = String::new();
    for bit in width.bits() {
        let begin = if width.count() > 1 { format!("bit {bit} ") } else { String::new() };
        for line in of_bit(run, bit, own) {
            writeln!(text, "{begin}{line}").expect("a string takes any text");
        }
    }
    Ok(text)
}
