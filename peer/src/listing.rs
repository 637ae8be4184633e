//! The listing: a run's outcomes as text, or the refusal. The listings of the runs that seeds give to a header.

use std::fmt::Write;
use std::ops::RangeInclusive;

use crate::generator;
use crate::line::{Cause, Header, Line};
use crate::outcome::{outcomes, OUTCOME};
use crate::rehearsal::rehearse;
use crate::sheet;

/// "prints the listings for seeds 1 to 100"
const SEEDS: RangeInclusive<u32> = 1..=100;

/// An accepted run.
pub struct Run {
    pub header: Header,
    pub line: Line,
    /// What its tables are generated from, if they are.
    pub seed: Option<u32>,
    /// The bits' logs one after another.
    pub log: Vec<u8>,
    pub outcomes: Vec<u8>,
}

impl Run {
    /// Rehearses with these tables.
    pub fn new(header: Header, tables: &[u8]) -> Result<Run, Cause> {
        let (line, width) = (header.judge()?, header.width()?);
        let (mut log, mut outcomes) = (vec![0; line.tables_len(width)], vec![0; line.outcomes_len()]);
        rehearse(&header, tables, &mut log, &mut outcomes)?;
        Ok(Run { header, line, seed: None, log, outcomes })
    }

    /// Rehearses with the tables that a seed gives.
    pub fn generated(header: Header, seed: u32) -> Result<Run, Cause> {
        let run = Run::new(header, &generator::tables(&header, seed)?)?;
        Ok(Run { seed: Some(seed), ..run })
    }

    /// One bit's run alone. Its log is a table of it, since what bad stations say is copied.
    pub fn of_bit(&self, bit: u8) -> Run {
        let log = &self.log[self.line.bit_range(bit)];
        Run::new(self.header.of_bit(bit), log).expect("a bit of an accepted run")
    }
}

/// Reads a sheet and rehearses it. The buffers have their lengths, so cause 8 cannot arise.
pub fn run(bytes: &[u8]) -> Result<Run, Cause> {
    let (header, tables) = sheet::tables(bytes)?;
    Run::new(header, &tables)
}

/// Reads a sheet, keeps its header and rehearses with the tables that a seed gives. The causes are the reader's, then 16.
pub fn generated(bytes: &[u8], seed: u32) -> Result<Run, Cause> {
    let (header, _) = sheet::records(bytes)?;
    Run::generated(header, seed)
}

/// The listing of a sheet, a newline after every line.
pub fn listing(bytes: &[u8]) -> String {
    run(bytes).map_or_else(refusal, |run| accepted(&run))
}

/// What the program `seeds` prints of a sheet.
pub fn listings(bytes: &[u8]) -> String {
    all_seeds(bytes).unwrap_or_else(refusal)
}

/// The listings of a sheet's header for all seeds, one after another. Every cause but 8.
pub fn all_seeds(bytes: &[u8]) -> Result<String, Cause> {
    let (header, _) = sheet::records(bytes)?;
    SEEDS.map(|seed| Run::generated(header, seed).map(|run| accepted(&run))).collect()
}

/// The one line of a sheet that is refused.
pub fn refusal(cause: Cause) -> String {
    format!("refused {}\n", cause.number())
}

/// The listing of an accepted run.
pub fn accepted(run: &Run) -> String {
    let Header { n, t, upper, sender, .. } = run.header;
    let mut text = format!("agree {n} {t} {upper} {sender} {}\n", run.line.rounds());
    for (station, outcome) in run.line.stations().zip(outcomes(&run.outcomes)) {
        let fields = match outcome.is_bad() {
            true => ["-"; OUTCOME].join(" "),
            false => outcome.to_bytes().map(|byte| byte.to_string()).join(" "),
        };
        writeln!(text, "{station} {fields}").expect("a string takes any text");
    }
    text
}
