//! The checker of logs: which stations broke the rules, by a log and outcomes of any maker.

use crate::line::{require, Cause, Line, Marks};
use crate::outcome::outcome;
use crate::station::{Answer, Station};

/// A log and outcomes, once they are judged.
pub(crate) struct Judged<'a> {
    pub line: Line,
    sender: u8,
    log: &'a [u8],
    outcomes: &'a [u8],
}

impl<'a> Judged<'a> {
    /// Causes 2, 3, 4 and 8.
    pub fn new(
        (n, t, upper): (u8, u8, u8),
        sender: u8,
        log: &'a [u8],
        outcomes: &'a [u8],
    ) -> Result<Judged<'a>, Cause> {
        let line = Line::new(n, t, upper)?;
        require(line.has(sender), Cause::StationNumber)?;
        require(log.len() == line.table_len(), Cause::Length)?;
        require(outcomes.len() == line.outcomes_len(), Cause::Length)?;
        Ok(Judged { line, sender, log, outcomes })
    }

    /// "no value of its own, with the rows it received, makes it send its logged bytes and end with its logged
    /// outcome".
    fn broke(&self, own: u8) -> bool {
        ![0, 1].iter().any(|&value| self.follows(own, value))
    }

    /// Whether a station that is opened with this value and takes its rows of the log sends the log's bytes to
    /// every station and ends with its outcome.
    fn follows(&self, own: u8, value: u8) -> bool {
        let numbers = (self.line.n() as u8, self.line.t(), self.line.upper());
        let mut station = Station::open(numbers, self.sender, own, value).expect("a station of the line");
        for round in 1..=self.line.rounds() {
            let ballot = station.ballot().expect("a running station");
            if self.line.stations().any(|to| self.byte(round, own, to) != ballot) {
                return false;
            }
            let row: Vec<u8> = self.line.stations().map(|from| self.byte(round, from, own)).collect();
            station = station.take(&row).expect("a row of n bytes");
        }
        station.result() == Ok(Answer::Done(outcome(self.outcomes, own)))
    }

    fn byte(&self, round: u8, from: u8, to: u8) -> u8 {
        self.log[self.line.place(round, from, to)]
    }
}

/// The stations that broke the rules. Causes 2, 3, 4 and 8.
pub fn check(numbers: (u8, u8, u8), sender: u8, log: &[u8], outcomes: &[u8]) -> Result<Marks, Cause> {
    let judged = Judged::new(numbers, sender, log, outcomes)?;
    Ok(Marks::of(judged.line.stations().filter(|&own| judged.broke(own))))
}
