//! Whole runs station by station and bit by bit: the verified station against the logs, and what its results make against
//! the outcomes.

use super::input::Told;
use super::lent::Reading;
use super::report::Compared;
use super::stations::result_values;
use crate::ffi::{self, Handed};
use crate::line::{Header, Line, SILENCE};
use crate::listing::Run;
use crate::lot::Lot;
use crate::outcome::{outcome, Outcome};
use crate::station::{Answer, Station};

/// One bit's run, and the log that this implementation makes of it.
struct Bit<'a> {
    header: Header,
    line: Line,
    log: &'a [u8],
}

impl Bit<'_> {
    /// What a station says to all in a round. None if it doesn't say the same to all.
    fn said(&self, round: u8, from: u8) -> Option<u8> {
        let row = &self.log[self.line.place(round, from, 1)..][..self.line.n()];
        row.iter().all(|byte| *byte == row[0]).then_some(row[0])
    }

    /// A station in this state.
    fn station(&self, own: u8, state: u64) -> Station {
        let Header { n, t, upper, sender, .. } = self.header;
        let [round, value, z, grade, count, ..] = state.to_le_bytes();
        Station { n, t, upper, sender, own, round, value, z, grade, count }
    }

    /// What goes otherwise by offer and acceptance than with the row taken, if anything does. The offer is made again, as after
    /// a cut, and its ballot is the log's in the next round.
    fn otherwise_offered(&self, station: &Station, heard: &mut Reading, next: u64) -> Option<&'static str> {
        let [offer, again] = [0, 1].map(|_| ffi::offer(station, heard.handed()));
        if offer != again {
            return Some("a new offer is another");
        }
        let last = station.round == self.line.rounds();
        let ballot = if last { Some(SILENCE) } else { self.said(station.round + 1, station.own) };
        if Some(offer) != ballot.map(|ballot| next | u64::from(ballot) << 40) {
            return Some("the offer is another");
        }
        if ffi::accept(station, heard.handed(), offer) != next {
            return Some("the station that accepts is another");
        }
        let mut lent = station.to_bytes();
        let refused = ffi::accept_lent(Handed::all(&mut lent), heard.handed(), offer);
        let other = refused != 0 || lent != self.station(station.own, next).to_bytes();
        other.then_some("the lent station that accepts is another")
    }

    /// Steps one good station through the whole run: its result at the end, or what goes otherwise than the log says.
    fn step_through(&self, own: u8, value: u8) -> Result<u64, String> {
        let Header { n, t, upper, sender, .. } = self.header;
        let at = |state: u64| self.station(own, state);
        let fault = |what: &str, round: u8| Err(format!("station {own}, round {round}: {what}"));
        let mut state = ffi::open((n, t, upper), sender, own, value);
        for round in 1..=self.line.rounds() {
            if ffi::refusal(state) != 0 {
                return fault("the station or its row is refused", round);
            }
            let station = at(state);
            if ffi::result(&station) != result_values(Answer::Running { round }) {
                return fault("the result is another", round);
            }
            if Some(ffi::ballot(&station)) != self.said(round, own).map(u64::from) {
                return fault("the ballot is another", round);
            }
            let mut heard = Reading::new("the row", &self.line.heard(self.log, round, own));
            state = ffi::advance(&station, heard.handed());
            let mut lent = station.to_bytes();
            let refused = ffi::advance_lent(Handed::all(&mut lent), heard.handed());
            let otherwise = self.otherwise_offered(&station, &mut heard, state);
            if let Some(changed) = heard.fault() {
                return fault(&changed, round);
            }
            if refused != 0 || lent != at(state).to_bytes() {
                return fault("the lent station is another", round);
            }
            if let Some(otherwise) = otherwise {
                return fault(otherwise, round);
            }
        }
        match ffi::refusal(state) {
            0 => Ok(ffi::result(&at(state))),
            _ => fault("the last row is refused", self.line.rounds()),
        }
    }
}

/// What a station's results make, one for each bit: their number, the smallest grade, a flag if any has one, the largest count.
/// None where one isn't done.
fn together(results: &[u64]) -> Option<Outcome> {
    let of_bit = |&result: &u64| match result.to_le_bytes() {
        [1, value, grade, flag, count, 0, 0, 0] => Some(Outcome { value, grade, flag, count }),
        _ => None,
    };
    let bits = results.iter().map(of_bit).collect::<Option<Vec<Outcome>>>()?;
    Some(Outcome {
        value: bits.iter().rev().fold(0, |number, bit| 2 * number + bit.value),
        grade: bits.iter().map(|bit| bit.grade).min()?,
        flag: u8::from(bits.iter().any(|bit| bit.flag == 1)),
        count: bits.iter().map(|bit| bit.count).max()?,
    })
}

/// Steps one good station through each bit of a run. What goes otherwise than its logs and its outcome say, if anything does.
fn fault_of(run: &Run, own: u8, lot: &mut Lot) -> Option<String> {
    let mut results = Vec::new();
    for (log, bit) in run.log.chunks_exact(run.line.table_len()).zip(0..) {
        let of_bit = Bit { header: run.header, line: run.line, log };
        let any = lot.below(2) as u8;
        let value = if own == run.header.sender { run.header.value >> bit & 1 } else { any };
        match of_bit.step_through(own, value) {
            Ok(result) => results.push(result),
            Err(what) => return Some(format!("bit {bit}, {what}")),
        }
    }
    let other = together(&results) != Some(outcome(&run.outcomes, own));
    other.then(|| format!("station {own}: the outcome is another"))
}

/// A run drawn by lot, each of its good stations stepped through it. At a station that isn't the sender the
/// value doesn't matter, so it is drawn too.
pub fn run(lot: &mut Lot) -> Compared {
    let (one_bit, _) = lot.header_near_thresholds(32);
    let header = if lot.one_in(4) { lot.numbered_short(&one_bit) } else { one_bit };
    let tables = lot.tables(&header);
    let run = Run::new(header, &tables).expect("an accepted run");
    let mut good = run.line.stations().filter(|&own| !header.marks.bad(own));
    let fault = good.find_map(|own| fault_of(&run, own, lot));
    let told = |what: String| Told::new(&what).header(&header).bytes("table", &tables).text();
    Compared { number: 0, difference: fault.map(told) }
}

#[cfg(test)]
mod tests {
    use super::*;

    #[test]
    fn results_put_together() {
        let done = |value, grade, flag, count| u64::from_le_bytes([1, value, grade, flag, count, 0, 0, 0]);
        let running = u64::from_le_bytes([0, 9, 0, 0, 0, 0, 0, 0]);
        let one = Outcome { value: 1, grade: 2, flag: 0, count: 4 };
        assert_eq!(together(&[done(1, 2, 0, 4)]), Some(one));
        let three = [done(0, 2, 0, 1), done(1, 0, 1, 7), done(1, 1, 1, 0)];
        assert_eq!(together(&three), Some(Outcome { value: 6, grade: 0, flag: 1, count: 7 }));
        assert_eq!([&[running][..], &[three[0], running]].map(together), [None; 2]);
    }
}
