//! Logs with their outcomes drawn by lot: as the rehearsal writes them, and as other makers might.

use crate::check::check;
use crate::line::{Cause, Header, Line, Marks};
use crate::lot::Lot;
use crate::outcome::{place, Outcome};
use crate::rehearsal::rehearse;
use crate::station::{Answer, Station};

/// What a checker is handed.
#[derive(Clone, PartialEq, Debug)]
pub struct Logged {
    pub numbers: (u8, u8, u8),
    pub sender: u8,
    pub log: Vec<u8>,
    pub outcomes: Vec<u8>,
}

impl Logged {
    /// What the rehearsal writes of an accepted run.
    pub fn of_run(header: &Header, table: &[u8]) -> Logged {
        let line = header.judge().expect("an accepted header");
        let (mut log, mut outcomes) = (vec![0; line.table_len()], vec![0; line.outcomes_len()]);
        rehearse(header, table, &mut log, &mut outcomes).expect("an accepted run");
        Logged { numbers: (header.n, header.t, header.upper), sender: header.sender, log, outcomes }
    }

    /// What the checker answers.
    pub fn checked(&self) -> Result<Marks, Cause> {
        check(self.numbers, self.sender, &self.log, &self.outcomes)
    }

    /// How a good station ends that takes its rows of the log.
    fn end(&self, line: &Line, own: u8) -> Outcome {
        let mut station = Station::open(self.numbers, self.sender, own, 0).expect("a station of the line");
        for round in 1..=line.rounds() {
            station = station.take(&line.heard(&self.log, round, own)).expect("a row of n bytes");
        }
        match station.result() {
            Ok(Answer::Done(outcome)) => outcome,
            answer => panic!("a station that isn't done: {answer:?}"),
        }
    }

    fn set_outcome(&mut self, station: u8, outcome: Outcome) {
        self.outcomes[place(station)].copy_from_slice(&outcome.to_bytes());
    }

    /// One round more or less in a station's count, with the rest of its outcome.
    fn miscount(&mut self, lot: &mut Lot, station: u8) {
        let count = &mut self.outcomes[place(station).end - 1];
        *count = count.wrapping_add(lot.pick(&[1, 255]));
    }

    /// Changes something in a log and outcomes of the line's lengths.
    pub fn change(&mut self, lot: &mut Lot, line: &Line) {
        let station = |lot: &mut Lot| 1 + lot.below(line.n() as u64) as u8;
        let (round, one, other) = (1 + lot.below(line.rounds().into()) as u8, station(lot), station(lot));
        let byte = lot.ballot();
        match lot.below(9) {
            0 | 1 => self.log[line.place(round, one, other)] = byte,
            2 => self.outcomes[lot.below(line.outcomes_len() as u64) as usize] = byte,
            3 => self.set_outcome(one, self.end(line, one)),
            4 => line.stations().for_each(|one| self.set_outcome(one, self.end(line, one))),
            5 => self.swap_rows(line, (round, one), (1 + lot.below(line.rounds().into()) as u8, other)),
            6 => self.row(line, round, one).fill(byte),
            7 => self.miscount(lot, one),
            _ => self.row(line, 1, self.sender).fill(byte),
        }
    }

    /// What a station says in a round.
    fn row(&mut self, line: &Line, round: u8, from: u8) -> &mut [u8] {
        let start = line.place(round, from, 1);
        &mut self.log[start..][..line.n()]
    }

    fn swap_rows(&mut self, line: &Line, (round, from): (u8, u8), (other_round, other): (u8, u8)) {
        let row = self.row(line, round, from).to_vec();
        let other_row = self.row(line, other_round, other);
        let there = other_row.to_vec();
        other_row.copy_from_slice(&row);
        self.row(line, round, from).copy_from_slice(&there);
    }
}

/// A log and outcomes of a line of at most so many stations: of a run or of any bytes, then changed or not.
pub fn draw(lot: &mut Lot, most: u8) -> Logged {
    let header = if lot.one_in(2) { lot.header(most) } else { lot.header_near_thresholds(most).0 };
    let line = header.judge().expect("an accepted header");
    let mut logged = Logged::of_run(&header, &lot.table(&line));
    if lot.one_in(8) {
        logged.log = lot.table(&line);
    }
    if lot.one_in(16) {
        logged.outcomes = lot.ballots(&line, line.outcomes_len());
    }
    while !lot.one_in(3) {
        logged.change(lot, &line);
    }
    logged
}
