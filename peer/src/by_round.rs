//! The checker for all stations at once, round by round, as quick as safe Rust makes it. It gives what `check` gives.

use crate::ballot::{read_first, read_second, read_sender, sender_value};
use crate::check::Judged;
use crate::exchange::{graded_of_all, note_garbled, write_outcomes, z_of_all, PerStation};
use crate::line::{Cause, Header, Line, Marks, Part, SILENCE, STATIONS};
use crate::outcome::OUTCOME;
use crate::rehearsal::Stations;

/// As many bytes of the log as the largest line's row has, from a row's start on. Those beyond the row aren't used: so
/// many at once are quicker than n.
fn row(log: &[u8], start: usize) -> PerStation {
    let rest = &log[start..];
    rest.first_chunk().copied().unwrap_or_else(|| {
        let mut row = [SILENCE; STATIONS];
        row[..rest.len()].copy_from_slice(rest);
        row
    })
}

/// One more for each receiver that hears the byte that is wanted of it.
fn count(counts: &mut PerStation, row: &PerStation, wanted: &PerStation) {
    for ((count, byte), wanted) in counts.iter_mut().zip(row).zip(wanted) {
        *count += u8::from(byte == wanted);
    }
}

/// The stations, and who of them broke the rules so far.
struct Checking<'a> {
    line: Line,
    log: &'a [u8],
    stations: Stations<'a>,
    /// 255 at the line's stations, 0 beyond.
    within: PerStation,
    broke: u32,
}

impl Checking<'_> {
    /// Looks at each station's row of a round. How many stations keep to their ballot, 0 or 1, and say it to all; the rows
    /// of those that broke the rules, now or before, are taken one by one. No other row can have a garbled ballot.
    fn listen(&mut self, round: u8, ballots: &PerStation, mut take: impl FnMut(&PerStation)) -> [u8; 2] {
        let mut alike = [0; 2];
        let starts = (self.line.place(round, 1, 1)..).step_by(self.line.n());
        for (start, (from, &ballot)) in starts.zip((0..self.line.n()).zip(ballots)) {
            let row = row(self.log, start);
            if self.broke >> from & 1 == 1 || self.differs(&row, ballot) {
                self.broke |= 1 << from;
                take(&row);
            } else {
                alike[0] += u8::from(ballot == 0);
                alike[1] += u8::from(ballot == 1);
            }
        }
        alike
    }

    /// Whether a byte of the row is another than the ballot.
    fn differs(&self, row: &PerStation, ballot: u8) -> bool {
        row.iter().zip(&self.within).fold(0, |bits, (byte, within)| bits | (byte ^ ballot) & within) != 0
    }

    /// The first round of an exchange.
    fn first(&mut self, round: u8) {
        let x = self.stations.value;
        let (mut equal, mut garbled) = ([0; STATIONS], [0; STATIONS]);
        let alike = self.listen(round, &x, |row| {
            count(&mut equal, row, &x);
            note_garbled(&mut garbled, row, read_first);
        });
        self.stations.count(&garbled);
        let equal = std::array::from_fn(|to| equal[to] + alike[usize::from(x[to])]);
        self.stations.z = z_of_all(&self.line, &x, &equal);
    }

    /// The second round of an exchange.
    fn second(&mut self, round: u8) {
        let (mut zeros, mut ones, mut garbled) = ([0; STATIONS], [0; STATIONS], [0; STATIONS]);
        let ballots = self.stations.z;
        let alike = self.listen(round, &ballots, |row| {
            count(&mut zeros, row, &[0; STATIONS]);
            count(&mut ones, row, &[1; STATIONS]);
            note_garbled(&mut garbled, row, read_second);
        });
        self.stations.count(&garbled);
        let [zeros, ones] = [zeros.map(|many| many + alike[0]), ones.map(|many| many + alike[1])];
        (self.stations.value, self.stations.grade) = graded_of_all(&self.line, &zeros, &ones);
    }

    /// The round of the sender or of a king.
    fn of_one(&mut self, round: u8, part: Part) {
        let ballots = self.stations.ballots(part);
        self.listen(round, &ballots, |_| ());
        let start = self.line.place(round, 1, 1);
        self.stations.hear(part, &self.log[start..][..self.line.round_len()]);
    }

    fn round(&mut self, round: u8) {
        match self.line.part(round) {
            Part::First => self.first(round),
            Part::Second => self.second(round),
            part => self.of_one(round, part),
        }
    }
}

/// The stations that broke the rules. Causes 2, 3, 4 and 8.
pub fn check_by_round(
    numbers: (u8, u8, u8),
    sender: u8,
    log: &[u8],
    outcomes: &[u8],
) -> Result<Marks, Cause> {
    let Judged { line, .. } = Judged::new(numbers, sender, log, outcomes)?;
    let (n, t, upper) = numbers;
    // no value but the first byte that it says can be the sender's
    let value = sender_value(read_sender(log[line.place(1, sender, 1)]));
    let header = Header { n, t, upper, sender, value, w: 1, marks: Marks(0) };
    let within = std::array::from_fn(|place| if place < line.n() { 255 } else { 0 });
    let mut checking = Checking { line, log, stations: Stations::opened(line, &header), within, broke: 0 };
    (1..=line.rounds()).for_each(|round| checking.round(round));

    let mut ends = [0; OUTCOME * STATIONS];
    write_outcomes(&line, header.marks, &checking.stations.ends(), &mut ends);
    let ends = line.stations().zip(outcomes.chunks_exact(OUTCOME).zip(ends.chunks_exact(OUTCOME)));
    let other = Marks::of(ends.filter(|(_, (logged, end))| logged != end).map(|(station, _)| station));
    Ok(Marks(checking.broke | other.0))
}
