//! The graded exchange (graded consensus): what a station makes of its two rows, the same for
//! every receiver of a round at once, and the exchange had alone.

use crate::ballot::{read_first, read_second, Ballot};
use crate::line::{require, Cause, Line, Marks, BLANK, STATIONS};
use crate::outcome::{Outcome, BAD, OUTCOME};

/// A byte for each station. Places beyond n are not used.
pub type PerStation = [u8; STATIONS];

/// How many ballots of a row of n count for 0, for 1 and for neither value.
#[derive(Clone, Copy, PartialEq, Eq, Debug, Default)]
pub struct Tally {
    pub zeros: u8,
    pub ones: u8,
    pub neither: u8,
    /// How many of those that count for neither were garbled.
    pub garbled: u8,
}

impl Tally {
    /// The tally of the first round: "a byte other than 0 or 1 now counts for neither value".
    pub fn of_first(row: &[u8]) -> Tally {
        Tally::of(row, read_first)
    }

    /// The tally of the second round, where such a byte is read as blank, and "blanks count for neither".
    pub fn of_second(row: &[u8]) -> Tally {
        Tally::of(row, read_second)
    }

    fn of(row: &[u8], read: impl Fn(u8) -> Ballot) -> Tally {
        let mut tally = Tally::default();
        for &byte in row {
            let ballot = read(byte);
            match ballot {
                Ballot::Bit(0) => tally.zeros += 1,
                Ballot::Bit(_) => tally.ones += 1,
                Ballot::Blank | Ballot::Silence | Ballot::Garbled => tally.neither += 1,
            }
            tally.garbled += u8::from(ballot.is_garbled());
        }
        tally
    }

    /// Step 2 for x, 0 or 1.
    pub fn z(&self, line: &Line, x: u8) -> u8 {
        z_of(line, x, if x == 0 { self.zeros } else { self.ones })
    }

    /// Steps 4 and 5: y, and how well it is backed.
    pub fn graded(&self, line: &Line) -> (u8, u8) {
        graded_of(line, self.zeros, self.ones)
    }
}

/// Step 2: z is x if at least n−T ballots equal x, otherwise blank.
fn z_of(line: &Line, x: u8, equal: u8) -> u8 {
    if equal >= line.quorum() {
        x
    } else {
        BLANK
    }
}

/// Steps 4 and 5, by the zeros and ones: y is 1 if the ones exceed the zeros, "equal counts now give 0".
fn graded_of(line: &Line, zeros: u8, ones: u8) -> (u8, u8) {
    let (y, backing) = if ones > zeros { (1, ones) } else { (0, zeros) };
    let grade = if backing >= line.full_quorum() {
        2
    } else if backing >= line.quorum() {
        1
    } else {
        0
    };
    (y, grade)
}

/// For each receiver, how many of a round's n·n bytes to it are the one that is `wanted` of it.
fn count(line: &Line, said: &[u8], wanted: &PerStation) -> PerStation {
    let mut counts = [0; STATIONS];
    for from_one in said.chunks_exact(line.n()) {
        for ((count, &ballot), &byte) in counts.iter_mut().zip(from_one).zip(wanted) {
            *count += u8::from(ballot == byte);
        }
    }
    counts
}

/// Steps 1 and 2 at every receiver: each one's z from the first round's n·n bytes. A byte other than 0 or 1 equals
/// no good station's x.
pub fn hear_first(line: &Line, said: &[u8], x: &PerStation) -> PerStation {
    z_of_all(line, x, &count(line, said, x))
}

/// Step 2 at every receiver, by how many ballots equal its x.
pub fn z_of_all(line: &Line, x: &PerStation, equal: &PerStation) -> PerStation {
    std::array::from_fn(|station| z_of(line, x[station], equal[station]))
}

/// Steps 3 to 5 at every receiver: each one's y and grade from the second round's n·n bytes.
pub fn hear_second(line: &Line, said: &[u8]) -> (PerStation, PerStation) {
    graded_of_all(line, &count(line, said, &[0; STATIONS]), &count(line, said, &[1; STATIONS]))
}

/// Steps 4 and 5 at every receiver, by its zeros and ones.
pub fn graded_of_all(line: &Line, zeros: &PerStation, ones: &PerStation) -> (PerStation, PerStation) {
    let (mut y, mut grade) = ([0; STATIONS], [0; STATIONS]);
    for station in 0..line.n() {
        (y[station], grade[station]) = graded_of(line, zeros[station], ones[station]);
    }
    (y, grade)
}

/// Writes the n·n bytes of a round: a good station's ballot to all, a bad one's bytes from the table.
pub fn speak(line: &Line, marks: Marks, ballots: &PerStation, table: &[u8], said: &mut [u8]) {
    let n = line.n();
    let rows = said.chunks_exact_mut(n).zip(table.chunks_exact(n));
    for ((to_all, from_table), station) in rows.zip(line.stations()) {
        if marks.bad(station) {
            to_all.copy_from_slice(from_table);
        } else {
            to_all.fill(ballots[usize::from(station) - 1]);
        }
    }
}

/// Notes each receiver that gets a garbled ballot in a row of n bytes.
pub fn note_garbled(noted: &mut PerStation, from_one: &[u8], read: impl Fn(u8) -> Ballot) {
    for (noted, &byte) in noted.iter_mut().zip(from_one) {
        *noted |= u8::from(read(byte).is_garbled());
    }
}

/// One for each receiver that gets at least one garbled ballot in these rows, which are those of whom it expects one.
pub fn garbled(line: &Line, expected: &[u8], read: impl Fn(u8) -> Ballot) -> PerStation {
    let mut noted = [0; STATIONS];
    expected.chunks_exact(line.n()).for_each(|from_one| note_garbled(&mut noted, from_one, &read));
    noted
}

/// The counts with one more round.
pub fn counted(counts: &PerStation, garbled: &PerStation) -> PerStation {
    std::array::from_fn(|station| counts[station] + garbled[station])
}

/// What the stations end with. What stands at a bad station's place is never used.
pub struct Ends {
    /// The bit, or the number, that each decides.
    pub value: PerStation,
    pub grade: PerStation,
    pub count: PerStation,
}

/// Writes each station's outcome.
pub fn write_outcomes(line: &Line, marks: Marks, ends: &Ends, outcomes: &mut [u8]) {
    for (outcome, station) in outcomes.chunks_exact_mut(OUTCOME).zip(line.stations()) {
        let at = usize::from(station) - 1;
        let good = Outcome::new(ends.value[at], ends.grade[at], ends.count[at]).to_bytes();
        outcome.copy_from_slice(if marks.bad(station) { &BAD } else { &good });
    }
}

/// The graded exchange had alone. Causes 2, 3, 5, 6 and 8; a refusal leaves the outcomes as they were.
pub fn alone(
    (n, t, upper): (u8, u8, u8),
    marks: Marks,
    inputs: &[u8],
    table: &[u8],
    outcomes: &mut [u8],
) -> Result<(), Cause> {
    let line = Line::new(n, t, upper)?;
    if inputs.len() == line.n() {
        let bits = line.stations().zip(inputs).all(|(i, &input)| marks.bad(i) || input <= 1);
        require(bits, Cause::Value)?;
    }
    marks.within(&line)?;
    require(inputs.len() == line.n(), Cause::Length)?;
    require(table.len() == 2 * line.round_len(), Cause::Length)?;
    require(outcomes.len() == line.outcomes_len(), Cause::Length)?;

    let mut x = [0; STATIONS];
    x[..line.n()].copy_from_slice(inputs);
    let mut buffer = [0; STATIONS * STATIONS];
    let said = &mut buffer[..line.round_len()];
    let (first, second) = table.split_at(line.round_len());
    speak(&line, marks, &x, first, said);
    let z = hear_first(&line, said, &x);
    let garbled_first = garbled(&line, said, read_first);
    speak(&line, marks, &z, second, said);
    let (value, grade) = hear_second(&line, said);
    let count = counted(&garbled_first, &garbled(&line, said, read_second));
    write_outcomes(&line, marks, &Ends { value, grade, count }, outcomes);
    Ok(())
}
