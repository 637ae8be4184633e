//! The rehearsal of a number: a whole broadcast for each of its bits, every round's ballots into the bit's log, then the
//! outcomes of the number.

use crate::ballot::{king_value, read_first, read_king, read_second, read_sender, sender_value};
use crate::exchange::{counted, garbled, hear_first, hear_second, speak, write_outcomes, Ends, PerStation};
use crate::line::{require, Cause, Header, Line, Part, BLANK, SILENCE, STATIONS};

/// What the stations hold between two rounds. What stands at a bad station's place is never used.
pub(crate) struct Stations<'a> {
    line: Line,
    header: &'a Header,
    /// x; after the second round of an exchange, y.
    pub value: PerStation,
    pub z: PerStation,
    pub grade: PerStation,
    /// The rounds in which at least one ballot that it expected was garbled.
    count: PerStation,
}

impl<'a> Stations<'a> {
    /// Before the first round.
    pub fn opened(line: Line, header: &'a Header) -> Stations<'a> {
        let (zeros, z) = ([0; STATIONS], [BLANK; STATIONS]);
        Stations { line, header, value: zeros, z, grade: zeros, count: zeros }
    }

    /// What each station sends if it is good, 255 where it doesn't speak.
    pub fn ballots(&self, part: Part) -> PerStation {
        match part {
            Part::Sender => only(self.header.sender, self.header.value),
            Part::First => self.value,
            Part::Second => self.z,
            Part::King(king) => only(king, self.value[usize::from(king) - 1]),
        }
    }

    /// One more round for those to whom a ballot that they expected came garbled.
    pub fn count(&mut self, garbled: &PerStation) {
        self.count = counted(&self.count, garbled);
    }

    /// Who gets a garbled ballot in a round: "from all in exchange rounds, else from the sender or the king".
    fn garbled(&self, part: Part, said: &[u8]) -> PerStation {
        let line = &self.line;
        match part {
            Part::Sender => garbled(line, line.from_one(self.header.sender, said), read_sender),
            Part::First => garbled(line, said, read_first),
            Part::Second => garbled(line, said, read_second),
            Part::King(king) => garbled(line, line.from_one(king, said), read_king),
        }
    }

    /// Each station takes what was said to it in a round.
    pub fn hear(&mut self, part: Part, said: &[u8]) {
        self.count(&self.garbled(part, said));
        match part {
            Part::Sender => {
                let bytes = self.line.from_one(self.header.sender, said);
                for (x, &byte) in self.value.iter_mut().zip(bytes) {
                    *x = sender_value(read_sender(byte));
                }
            }
            Part::First => self.z = hear_first(&self.line, said, &self.value),
            Part::Second => (self.value, self.grade) = hear_second(&self.line, said),
            Part::King(king) => {
                let bytes = self.line.from_one(king, said);
                for ((value, &grade), &byte) in self.value.iter_mut().zip(&self.grade).zip(bytes) {
                    if grade == 0 {
                        *value = king_value(read_king(byte), *value);
                    }
                }
            }
        }
    }

    /// What they end with.
    pub fn ends(&self) -> Ends {
        Ends { value: self.value, grade: self.grade, count: self.count }
    }
}

/// One station speaks, the others are silent.
fn only(station: u8, ballot: u8) -> PerStation {
    let mut ballots = [SILENCE; STATIONS];
    ballots[usize::from(station) - 1] = ballot;
    ballots
}

/// One bit's broadcast into its log: what the stations end with.
fn broadcast(line: Line, header: &Header, table: &[u8], log: &mut [u8]) -> Ends {
    let mut stations = Stations::opened(line, header);
    let rounds = log.chunks_exact_mut(line.round_len()).zip(table.chunks_exact(line.round_len()));
    for ((said, from_table), round) in rounds.zip(1..) {
        let part = line.part(round);
        speak(&line, header.marks, &stations.ballots(part), from_table, said);
        stations.hear(part, said);
    }
    stations.ends()
}

impl Ends {
    /// What the stations end with, a bit put to those before it: "The garbled count is the largest of the bits' counts, the
    /// grade the smallest." A flag that any bit raises is raised by the smallest grade.
    fn with(self, bit: u8, of_bit: &Ends) -> Ends {
        Ends {
            value: std::array::from_fn(|at| self.value[at] | of_bit.value[at] << bit),
            grade: std::array::from_fn(|at| self.grade[at].min(of_bit.grade[at])),
            count: std::array::from_fn(|at| self.count[at].max(of_bit.count[at])),
        }
    }
}

/// Rehearses the broadcasts of a number, one bit after another. Causes 15, 2 to 6 and 8; a refusal leaves logs and outcomes as
/// they were.
pub fn rehearse(header: &Header, tables: &[u8], logs: &mut [u8], outcomes: &mut [u8]) -> Result<(), Cause> {
    let (line, width) = (header.judge()?, header.width()?);
    require(tables.len() == line.tables_len(width), Cause::Length)?;
    require(logs.len() == line.tables_len(width), Cause::Length)?;
    require(outcomes.len() == line.outcomes_len(), Cause::Length)?;

    let mut ends = Ends { value: [0; STATIONS], grade: [2; STATIONS], count: [0; STATIONS] };
    let parts = logs.chunks_exact_mut(line.table_len()).zip(tables.chunks_exact(line.table_len()));
    for ((log, table), bit) in parts.zip(width.bits()) {
        ends = ends.with(bit, &broadcast(line, &header.of_bit(bit), table, log));
    }
    write_outcomes(&line, header.marks, &ends, outcomes);
    Ok(())
}
