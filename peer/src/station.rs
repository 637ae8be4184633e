//! One station as it runs in a bonder. Any bytes may be handed in as its state; they are judged.

use crate::ballot::{king_value, read_king, read_sender, sender_value};
use crate::exchange::Tally;
use crate::line::{require, Cause, Line, Part, BLANK, SILENCE};
use crate::outcome::Outcome;

/// The bytes of a station.
pub const STATION: usize = 10;

/// A station: its five numbers and its state.
#[derive(Clone, Copy, PartialEq, Eq, Debug)]
pub struct Station {
    pub n: u8,
    pub t: u8,
    pub upper: u8,
    pub sender: u8,
    pub own: u8,
    /// The round it is in, 1 to R; R+1 when it is done.
    pub round: u8,
    /// x; after the second round of an exchange, y.
    pub value: u8,
    pub z: u8,
    pub grade: u8,
    /// The rounds in which at least one ballot that it expected was garbled.
    pub count: u8,
}

/// What a station shows of a row before it gives up its old state: "the following state and its ballot (255 if that state is
/// done)".
#[derive(Clone, Copy, PartialEq, Eq, Debug)]
pub struct Offer {
    pub round: u8,
    pub value: u8,
    pub z: u8,
    pub grade: u8,
    pub count: u8,
    pub ballot: u8,
}

/// What a station answers when it is asked for its result.
#[derive(Clone, Copy, PartialEq, Eq, Debug)]
pub enum Answer {
    Running { round: u8 },
    Done(Outcome),
}

impl Station {
    /// Opens a station. Causes 2 to 5. Its z is blank and its grade 0 until they are set; its count is 0.
    pub fn open((n, t, upper): (u8, u8, u8), sender: u8, own: u8, value: u8) -> Result<Station, Cause> {
        let line = Line::new(n, t, upper)?;
        require(line.has(sender) && line.has(own), Cause::StationNumber)?;
        require(value <= 1, Cause::Value)?;
        Ok(Station { n, t, upper, sender, own, round: 1, value, z: BLANK, grade: 0, count: 0 })
    }

    pub fn from_bytes(bytes: [u8; STATION]) -> Station {
        let [n, t, upper, sender, own, round, value, z, grade, count] = bytes;
        Station { n, t, upper, sender, own, round, value, z, grade, count }
    }

    pub fn to_bytes(self) -> [u8; STATION] {
        let Station { n, t, upper, sender, own, round, value, z, grade, count } = self;
        [n, t, upper, sender, own, round, value, z, grade, count]
    }

    /// Judges the state: causes 2, 3, 4 and 7.
    fn judge(&self) -> Result<Line, Cause> {
        let line = Line::new(self.n, self.t, self.upper)?;
        require(line.has(self.sender) && line.has(self.own), Cause::StationNumber)?;
        let in_range = (1..=line.rounds() + 1).contains(&self.round);
        require(in_range && self.value <= 1 && self.z <= 2 && self.grade <= 2, Cause::StationState)?;
        require(self.count < self.round, Cause::StationState)?;
        Ok(line)
    }

    /// Judges the state of a station that must not be done: cause 7 too.
    fn judge_running(&self) -> Result<Line, Cause> {
        let line = self.judge()?;
        require(self.round <= line.rounds(), Cause::StationState)?;
        Ok(line)
    }

    /// Its ballot for the current round, 255 if it doesn't speak. Causes 2, 3, 4 and 7.
    pub fn ballot(&self) -> Result<u8, Cause> {
        let line = self.judge_running()?;
        Ok(match line.part(self.round) {
            Part::Sender if self.own == self.sender => self.value,
            Part::First => self.value,
            Part::Second => self.z,
            Part::King(king) if self.own == king => self.value,
            Part::Sender | Part::King(_) => SILENCE,
        })
    }

    /// The station after it took a row of n received bytes. Causes 2, 3, 4, 7 and 8.
    pub fn take(&self, row: &[u8]) -> Result<Station, Cause> {
        let line = self.judge_running()?;
        require(row.len() == line.n(), Cause::Length)?;
        let mut next = Station { round: self.round + 1, ..*self };
        let garbled = match line.part(self.round) {
            Part::Sender => {
                let heard = read_sender(row[usize::from(self.sender) - 1]);
                next.value = sender_value(heard);
                heard.is_garbled()
            }
            Part::First => {
                let tally = Tally::of_first(row);
                next.z = tally.z(&line, self.value);
                tally.garbled > 0
            }
            Part::Second => {
                let tally = Tally::of_second(row);
                (next.value, next.grade) = tally.graded(&line);
                tally.garbled > 0
            }
            Part::King(king) => {
                let heard = read_king(row[usize::from(king) - 1]);
                if self.grade == 0 {
                    next.value = king_value(heard, self.value);
                }
                heard.is_garbled()
            }
        };
        next.count += u8::from(garbled);
        Ok(next)
    }

    /// What an offer shows of this station, which has just taken a row: of these only a done one tells no ballot.
    fn shown(&self) -> Offer {
        let Station { round, value, z, grade, count, .. } = *self;
        Offer { round, value, z, grade, count, ballot: self.ballot().unwrap_or(SILENCE) }
    }

    /// What it would be after a row. It stays where it is, so that the same row makes the same offer again. Causes 2, 3, 4, 7
    /// and 8.
    pub fn offer(&self, row: &[u8]) -> Result<Offer, Cause> {
        Ok(self.take(row)?.shown())
    }

    /// The station after the row, if this is the offer that it makes of the row. Causes 2, 3, 4, 7 and 8, then 17.
    pub fn accept(&self, row: &[u8], offer: &Offer) -> Result<Station, Cause> {
        let next = self.take(row)?;
        require(next.shown() == *offer, Cause::Offer)?;
        Ok(next)
    }

    /// Running with its round, or done with its outcome. Causes 2, 3, 4 and 7.
    pub fn result(&self) -> Result<Answer, Cause> {
        let line = self.judge()?;
        if self.round <= line.rounds() {
            return Ok(Answer::Running { round: self.round });
        }
        Ok(Answer::Done(Outcome::new(self.value, self.grade, self.count)))
    }
}
