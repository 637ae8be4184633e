//! The line: stations, thresholds, rounds, marks, ballot bytes, and the causes of refusal.

use std::ops::Range;

use crate::number::Width;
use crate::outcome::OUTCOME;

/// The most stations a line can have.
pub const STATIONS: usize = 32;
/// The bytes of the largest run table of one bit: n 32, t 10, 36 rounds.
pub const LARGEST_TABLE: usize = 36_864;
/// The ballot of a station that stands behind neither value.
pub const BLANK: u8 = 2;
/// The byte of a station that says nothing.
pub const SILENCE: u8 = 255;

/// A cause of refusal, by the documents' numbers. They aren't given in this order: 15 comes right after 1, 16 right before 8.
#[derive(Clone, Copy, PartialEq, Eq, Debug)]
pub enum Cause {
    SheetForm = 1,
    StationCount,
    Thresholds,
    StationNumber,
    Value,
    MarkBeyond,
    StationState,
    Length,
    IndexBeyond,
    ReachedAgain,
    Record,
    FromUnmarked,
    Repeated,
    TooManyRecords,
    Width,
    Seed,
    Offer,
}

impl Cause {
    /// Every cause, lowest number first.
    pub const ALL: [Cause; 17] = [
        Cause::SheetForm,
        Cause::StationCount,
        Cause::Thresholds,
        Cause::StationNumber,
        Cause::Value,
        Cause::MarkBeyond,
        Cause::StationState,
        Cause::Length,
        Cause::IndexBeyond,
        Cause::ReachedAgain,
        Cause::Record,
        Cause::FromUnmarked,
        Cause::Repeated,
        Cause::TooManyRecords,
        Cause::Width,
        Cause::Seed,
        Cause::Offer,
    ];

    /// The documents' number.
    pub fn number(self) -> u8 {
        self as u8
    }

    /// The cause in words.
    pub fn words(self) -> &'static str {
        match self {
            Cause::SheetForm => {
                "the sheet's length is not 12 + 8k with k from 0 to 4,096, or a header handed in by itself is not \
                 of 12 bytes"
            }
            Cause::StationCount => "n is outside 1 to 32",
            Cause::Thresholds => "t is above T, or t + 2T is not below n",
            Cause::StationNumber => "the sender, or a station's own number, is outside 1 to n",
            Cause::Value => {
                "the value is 2 to the power w or above (w 0 stands for 1); or a single station's value, or an \
                 unmarked station's input to an exchange, is not 0 or 1"
            }
            Cause::MarkBeyond => "a mark stands beyond station n",
            Cause::StationState => {
                "a station's round is outside 1 to R + 1, its value above 1, its z or grade above 2, or its count \
                 of garbled rounds not below its round; or a ballot or row is wanted of a done station"
            }
            Cause::Length => {
                "a table, log, outcome, input, row or sheet to be written is not of its exact length"
            }
            Cause::IndexBeyond => "the chain reaches an index above k",
            Cause::ReachedAgain => "the chain reaches a record again",
            Cause::Record => {
                "a record's round is outside 1 to R, a station outside 1 to n, its bit not below w (w 0 stands for \
                 1), or its last byte not zero; or the bit asked for is not below w"
            }
            Cause::FromUnmarked => "a record is from a station that is not marked",
            Cause::Repeated => "an earlier record of the chain has the same bit, round, from and to",
            Cause::TooManyRecords => "more than 4,096 records are to be written",
            Cause::Width => "w is above 8",
            Cause::Seed => "the seed is 0",
            Cause::Offer => "the offer is not the one that this station and row give",
        }
    }
}

/// Refuses by `cause` unless `holds`.
pub fn require(holds: bool, cause: Cause) -> Result<(), Cause> {
    if holds {
        Ok(())
    } else {
        Err(cause)
    }
}

/// What a round is for.
#[derive(Clone, Copy, PartialEq, Eq, Debug)]
pub enum Part {
    /// Round 1: the sender speaks.
    Sender,
    /// The first round of an exchange: all send x.
    First,
    /// The second round of an exchange: all send z.
    Second,
    /// The round of this king, who sends its y.
    King(u8),
}

/// A line that the document allows. It can only be had through [`Line::new`].
#[derive(Clone, Copy, PartialEq, Eq, Debug)]
pub struct Line {
    n: u8,
    t: u8,
    upper: u8,
}

impl Line {
    /// Causes 2 and 3.
    pub fn new(n: u8, t: u8, upper: u8) -> Result<Line, Cause> {
        require((1..=32).contains(&n), Cause::StationCount)?;
        let sum = u16::from(t) + 2 * u16::from(upper);
        require(t <= upper && sum < u16::from(n), Cause::Thresholds)?;
        Ok(Line { n, t, upper })
    }

    pub fn n(&self) -> usize {
        usize::from(self.n)
    }

    pub fn t(&self) -> u8 {
        self.t
    }

    pub fn upper(&self) -> u8 {
        self.upper
    }

    /// n − T: as many equal ballots keep z from being blank, and give grade 1.
    pub fn quorum(&self) -> u8 {
        self.n - self.upper
    }

    /// n − t: as many equal ballots give grade 2.
    pub fn full_quorum(&self) -> u8 {
        self.n - self.t
    }

    /// R.
    pub fn rounds(&self) -> u8 {
        3 * self.t + 6
    }

    /// What round 1 to R is for.
    pub fn part(&self, round: u8) -> Part {
        match (round, round % 3) {
            (1, _) => Part::Sender,
            (_, 2) => Part::First,
            (_, 0) => Part::Second,
            _ => Part::King((round - 1) / 3),
        }
    }

    /// The bytes of one round: n·n.
    pub fn round_len(&self) -> usize {
        self.n() * self.n()
    }

    /// The bytes of one bit's table or log: R·n·n.
    pub fn table_len(&self) -> usize {
        usize::from(self.rounds()) * self.round_len()
    }

    /// The bytes of a number's tables or logs, one after another: w·R·n·n.
    pub fn tables_len(&self, width: Width) -> usize {
        width.count() * self.table_len()
    }

    /// The bytes of the outcomes.
    pub fn outcomes_len(&self) -> usize {
        OUTCOME * self.n()
    }

    /// Where the byte of this round stands in a bit's table, from one station to another.
    pub fn place(&self, round: u8, from: u8, to: u8) -> usize {
        let before = (usize::from(round) - 1) * self.n() + usize::from(from) - 1;
        before * self.n() + usize::from(to) - 1
    }

    /// A bit's part of a number's tables or logs: "one after another, bit 0 first".
    pub fn bit_range(&self, bit: u8) -> Range<usize> {
        let start = usize::from(bit) * self.table_len();
        start..start + self.table_len()
    }

    /// Where the bytes from bad stations stand in a bit's table, in its order.
    pub fn bad_places(self, marks: Marks) -> impl Iterator<Item = usize> {
        let rows = (1..=self.rounds()).flat_map(move |round| marks.stations().map(move |from| (round, from)));
        rows.flat_map(move |(round, from)| self.stations().map(move |to| self.place(round, from, to)))
    }

    /// What a station hears in a round, by a bit's log: its row.
    pub fn heard(&self, log: &[u8], round: u8, to: u8) -> Vec<u8> {
        self.stations().map(|from| log[self.place(round, from, to)]).collect()
    }

    /// The bytes of one round that come from one station.
    pub fn from_one<'a>(&self, station: u8, said: &'a [u8]) -> &'a [u8] {
        &said[(usize::from(station) - 1) * self.n()..][..self.n()]
    }

    /// Whether this is a station's number, 1 to n.
    pub fn has(&self, station: u8) -> bool {
        (1..=self.n).contains(&station)
    }

    /// The stations, 1 to n.
    pub fn stations(&self) -> impl Iterator<Item = u8> {
        1..=self.n
    }
}

/// The marks of the bad stations: bit i−1 for station i.
#[derive(Clone, Copy, PartialEq, Eq, Debug)]
pub struct Marks(pub u32);

impl Marks {
    /// Marks on these stations.
    pub fn of(stations: impl Iterator<Item = u8>) -> Marks {
        Marks(stations.fold(0, |marks, station| marks | 1 << (station - 1)))
    }

    /// Whether the station, 1 to 32, is bad.
    pub fn bad(self, station: u8) -> bool {
        self.0 >> (station - 1) & 1 == 1
    }

    /// f.
    pub fn count(self) -> u32 {
        self.0.count_ones()
    }

    /// The bad stations, lowest number first.
    pub fn stations(self) -> impl Iterator<Item = u8> {
        let mut rest = self.0;
        std::iter::from_fn(move || {
            let lowest = rest.trailing_zeros() as u8;
            rest &= rest.checked_sub(1)?;
            Some(lowest + 1)
        })
    }

    /// Cause 6: no mark may stand beyond the line's last station.
    pub fn within(self, line: &Line) -> Result<(), Cause> {
        let beyond = u64::from(self.0) >> line.n();
        require(beyond == 0, Cause::MarkBeyond)
    }
}

/// What a run is told, besides its tables.
#[derive(Clone, Copy, PartialEq, Eq, Debug)]
pub struct Header {
    pub n: u8,
    pub t: u8,
    pub upper: u8,
    pub sender: u8,
    /// The number that is sent.
    pub value: u8,
    /// How many bits the number has, as it is told: 0 stands for 1.
    pub w: u8,
    pub marks: Marks,
}

impl Header {
    /// Cause 15, then 2 to 6, the first that holds.
    pub fn judge(&self) -> Result<Line, Cause> {
        let width = self.width()?;
        let line = Line::new(self.n, self.t, self.upper)?;
        require(line.has(self.sender), Cause::StationNumber)?;
        require(width.holds(self.value), Cause::Value)?;
        self.marks.within(&line)?;
        Ok(line)
    }

    /// How many bits the number has. Cause 15.
    pub fn width(&self) -> Result<Width, Cause> {
        Width::new(self.w)
    }

    /// What one bit's broadcast is told: "all with the same marks and sender".
    pub fn of_bit(&self, bit: u8) -> Header {
        Header { value: self.value >> bit & 1, w: 1, ..*self }
    }
}
