//! How a station ends, in one bit or in the number of all bits: four bytes of the outcomes.

use std::ops::Range;

/// The bytes of a station's outcome.
pub const OUTCOME: usize = 4;
/// A bad station's outcome.
pub const BAD: [u8; OUTCOME] = [255; OUTCOME];

/// A station's outcome, its bytes in their order.
#[derive(Clone, Copy, PartialEq, Eq, Debug)]
pub struct Outcome {
    pub value: u8,
    pub grade: u8,
    pub flag: u8,
    /// The rounds in which at least one ballot that it expected was garbled; of a number those of the bit that has most.
    pub count: u8,
}

impl Outcome {
    /// "A bad station is told by grade 255, since 255 can be a recipe."
    pub fn is_bad(&self) -> bool {
        self.grade == 255
    }

    /// With the flag that the grade gives.
    pub fn new(value: u8, grade: u8, count: u8) -> Outcome {
        Outcome { value, grade, flag: flag(grade), count }
    }

    pub fn from_bytes([value, grade, flag, count]: [u8; OUTCOME]) -> Outcome {
        Outcome { value, grade, flag, count }
    }

    pub fn to_bytes(self) -> [u8; OUTCOME] {
        let Outcome { value, grade, flag, count } = self;
        [value, grade, flag, count]
    }
}

/// The flag is 1 when the grade is below 2.
pub fn flag(grade: u8) -> u8 {
    u8::from(grade < 2)
}

/// Where a station's outcome stands.
pub fn place(station: u8) -> Range<usize> {
    let end = OUTCOME * usize::from(station);
    end - OUTCOME..end
}

/// The outcomes of all stations, from the first on.
pub fn outcomes(bytes: &[u8]) -> impl Iterator<Item = Outcome> + '_ {
    let whole = |bytes: &[u8]| bytes.try_into().expect("an outcome's bytes");
    bytes.chunks_exact(OUTCOME).map(move |bytes| Outcome::from_bytes(whole(bytes)))
}

/// One station's outcome.
pub fn outcome(bytes: &[u8], station: u8) -> Outcome {
    outcomes(&bytes[place(station)]).next().expect("a station's outcome")
}
