//! What a received byte was: "Reading a ballot must now say which it was". Each kind of round has a reading of its own.

use crate::line::{Part, BLANK, SILENCE};

/// What a received byte was in its round.
#[derive(Clone, Copy, PartialEq, Eq, Debug)]
pub enum Ballot {
    /// 0 or 1.
    Bit(u8),
    /// Only where the round has a meaning for it.
    Blank,
    /// Nothing came.
    Silence,
    /// "A byte is garbled if it is not 255 and its round has no meaning for it".
    Garbled,
}

impl Ballot {
    /// The bit, or another value for what is none.
    pub fn bit_or(self, other: u8) -> u8 {
        match self {
            Ballot::Bit(bit) => bit,
            Ballot::Blank | Ballot::Silence | Ballot::Garbled => other,
        }
    }

    pub fn is_garbled(self) -> bool {
        self == Ballot::Garbled
    }
}

/// Where only bits have a meaning.
fn bit(byte: u8) -> Ballot {
    match byte {
        0 | 1 => Ballot::Bit(byte),
        SILENCE => Ballot::Silence,
        _ => Ballot::Garbled,
    }
}

/// Round 1, from the sender: "blank is garbled outside the second round of an exchange", here and below.
pub fn read_sender(byte: u8) -> Ballot {
    bit(byte)
}

/// The first round of an exchange.
pub fn read_first(byte: u8) -> Ballot {
    bit(byte)
}

/// The second round of an exchange.
pub fn read_second(byte: u8) -> Ballot {
    match byte {
        BLANK => Ballot::Blank,
        _ => bit(byte),
    }
}

/// A king's round, from the king.
pub fn read_king(byte: u8) -> Ballot {
    bit(byte)
}

impl Part {
    /// What a byte was in a round of this kind.
    pub fn read(self, byte: u8) -> Ballot {
        match self {
            Part::Sender => read_sender(byte),
            Part::First => read_first(byte),
            Part::Second => read_second(byte),
            Part::King(_) => read_king(byte),
        }
    }
}

/// The sender's value: "a byte other than 0 or 1 is read as 0".
pub fn sender_value(heard: Ballot) -> u8 {
    heard.bit_or(0)
}

/// The new value at grade 0: "a king's unreadable ballot leaves a grade 0 station with its own y".
pub fn king_value(heard: Ballot, y: u8) -> u8 {
    heard.bit_or(y)
}
