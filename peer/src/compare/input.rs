//! An input in words, so that it can be given to the call again.

use std::fmt::Write;

use crate::line::{Header, Marks};
use crate::station::Station;

/// What differs, then the input, a line for each number and buffer.
pub struct Told(String);

impl Told {
    pub fn new(what: &str) -> Told {
        Told(format!("{what}\n"))
    }

    pub fn number(mut self, name: &str, number: impl Into<u64>) -> Told {
        writeln!(self.0, "  {name} {}", number.into()).expect("a string takes any text");
        self
    }

    /// A buffer's length and its bytes in hex, 32 a line.
    pub fn bytes(mut self, name: &str, bytes: &[u8]) -> Told {
        writeln!(self.0, "  {name}, {} bytes", bytes.len()).expect("a string takes any text");
        for (line, at) in bytes.chunks(32).zip((0..).step_by(32)) {
            let hex: String = line.iter().map(|byte| format!(" {byte:02x}")).collect();
            writeln!(self.0, "    {at:>5}:{hex}").expect("a string takes any text");
        }
        self
    }

    pub fn line(self, (n, t, upper): (u8, u8, u8)) -> Told {
        self.number("n", n).number("t", t).number("T", upper)
    }

    pub fn marks(self, marks: Marks) -> Told {
        self.number("marks", marks.0)
    }

    pub fn header(self, header: &Header) -> Told {
        let Header { n, t, upper, sender, value, w, marks } = *header;
        let told = self.line((n, t, upper)).number("sender", sender);
        told.number("value", value).number("w", w).marks(marks)
    }

    pub fn station(self, station: &Station) -> Told {
        let Station { n, t, upper, sender, own, round, value, z, grade, count } = *station;
        let told = self.line((n, t, upper)).number("sender", sender).number("own", own);
        let told = told.number("round", round).number("value", value).number("z", z);
        told.number("grade", grade).number("count", count)
    }

    pub fn text(self) -> String {
        self.0
    }
}
