//! What the program `audit` is asked for in words, and what it prints: a log and its outcomes, each in a file, checked.

use std::fs::{self, File};
use std::io::{self, Read};

use crate::check::check;
use crate::line::{Cause, Line, Marks, LARGEST_TABLE, STATIONS};
use crate::listing::refusal;
use crate::number::MOST_BITS;
use crate::outcome::OUTCOME;

/// What is said where the words are wrong.
pub const WANTED: &str =
    "wanted are n, t, T and the sender in decimal, the log's file and the outcomes' file";

/// What the words stand for.
pub struct Asked<'a> {
    n: u8,
    t: u8,
    upper: u8,
    sender: u8,
    log: &'a str,
    outcomes: &'a str,
}

/// A file that can't be opened or read, and why.
pub struct Unread<'a> {
    pub file: &'a str,
    pub error: io::Error,
}

impl<'a> Asked<'a> {
    /// None where a word is missing, superfluous or no decimal number.
    pub fn new(words: &'a [String]) -> Option<Asked<'a>> {
        let [n, t, upper, sender, log, outcomes] = words else { return None };
        let [n, t, upper, sender] = [decimal(n)?, decimal(t)?, decimal(upper)?, decimal(sender)?];
        Some(Asked { n, t, upper, sender, log, outcomes })
    }

    /// What the checker answers. The log's file is read first.
    pub fn checked(&self) -> Result<Result<Marks, Cause>, Unread<'a>> {
        let log = read(self.log, LARGEST_TABLE)?;
        let outcomes = read(self.outcomes, OUTCOME * STATIONS)?;
        Ok(check((self.n, self.t, self.upper), self.sender, &log, &outcomes))
    }

    /// How many bits' logs the log's file is as long as, if several: the checker keeps to one bit.
    pub fn several_bits(&self) -> Option<u64> {
        let line = Line::new(self.n, self.t, self.upper).ok()?;
        let (len, one) = (fs::metadata(self.log).ok()?.len(), line.table_len() as u64);
        Some(len / one).filter(|bits| len % one == 0 && (2..=u64::from(MOST_BITS)).contains(bits))
    }
}

/// A number of digits alone. One above 255 counts as 255, which is refused all the same.
fn decimal(word: &str) -> Option<u8> {
    let digits = !word.is_empty() && word.bytes().all(|byte| byte.is_ascii_digit());
    let more = |number: u8, digit: u8| number.saturating_mul(10).saturating_add(digit - b'0');
    digits.then(|| word.bytes().fold(0, more))
}

/// A file's bytes. Of one that is longer than any only one byte too many is read, which is refused all the same.
fn read(file: &str, longest: usize) -> Result<Vec<u8>, Unread<'_>> {
    let mut bytes = Vec::new();
    let most = longest as u64 + 1;
    match File::open(file).and_then(|opened| opened.take(most).read_to_end(&mut bytes)) {
        Ok(_) => Ok(bytes),
        Err(error) => Err(Unread { file, error }),
    }
}

/// The line of a checker's answer: `broke` and the stations, or the refusal.
pub fn line(answer: Result<Marks, Cause>) -> String {
    let broke = |marks: Marks| marks.stations().map(|station| format!(" {station}")).collect::<String>();
    answer.map_or_else(refusal, |marks| format!("broke{}\n", broke(marks)))
}

#[cfg(test)]
mod tests {
    use super::*;

    #[test]
    fn numbers_in_decimal() {
        let told = ["0", "7", "32", "007", "255", "256", "2550", "99999999999999999999999999"].map(decimal);
        assert_eq!(told, [0, 7, 32, 7, 255, 255, 255, 255].map(Some));
        assert_eq!(["", " 1", "1 ", "+1", "-1", "1.0", "0x1", "a", "١"].map(decimal), [None; 9]);
    }

    #[test]
    fn lines_of_answers() {
        let line = |marks: u32| line(Ok(Marks(marks)));
        assert_eq!([0, 1, 0x8000_0005].map(line), ["broke\n", "broke 1\n", "broke 1 3 32\n"]);
        assert_eq!(super::line(Err(Cause::Length)), "refused 8\n");
    }
}
