//! What was found of each call, and how it is told.

use std::fmt::Write;

use crate::line::Cause;

/// The numbers of an answer: 0 where nothing is refused, 1 to 17 a cause.
pub const NUMBERS: usize = 1 + Cause::ALL.len();
/// So many differences of a call are shown, the others counted.
const SHOWN: u64 = 2;

/// One input compared.
pub struct Compared {
    /// The number that this implementation answers, 0 where nothing is refused.
    pub number: u8,
    /// What differs, and the input.
    pub difference: Option<String>,
}

/// What was found of a call.
pub struct Found {
    name: &'static str,
    /// The numbers that it can answer.
    numbers: &'static [u8],
    /// How many inputs were answered by each number.
    by_number: [u64; NUMBERS],
    different: u64,
}

impl Found {
    pub fn new(name: &'static str, numbers: &'static [u8]) -> Found {
        Found { name, numbers, by_number: [0; NUMBERS], different: 0 }
    }

    /// Counts an input. A difference is said on standard error at once, with the words that repeat it.
    pub fn count(&mut self, compared: &Compared, repeat: impl FnOnce() -> String) {
        self.by_number[usize::from(compared.number)] += 1;
        let Some(difference) = &compared.difference else { return };
        self.different += 1;
        if self.different <= SHOWN {
            eprintln!("{}: {difference}to repeat: {}", self.name, repeat());
        }
    }

    /// Why the call fails, if it does. With enough inputs every number that it can answer must have come.
    fn fault(&self, enough: bool) -> Option<String> {
        if self.different > 0 {
            return Some(format!("{}: {} inputs with a difference", self.name, self.different));
        }
        let missing = self.numbers.iter().find(|&&number| self.by_number[usize::from(number)] == 0);
        let missing = missing.filter(|_| enough)?;
        Some(format!("{}: no input was answered by {missing}", self.name))
    }
}

/// How many inputs have a difference.
pub fn different(all: &[Found]) -> u64 {
    all.iter().map(|found| found.different).sum()
}

/// Why calls fail, one line for each that does.
pub fn faults(all: &[Found], enough: bool) -> Vec<String> {
    all.iter().filter_map(|found| found.fault(enough)).collect()
}

/// A table of how many inputs were answered by each number.
pub fn table(all: &[Found]) -> String {
    let mut text = String::new();
    let mut line = |name: &str, inputs: &str, rest: &str| {
        writeln!(text, "{name:<15}{inputs:>9}{rest}").expect("a string takes any text");
    };
    let head = (0..NUMBERS).map(|number| format!("{number:>8}")).collect::<String>();
    line("call", "inputs", &head);
    for found in all {
        let inputs: u64 = found.by_number.iter().sum();
        let counts = found.by_number.map(|count| format!("{count:>8}")).concat();
        line(found.name, &inputs.to_string(), &counts);
    }
    text
}

/// The faults, then a count of the calls.
pub fn closing(all: &[Found], enough: bool) -> String {
    let faults = faults(all, enough);
    let lines: String = faults.iter().map(|fault| format!("{fault}\n")).collect();
    lines + &format!("{} passed, {} failed\n", all.len() - faults.len(), faults.len())
}

#[cfg(test)]
mod tests {
    use super::*;

    fn two() -> [Found; 2] {
        [Found::new("read", &[0, 13]), Found::new("open", &[0, 2])]
    }

    #[test]
    fn a_difference_fails_its_call() {
        let mut all = two();
        assert_eq!(closing(&all, false), "2 passed, 0 failed\n");
        let planted = Compared { number: 2, difference: Some("planted\n".to_string()) };
        all[1].count(&planted, || "planted".to_string());
        assert_eq!(different(&all), 1);
        assert_eq!(closing(&all, false), "open: 1 inputs with a difference\n1 passed, 1 failed\n");
    }

    #[test]
    fn a_number_that_never_came_fails_its_call() {
        let mut all = two();
        all.iter_mut().for_each(|found| found.by_number = [1; NUMBERS]);
        assert_eq!(closing(&all, true), "2 passed, 0 failed\n");
        all[0].by_number[13] = 0;
        assert_eq!(closing(&all, true), "read: no input was answered by 13\n1 passed, 1 failed\n");
        assert_eq!(closing(&all, false), "2 passed, 0 failed\n");
    }

    #[test]
    fn inputs_by_number() {
        let mut all = two();
        for number in [0, 13, 13] {
            all[0].count(&Compared { number, difference: None }, String::new);
        }
        let text = table(&all);
        let lines: Vec<Vec<&str>> = text.lines().map(|line| line.split_whitespace().collect()).collect();
        assert_eq!(lines[1][..3], ["read", "3", "1"]);
        assert_eq!(lines[1][15], "2");
    }
}
