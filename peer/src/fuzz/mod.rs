//! A fuzz of the verified implementation: bytes mutated from a pool are given to each of its calls and to its
//! programs, and the answers compared with this implementation's. An input that makes an answer of a kind not
//! seen before joins the pool, so that the fuzz finds its way past the refusals.

mod audit;
mod calls;
mod features;
mod mutate;
mod pool;
mod program;
mod seeds;

use std::path::Path;
use std::rc::Rc;
use std::time::{Duration, Instant};

use crate::compare::report::{self, Found};
use crate::lot::Lot;
use calls::Call;
use pool::Pool;
use seeds::SEEDS;

/// The names of the programs that are given inputs too.
pub const PROGRAMS: [&str; 4] = ["agree", "rewrite", "audit", "seeds"];
/// So many turns must have brought every number that a call can answer.
const ENOUGH: u64 = 200_000;
/// The time between two lines of progress.
const BETWEEN: Duration = Duration::from_secs(5);

/// When a fuzz ends.
#[derive(Clone, Copy, Debug, PartialEq)]
pub enum Until {
    Turns(u64),
    Seconds(u64),
}

impl Until {
    /// A number of turns, or of seconds with an s behind it.
    pub fn new(word: &str) -> Option<Until> {
        match word.strip_suffix('s') {
            Some(seconds) => seconds.parse().ok().map(Until::Seconds),
            None => word.parse().ok().map(Until::Turns),
        }
    }

    fn reached(self, turns: u64, began: Instant) -> bool {
        match self {
            Until::Turns(most) => turns >= most,
            Until::Seconds(most) => began.elapsed() >= Duration::from_secs(most),
        }
    }
}

/// A fuzz, the same for the same seed and number of turns.
pub struct Fuzz {
    seed: u64,
    turns: u64,
    calls: Vec<Call>,
    found: Vec<Found>,
    pool: Pool,
}

impl Fuzz {
    /// Every exported call, and the programs in the order of [`PROGRAMS`]. An error where one isn't there.
    pub fn new(seed: u64, [agree, rewrite, audit, seeds]: [&Path; 4]) -> Result<Fuzz, String> {
        let mut calls = calls::linked();
        calls.push(program::agree(agree)?);
        calls.push(program::rewrite(rewrite)?);
        calls.push(audit::audit(audit)?);
        calls.push(program::seeds(seeds)?);
        Ok(Fuzz::of(seed, calls, &SEEDS))
    }

    fn of(seed: u64, calls: Vec<Call>, seeds: &[&[u8]]) -> Fuzz {
        let found = calls.iter().map(|call| Found::new(call.name, call.numbers)).collect();
        Fuzz { seed, turns: 0, calls, found, pool: Pool::new(seeds) }
    }

    /// Makes turns. Differences are said on standard error at once, with what goes on meanwhile.
    pub fn run(&mut self, until: Until) {
        let began = Instant::now();
        let mut said = began;
        while !until.reached(self.turns, began) {
            self.turn();
            if said.elapsed() >= BETWEEN {
                self.say_progress();
                said = Instant::now();
            }
        }
    }

    fn say_progress(&self) {
        let (turns, different) = (self.turns, report::different(&self.found));
        let signatures = self.pool.signatures();
        eprintln!("peer fuzz: {turns} turns, {signatures} signatures, {different} inputs with a difference");
    }

    /// One input, given to the calls.
    fn turn(&mut self) {
        let mut lot = Lot(Lot(self.seed).word().wrapping_add(self.turns));
        let input = self.pool.input(self.turns, &mut lot);
        self.turns += 1;
        for place in 0..self.calls.len() {
            if lot.one_in(self.calls[place].one_in) {
                self.give(place, &mut lot, &input);
            }
        }
    }

    fn give(&mut self, place: usize, lot: &mut Lot, input: &Rc<[u8]>) {
        let call = &self.calls[place];
        let tried = (call.give)(lot, input);
        self.found[place].count(&tried.compared, || format!("peer fuzz {} {}", self.seed, self.turns));
        self.pool.keep(call.shape, (place, tried.compared.number, tried.features), input);
    }

    fn enough(&self) -> bool {
        self.turns >= ENOUGH
    }

    /// How many calls fail.
    pub fn failed(&self) -> usize {
        report::faults(&self.found, self.enough()).len()
    }

    /// How many inputs were answered by each number, and the pool; then the faults, then a count of the calls.
    pub fn report(&self) -> String {
        let head = format!("seed {}, {} turns; inputs by refusal number\n", self.seed, self.turns);
        let (signatures, bytes) = (self.pool.signatures(), self.pool.bytes());
        let pool = format!("pool: {signatures} signatures, the shortest input of each; {bytes} bytes\n");
        head + &report::table(&self.found) + &pool + &report::closing(&self.found, self.enough())
    }
}

#[cfg(test)]
mod tests {
    use super::calls::Tried;
    use super::features::of_sheet;
    use super::pool::Shape;
    use super::*;
    use crate::compare::lent::{difference, Lending, Lent, Reading};
    use crate::compare::reader;
    use crate::compare::report::{Compared, NUMBERS};
    use crate::line::Cause;
    use crate::sheet;
    use std::cell::RefCell;

    /// A reader that is wrong where a sheet with at least so many chained records is accepted.
    fn planted(records: usize) -> Call {
        Call::new("planted", Shape::Sheet, 1, &[0, 1], move |_, input| {
            let read = sheet::records(input);
            let wrong = read.as_ref().is_ok_and(|(_, chained)| chained.len() >= records);
            let number = read.map_or_else(Cause::number, |_| 0);
            let difference = wrong.then(|| "planted\n".to_string());
            Tried { compared: Compared { number, difference }, features: of_sheet(input) }
        })
    }

    /// From a header alone, without a record. As many turns find it again, one fewer don't.
    #[test]
    fn a_planted_difference_is_found() {
        let fresh = || Fuzz::of(1, vec![planted(3)], &[SEEDS[2]]);
        let mut fuzz = fresh();
        while fuzz.failed() == 0 && fuzz.turns < 60_000 {
            fuzz.turn();
        }
        assert!(fuzz.report().ends_with("\nplanted: 1 inputs with a difference\n0 passed, 1 failed\n"));
        let mut again = fresh();
        again.run(Until::Turns(fuzz.turns - 1));
        assert_eq!(again.failed(), 0);
        again.run(Until::Turns(fuzz.turns));
        assert_eq!(again.report(), fuzz.report());
    }

    /// This implementation's reader stands for the verified one too. Each answer is counted here as well.
    fn itself(counts: &Rc<RefCell<[u64; NUMBERS]>>) -> Call {
        let counts = counts.clone();
        Call::new("itself", Shape::Sheet, 1, &reader::NUMBERS, move |lot, input| {
            let len = reader::tables_len(lot, input);
            let mut table = Lending::new(lot, "the table", len);
            let read = |lent: &mut Lent| sheet::read(input, lent.bytes()).map_or_else(Cause::number, |_| 0);
            let (number, again) = (read(&mut table.ours), read(&mut table.theirs));
            counts.borrow_mut()[usize::from(number)] += 1;
            let difference = difference(number, again, &[&table], &[&Reading::new("the sheet", input)]);
            Tried { compared: Compared { number, difference }, features: of_sheet(input) }
        })
    }

    #[test]
    fn nothing_is_found_where_nothing_differs() {
        let counts = Rc::new(RefCell::new([0; NUMBERS]));
        let mut fuzz = Fuzz::of(1, vec![itself(&counts)], &SEEDS);
        fuzz.run(Until::Turns(5_000));
        let report = fuzz.report();
        let line: Vec<&str> =
            report.lines().nth(2).expect("a line for the call").split_whitespace().collect();
        let numbers: Vec<u64> = line[1..].iter().map(|word| word.parse().expect("a number")).collect();
        assert_eq!((line[0], numbers[0], &numbers[1..]), ("itself", 5_000, &counts.borrow()[..]));
        assert!(fuzz.failed() == 0 && report.ends_with("\n1 passed, 0 failed\n"), "{report}");
    }

    #[test]
    fn the_same_seed_finds_the_same() {
        let report = |seed: u64| {
            let mut fuzz = Fuzz::of(seed, calls::linked(), &SEEDS);
            fuzz.run(Until::Turns(300));
            assert_eq!(fuzz.failed(), 0);
            fuzz.report().split_once('\n').expect("lines").1.to_string()
        };
        assert_eq!(report(1), report(1));
        assert_ne!(report(1), report(2));
    }

    #[test]
    fn when_it_ends() {
        assert_eq!(Until::new("12"), Some(Until::Turns(12)));
        assert_eq!(Until::new("12s"), Some(Until::Seconds(12)));
        assert_eq!(["", "s", "-1", "12 s", "12m"].map(Until::new), [None; 5]);
        let now = Instant::now();
        assert_eq!([11, 12, 13].map(|turns| Until::Turns(12).reached(turns, now)), [false, true, true]);
        assert_eq!([0, u64::MAX].map(|seconds| Until::Seconds(seconds).reached(9, now)), [true, false]);
    }
}
