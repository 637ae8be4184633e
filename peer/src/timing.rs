//! How long a call takes.

use std::hint::black_box;
use std::time::{Duration, Instant};

/// Nanoseconds of one call.
#[derive(Clone, Copy, PartialEq, Debug)]
pub struct Nanoseconds {
    pub least: f64,
    pub median: f64,
}

/// Gives the nanoseconds of so many calls.
pub type Sample<'a> = Box<dyn FnMut(u32) -> f64 + 'a>;

/// A call that can be timed. What it returns is not optimised away.
pub fn sample<'a, R>(mut call: impl FnMut() -> R + 'a) -> Sample<'a> {
    Box::new(move |calls| {
        let began = Instant::now();
        for _ in 0..calls {
            black_box(call());
        }
        began.elapsed().as_nanos() as f64
    })
}

/// Times a call over many samples.
pub fn time<R>(samples: usize, call: impl FnMut() -> R) -> Nanoseconds {
    let [timed] = time_in_turn(samples, [sample(call)]);
    timed
}

/// Times several calls, a sample of each after the other, so that a slow moment of the machine meets all. A
/// sample makes its call so often that the clock's own step does not count.
pub fn time_in_turn<const N: usize>(samples: usize, mut calls: [Sample; N]) -> [Nanoseconds; N] {
    let often = calls.each_mut().map(|call| calls_for(Duration::from_micros(200), call));
    let mut times: [Vec<f64>; N] = std::array::from_fn(|_| Vec::new());
    for _ in 0..samples.max(1) {
        for ((call, often), times) in calls.iter_mut().zip(often).zip(&mut times) {
            times.push(call(often) / f64::from(often));
        }
    }
    times.map(|mut times| {
        times.sort_by(f64::total_cmp);
        Nanoseconds { least: times[0], median: times[times.len() / 2] }
    })
}

/// How many calls take at least this long. Finding it also warms the caches.
fn calls_for(least: Duration, call: &mut Sample) -> u32 {
    let mut calls = 1;
    while call(calls) < least.as_nanos() as f64 && calls < 1 << 30 {
        calls *= 2;
    }
    calls
}

#[cfg(test)]
mod tests {
    use super::*;

    #[test]
    fn a_call_that_waits() {
        let timed = time(3, || std::thread::sleep(Duration::from_millis(2)));
        assert!(timed.least >= 2e6 && timed.least <= timed.median);
    }

    #[test]
    fn more_work_takes_longer() {
        let sum = |end: u64| (0..end).fold(0u64, |sum, i| black_box(sum ^ i));
        assert!(time(9, || sum(10_000)).least > time(9, || sum(100)).least);
    }
}
