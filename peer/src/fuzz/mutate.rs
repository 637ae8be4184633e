//! Small changes of an input, drawn by lot.

use std::ops::Range;

use crate::lot::Lot;
use crate::number::MOST_BITS;
use crate::sheet::{HEADER_LEN, RECORD_LEN};

/// No input gets longer. The longest sheet has 32,780 bytes.
pub const LONGEST_INPUT: usize = 40_000;

/// Bytes at the edges of what is allowed somewhere.
const EDGES: [u8; 13] = [0, 1, 2, 3, 8, 9, 11, 12, 31, 32, 33, 254, 255];

/// Changes an input once, or a few times. `other` is one to splice with.
pub fn mutate(lot: &mut Lot, input: &mut Vec<u8>, other: &[u8]) {
    change(lot, input, other);
    while lot.one_in(2) {
        change(lot, input, other);
    }
    input.truncate(LONGEST_INPUT);
}

fn change(lot: &mut Lot, input: &mut Vec<u8>, other: &[u8]) {
    match lot.below(15) {
        0 | 1 => at_one(lot, input, |lot, byte| byte ^ 1 << lot.below(8)),
        2 | 3 => at_one(lot, input, |lot, _| lot.pick(&EDGES)),
        4 => at_one(lot, input, |lot, _| lot.byte()),
        5 => at_one(lot, input, |lot, byte| byte.wrapping_add(lot.pick(&[1, 255]))),
        6 => insert(lot, input),
        7 => drop(input.drain(stretch(lot, input.len()))),
        8 => repeat(lot, input),
        9 => splice(lot, input, other),
        10 => input.truncate(len_within(lot, input.len())),
        11 | 12 => index(lot, input),
        13 => at_two(lot, input),
        _ => link(lot, input),
    }
}

/// A byte's place, often in the header, where most is judged.
fn place(lot: &mut Lot, len: usize) -> usize {
    let within = if lot.one_in(2) { len.min(HEADER_LEN) } else { len };
    lot.below(within as u64) as usize
}

/// Changes one byte, if there is one.
fn at_one(lot: &mut Lot, input: &mut [u8], other: impl Fn(&mut Lot, u8) -> u8) {
    if !input.is_empty() {
        let place = place(lot, input.len());
        input[place] = other(lot, input[place]);
    }
}

/// Gives a byte the content of another, as a count that is its round, or one more or less.
fn at_two(lot: &mut Lot, input: &mut [u8]) {
    if !input.is_empty() {
        let (to, from) = (place(lot, input.len()), place(lot, input.len()));
        input[to] = input[from].wrapping_add(lot.pick(&[0, 1, 255]));
    }
}

/// A length up to this one, often a sheet's.
fn len_within(lot: &mut Lot, most: usize) -> usize {
    let any = lot.below(most as u64 + 1) as usize;
    if lot.one_in(2) && any >= HEADER_LEN {
        place_of(1 + records_in(any))
    } else {
        any
    }
}

/// Some bytes of the input: a few, as many as some records have, or any number.
fn stretch(lot: &mut Lot, len: usize) -> Range<usize> {
    let start = len_within(lot, len);
    let few = 1 + lot.below(8) as usize;
    let rest = lot.below((len - start) as u64 + 1) as usize;
    let many = lot.pick(&[few, few, RECORD_LEN, RECORD_LEN, 16 * RECORD_LEN, rest]);
    start..(start + many).min(len)
}

fn insert(lot: &mut Lot, input: &mut Vec<u8>) {
    let (any, edge) = (lot.byte(), lot.pick(&EDGES));
    let byte = lot.pick(&[any, edge]);
    let many = lot.pick(&[1, 1, 2, RECORD_LEN, 12, 4_096]);
    let place = len_within(lot, input.len());
    input.splice(place..place, std::iter::repeat_n(byte, many));
}

/// Some bytes stand once more, or many times more.
fn repeat(lot: &mut Lot, input: &mut Vec<u8>) {
    let stretch = stretch(lot, input.len());
    let bytes = input[stretch.clone()].to_vec();
    let times = lot.pick(&[1, 1, 2, 16, 512]);
    let room = LONGEST_INPUT.saturating_sub(input.len());
    let more: Vec<u8> = bytes.iter().copied().cycle().take((bytes.len() * times).min(room)).collect();
    input.splice(stretch.end..stretch.end, more);
}

/// The beginning of one input, then the end of another, mostly from the same place on.
fn splice(lot: &mut Lot, input: &mut Vec<u8>, other: &[u8]) {
    let at = len_within(lot, input.len());
    let any = lot.below(other.len() as u64 + 1) as usize;
    let from = lot.pick(&[at, at, any]).min(other.len());
    input.truncate(at);
    input.extend(&other[from..]);
}

/// How many whole records a sheet of this length has.
fn records_in(len: usize) -> usize {
    len.saturating_sub(HEADER_LEN) / RECORD_LEN
}

/// Where a record stands.
fn place_of(record: usize) -> usize {
    HEADER_LEN + RECORD_LEN * (record - 1)
}

/// Where the next index of a record stands; of record 0, where the first index does.
fn place_of_next(record: usize) -> usize {
    if record == 0 {
        6
    } else {
        place_of(record) + 4
    }
}

/// Changes where the chain begins, or where it goes on from a record.
fn index(lot: &mut Lot, input: &mut [u8]) {
    let k = records_in(input.len());
    let record = lot.below(k as u64 + 1) as usize;
    let at = place_of_next(record);
    let any = lot.below(k as u64 + 1) as usize;
    let next = lot.pick(&[0, 1, any, any, record, record + 1, record + 1, k, k + 1, 4_096, 65_535]) as u16;
    if let Some(bytes) = input.get_mut(at..at + 2) {
        bytes.copy_from_slice(&next.to_le_bytes());
    }
}

/// Chains one record more behind a record or the header: a copy of one, mostly with another number in it, of any bit.
fn link(lot: &mut Lot, input: &mut Vec<u8>) {
    let k = records_in(input.len());
    if input.len() < HEADER_LEN || input.len() != place_of(k + 1) {
        return;
    }
    let copied = 1 + lot.below(k.max(1) as u64) as usize;
    let mut record = match input.get(place_of(copied)..place_of(copied + 1)) {
        Some(bytes) => bytes.to_vec(),
        None => vec![1; RECORD_LEN],
    };
    if !lot.one_in(4) {
        let (station, edge) = (1 + lot.below(u64::from(input[0].max(1))) as u8, lot.pick(&EDGES));
        record[lot.below(4) as usize] = lot.pick(&[station, edge]);
    }
    let at = place_of_next(lot.below(k as u64 + 1) as usize);
    record[4..6].copy_from_slice(&input[at..at + 2]);
    (record[6], record[7]) = (lot.below(u64::from(input[5].clamp(1, MOST_BITS))) as u8, 0);
    input[at..at + 2].copy_from_slice(&(k as u16 + 1).to_le_bytes());
    input.extend(record);
}

#[cfg(test)]
mod tests {
    use super::*;

    /// What so many mutations in a row make of an input.
    fn mutated(seed: u64, times: usize) -> Vec<Vec<u8>> {
        let mut lot = Lot(seed);
        let mut made: Vec<Vec<u8>> = vec![(0..44).collect()];
        for _ in 0..times {
            let mut input = made[made.len() - 1].clone();
            let other = made[lot.below(made.len() as u64) as usize].clone();
            mutate(&mut lot, &mut input, &other);
            made.push(input);
        }
        made
    }

    #[test]
    fn the_same_seed_makes_the_same() {
        assert!(mutated(3, 300) == mutated(3, 300));
        assert!(mutated(3, 300) != mutated(4, 300));
    }

    #[test]
    fn any_length_up_to_the_longest() {
        let mut lengths: Vec<usize> = Vec::new();
        for seed in 0..200 {
            lengths.extend(mutated(seed, 20).iter().map(Vec::len));
        }
        assert_eq!(*lengths.iter().max().unwrap(), LONGEST_INPUT);
        for few in [0, 1, HEADER_LEN, HEADER_LEN + RECORD_LEN, 43, 45] {
            assert!(lengths.contains(&few), "no input of {few} bytes");
        }
    }

    #[test]
    fn every_byte_can_change() {
        let base: Vec<u8> = (0..44).collect();
        let mut changed = [false; 44];
        for seed in 0..2_000 {
            let mut input = base.clone();
            mutate(&mut Lot(seed), &mut input, &[]);
            let pairs = input.iter().zip(&base);
            pairs.zip(&mut changed).for_each(|((now, before), changed)| *changed |= now != before);
        }
        assert_eq!(changed, [true; 44]);
    }

    #[test]
    fn a_record_more() {
        let mut input = include_bytes!("../../../examples/a.sheet").to_vec();
        link(&mut Lot(1), &mut input);
        assert_eq!((input.len(), &input[6..8], &input[16..]), (20, &[1, 0][..], &[0; 4][..]));
        let first: [u8; 4] = input[12..16].try_into().unwrap();
        for seed in 0..8 {
            let mut two = input.clone();
            link(&mut Lot(seed), &mut two);
            let indices = [two[6], two[16], two[24]];
            assert!(indices == [1, 2, 0] || indices == [2, 0, 1], "{indices:?}");
            let same = first.iter().zip(&two[20..24]).filter(|(before, now)| before == now);
            assert!(same.count() >= 3);
        }
        let mut short = vec![0; 13];
        link(&mut Lot(1), &mut short);
        assert_eq!(short, [0; 13]);
        input[5] = 3;
        let of_number = (0..40).map(|seed| {
            let mut two = input.clone();
            link(&mut Lot(seed), &mut two);
            (two[26], two[27])
        });
        let bits: Vec<(u8, u8)> = of_number.collect();
        assert!(
            (0..3).all(|bit| bits.contains(&(bit, 0)))
                && bits.iter().all(|&(bit, last)| bit < 3 && last == 0)
        );
    }
}
