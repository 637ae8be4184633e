//! The generator, from request 7's sentences: its steps, who gets a ballot and in which order, refusals and their order, what is
//! written of it and read back, and the listings of a header with seeds.

mod common;

use common::{header, numbered, Lot};
use peer::generator::{generate, step, tables};
use peer::line::{Cause, Header, SILENCE};
use peer::listing::{generated, listing, listings, run, Run};
use peer::sheet::{self, read, Record, RECORDS};
use peer::writer::{generated_form, sheet_len, write};

/// The first states after a seed.
fn states<const N: usize>(seed: u32) -> [u32; N] {
    let mut state = seed;
    [0; N].map(|_| {
        state = step(state);
        state
    })
}

/// A large seed, the first, and the largest.
#[test]
fn known_states() {
    assert_eq!(states(2_463_534_242), [723_471_715, 2_497_366_906, 2_064_144_800, 2_008_045_182]);
    assert_eq!(states(1), [270_369, 67_634_689, 2_647_435_461, 307_599_695, 2_398_689_233]);
    assert_eq!(states(u32::MAX), [253_983, 4_228_382_207, 1_958_451_267, 4_056_713_434]);
    assert_eq!(states::<10_000>(1)[9_999], 1_799_336_688);
}

/// A step in wide numbers, whose bits beyond 32 are dropped by the remainder.
fn wide_step(state: u64) -> u64 {
    let left = |state: u64, by: u32| state ^ (state * 2u64.pow(by) % 2u64.pow(32));
    let right = |state: u64, by: u32| state ^ (state / 2u64.pow(by));
    left(right(left(state, 13), 17), 5)
}

/// From 0 there is no way out, and no other state leads there: each bit of a state changes the next one on its own.
#[test]
fn steps() {
    let mut lot = Lot(80);
    for _ in 0..20_000 {
        let [one, other] = [lot.word() as u32, lot.word() as u32];
        assert_eq!(u64::from(step(one)), wide_step(one.into()));
        assert_eq!(step(one ^ other), step(one) ^ step(other));
    }
    let mut basis: Vec<u32> = (0..32).map(|bit| step(1 << bit)).collect();
    while let Some(one) = basis.pop() {
        assert_ne!(one, 0, "the bits' steps depend on each other");
        let high = 31 - one.leading_zeros();
        basis.iter_mut().filter(|other| **other >> high & 1 == 1).for_each(|other| *other ^= one);
    }
    assert_eq!(step(0), 0);
}

/// The bytes in the order in which the request names them, each at the place that document 01 gives it.
fn by_place(header: &Header, seed: u32) -> Vec<u8> {
    let (n, rounds) = (usize::from(header.n), 3 * usize::from(header.t) + 6);
    let w = usize::from(header.w.max(1));
    let mut tables = vec![255; w * rounds * n * n];
    let mut state = u64::from(seed);
    for (bit, r) in (0..w).flat_map(|bit| (1..=rounds).map(move |r| (bit, r))) {
        for i in (1..=n).filter(|i| header.marks.0 >> (i - 1) & 1 == 1) {
            for j in 1..=n {
                state = wide_step(state);
                let byte = [0, 1, 2, 255][(state % 4) as usize];
                tables[bit * rounds * n * n + ((r - 1) * n + (i - 1)) * n + (j - 1)] = byte;
            }
        }
    }
    tables
}

/// A header's twelve bytes, with any first index.
fn bytes_of(lot: &mut Lot, header: &Header) -> Vec<u8> {
    let mut bytes = sheet::write(header, &[]);
    bytes[6..8].copy_from_slice(&lot.word().to_le_bytes()[..2]);
    bytes
}

/// The tables in a buffer that had other bytes.
fn into_buffer(header: &[u8], seed: u32, len: usize) -> Result<Vec<u8>, Cause> {
    let mut lent = vec![99; len];
    generate(header, seed, &mut lent).map(|()| lent)
}

#[test]
fn every_place() {
    let mut lot = Lot(81);
    let mut seen = [0; 9];
    for _ in 0..600 {
        let one_bit = lot.header(32);
        let header = lot.numbered(&one_bit);
        let any = lot.word() as u32 | 1;
        let seed = lot.pick(&[1, 2, 100, 1 << 31, u32::MAX, any, any]);
        let wanted = by_place(&header, seed);
        let bytes = bytes_of(&mut lot, &header);
        assert_eq!(into_buffer(&bytes, seed, wanted.len()).as_ref(), Ok(&wanted), "{header:?} {seed}");
        assert_eq!(tables(&header, seed), Ok(wanted));
        seen[usize::from(header.w)] += 1;
    }
    assert!(seen.iter().all(|&many| many > 20), "{seen:?}");
}

/// Two stations of which the second is bad: its first states from seed 1, round after round.
#[test]
fn a_small_table() {
    let table = tables(&header(2, 0, 0, 1, 1, 0b10), 1).unwrap();
    let told: Vec<u8> =
        states::<12>(1).iter().map(|state| if state % 4 == 3 { 255 } else { (state % 4) as u8 }).collect();
    assert_eq!(told[..5], [1, 1, 1, 255, 1]);
    let rounds: Vec<Vec<u8>> = told.chunks(2).map(|row| [&[255, 255], row].concat()).collect();
    assert_eq!(table, rounds.concat());
}

/// "With several bits the state runs on from one bit's table to the next."
#[test]
fn the_state_runs_on() {
    let mut lot = Lot(82);
    for w in 2..=8 {
        let one_bit = lot.header(9);
        let seed = lot.word() as u32 | 1;
        let line = one_bit.judge().unwrap();
        let steps = usize::from(line.rounds()) * one_bit.marks.count() as usize * line.n();
        let all = tables(&numbered(one_bit, w, 0), seed).unwrap();
        let mut state = seed;
        for of_bit in all.chunks(line.table_len()) {
            assert_eq!(of_bit, tables(&one_bit, state).unwrap());
            (0..steps).for_each(|_| state = step(state));
        }
    }
}

/// Without a bad station there is nothing to say, and with other numbers, a value or a first index nothing else is said.
#[test]
fn what_does_not_matter() {
    assert_eq!(tables(&header(4, 1, 1, 1, 1, 0), 7), Ok(vec![SILENCE; 144]));
    let table = tables(&header(7, 1, 2, 1, 1, 0b101), 7);
    for other in [header(7, 1, 1, 1, 1, 0b101), header(7, 1, 2, 7, 1, 0b101), header(7, 1, 2, 1, 0, 0b101)] {
        assert_eq!(tables(&other, 7), table);
    }
    let mut bytes = sheet::write(&header(2, 0, 0, 1, 1, 3), &[]);
    let wanted = into_buffer(&bytes, 7, 24);
    assert!(wanted.is_ok());
    for index in 0..=u16::MAX {
        bytes[6..8].copy_from_slice(&index.to_le_bytes());
        assert_eq!(into_buffer(&bytes, 7, 24), wanted, "first index {index}");
    }
}

/// The refusal's number for a buffer of this length, which stays as it was.
fn refusal(header: &[u8], seed: u32, len: usize) -> u8 {
    let mut lent = vec![99; len];
    let refused = generate(header, seed, &mut lent).expect_err("a refusal");
    assert!(lent.iter().all(|&byte| byte == 99), "written in a refused call");
    refused.number()
}

/// Each cause stands alone, then all of them together: as one after the other is mended, the next is given.
#[test]
fn one_cause_after_the_other() {
    let accepted = sheet::write(&header(4, 1, 1, 1, 1, 8), &[]);
    let edited = |at: usize, byte: u8| {
        let mut bytes = accepted.clone();
        bytes[at] = byte;
        bytes
    };
    let alone = [(5, 9, 15), (0, 0, 2), (0, 33, 2), (1, 2, 3), (3, 0, 4), (3, 5, 4), (4, 2, 5), (8, 24, 6)];
    for (at, byte, cause) in alone {
        assert_eq!(refusal(&edited(at, byte), 1, 144), cause, "byte {at} {byte}");
    }
    assert_eq!((refusal(&accepted, 0, 144), refusal(&accepted, 1, 143)), (16, 8));

    let mut spoilt = vec![33, 1, 16, 0, 2, 9, 7, 7, 0, 0, 0, 128, 0];
    assert_eq!(refusal(&spoilt, 0, 1), 1);
    spoilt.pop();
    assert_eq!(refusal(&spoilt, 0, 1), 15);
    let mends = [(5, 0, 2), (0, 31, 3), (2, 14, 4), (3, 31, 5), (4, 1, 6), (11, 64, 16)];
    for (at, byte, next) in mends {
        spoilt[at] = byte;
        assert_eq!(refusal(&spoilt, 0, 1), next, "byte {at} mended");
    }
    assert_eq!(refusal(&spoilt, u32::MAX, 1), 8);
    assert_eq!(into_buffer(&spoilt, u32::MAX, 9 * 961).map(|table| table.len()), Ok(9 * 961));
}

#[test]
fn other_lengths() {
    let bytes = sheet::write(&numbered(header(2, 0, 0, 1, 1, 2), 3, 7), &[]);
    for len in (0..40).filter(|&len| len != 12) {
        let mut other = bytes.clone();
        other.resize(len, 0);
        assert_eq!((refusal(&other, 0, 72), refusal(&other, 1, 72)), (1, 1), "{len} bytes");
    }
    for len in (0..150).filter(|&len| len != 72) {
        assert_eq!((refusal(&bytes, 0, len), refusal(&bytes, 1, len)), (16, 8), "tables of {len} bytes");
    }
    assert!(into_buffer(&bytes, 1, 72).is_ok());
}

/// What is generated is written with a record for each byte that isn't silence, and read back to the same bytes; the sheet has
/// the run that was generated. Beyond 4,096 records it is refused.
#[test]
fn written_and_read_back() {
    let mut lot = Lot(83);
    let mut seen = [0; 2];
    for _ in 0..400 {
        let one_bit = lot.header(32);
        let header = if lot.one_in(4) { lot.numbered(&one_bit) } else { one_bit };
        let seed = lot.word() as u32 | 1;
        let (bytes, tables) = (bytes_of(&mut lot, &header), tables(&header, seed).unwrap());
        let spoken = tables.iter().filter(|&&byte| byte != SILENCE).count();
        // its records aren't used, and make no difference
        let told = sheet::write(&header, &lot.records(&header));
        let form = generated_form(&told, seed);
        seen[usize::from(spoken > RECORDS)] += 1;
        if spoken > RECORDS {
            assert_eq!(
                (sheet_len(&bytes, &tables), form),
                (Err(Cause::TooManyRecords), Err(Cause::TooManyRecords))
            );
            continue;
        }
        let mut sheet = vec![99; 12 + 8 * spoken];
        assert_eq!(write(&bytes, &tables, &mut sheet), Ok(spoken));
        let mut back = vec![99; tables.len()];
        assert_eq!((read(&sheet, &mut back), back), (Ok(header), tables));
        assert_eq!(form.as_ref(), Ok(&sheet));
        let (made, of_sheet) = (generated(&told, seed).unwrap(), run(&sheet).unwrap());
        assert_eq!((made.log, made.outcomes), (of_sheet.log, of_sheet.outcomes));
        assert_eq!((made.seed, of_sheet.seed), (Some(seed), None));
    }
    assert!(seen.iter().all(|&many| many > 20), "{seen:?}");
}

/// "A program reads one sheet, keeps its header and prints the listings for seeds 1 to 100."
#[test]
fn a_hundred_listings() {
    let mut lot = Lot(84);
    for _ in 0..20 {
        let one_bit = lot.header(7);
        let header = if lot.one_in(2) { lot.numbered(&one_bit) } else { one_bit };
        let told = sheet::write(&header, &lot.records(&header));
        let each = (1..=100).map(|seed| listing(&generated_form(&told, seed).unwrap()));
        let all = listings(&told);
        assert_eq!(all, each.collect::<String>());
        assert_eq!(all.lines().count(), 100 * (1 + usize::from(header.n)));
        assert_eq!(all, listings(&sheet::write(&header, &[])));
    }
}

/// The seeds make other runs of one header, and the same seed the same.
#[test]
fn other_seeds() {
    let header = header(4, 0, 1, 4, 0, 0b1001);
    let ends = |seed| Run::generated(header, seed).unwrap().outcomes;
    let all: Vec<Vec<u8>> = (1..=100).map(ends).collect();
    assert!(all.iter().any(|ends| *ends != all[0]));
    assert_eq!(all, (1..=100).map(ends).collect::<Vec<_>>());
}

/// "A sheet that the reader refuses prints its one refusal line and no more": for its records too, though they aren't used. A
/// seed of 0 is refused after them.
#[test]
fn refused_sheets() {
    let header = header(4, 1, 1, 1, 1, 8);
    let record = |round, from| Record { bit: 0, round, from, to: 1, ballot: 1 };
    let of = |records: &[Record]| sheet::write(&header, records);
    let chained = |first: u8, next: u8| {
        let mut sheet = of(&[record(1, 4)]);
        (sheet[6], sheet[16]) = (first, next);
        sheet
    };
    let edited = |at: usize, byte: u8| {
        let mut sheet = of(&[]);
        sheet[at] = byte;
        sheet
    };
    for (sheet, number) in [
        (vec![], 1),
        (vec![0; 13], 1),
        (edited(5, 9), 15),
        (edited(0, 0), 2),
        (edited(1, 2), 3),
        (edited(3, 5), 4),
        (edited(4, 2), 5),
        (edited(9, 1), 6),
        (chained(2, 0), 9),
        (chained(1, 1), 10),
        (of(&[record(10, 4)]), 11),
        (of(&[record(1, 3)]), 12),
        (of(&[record(1, 4), record(1, 4)]), 13),
    ] {
        assert_eq!(listings(&sheet), format!("refused {number}\n"));
        for seed in [0, 1] {
            assert_eq!(generated(&sheet, seed).err().map(Cause::number), Some(number));
            assert_eq!(generated_form(&sheet, seed).map_err(Cause::number), Err(number));
        }
    }
    let sheet = of(&[record(1, 4)]);
    assert_eq!(generated(&sheet, 0).err(), Some(Cause::Seed));
    assert_eq!(generated_form(&sheet, 0), Err(Cause::Seed));
}
