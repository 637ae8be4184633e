//! Recipe numbers, from request 5's sentences: widths, refusals and their order, the bits' tables and logs, what the outcomes are
//! made of, and demands 2 and 3 of the number.

mod common;

use common::{header, numbered, Lot};
use peer::line::{Cause, Header, Line};
use peer::listing::{listing, Run};
use peer::number::Width;
use peer::outcome::{outcome, outcomes, place, Outcome, BAD};
use peer::rehearsal::rehearse;
use peer::sheet::{self, read, read_bit, Record};
use peer::station::{Answer, Station};
use peer::writer::{normal_form, sheet_len, write};

fn record(bit: u8, round: u8, from: u8, to: u8, ballot: u8) -> Record {
    Record { bit, round, from, to, ballot }
}

/// Case A's header.
fn case_a() -> Header {
    header(4, 1, 1, 1, 1, 0b1000)
}

fn number<T>(answer: Result<T, Cause>) -> u8 {
    answer.map_or_else(Cause::number, |_| 0)
}

/// The refusal's number of a rehearsal with buffers of one bit, or of as many as w stands for; they stay as they were.
fn rehearsed(header: &Header, bits: usize) -> u8 {
    let line = Line::new(header.n, header.t, header.upper).unwrap_or_else(|_| Line::new(4, 1, 1).unwrap());
    let table = vec![255; bits * line.table_len()];
    let (mut log, mut ends) = (vec![99; table.len()], vec![99; line.outcomes_len()]);
    let refused = number(rehearse(header, &table, &mut log, &mut ends));
    assert!(refused == 0 || log.iter().chain(&ends).all(|&byte| byte == 99));
    refused
}

/// "0 standing for 1": w 0 and w 1 are one bit, and any other is so many.
#[test]
fn widths() {
    let counts: Vec<Option<usize>> = (0..=255).map(|w| Width::new(w).ok().map(Width::count)).collect();
    let expected = [1, 1, 2, 3, 4, 5, 6, 7, 8].map(Some);
    assert_eq!((&counts[..9], counts[9..].iter().all(Option::is_none)), (&expected[..], true));
    assert!((9..=255).all(|w| Width::new(w) == Err(Cause::Width)));
    assert_eq!(Cause::Width.number(), 15);
    for w in 0..=8 {
        let width = Width::new(w).unwrap();
        assert!(width.bits().eq(0..w.max(1)));
        assert!((0..=255).all(|bit| width.has(bit) == (bit < w.max(1))));
        assert!((0..=255).all(|value| width.holds(value) == (u32::from(value) < 2u32.pow(w.max(1).into()))));
    }
}

/// A sheet with w 0 and the same with w 1 have one listing, one table and one normal form, but for byte 5.
#[test]
fn w_0_and_w_1_are_the_same() {
    let mut lot = Lot(60);
    for _ in 0..2_000 {
        let header = lot.header(9);
        let zero = sheet::write(&header, &lot.records(&header));
        let mut one = zero.clone();
        one[5] = 1;
        assert_eq!(listing(&zero), listing(&one));
        let [(told_zero, of_zero), (told_one, of_one)] =
            [&zero, &one].map(|sheet| sheet::tables(sheet).unwrap());
        assert_eq!((told_zero, told_one, of_zero), (header, Header { w: 1, ..header }, of_one));
        let (mut normal, rewritten) = (normal_form(&zero).unwrap(), normal_form(&one).unwrap());
        normal[5] = 1;
        assert_eq!(normal, rewritten);
        let [run, other] = [header, Header { w: 1, ..header }].map(|header| {
            let tables = Lot(lot.0).tables(&header);
            Run::new(header, &tables).unwrap()
        });
        assert_eq!((run.log, run.outcomes), (other.log, other.outcomes));
    }
}

/// "A number of 2 to the power w or above is refused by 5", in the reader, the writer and the rehearsal.
#[test]
fn every_number_of_every_width() {
    for (w, value) in (0..=8).flat_map(|w| (0..=255u8).map(move |value| (w, value))) {
        let header = numbered(case_a(), w, value);
        let bits = usize::from(w.max(1));
        let expected = if u32::from(value) >> bits == 0 { 0 } else { 5 };
        let (sheet, mut tables) = (sheet::write(&header, &[]), vec![255; bits * 144]);
        assert_eq!(rehearsed(&header, bits), expected, "w {w}, {value}");
        assert_eq!(number(write(&sheet, &tables, &mut sheet.clone())), expected, "w {w}, {value}");
        assert_eq!(number(read(&sheet, &mut tables)), expected, "w {w}, {value}");
        assert_eq!(listing(&sheet) == "refused 5\n", expected == 5, "w {w}, {value}");
    }
}

/// "w above 8 by 15, right after the sheet's length, or first in a call without a sheet": after 1, before 2 and all others.
#[test]
fn a_width_above_8() {
    for w in [9, 10, 16, 128, 255] {
        let sheet = |header: &Header| sheet::write(&numbered(*header, w, 255), &[]);
        let others =
            [case_a(), header(0, 9, 1, 9, 1, 0xf0), header(4, 1, 1, 0, 1, 0), header(4, 1, 1, 1, 1, 16)];
        for other in &others {
            let mut table = vec![99; 7];
            assert_eq!(number(read(&sheet(other), &mut table)), 15, "{other:?}");
            assert_eq!(number(read_bit(&sheet(other), 0, &mut table)), 15, "{other:?}");
            assert_eq!(number(write(&sheet(other), &[0; 3], &mut table)), 15, "{other:?}");
            assert_eq!(number(sheet_len(&sheet(other), &[0; 3])), 15, "{other:?}");
            assert_eq!(table, [99; 7]);
            assert_eq!(rehearsed(&numbered(*other, w, 255), 1), 15, "{other:?}");
            assert_eq!(listing(&sheet(other)), "refused 15\n");
            // a length that no sheet has, and a header of another one
            let mut longer = sheet(other);
            longer.push(0);
            assert_eq!(number(read(&longer, &mut table)), 1);
            assert_eq!(number(read_bit(&longer, 9, &mut table)), 1);
            assert_eq!(number(write(&longer, &[0; 3], &mut table)), 1);
            assert_eq!(listing(&longer), "refused 1\n");
        }
    }
}

/// "11 wants only record byte 7 to be zero", and "a bit not below w".
#[test]
fn bits_of_records() {
    for (w, bit) in (0..=8).flat_map(|w| (0..=255u8).map(move |bit| (w, bit))) {
        let header = numbered(case_a(), w, 1);
        let told = [record(0, 1, 4, 1, 0), record(bit, 2, 4, 1, 7)];
        let sheet = sheet::write(&header, &told);
        let expected = if bit < w.max(1) { 0 } else { 11 };
        assert_eq!(number(sheet::records(&sheet)), expected, "w {w}, bit {bit}");
        let mut last = sheet.clone();
        last[27] = bit;
        assert_eq!(number(sheet::records(&last)), if bit == 0 { 0 } else { 11 }, "byte 7 {bit}");
    }
}

/// "13 compares the bit too": the same place may stand once in each bit.
#[test]
fn the_same_place_in_two_bits() {
    let header = numbered(case_a(), 3, 5);
    let place = |bit, ballot| record(bit, 2, 4, 1, ballot);
    let sheet = sheet::write(&header, &[place(2, 0), place(0, 1), place(1, 255)]);
    let (_, tables) = sheet::tables(&sheet).unwrap();
    let told = tables.iter().enumerate().filter(|(_, byte)| **byte != 255);
    assert_eq!(told.collect::<Vec<_>>(), [(28, &1), (2 * 144 + 28, &0)]);
    for bit in 0..3 {
        let again = sheet::write(&header, &[place(2, 0), place(0, 1), place(1, 255), place(bit, 255)]);
        assert_eq!(number(sheet::records(&again)), 13, "bit {bit}");
    }
}

/// Tables and logs are of w·R·n·n bytes, and one bit's is no number's.
#[test]
fn lengths_of_buffers() {
    for w in 0..=8 {
        let header = numbered(case_a(), w, 1);
        let sheet = sheet::write(&header, &[]);
        let exact = usize::from(w.max(1)) * 144;
        for len in [0, 1, 143, 144, 145, exact - 1, exact, exact + 1, 8 * 144, 9 * 144] {
            let (expected, of_bit) = ([exact, 144].map(|wanted| if len == wanted { 0 } else { 8 })).into();
            let mut table = vec![255; len];
            assert_eq!(number(sheet_len(&sheet, &table)), expected, "w {w}, {len}");
            assert_eq!(number(read_bit(&sheet, 0, &mut table)), of_bit, "w {w}, {len}");
            assert_eq!(number(read(&sheet, &mut table)), expected, "w {w}, {len}");
            let (mut log, mut ends) = (vec![99; exact], vec![99; 16]);
            assert_eq!(number(rehearse(&header, &table, &mut log, &mut ends)), expected, "w {w}, {len}");
            let (tables, mut log) = (vec![255; exact], vec![99; len]);
            assert_eq!(number(rehearse(&header, &tables, &mut log, &mut ends)), expected, "w {w}, {len}");
        }
    }
}

/// One bit's reader gives that bit's part of all bits' tables.
#[test]
fn one_bit_is_read() {
    let mut lot = Lot(61);
    for _ in 0..2_000 {
        let one_bit = lot.header(9);
        let header = lot.numbered(&one_bit);
        let (line, width) = (header.judge().unwrap(), header.width().unwrap());
        let sheet = sheet::write(&header, &lot.records(&header));
        let (_, tables) = sheet::tables(&sheet).unwrap();
        for bit in width.bits() {
            let mut table = vec![99; line.table_len()];
            assert_eq!(read_bit(&sheet, bit, &mut table), Ok(header));
            assert_eq!(table, tables[line.bit_range(bit)]);
        }
    }
}

/// A bit not below w is 11, after 8 and before the chain; the whole sheet is judged, also for a bit that isn't at fault.
#[test]
fn one_bit_is_refused() {
    let header = numbered(case_a(), 2, 3);
    let of = |told: &[Record], first: u8, bit: u8, len: usize| {
        let mut sheet = sheet::write(&header, told);
        sheet[6] = if first == 0 { sheet[6] } else { first };
        let mut table = vec![99; len];
        let refused = number(read_bit(&sheet, bit, &mut table));
        assert!(refused == 0 || table.iter().all(|&byte| byte == 99));
        refused
    };
    assert_eq!([0, 1, 2, 3, 8, 255].map(|bit| of(&[], 0, bit, 144)), [0, 0, 11, 11, 11, 11]);
    assert_eq!([0, 2].map(|bit| of(&[], 0, bit, 288)), [8, 8]);
    assert_eq!([0, 1, 2].map(|bit| of(&[], 1, bit, 144)), [9, 9, 11]);
    let (good, unmarked) = (record(1, 1, 4, 1, 0), record(1, 2, 3, 1, 0));
    assert_eq!([0, 1, 2].map(|bit| of(&[good, unmarked], 0, bit, 144)), [12, 12, 11]);
    assert_eq!([0, 1].map(|bit| of(&[good, good], 0, bit, 144)), [13, 13]);
    assert_eq!([0, 1].map(|bit| of(&[record(2, 1, 4, 1, 0)], 0, bit, 144)), [11, 11]);
}

/// "255 can be a recipe": a station that decides it isn't a bad one.
#[test]
fn recipe_255() {
    let sheet = sheet::write(&numbered(case_a(), 8, 255), &[]);
    assert_eq!(listing(&sheet), "agree 4 1 1 1 9\n1 255 2 0 0\n2 255 2 0 0\n3 255 2 0 0\n4 - - - -\n");
    let good = Outcome { value: 255, grade: 2, flag: 0, count: 0 };
    assert!(!good.is_bad() && Outcome::from_bytes(BAD).is_bad());
}

/// Case C in bit 1, while in bit 0 the sender tells both a one all the time, garbled to station 3 in round 2: stations 2 and 3
/// differ and both flag.
#[test]
fn a_liar_in_one_bit() {
    let rounds = [1, 2, 3, 5, 6];
    let bit_0 = |&r: &u8| [record(0, r, 1, 2, 1), record(0, r, 1, 3, if r == 2 { 77 } else { 1 })];
    let bit_1 = |&r: &u8| [record(1, r, 1, 2, 0), record(1, r, 1, 3, 1)];
    let told: Vec<Record> = rounds.iter().flat_map(bit_0).chain(rounds.iter().flat_map(bit_1)).collect();
    let header = numbered(header(3, 0, 1, 1, 0, 0b001), 2, 2);
    let sheet = sheet::write(&header, &told);
    assert_eq!(listing(&sheet), "agree 3 0 1 1 6\n1 - - - -\n2 1 1 1 0\n3 3 1 1 1\n");
    // bit 0 alone
    let (_, tables) = sheet::tables(&sheet).unwrap();
    let alone = Run::new(header.of_bit(0), &tables[..54]).unwrap();
    assert_eq!(alone.outcomes, [BAD, [1, 2, 0, 0], [1, 2, 0, 1]].concat());
    // and with the bits exchanged
    let exchanged = told.iter().map(|record| Record { bit: 1 - record.bit, ..*record }).collect::<Vec<_>>();
    let listed = "agree 3 0 1 1 6\n1 - - - -\n2 2 1 1 0\n3 3 1 1 1\n";
    assert_eq!(listing(&sheet::write(&header, &exchanged)), listed);
}

/// A run of a number drawn by lot, near a threshold or not.
fn run(lot: &mut Lot, most: u8) -> Run {
    let one_bit = if lot.one_in(2) { lot.header(most) } else { lot.header_near_thresholds(most).0 };
    let header = lot.numbered(&one_bit);
    let tables = lot.tables(&header);
    Run::new(header, &tables).unwrap()
}

/// Each bit's log is that of its own broadcast, and the outcome is made of the bits' outcomes. `seen`: runs in which the bits'
/// grades, flags and counts differ at a station, so that the smallest, any and the largest say something.
#[test]
fn the_run_is_made_of_its_bits() {
    let (mut lot, mut seen) = (Lot(62), [0; 4]);
    for _ in 0..3_000 {
        let one_bit = lot.header(7);
        let header = lot.numbered(&one_bit);
        let (line, width) = (header.judge().unwrap(), header.width().unwrap());
        let tables = lot.tables(&header);
        let whole = Run::new(header, &tables).unwrap();
        let of_bit = |bit| {
            let alone = Header { value: header.value >> bit & 1, w: 0, ..header };
            Run::new(alone, &tables[line.bit_range(bit)]).unwrap()
        };
        let bits: Vec<Run> = width.bits().map(of_bit).collect();
        assert_eq!(whole.log, bits.iter().flat_map(|run| run.log.clone()).collect::<Vec<u8>>());
        for station in line.stations() {
            let ends: Vec<Outcome> = bits.iter().map(|run| outcome(&run.outcomes, station)).collect();
            if header.marks.bad(station) {
                assert_eq!(whole.outcomes[place(station)], BAD);
                continue;
            }
            let expected = Outcome {
                value: (0..).zip(&ends).map(|(bit, end)| end.value * 2u8.pow(bit)).sum(),
                grade: ends.iter().map(|end| end.grade).min().unwrap(),
                flag: ends.iter().map(|end| end.flag).max().unwrap(),
                count: ends.iter().map(|end| end.count).max().unwrap(),
            };
            assert_eq!(outcome(&whole.outcomes, station), expected, "{header:?}");
            let last = ends[ends.len() - 1];
            let differ =
                [last.grade > expected.grade, last.flag < expected.flag, last.count < expected.count];
            (0..3).filter(|&i| differ[i]).for_each(|i| seen[i] += 1);
            seen[3] += u32::from(expected.value > 1);
        }
        assert!(width.bits().all(|bit| whole.of_bit(bit).outcomes == bits[usize::from(bit)].outcomes));
    }
    assert!(seen.iter().all(|&many| many > 100), "{seen:?}");
}

/// Demand 2 bit by bit: single stations on their columns of each bit's log send its bytes, and their results make the outcome.
#[test]
fn stations_give_the_run_bit_by_bit() {
    let mut lot = Lot(63);
    for _ in 0..400 {
        let run = run(&mut lot, 9);
        let Header { n, t, upper, sender, value, marks, .. } = run.header;
        for own in run.line.stations().filter(|&own| !marks.bad(own)) {
            let (mut decided, mut grades) = (0, 2);
            for (log, bit) in run.log.chunks(run.line.table_len()).zip(0..) {
                let any = lot.below(2) as u8;
                let told = if own == sender { value >> bit & 1 } else { any };
                let mut station = Station::open((n, t, upper), sender, own, told).unwrap();
                for round in 1..=run.line.rounds() {
                    let ballot = station.ballot().unwrap();
                    let sent = |to| log[run.line.place(round, own, to)] == ballot;
                    assert!(run.line.stations().all(sent), "bit {bit}, round {round}");
                    let heard = |from| log[run.line.place(round, from, own)];
                    station = station.take(&run.line.stations().map(heard).collect::<Vec<_>>()).unwrap();
                }
                let Ok(Answer::Done(end)) = station.result() else { panic!("it is done") };
                (decided, grades) = (decided | end.value << bit, end.grade.min(grades));
            }
            let end = outcome(&run.outcomes, own);
            assert_eq!((end.value, end.grade), (decided, grades));
        }
    }
}

/// How many runs have good stations that differ while f is at most T, in how many of them they do in a bit below the last, and
/// how many have a flag.
#[derive(Default, Debug)]
struct Seen {
    splits: u32,
    below_last: u32,
    flags: u32,
}

impl Seen {
    /// Holds a run of a number to its guarantees.
    fn run(&mut self, run: &Run) {
        let Header { t, upper, sender, value, w, marks, .. } = run.header;
        let at_most = |threshold: u8| marks.count() <= threshold.into();
        let good: Vec<Outcome> = outcomes(&run.outcomes).filter(|end| !end.is_bad()).collect();
        assert_eq!(good.len(), run.line.n() - marks.count() as usize);
        let agreed = good.windows(2).all(|two| two[0].value == two[1].value);
        let flags = good.iter().filter(|end| end.flag == 1).count();
        assert!(!at_most(t) || agreed && flags == 0, "{:?}", run.header);
        let as_sent = good.iter().all(|end| end.value == value);
        assert!(!at_most(upper) || marks.bad(sender) || as_sent, "{:?}", run.header);
        assert!(!at_most(upper) || agreed || flags == good.len(), "{:?}", run.header);
        assert!(flags == 0 || !at_most(t), "{:?}", run.header);
        let (split, last) = (at_most(upper) && !agreed, 1 << (w.max(1) - 1));
        let below_last = good.windows(2).any(|two| (two[0].value ^ two[1].value) & !last != 0);
        self.splits += u32::from(split);
        self.below_last += u32::from(split && below_last);
        self.flags += u32::from(flags > 0);
    }
}

/// Demand 3 of the number, of every width.
#[test]
fn demand_3() {
    let (mut lot, mut seen) = (Lot(64), Seen::default());
    for _ in 0..6_000 {
        seen.run(&run(&mut lot, 7));
    }
    assert!(seen.splits > 10 && seen.flags > 500, "{seen:?}");
}

/// On case C's line, whose bad sender tells zeros and ones, many numbers differ.
#[test]
fn demand_3_of_numbers_that_differ() {
    let (mut lot, mut seen) = (Lot(66), Seen::default());
    for w in (0..=8).cycle().take(4_000) {
        let header = numbered(header(3, 0, 1, 1, 0, 0b001), w, 1);
        let tables: Vec<u8> = (0..54 * usize::from(w.max(1))).map(|_| lot.below(2) as u8).collect();
        seen.run(&Run::new(header, &tables).unwrap());
    }
    assert!(seen.splits > 500 && seen.below_last > 500, "{seen:?}");
}

/// "the writer goes by bit before round": its records are in the order of the tables, and the reader gives these back.
#[test]
fn written_by_bit() {
    let header = sheet::write(&numbered(header(2, 0, 0, 1, 1, 0b10), 3, 6), &[]);
    let mut tables = [7, 7, 255, 255].repeat(18);
    // bit 2, round 1; bit 0, rounds 6 and 2; bit 1, round 1
    (tables[50], tables[22], tables[7], tables[27]) = (0, 1, 2, 254);
    let mut sheet = vec![99; sheet_len(&header, &tables).unwrap()];
    assert_eq!(write(&header, &tables, &mut sheet), Ok(4));
    assert_eq!(sheet[..12], [2, 0, 0, 1, 6, 3, 1, 0, 2, 0, 0, 0]);
    assert_eq!(sheet[12..28], [2, 2, 2, 2, 2, 0, 0, 0, 6, 2, 1, 1, 3, 0, 0, 0]);
    assert_eq!(sheet[28..], [1, 2, 2, 254, 4, 0, 1, 0, 1, 2, 1, 0, 0, 0, 2, 0]);
    tables.chunks_exact_mut(4).for_each(|said| said[..2].fill(255));
    assert_eq!(sheet::tables(&sheet).unwrap().1, tables);
}

/// Round trip and normal form of numbers of every width.
#[test]
fn written_and_read_back() {
    let (mut lot, mut shorter) = (Lot(65), 0);
    for _ in 0..2_000 {
        let one_bit = lot.header(8);
        let told = lot.numbered(&one_bit);
        let mut sheet = sheet::write(&told, &lot.records(&told));
        sheet.extend((0..8 * lot.below(3)).map(|_| lot.byte()));
        let (mut expected, line) = (sheet::records(&sheet).unwrap().1, told.judge().unwrap());
        expected.retain(|record| record.ballot != 255);
        expected.sort_by_key(|record| record.place(&line));
        let order = |record: &Record| (record.bit, record.round, record.from, record.to);
        assert!(expected.windows(2).all(|two| order(&two[0]) < order(&two[1])));
        let normal = normal_form(&sheet).unwrap();
        assert_eq!(normal, sheet::write(&told, &expected));
        assert_eq!(normal_form(&normal).as_ref(), Ok(&normal));
        assert_eq!((listing(&normal), sheet::tables(&normal)), (listing(&sheet), sheet::tables(&sheet)));
        shorter += u32::from(normal.len() < sheet.len());
    }
    assert!(shorter > 500, "{shorter}");
}

/// The records of all bits together are at most 4,096.
#[test]
fn too_many_records_in_all_bits() {
    let header = sheet::write(&numbered(header(32, 0, 15, 1, 1, 0xffff_ffff), 8, 0), &[]);
    let mut tables = vec![255; 8 * 6 * 1_024];
    (0..8).for_each(|bit| tables[bit * 6_144..][..512].fill(1));
    assert_eq!(sheet_len(&header, &tables), Ok(12 + 8 * 4_096));
    tables[7 * 6_144 + 512] = 1;
    assert_eq!(sheet_len(&header, &tables), Err(Cause::TooManyRecords));
    let mut sheet = vec![99; 12 + 8 * 4_097];
    assert_eq!(write(&header, &tables, &mut sheet), Err(Cause::TooManyRecords));
    tables.pop();
    assert_eq!(write(&header, &tables, &mut sheet), Err(Cause::Length));
    assert!(sheet.iter().all(|&byte| byte == 99));
}

/// The largest tables of all have 294,912 bytes.
#[test]
fn the_largest_tables() {
    let header = numbered(header(32, 10, 10, 1, 1, 0), 8, 200);
    let (line, width) = (header.judge().unwrap(), header.width().unwrap());
    assert_eq!(line.tables_len(width), 294_912);
    let stations: String = (1..=32).map(|i| format!("{i} 200 2 0 0\n")).collect();
    assert_eq!(listing(&sheet::write(&header, &[])), format!("agree 32 10 10 1 36\n{stations}"));
}
