//! How long the verified calls take beside this implementation's, on the same inputs, in turn.
//!
//! The times are a machine's; the ratios of the medians are what can be compared.

use std::hint::black_box;
use std::ops::Range;

use crate::by_round::check_by_round;
use crate::exchange::alone;
use crate::ffi::{self, Handed, ReadOnly};
use crate::generator::generate;
use crate::line::{Cause, Header, Line, Marks, SILENCE};
use crate::logs::Logged;
use crate::lot::Lot;
use crate::number::MOST_BITS;
use crate::rehearsal::rehearse;
use crate::sheet::{self, Record, HEADER_LEN, RECORDS, RECORD_LEN};
use crate::station::Station;
use crate::timing::{sample, time_in_turn, Nanoseconds, Sample};
use crate::writer;

const SAMPLES: usize = 401;

/// One bit of a line of n with t and T as large as can be, its last stations bad, this many.
fn line_of(n: u8, bad: u8) -> (Header, Line) {
    let first = u32::from(n - bad);
    let marks = Marks((((1u64 << n) - 1) >> first << first) as u32);
    let t = (n - 1) / 3;
    let header = Header { n, t, upper: t, sender: 1, value: 1, w: 1, marks };
    (header, header.judge().expect("a line"))
}

/// The largest line: n 32, t and T 10.
fn largest(bad: u8) -> (Header, Line) {
    line_of(32, bad)
}

/// Copying as many bytes.
fn copy<'a>(from: &'a [u8], to: &'a mut [u8]) -> Sample<'a> {
    sample(move || black_box(&mut *to).copy_from_slice(black_box(from)))
}

fn ratio(a: Nanoseconds, b: Nanoseconds) -> f64 {
    a.median / b.median
}

/// Medians of the verified call, of this implementation's and of the floor.
fn line(name: &str, [verified, peer, floor]: [Nanoseconds; 3]) -> String {
    let times = format!("{:>11.1}{:>11.1}{:>11.1}", verified.median, peer.median, floor.median);
    let ratios = [ratio(verified, peer), ratio(verified, floor), ratio(peer, floor)];
    format!("{name:<40}{times}{:>15.2}{:>16.2}{:>12.2}", ratios[0], ratios[1], ratios[2])
}

/// A rehearsal. The floor is copying the log.
fn rehearsal(n: u8, bad: u8) -> [Nanoseconds; 3] {
    let (header, line) = line_of(n, bad);
    let table = Lot(1).table(&line);
    let mut handed = table.clone();
    let mut logs = [0, 1, 2].map(|_| vec![0; line.table_len()]);
    let mut outcomes = [0, 1].map(|_| vec![0; line.outcomes_len()]);
    let ([log, own_log, copied], [out, own_out]) = (&mut logs, &mut outcomes);
    let timed = time_in_turn(
        SAMPLES,
        [
            sample(|| {
                let table = ReadOnly(Handed::all(black_box(&mut handed)));
                ffi::rehearse(black_box(&header), table, Handed::all(log), Handed::all(out))
            }),
            sample(|| rehearse(black_box(&header), black_box(&table), own_log, own_out)),
            copy(&table, copied),
        ],
    );
    assert!(logs[0] == logs[1] && outcomes[0] == outcomes[1], "the rehearsals differ");
    timed
}

/// The verified rehearsal of a number or of one bit.
fn verified_rehearsal(header: &Header, tables: &mut [u8], log: &mut [u8], outcomes: &mut [u8]) -> u8 {
    let tables = ReadOnly(Handed::all(black_box(tables)));
    ffi::rehearse(black_box(header), tables, Handed::all(log), Handed::all(outcomes))
}

/// The rehearsal of a number of eight bits on the largest line: by the verified call, by eight verified calls of one bit each,
/// the same two by this implementation, and the floor, which is copying the logs.
fn number(bad: u8) -> [Nanoseconds; 5] {
    let (one_bit, line) = largest(bad);
    let header = Header { value: 0xa5, w: MOST_BITS, ..one_bit };
    let tables = Lot(1).tables(&header);
    let mut handed = [0, 1].map(|_| tables.clone());
    let mut logs = [0; 5].map(|_| vec![0; tables.len()]);
    let mut outcomes = [0; 4].map(|_| vec![0; line.outcomes_len()]);
    let bits: Vec<(Header, Range<usize>)> =
        (0..MOST_BITS).map(|bit| (header.of_bit(bit), line.bit_range(bit))).collect();
    let ([handed, handed_bits], [out, bits_out, own_out, own_bits_out]) = (&mut handed, &mut outcomes);
    let [log, bits_log, own_log, own_bits_log, copied] = &mut logs;
    let by_bits = || {
        bits.iter().for_each(|(header, at)| {
            let (tables, log) = (&mut handed_bits[at.clone()], &mut bits_log[at.clone()]);
            verified_rehearsal(header, tables, log, bits_out);
        });
    };
    let own_by_bits = || {
        bits.iter().for_each(|(header, at)| {
            let (tables, log) = (black_box(&tables[at.clone()]), &mut own_bits_log[at.clone()]);
            rehearse(black_box(header), tables, log, own_bits_out).expect("a bit's run");
        });
    };
    let calls = [
        sample(|| verified_rehearsal(&header, handed, log, out)),
        sample(by_bits),
        sample(|| rehearse(black_box(&header), black_box(&tables), own_log, own_out)),
        sample(own_by_bits),
        copy(&tables, copied),
    ];
    let timed = time_in_turn(SAMPLES, calls);
    assert!(logs[..4].iter().all(|log| *log == logs[0]), "the numbers' logs differ");
    assert!(outcomes[0] == outcomes[2] && outcomes[1] == outcomes[3], "the numbers' outcomes differ");
    timed
}

/// A number's lines: in one call, in a call for each bit, and the ratio of the one to the other.
fn number_lines(bad: u8) -> [String; 3] {
    let [verified, verified_bits, peer, peer_bits, floor] = number(bad);
    let (name, ratios) = (
        format!("one call to 8 calls, ratio, {bad} marked"),
        [ratio(verified, verified_bits), ratio(peer, peer_bits)],
    );
    [
        line(&format!("rehearsal, n 32, t 10, w 8, {bad} marked"), [verified, peer, floor]),
        line(&format!("its 8 bits in 8 calls, {bad} marked"), [verified_bits, peer_bits, floor]),
        format!("{name:<40}{:>11.3}{:>11.3}", ratios[0], ratios[1]),
    ]
}

/// An exchange had alone, of the largest line. The floor is copying its table.
fn exchanged(bad: u8) -> [Nanoseconds; 3] {
    let (header, line) = largest(bad);
    let numbers = (header.n, header.t, header.upper);
    let table = Lot(1).ballots(&line, 2 * line.round_len());
    let inputs: Vec<u8> = (0..header.n).map(|i| i % 2).collect();
    let (mut handed, mut handed_inputs, mut copied) = (table.clone(), inputs.clone(), table.clone());
    let mut outcomes = [0, 1].map(|_| vec![0; line.outcomes_len()]);
    let [out, own_out] = &mut outcomes;
    let timed = time_in_turn(
        SAMPLES,
        [
            sample(|| {
                let inputs = ReadOnly(Handed::all(black_box(&mut handed_inputs)));
                let table = ReadOnly(Handed::all(black_box(&mut handed)));
                ffi::exchange(black_box(numbers), header.marks.0, inputs, table, Handed::all(out))
            }),
            sample(|| {
                alone(black_box(numbers), header.marks, black_box(&inputs), black_box(&table), own_out)
            }),
            copy(&table, &mut copied),
        ],
    );
    assert!(outcomes[0] == outcomes[1], "the exchanges differ");
    timed
}

/// A sheet of the largest line with this many chained records, as many in each of its number's bits.
fn sheet_of(w: u8, count: usize) -> (Vec<u8>, Line) {
    let (one_bit, line) = largest(10);
    let header = Header { w, ..one_bit };
    let row = |(bit, round, from)| (1..=32).map(move |to| Record { bit, round, from, to, ballot: round % 3 });
    let rows = |bit| (1..=line.rounds()).flat_map(move |round| (23..=32).map(move |from| (bit, round, from)));
    let each = count / usize::from(w);
    let records: Vec<Record> = (0..w).flat_map(|bit| rows(bit).flat_map(row).take(each)).collect();
    (sheet::write(&header, &records), line)
}

/// Reading a sheet with this many records by both, into tables of this length. The floor is copying them.
fn reader(
    sheet: &[u8],
    len: usize,
    verified: impl Fn(ReadOnly, Handed) -> u8,
    peer: impl Fn(&[u8], &mut [u8]) -> Result<Header, Cause>,
) -> [Nanoseconds; 3] {
    let mut handed = sheet.to_vec();
    let mut tables = [0, 1, 2, 3].map(|_| vec![0; len]);
    let [table, own_table, from, to] = &mut tables;
    let timed = time_in_turn(
        SAMPLES,
        [
            sample(|| verified(ReadOnly(Handed::all(black_box(&mut handed))), Handed::all(table))),
            sample(|| peer(black_box(sheet), own_table)),
            copy(from, to),
        ],
    );
    assert!(tables[0] == tables[1] && tables[0] != tables[2], "the tables differ");
    timed
}

/// Reading all bits of a number.
fn all_read(w: u8, count: usize) -> [Nanoseconds; 3] {
    let (sheet, line) = sheet_of(w, count);
    reader(&sheet, usize::from(w) * line.table_len(), ffi::read, sheet::read)
}

/// Reading one bit of a number of eight.
fn bit_read(count: usize) -> [Nanoseconds; 3] {
    let (sheet, line) = sheet_of(MOST_BITS, count);
    let verified = |sheet: ReadOnly, table: Handed| ffi::read_bit(sheet, 5, table);
    reader(&sheet, line.table_len(), verified, |sheet, table| sheet::read_bit(sheet, 5, table))
}

/// A table of the largest line with this many records to write, in the first places of its marked senders or scattered over
/// all of them. Its good senders speak all the time.
fn table_of(count: usize, bad: u8, scattered: bool) -> (Vec<u8>, Vec<u8>) {
    let (header, line) = largest(bad);
    let mut table = Lot(1).ballots(&line, line.table_len());
    let mut places: Vec<usize> = line.bad_places(header.marks).collect();
    if scattered {
        Lot(2).shuffle(&mut places);
    }
    let (spoken, silent) = places.split_at(count);
    spoken.iter().for_each(|&place| table[place] %= 3);
    silent.iter().for_each(|&place| table[place] = SILENCE);
    (sheet::write(&header, &[]), table)
}

/// Writing a sheet. The floor is copying the table.
fn written(count: usize, bad: u8, scattered: bool) -> [Nanoseconds; 3] {
    let (header, table) = table_of(count, bad, scattered);
    let (mut handed_header, mut handed, mut copied) = (header.clone(), table.clone(), table.clone());
    let mut sheets = [0, 1].map(|_| vec![0; HEADER_LEN + RECORD_LEN * count]);
    let [sheet, own_sheet] = &mut sheets;
    let timed = time_in_turn(
        SAMPLES,
        [
            sample(|| {
                let header = ReadOnly(Handed::all(black_box(&mut handed_header)));
                let table = ReadOnly(Handed::all(black_box(&mut handed)));
                ffi::write(header, table, Handed::all(sheet))
            }),
            sample(|| writer::write(black_box(&header), black_box(&table), own_sheet)),
            copy(&table, &mut copied),
        ],
    );
    assert!(sheets[0] == sheets[1] && sheets[0][0] != 0, "the sheets differ");
    timed
}

/// Generating the tables of a number on the largest line. The floor is copying them.
fn generated(w: u8, bad: u8) -> [Nanoseconds; 3] {
    let (one_bit, line) = largest(bad);
    let header = sheet::write(&Header { w, ..one_bit }, &[]);
    let mut handed = header.clone();
    let mut tables = [0, 1, 2, 3].map(|_| vec![0; usize::from(w) * line.table_len()]);
    let [table, own_table, from, to] = &mut tables;
    let timed = time_in_turn(
        SAMPLES,
        [
            sample(|| {
                let header = ReadOnly(Handed::all(black_box(&mut handed)));
                ffi::generate(header, black_box(1), Handed::all(table))
            }),
            sample(|| generate(black_box(&header), black_box(1), own_table)),
            copy(from, to),
        ],
    );
    assert!(tables[0] == tables[1] && tables[0] != tables[2], "the tables differ");
    timed
}

/// Checking a run's log. The floor is copying it.
fn checked(n: u8, bad: u8) -> [Nanoseconds; 3] {
    let (header, line) = line_of(n, bad);
    let logged = Logged::of_run(&header, &Lot(1).table(&line));
    let Logged { numbers, sender, log, outcomes } = &logged;
    let (mut handed, mut handed_outcomes, mut copied) = (log.clone(), outcomes.clone(), log.clone());
    let mut verified = || {
        let log = ReadOnly(Handed::all(black_box(&mut handed)));
        let outcomes = ReadOnly(Handed::all(black_box(&mut handed_outcomes)));
        ffi::check(black_box(*numbers), *sender, log, outcomes)
    };
    let by_round = || check_by_round(black_box(*numbers), *sender, black_box(log), black_box(outcomes));
    assert_eq!((verified(), by_round()), (header.marks.0.into(), Ok(header.marks)), "the checks differ");
    time_in_turn(SAMPLES, [sample(verified), sample(by_round), copy(log, &mut copied)])
}

/// A station of the largest line in this round, and a row for it.
fn station_and_row(round: u8) -> (Station, Vec<u8>) {
    let (header, line) = largest(10);
    let numbers = (header.n, header.t, header.upper);
    let opened = Station::open(numbers, header.sender, 7, 1).expect("a station");
    (Station { round, ..opened }, Lot(round.into()).ballots(&line, line.n()))
}

/// What both make of a row. The floor is copying it.
fn of_row<R>(
    row: &[u8],
    wanted: u64,
    verified: impl Fn(ReadOnly) -> u64,
    peer: impl Fn(&[u8]) -> R,
) -> [Nanoseconds; 3] {
    let (mut handed, mut copied) = (row.to_vec(), row.to_vec());
    assert_eq!(verified(ReadOnly(Handed::all(&mut handed))), wanted, "the stations differ");
    time_in_turn(
        SAMPLES,
        [
            sample(|| verified(ReadOnly(Handed::all(black_box(&mut handed))))),
            sample(|| peer(black_box(row))),
            copy(row, &mut copied),
        ],
    )
}

/// A station takes a row in this round.
fn step(round: u8) -> [Nanoseconds; 3] {
    let (station, row) = station_and_row(round);
    let next = station.take(&row).expect("a running station");
    let verified = |row: ReadOnly| ffi::advance(black_box(&station), row);
    of_row(&row, ffi::state(&next), verified, |row| black_box(&station).take(row))
}

/// A station makes the offer of a row in this round.
fn offered(round: u8) -> [Nanoseconds; 3] {
    let (station, row) = station_and_row(round);
    let offer = station.offer(&row).expect("a running station");
    let verified = |row: ReadOnly| ffi::offer(black_box(&station), row);
    of_row(&row, ffi::offer_bits(&offer), verified, |row| black_box(&station).offer(row))
}

/// A station accepts the offer of a row in this round.
fn accepted(round: u8) -> [Nanoseconds; 3] {
    let (station, row) = station_and_row(round);
    let offer = station.offer(&row).expect("a running station");
    let next = station.accept(&row, &offer).expect("its own offer");
    let bits = ffi::offer_bits(&offer);
    let verified = |row: ReadOnly| ffi::accept(black_box(&station), row, black_box(bits));
    of_row(&row, ffi::state(&next), verified, |row| black_box(&station).accept(row, black_box(&offer)))
}

/// Gives the report line by line.
pub fn report(say: &mut impl FnMut(String)) {
    let times = format!("{:>11}{:>11}{:>11}", "verified", "peer", "copying");
    let ratios = format!("{:>15}{:>16}{:>12}", "verified/peer", "verified/copy", "peer/copy");
    say(format!("{:<40}{times}{ratios}", "median nanoseconds, and their ratios"));
    for (n, some) in [(32, 10), (31, 10), (24, 7), (16, 5), (7, 2)] {
        for bad in [0, some, n] {
            say(line(&format!("rehearsal, n {n}, t {}, {bad} marked", (n - 1) / 3), rehearsal(n, bad)));
        }
    }
    for bad in [0, 10, 32] {
        number_lines(bad).into_iter().for_each(&mut *say);
    }
    for bad in [0, 10, 32] {
        say(line(&format!("exchange, n 32, t 10, {bad} marked"), exchanged(bad)));
    }
    for count in [RECORDS, 0] {
        say(line(&format!("reader, n 32, t 10, {count} records"), all_read(1, count)));
        say(line(&format!("reader, n 32, t 10, w 8, {count} records"), all_read(MOST_BITS, count)));
        say(line(&format!("reader of a bit, w 8, {count} records"), bit_read(count)));
    }
    for (count, bad, scattered) in [(RECORDS, 10, false), (RECORDS, 10, true), (0, 10, false), (0, 0, false)]
    {
        let how = if scattered { "scattered" } else { "records" };
        let name = format!("writer, n 32, {bad} marked, {count} {how}");
        say(line(&name, written(count, bad, scattered)));
    }
    for (w, bad) in [(1, 10), (1, 32), (MOST_BITS, 10), (MOST_BITS, 32)] {
        say(line(&format!("generator, n 32, t 10, w {w}, {bad} marked"), generated(w, bad)));
    }
    for (n, some) in [(32, 10), (31, 10), (16, 5), (7, 2)] {
        for bad in [0, some, n] {
            say(line(&format!("checker, n {n}, t {}, {bad} marked", (n - 1) / 3), checked(n, bad)));
        }
    }
    let rounds = [(1, "sender's"), (2, "exchange's first"), (3, "exchange's second"), (4, "king's")];
    for (round, name) in rounds {
        say(line(&format!("station, row of 32, {name}"), step(round)));
    }
    for (round, name) in rounds {
        say(line(&format!("offer, row of 32, {name}"), offered(round)));
        say(line(&format!("acceptance, row of 32, {name}"), accepted(round)));
    }
}
