//! The conformance vectors of `vectors/`, computed from the documents by another implementation: both sets, of which that of
//! `vectors/offers/` tells in the steps of a station what an offer shows.

mod json;

use std::collections::BTreeMap;

use json::Value;
use peer::check::check;
use peer::exchange::alone;
use peer::generator;
use peer::line::{Cause, Header, Marks};
use peer::listing::{listing, listings};
use peer::rehearsal::rehearse;
use peer::sheet;
use peer::station::{Answer, Station};
use peer::writer;

/// A set of vectors: its name, its three files, and whether the steps of its stations have the offered ballot.
struct Set {
    name: &'static str,
    calls: &'static str,
    listings: &'static str,
    seeds: &'static str,
    offered: bool,
}

/// The set of a folder, which is named from the repository's top.
macro_rules! set {
    ($name:literal, $offered:literal) => {
        Set {
            name: $name,
            calls: include_str!(concat!("../../", $name, "/calls.jsonl")),
            listings: include_str!(concat!("../../", $name, "/listings.jsonl")),
            seeds: include_str!(concat!("../../", $name, "/seeds.jsonl")),
            offered: $offered,
        }
    };
}

const SETS: [Set; 2] = [set!("vectors", false), set!("vectors/offers", true)];

/// How many vectors each set has: of each call, listings, sheets with the listings of noisy runs.
const HELD: (usize, usize, usize) = (20, 110, 8);

fn refused(cause: Cause) -> Value {
    Value::object([("refused", Value::Number(cause.number().into()))])
}

/// A buffer to be written, by its length.
fn lent(args: &Value, length: &str) -> Vec<u8> {
    vec![99; args.number(length)]
}

/// Buffers are as they were after a refusal.
fn untouched(buffers: &[&[u8]]) {
    assert!(buffers.concat().iter().all(|&byte| byte == 99), "written in a refused call");
}

fn line(args: &Value) -> (u8, u8, u8) {
    (args.number("n"), args.number("t"), args.number("T"))
}

fn read(args: &Value) -> Value {
    let mut table = lent(args, "table_len");
    match sheet::read(&args.at("sheet").bytes(), &mut table) {
        Ok(_) => Value::object([("table", Value::hex(&table))]),
        Err(cause) => {
            untouched(&[&table]);
            refused(cause)
        }
    }
}

/// A sheet that is written is of the length that was told before; a refusal is told before too, but that of the buffer.
fn write(args: &Value) -> Value {
    let [header, table] = ["header", "table"].map(|name| args.at(name).bytes());
    let mut sheet = lent(args, "sheet_len");
    let needed = writer::sheet_len(&header, &table);
    match writer::write(&header, &table, &mut sheet) {
        Ok(k) => {
            assert_eq!((needed, sheet.len()), (Ok(sheet.len()), 12 + 8 * k));
            Value::object([("sheet", Value::hex(&sheet))])
        }
        Err(cause) => {
            let of_buffer = needed.is_ok_and(|needed| needed != sheet.len()) && cause == Cause::Length;
            assert!(needed == Err(cause) || of_buffer, "{needed:?}, then {cause:?}");
            untouched(&[&sheet]);
            refused(cause)
        }
    }
}

fn generate(args: &Value) -> Value {
    let mut table = lent(args, "table_len");
    match generator::generate(&args.at("header").bytes(), args.number("seed"), &mut table) {
        Ok(()) => Value::object([("table", Value::hex(&table))]),
        Err(cause) => {
            untouched(&[&table]);
            refused(cause)
        }
    }
}

fn checked(args: &Value) -> Value {
    let [log, outcomes] = ["log", "outcomes"].map(|name| args.at(name).bytes());
    let marks = check(line(args), args.number("sender"), &log, &outcomes);
    marks.map_or_else(refused, |marks| Value::object([("marks", Value::Number(marks.0.into()))]))
}

fn exchange(args: &Value) -> Value {
    let mut outcomes = lent(args, "outcomes_len");
    let marks = Marks(args.number("marks"));
    let [inputs, table] = ["inputs", "table"].map(|name| args.at(name).bytes());
    match alone(line(args), marks, &inputs, &table, &mut outcomes) {
        Ok(()) => Value::object([("outcomes", Value::hex(&outcomes))]),
        Err(cause) => {
            untouched(&[&outcomes]);
            refused(cause)
        }
    }
}

fn rehearsal(args: &Value) -> Value {
    let (n, t, upper) = line(args);
    let [sender, value, w] = ["sender", "value", "w"].map(|name| args.number(name));
    let header = Header { n, t, upper, sender, value, w, marks: Marks(args.number("marks")) };
    let (mut log, mut outcomes) = (lent(args, "log_len"), lent(args, "outcomes_len"));
    match rehearse(&header, &args.at("table").bytes(), &mut log, &mut outcomes) {
        Ok(()) => Value::object([("log", Value::hex(&log)), ("outcomes", Value::hex(&outcomes))]),
        Err(cause) => {
            untouched(&[&log, &outcomes]);
            refused(cause)
        }
    }
}

fn result(station: &Station) -> Value {
    match station.result() {
        Ok(Answer::Running { round }) => Value::object([("running", Value::Number(round.into()))]),
        Ok(Answer::Done(outcome)) => {
            let numbers = outcome.to_bytes().map(|byte| Value::Number(byte.into()));
            Value::object([("done", Value::List(numbers.to_vec()))])
        }
        Err(cause) => refused(cause),
    }
}

/// A ballot, or the refusal in its place.
fn told(ballot: Result<u8, Cause>) -> Value {
    ballot.map_or_else(refused, |ballot| Value::Number(ballot.into()))
}

/// What a station tells before a row and answers to it, and in the set that has it the ballot that an offer of the row shows. A
/// refused row leaves it where it is. To accept the offer is to take the row.
fn step(station: &mut Station, row: &[u8], offered: bool) -> Value {
    let (ballot, result, offer) = (told(station.ballot()), result(station), station.offer(row));
    let shown = told(offer.map(|offer| offer.ballot));
    let accepted = offer.and_then(|offer| station.accept(row, &offer));
    assert_eq!(accepted, station.take(row));
    let taken = accepted.map(|next| *station = next);
    let row = taken.map_or_else(refused, |()| Value::Text("taken".to_string()));
    let [ballot, result, row] = [("ballot", ballot), ("result", result), ("row", row)];
    match offered {
        true => Value::object([ballot, result, row, ("offered_ballot", shown)]),
        false => Value::object([ballot, result, row]),
    }
}

fn station(args: &Value, offered: bool) -> Value {
    let [sender, own, value] = ["sender", "own", "value"].map(|name| args.number(name));
    match Station::open(line(args), sender, own, value) {
        Ok(mut station) => {
            let rows = args.list("rows").iter().map(Value::bytes);
            let steps = rows.map(|row| step(&mut station, &row, offered)).collect();
            Value::object([("steps", Value::List(steps)), ("result", result(&station))])
        }
        Err(cause) => refused(cause),
    }
}

fn station_state(args: &Value) -> Value {
    let names = ["n", "t", "T", "sender", "own", "round", "value", "z", "grade", "count"];
    let station = Station::from_bytes(names.map(|name| args.number(name)));
    let number = |cause: Option<Cause>| Value::Number(cause.map_or(0, Cause::number).into());
    let ballot = number(station.ballot().err());
    let row = args.at("row_bytes").bytes();
    assert_eq!(station.offer(&row).err(), station.take(&row).err());
    let row = number(station.take(&row).err());
    let refusals = [("ballot", ballot), ("result", number(station.result().err())), ("row", row)];
    Value::object([("refusals", Value::object(refusals))])
}

/// What this implementation makes of a call, its steps with the offered ballot or without.
fn made(call: &str, args: &Value, offered: bool) -> Value {
    match call {
        "read" => read(args),
        "write" => write(args),
        "generate" => generate(args),
        "check" => checked(args),
        "exchange" => exchange(args),
        "rehearse" => rehearsal(args),
        "station" => station(args, offered),
        "station_state" => station_state(args),
        _ => panic!("a call that isn't known: {call}"),
    }
}

#[test]
fn calls() {
    for Set { name, calls, offered, .. } in SETS {
        let vectors: Vec<Value> = calls.lines().map(Value::of).collect();
        let mut used: BTreeMap<&str, usize> = BTreeMap::new();
        for (vector, number) in vectors.iter().zip(1..) {
            let call = vector.text("call");
            let made = made(call, vector.at("args"), offered);
            assert_eq!(&made, vector.at("want"), "{name}/calls.jsonl, line {number}");
            *used.entry(call).or_default() += 1;
        }
        assert_eq!(used.values().sum::<usize>(), calls.lines().count(), "{used:?}");
        assert_eq!(used.len(), 8, "a call has no vector: {used:?}");
        assert!(used.values().all(|&many| many == HELD.0), "{name}: {used:?}");
    }
}

/// Compares what is printed of the sheet of each line with what the line has under this key.
fn printed(key: &str, file: &str, lines: &str, wanted: usize, of_sheet: fn(&[u8]) -> String) {
    let mut used = 0;
    for (line, number) in lines.lines().zip(1..) {
        let vector = Value::of(line);
        assert_eq!(of_sheet(&vector.at("sheet").bytes()), vector.text(key), "{file}, line {number}");
        used += 1;
    }
    assert!(used > 0 && used == lines.lines().count());
    assert_eq!(used, wanted, "{file}");
}

#[test]
fn sheets_listed() {
    for Set { name, listings, .. } in SETS {
        printed("listing", &format!("{name}/listings.jsonl"), listings, HELD.1, listing);
    }
}

#[test]
fn sheets_with_seeds() {
    for Set { name, seeds, .. } in SETS {
        printed("listings", &format!("{name}/seeds.jsonl"), seeds, HELD.2, listings);
    }
}

/// What the vectors are held by tells values apart.
#[test]
fn values() {
    let value = Value::of(r#"{"a": [1, "x\n", {}], "b": {"c": 22}}"#);
    assert_eq!(value, Value::of(r#"{"b":{"c":22},"a":[1,"x\n",{}]}"#));
    assert_eq!((value.list("a").len(), value.at("b").number::<u8>("c")), (3, 22));
    assert_eq!(
        (value.list("a")[1].clone(), Value::hex(&[0, 255])),
        (Value::Text("x\n".to_string()), Value::Text("00ff".to_string()))
    );
    assert_eq!(Value::hex(&[0, 1, 255]).bytes(), [0, 1, 255]);
    for other in [
        r#"{"a": [1, "x\n", {}]}"#,
        r#"{"a": [1, "x\n", {}], "b": {"c": 2}}"#,
        r#"{"a": [1, "x", {}], "b": {"c": 22}}"#,
    ] {
        assert_ne!(value, Value::of(other));
    }
}
