//! A run sheet as text that a planner writes and reads by hand.
//!
//! ```text
//! # case C
//! n 3
//! t 0
//! T 1
//! sender 1
//! value 0
//! bad 1
//! round 1-3 5 6 from 1 to 2 ballot 0
//! round 1-3 5 6 from 1 to 3 ballot 1
//! ```
//!
//! Each of the first six words begins one line, in any order; `bad none` where no station is bad. With a line `w 3` the value
//! is a number of three bits, and a record's line begins with its bits, as `bit 0 2 round 1 from 1 to 2 ballot 0`. Where
//! several numbers may stand there may be ranges, or `all`: every bit, every round, every bad station as `from`, every
//! station as `to`. A ballot is `0`, `1`, `blank`, `silence` or a byte's number. `#` begins a comment.
//! Records are chained in the order of the lines, within a line by bit, then round, then from, then to.

use std::fmt;

use crate::line::{Cause, Header, Line, Marks, BLANK, SILENCE};
use crate::number::{Width, MOST_BITS};
use crate::sheet::{self, Record, RECORDS};

/// The most bytes of a text: many times what 4,096 records can need.
pub const LONGEST: usize = 1 << 24;

/// What is wrong with a text, and in which line; line 0 stands for the whole text.
#[derive(Clone, PartialEq, Eq, Debug)]
pub struct Error {
    pub line: usize,
    pub what: String,
}

impl fmt::Display for Error {
    fn fmt(&self, out: &mut fmt::Formatter) -> fmt::Result {
        match self.line {
            0 => write!(out, "{}", self.what),
            line => write!(out, "line {line}: {}", self.what),
        }
    }
}

/// The words that begin the header's lines, in the normal form's order.
const FIELDS: [&str; 7] = ["n", "t", "T", "sender", "w", "value", "bad"];
/// Where the one stands whose line may be missing.
const W: usize = 4;
/// The words that divide a record's line, in their order. It begins with one of the first two.
const PARTS: [&str; 5] = ["bit", "round", "from", "to", "ballot"];

/// A line of the text: its number, its first word and the words after it.
struct Entry<'a> {
    line: usize,
    first: &'a str,
    rest: Vec<&'a str>,
}

impl Entry<'_> {
    fn error<T>(&self, what: String) -> Result<T, Error> {
        Err(Error { line: self.line, what: shown(&what) })
    }

    /// The one number of a header's line.
    fn number(&self) -> Result<u8, Error> {
        match self.rest[..] {
            [word] => self.byte(word),
            _ => self.error(format!("one number is wanted after `{}`", self.first)),
        }
    }

    fn byte(&self, word: &str) -> Result<u8, Error> {
        byte(word).map_or_else(|| self.error(format!("`{word}` is not a number from 0 to 255")), Ok)
    }

    /// Numbers and ranges, or `all`.
    fn list(&self, part: &str, words: &[&str], all: Vec<u8>) -> Result<Vec<u8>, Error> {
        if words == ["all"] && all.is_empty() {
            return self.error(format!("no station is bad, so `{part} all` names none"));
        }
        if words == ["all"] {
            return Ok(all);
        }
        if words.is_empty() {
            return self.error(format!("a number is wanted after `{part}`"));
        }
        let mut numbers = Vec::new();
        for word in words {
            let (low, high) = word.split_once('-').unwrap_or((word, word));
            match (byte(low), byte(high)) {
                (Some(low), Some(high)) if low <= high => numbers.extend(low..=high),
                (Some(_), Some(_)) => return self.error(format!("range `{word}` runs backwards")),
                _ => return self.error(format!("`{word}` is not a number from 0 to 255, nor a range")),
            }
        }
        Ok(numbers)
    }

    /// The words of a record's line after each of its parts' words; none after `bit` where it begins with `round`.
    fn parts(&self) -> Result<[&[&str]; 5], Error> {
        let end = |words: &[&str]| words.iter().position(|word| PARTS.contains(word)).unwrap_or(words.len());
        let (mut rest, mut parts) = (&self.rest[..], [&[][..]; 5]);
        let first = usize::from(!self.tells_bits());
        (parts[first], rest) = rest.split_at(end(rest));
        for (words, part) in parts.iter_mut().zip(&PARTS).skip(first + 1) {
            match rest.split_first() {
                Some((word, after)) if word == part => (*words, rest) = after.split_at(end(after)),
                Some((word, _)) => return self.error(format!("`{part}` is wanted before `{word}`")),
                None => return self.error(format!("`{part}` is missing")),
            }
        }
        match rest.first() {
            Some(word) => self.error(format!("`{word}` is one too many")),
            None => Ok(parts),
        }
    }

    /// Whether a record's line begins with its bits.
    fn tells_bits(&self) -> bool {
        self.first == PARTS[0]
    }

    /// The bits of a record's line, by the words after `bit`. It is bit 0 where there is no other.
    fn bits(&self, words: &[&str], width: Width) -> Result<Vec<u8>, Error> {
        let count = width.count();
        if !self.tells_bits() && count > 1 {
            return self.error(format!("`bit` is wanted before `round`: the number has {count} bits"));
        }
        if !self.tells_bits() {
            return Ok(vec![0]);
        }
        let bits = self.list(PARTS[0], words, width.bits().collect())?;
        match bits.iter().find(|&&bit| !width.has(bit)) {
            Some(bit) => self.error(format!("bit {bit} is beyond the last bit {}", count - 1)),
            None => Ok(bits),
        }
    }

    fn station(&self, station: u8, n: u8) -> Result<(), Error> {
        match station {
            0 => self.error("station 0: stations are numbered from 1".to_string()),
            _ if station > n => self.error(format!("station {station} is beyond n {n}")),
            _ => Ok(()),
        }
    }

    fn round(&self, round: u8, last: u8) -> Result<(), Error> {
        match round {
            0 => self.error("round 0: rounds are numbered from 1".to_string()),
            _ if round > last => self.error(format!("round {round} is beyond the last round {last}")),
            _ => Ok(()),
        }
    }

    fn ballot(&self, words: &[&str]) -> Result<u8, Error> {
        match words {
            ["blank"] => Ok(BLANK),
            ["silence"] => Ok(SILENCE),
            [word] if word.bytes().all(|byte| byte.is_ascii_digit()) => self.byte(word),
            [word] => {
                self.error(format!("`{word}` is not a ballot: 0, 1, blank, silence or a byte's number"))
            }
            _ => self.error("one ballot is wanted after `ballot`".to_string()),
        }
    }
}

/// A message for a terminal, whatever words of a text it quotes: of one line's length, without signs that steer the terminal.
fn shown(what: &str) -> String {
    let mut shown = String::new();
    for letter in what.chars() {
        if shown.len() > 200 {
            return shown + " ..";
        }
        match letter.is_control() {
            true => shown.extend(letter.escape_default()),
            false => shown.push(letter),
        }
    }
    shown
}

/// A decimal number without a sign.
fn byte(word: &str) -> Option<u8> {
    let digits = word.bytes().all(|byte| byte.is_ascii_digit());
    word.parse().ok().filter(|_| digits)
}

/// The lines that say something, without comments.
fn entries(text: &str) -> impl Iterator<Item = Entry<'_>> {
    text.trim_start_matches('\u{feff}').lines().zip(1..).filter_map(|(whole, line)| {
        let said = whole.split('#').next().unwrap_or("");
        let mut words = said.split_whitespace();
        words.next().map(|first| Entry { line, first, rest: words.collect() })
    })
}

/// The header's lines in the order of [`FIELDS`], and the records' lines. A text without `w` is one with `w 0`.
fn sorted(text: &str) -> Result<([Entry<'_>; 7], Vec<Entry<'_>>), Error> {
    let mut fields: [Option<Entry>; 7] = Default::default();
    let mut records = Vec::new();
    for entry in entries(text) {
        match FIELDS.iter().position(|&field| field == entry.first) {
            Some(at) => match &fields[at] {
                Some(other) => {
                    return entry.error(format!("`{}` already stands in line {}", entry.first, other.line))
                }
                None => fields[at] = Some(entry),
            },
            None if PARTS[..2].contains(&entry.first) => records.push(entry),
            None => {
                let words = [&FIELDS[..], &PARTS[..1]].concat().join(", ");
                let (last, other) = (PARTS[1], entry.first);
                return entry.error(format!("a line begins with {words} or {last}, not with `{other}`"));
            }
        }
    }
    fields[W].get_or_insert(Entry { line: 0, first: FIELDS[W], rest: vec!["0"] });
    if let Some(at) = fields.iter().position(Option::is_none) {
        return Err(Error { line: 0, what: format!("no line begins with `{}`", FIELDS[at]) });
    }
    Ok((fields.map(|entry| entry.expect("none is missing")), records))
}

/// The header, judged as the reader judges it.
fn header([n, t, upper, sender, w, value, bad]: &[Entry; 7]) -> Result<Header, Error> {
    let header = Header {
        n: n.number()?,
        t: t.number()?,
        upper: upper.number()?,
        sender: sender.number()?,
        value: value.number()?,
        w: w.number()?,
        marks: Marks(0),
    };
    match header.judge() {
        Ok(_) => Ok(Header { marks: marks(bad, header.n)?, ..header }),
        Err(Cause::Width) => w.error(format!("w {} is above {MOST_BITS}", header.w)),
        Err(Cause::StationCount) => n.error(format!("n {} is outside 1 to 32", header.n)),
        Err(Cause::Thresholds) if header.t > header.upper => {
            t.error(format!("t {} is above T {}", header.t, header.upper))
        }
        Err(Cause::Thresholds) => {
            let sum = u16::from(header.t) + 2 * u16::from(header.upper);
            upper.error(format!("t + 2T is {sum}, which is not below n {}", header.n))
        }
        Err(Cause::StationNumber) => Err(sender.station(header.sender, header.n).unwrap_err()),
        Err(_) if header.w <= 1 => value.error(format!("value {} is not 0 or 1", header.value)),
        Err(_) => {
            let Header { value: number, w, .. } = header;
            value.error(format!("value {number} is not below {}, 2 to the power w {w}", 1 << w))
        }
    }
}

fn marks(bad: &Entry, n: u8) -> Result<Marks, Error> {
    let mut marks = Marks(0);
    if bad.rest != ["none"] {
        for station in bad.list("bad", &bad.rest, (1..=n).collect())? {
            bad.station(station, n)?;
            marks.0 |= 1 << (station - 1);
        }
    }
    Ok(marks)
}

/// The records of one line, in their order.
fn records_of(entry: &Entry, line: &Line, header: &Header) -> Result<Vec<Record>, Error> {
    let (n, marks, width) = (header.n, header.marks, header.width().expect("the header is judged"));
    let [bits, rounds, froms, tos, ballot] = entry.parts()?;
    let bad = line.stations().filter(|&station| marks.bad(station)).collect();
    let bits = entry.bits(bits, width)?;
    let rounds = entry.list("round", rounds, (1..=line.rounds()).collect())?;
    let froms = entry.list("from", froms, bad)?;
    let tos = entry.list("to", tos, line.stations().collect())?;
    let ballot = entry.ballot(ballot)?;
    rounds.iter().try_for_each(|&round| entry.round(round, line.rounds()))?;
    froms.iter().chain(&tos).try_for_each(|&station| entry.station(station, n))?;
    if let Some(from) = froms.iter().find(|&&from| !marks.bad(from)) {
        return entry.error(format!("station {from} is not bad; only a bad station's ballots can be given"));
    }
    let in_bits = bits.iter().flat_map(|&bit| rounds.iter().map(move |&round| (bit, round)));
    let rows = in_bits.flat_map(|(bit, round)| froms.iter().map(move |&from| (bit, round, from)));
    let told = |(bit, round, from)| tos.iter().map(move |&to| Record { bit, round, from, to, ballot });
    Ok(rows.flat_map(told).collect())
}

/// A record's bit as its line begins, nothing where there is one bit.
fn bit_text(bit: u8, width: Width) -> String {
    match width.count() {
        1 => String::new(),
        _ => format!("{} {bit} ", PARTS[0]),
    }
}

/// The sheet that a text stands for.
pub fn to_sheet(text: &str) -> Result<Vec<u8>, Error> {
    if text.len() > LONGEST {
        return Err(Error { line: 0, what: format!("a text has at most {LONGEST} bytes") });
    }
    let (fields, entries) = sorted(text)?;
    let header = header(&fields)?;
    let line = header.judge().expect("the header is judged");
    let width = header.width().expect("the header is judged");
    let mut given_in = vec![0; line.tables_len(width)];
    let mut records = Vec::new();
    for entry in &entries {
        for record in records_of(entry, &line, &header)? {
            let Record { bit, round, from, to, .. } = record;
            let earlier = &mut given_in[record.place(&line)];
            if *earlier != 0 {
                let bit = bit_text(bit, width);
                return entry.error(format!(
                    "{bit}round {round} from {from} to {to} is already given in line {earlier}"
                ));
            }
            *earlier = entry.line;
            records.push(record);
        }
        if records.len() > RECORDS {
            return entry.error(format!("more than {RECORDS} records"));
        }
    }
    Ok(sheet::write(&header, &records))
}

/// Ascending numbers, three or more in a row as a range.
pub fn list_text(numbers: &[u8]) -> String {
    let in_a_row = |&a: &u8, &b: &u8| a + 1 == b;
    let ranges = numbers.chunk_by(in_a_row).flat_map(|row| match row {
        [low, .., high] if row.len() > 2 => vec![format!("{low}-{high}")],
        _ => row.iter().map(u8::to_string).collect(),
    });
    ranges.collect::<Vec<_>>().join(" ")
}

pub fn ballot_text(ballot: u8) -> String {
    match ballot {
        BLANK => "blank".to_string(),
        SILENCE => "silence".to_string(),
        byte => byte.to_string(),
    }
}

/// A header's lines.
fn header_text(header: &Header) -> String {
    let Header { n, t, upper, sender, value, w, marks } = *header;
    let bad: Vec<u8> = marks.stations().collect();
    let bad = if bad.is_empty() { "none".to_string() } else { list_text(&bad) };
    // without it byte 5 is 0
    let w = if w == 0 { String::new() } else { format!("w {w}\n") };
    format!("n {n}\nt {t}\nT {upper}\nsender {sender}\n{w}value {value}\nbad {bad}\n")
}

/// A sheet as text in the normal form, which gives the same header and chain back. Neighbours in the
/// chain that differ only in an ascending `to` share a line. Every cause but 8.
pub fn of_sheet(bytes: &[u8]) -> Result<String, Cause> {
    let (header, records) = sheet::records(bytes)?;
    let mut text = header_text(&header);
    let told = |record: &Record| (record.bit, record.round, record.from, record.ballot);
    let alike = |a: &Record, b: &Record| told(a) == told(b) && a.to < b.to;
    for same in records.chunk_by(alike) {
        let (bit, round, from, ballot) = told(&same[0]);
        let to: Vec<u8> = same.iter().map(|record| record.to).collect();
        let (bit, to, ballot) = (bit_text(bit, header.width()?), list_text(&to), ballot_text(ballot));
        text.push_str(&format!("{bit}round {round} from {from} to {to} ballot {ballot}\n"));
    }
    Ok(text)
}
