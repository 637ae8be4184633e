//! The table of outcomes: value, grade, flag and count of each station; of a number each bit's value and flag too.

use super::layout::MARGIN;
use super::svg::{Font, Svg};
use super::{is_number, Kind, GRADES, SMALL};
use crate::listing::Run;
use crate::outcome::{self, outcomes, Outcome, OUTCOME};

/// The side of a cell. 32 of them have room beside the labels.
const CELL: i32 = 24;
/// Where the stations' columns begin.
const LABELS: i32 = 160;
/// The rows, with the stations' numbers first.
const ROWS: [&str; 1 + OUTCOME] = ["station", "value decided", "grade (how sure)", "flag", "rounds garbled"];
/// The row of the value.
const VALUE: usize = 1;

/// A column of the table: a station's outcome, and those of its number's bits, the highest first. One bit alone has none.
struct Column {
    outcome: Outcome,
    bits: Vec<Outcome>,
}

/// The bits of a number, the highest first.
fn bits(run: &Run) -> Vec<u8> {
    let width = run.header.width().expect("an accepted run");
    width.bits().rev().filter(|_| is_number(width)).collect()
}

/// The rows' labels.
fn labels(run: &Run) -> Vec<String> {
    let bits = bits(run);
    let mut labels: Vec<String> = ROWS.map(str::to_string).to_vec();
    if !bits.is_empty() {
        labels[VALUE] = "number decided".to_string();
    }
    labels.extend(bits.iter().map(|&bit| format!("bit {bit}, worth {}", 1 << bit)));
    labels
}

/// Draws the table below y and gives where it ends.
pub fn table(svg: &mut Svg, run: &Run, y: i32) -> i32 {
    let labels = labels(run);
    for (row, label) in (0..).zip(&labels) {
        svg.text(MARGIN, y + row * CELL + middle(SMALL), SMALL, label);
    }
    let of_bits: Vec<Run> = bits(run).into_iter().map(|bit| run.of_bit(bit)).collect();
    for (station, outcome) in run.line.stations().zip(outcomes(&run.outcomes)) {
        let bits = of_bits.iter().map(|run| outcome::outcome(&run.outcomes, station)).collect();
        svg.open(MARGIN + LABELS + (i32::from(station) - 1) * CELL, y);
        let font = if outcome.is_bad() { SMALL.bold() } else { SMALL };
        svg.text(CELL / 2, middle(font), font.middle(), &station.to_string());
        if outcome.is_bad() {
            bad_station(svg, labels.len() as i32 - 1);
        } else {
            good_station(svg, &Column { outcome, bits });
        }
        svg.close();
    }
    y + labels.len() as i32 * CELL
}

/// How far below a cell's top the base line of its text stands.
const fn middle(font: Font) -> i32 {
    CELL / 2 + font.drop()
}

fn good_station(svg: &mut Svg, Column { outcome, bits }: &Column) {
    if bits.is_empty() {
        let (colour, symbol) = Kind::held(outcome.value).looks();
        svg.square(0, CELL, CELL, colour, symbol);
    } else {
        // up to six bits are two digits
        let font = Font::plain(if bits.len() <= 6 { 13 } else { 10 }).bold().middle();
        svg.text(CELL / 2, CELL + middle(font), font, &outcome.value.to_string());
    }
    let (colour, symbol) = GRADES[usize::from(outcome.grade)];
    svg.square(0, 2 * CELL, CELL, colour, symbol);
    if outcome.flag == 1 {
        svg.text(8, 3 * CELL + middle(SMALL), SMALL.bold().middle(), "1");
        svg.flag(14, 3 * CELL + 6);
    } else {
        svg.text(CELL / 2, 3 * CELL + middle(SMALL), SMALL.middle(), "0");
    }
    let font = if outcome.count > 0 { SMALL.bold() } else { SMALL };
    svg.text(CELL / 2, 4 * CELL + middle(font), font.middle(), &outcome.count.to_string());
    for (of_bit, y) in bits.iter().zip((ROWS.len() as i32 * CELL..).step_by(CELL as usize)) {
        bit(svg, y, of_bit);
    }
}

/// A bit of a station's number, narrower where a flag stands beside it.
fn bit(svg: &mut Svg, y: i32, outcome: &Outcome) {
    let (colour, symbol) = Kind::held(outcome.value).looks();
    if outcome.flag == 0 {
        svg.square(0, y, CELL, colour, symbol);
    } else {
        svg.rect(0, y, (13, CELL - 1), colour);
        svg.text(6, y + middle(SMALL), SMALL.middle(), symbol);
        svg.flag(14, y + 6);
    }
}

/// Hatched over so many rows, `bad` in the second.
fn bad_station(svg: &mut Svg, rows: i32) {
    let font = Font::plain(11).middle();
    svg.hatched(0, CELL, (CELL - 1, rows * CELL - 1));
    svg.rect(0, 2 * CELL, (CELL - 1, CELL - 1), "#ffffff");
    svg.text(CELL / 2, 2 * CELL + middle(font), font, "bad");
}
