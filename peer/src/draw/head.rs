//! Above the rounds: what came out, the outcomes, and what the letters mean.

use super::layout::{INNER, MARGIN};
use super::meanings::meanings;
use super::svg::{Font, Svg};
use super::verdict::Verdict;
use super::words::lines;
use super::{outcome, BODY, HEADING, SMALL};
use crate::listing::Run;

/// The sentence that says what came out.
const VERDICT: Font = Font::plain(20).bold();
/// Where a meaning begins.
const MEANING: i32 = 90;

/// Draws the head and gives where it ends.
pub fn head(svg: &mut Svg, run: &Run) -> i32 {
    let verdict = Verdict::of(run);
    let mut y = MARGIN;
    y = paragraph(svg, (MARGIN, y), BODY.grey(), &numbers(run));
    if let Some(seed) = run.seed {
        let generated =
            format!("The run is generated from seed {seed}, which decides what bad stations say.");
        y = paragraph(svg, (MARGIN, y), BODY.grey(), &generated);
    }
    y = paragraph(svg, (MARGIN, y + 8), VERDICT, &verdict.outcome());
    y = paragraph(svg, (MARGIN, y + 4), BODY, &verdict.sender());
    y = paragraph(svg, (MARGIN, y), BODY, &verdict.promise());
    y = paragraph(svg, (MARGIN, y), BODY, &verdict.garbled());
    y = outcome::table(svg, run, y + 16);
    y = paragraph(svg, (MARGIN, y + 20), HEADING, "What the numbers and letters mean") + 2;
    for group in meanings(&run.line, run.header.width().expect("an accepted run")) {
        for (term, meaning) in group {
            paragraph(svg, (MARGIN, y), SMALL.bold(), &term);
            y = paragraph(svg, (MARGIN + MEANING, y), SMALL, &meaning);
        }
        y += 5;
    }
    y + 12
}

/// The line's numbers, and what the value is.
fn numbers(run: &Run) -> String {
    let (n, t, upper, rounds) = (run.line.n(), run.line.t(), run.line.upper(), run.line.rounds());
    let stations = if n == 1 { "station" } else { "stations" };
    let value = match run.header.width().expect("an accepted run").count() {
        1 => format!("{rounds} rounds. 0 keeps the old recipe, 1 changes over."),
        bits => {
            format!("w = {bits} bits, {rounds} rounds a bit. A recipe's number is 0 to {}.", (1 << bits) - 1)
        }
    };
    format!("n = {n} {stations}, t = {t}, T = {upper}, {value}")
}

/// Text below y in as many lines as it needs, and where it ends.
fn paragraph(svg: &mut Svg, (x, mut y): (i32, i32), font: Font, text: &str) -> i32 {
    for line in lines(text, font, MARGIN + INNER - x) {
        svg.text(x, y + font.size, font, &line);
        y += font.size * 3 / 2 - 1;
    }
    y
}
