//! Above a bit's rounds: which bit of the number it is, and what came out of it. One bit alone has none, the head says it all.

use super::layout::{INNER, MARGIN};
use super::svg::{Font, Svg};
use super::verdict::Verdict;
use super::words::lines;
use super::{is_number, BODY};
use crate::listing::Run;
use crate::number::Width;

const TITLE: Font = Font::plain(18).bold();
/// Between the rounds before and the rule.
const ABOVE: i32 = 10;
/// Where the base line of the bit's name stands below the rule, and how far the words are below it.
const NAME: i32 = 26;
const STEP: i32 = 20;
/// Between the words and round 1.
const BELOW: i32 = 14;

/// A bit's name and the lines below it.
pub struct Title(Option<(String, Vec<String>)>);

/// The title of a bit, by its own run.
pub fn of_bit(run: &Run, bit: u8, width: Width) -> Title {
    Title(is_number(width).then(|| {
        let words = Verdict::of_bit(run).bit();
        (format!("Bit {bit}, worth {}", 1 << bit), lines(&words, BODY, INNER))
    }))
}

impl Title {
    pub fn height(&self) -> i32 {
        let lines = |(_, lines): &(String, Vec<String>)| ABOVE + NAME + STEP * lines.len() as i32 + BELOW;
        self.0.as_ref().map_or(0, lines)
    }

    /// Draws it below y: a thick rule, the name, the lines.
    pub fn draw(&self, svg: &mut Svg, y: i32) {
        let Some((name, lines)) = &self.0 else { return };
        let y = y + ABOVE;
        svg.rect(MARGIN, y, (INNER, 3), "#000000");
        svg.text(MARGIN, y + NAME, TITLE, name);
        for (line, place) in lines.iter().zip(1..) {
            svg.text(MARGIN, y + NAME + STEP * place, BODY, line);
        }
    }
}
