//! What the colours, symbols and marks of a grid mean.

use super::grid::DIFFER;
use super::layout::{BAR, HEAD};
use super::svg::Font;
use super::words::lines;
use super::{is_number, Drawing, Kind, GRADES, SMALL};

/// The side of an entry's sample, and where its words begin.
const SIDE: i32 = 20;
const WORDS: i32 = 30;
const LINE: i32 = 25;
/// The width of the first of two columns.
const FIRST: i32 = 252;

/// An entry: a sample and its meaning.
#[derive(Clone, Copy)]
enum Entry {
    Byte(Kind),
    Counted,
    Bad,
    Framed,
    Faded,
    Differ,
    Grades,
}

const ENTRIES: [Entry; 11] = [
    Entry::Byte(Kind::Zero),
    Entry::Byte(Kind::One),
    Entry::Byte(Kind::Blank),
    Entry::Byte(Kind::Silence),
    Entry::Byte(Kind::Garbled),
    Entry::Counted,
    Entry::Bad,
    Entry::Differ,
    Entry::Framed,
    Entry::Faded,
    Entry::Grades,
];

/// What a sample means, of one bit alone or of a bit of a number.
fn meaning(entry: Entry, number: bool) -> &'static str {
    match entry {
        Entry::Byte(Kind::Zero) if number => "0: this bit is 0",
        Entry::Byte(Kind::One) if number => "1: this bit is 1",
        Entry::Byte(Kind::Zero) => "0: keep the old recipe",
        Entry::Byte(Kind::One) => "1: change over",
        Entry::Byte(Kind::Blank) => "2 where all tell z: blank",
        Entry::Byte(Kind::Silence) => "255: silence",
        Entry::Byte(Kind::Garbled) => "any other byte: garbled",
        Entry::Counted => "it counts the round: garbled",
        Entry::Bad => "bad station: may say anything",
        Entry::Framed => "framed: the one who should speak",
        Entry::Faded => "faded: out of turn, without effect",
        Entry::Differ => "a bad one told others different bytes",
        Entry::Grades => "grades: 2 is sure",
    }
}

impl Drawing<'_> {
    /// The legend, beside round 1.
    pub fn legend(&mut self) {
        let (x, y, width) = self.layout.legend();
        self.heading((x, y, width), "How to read a round");
        let words =
            "A row is what one station says, a column what one hears. Below a grid is what each good \
                     station holds after the round.";
        self.svg.open(x, y + HEAD);
        let mut top = 0;
        for line in lines(words, SMALL, width) {
            self.svg.text(0, top, SMALL, &line);
            top += 18;
        }
        let first = if self.layout.legend_columns() == 2 { 6 } else { ENTRIES.len() };
        for (place, entry) in (0..).zip(ENTRIES) {
            let column = if place < first { 0 } else { FIRST };
            self.svg.open(column, top + (place % first) as i32 * LINE);
            self.entry(entry);
            self.svg.close();
        }
        self.svg.close();
    }

    fn entry(&mut self, entry: Entry) {
        let mut words = WORDS;
        match entry {
            Entry::Byte(kind) => self.sample(kind),
            Entry::Counted => self.svg.garbled_bar(0, (SIDE - BAR) / 2, SIDE - 1),
            Entry::Bad => self.svg.hatched(0, 0, (SIDE - 1, SIDE - 1)),
            Entry::Framed => {
                self.sample(Kind::One);
                self.svg.frame(0, 0, (SIDE - 1, SIDE - 1));
            }
            Entry::Faded => {
                self.sample(Kind::One);
                self.svg.veil(0, 0, (SIDE, SIDE));
            }
            Entry::Differ => {
                let font = Font::plain(16).bold().middle();
                self.svg.text(SIDE / 2, SIDE / 2 + font.drop(), font, DIFFER);
            }
            Entry::Grades => {
                for (place, (colour, symbol)) in (0..).zip(GRADES) {
                    self.svg.square(place * SIDE, 0, SIDE, colour, symbol);
                }
                words += 2 * SIDE;
            }
        }
        self.svg.text(words, SIDE / 2 + SMALL.drop(), SMALL, meaning(entry, is_number(self.width)));
    }

    fn sample(&mut self, kind: Kind) {
        let (colour, symbol) = kind.looks();
        if kind == Kind::Garbled && self.numbers_fit() {
            let font = Font::plain(SIDE * 2 / 5).middle();
            self.svg.square(0, 0, SIDE, colour, "");
            self.svg.text(SIDE / 2, SIDE / 2 + font.drop(), font, "77");
        } else {
            self.svg.square(0, 0, SIDE, colour, symbol);
        }
    }
}
