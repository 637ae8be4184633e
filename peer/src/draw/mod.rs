//! A drawing of one run on a page's width: what came out, what the letters mean, then for each round of each bit a grid
//! of who said what to whom.

mod grid;
mod head;
mod layout;
mod legend;
mod meanings;
mod outcome;
mod svg;
mod title;
mod verdict;
mod words;

use crate::ballot::Ballot;
use crate::line::{Header, Part};
use crate::listing::Run;
use crate::number::Width;
use crate::station::Station;
use layout::{Layout, BELOW, MARGIN, WIDTH};
use svg::{Font, Svg};

const BODY: Font = Font::plain(14);
const SMALL: Font = Font::plain(13);
const HEADING: Font = Font::plain(14).bold();

/// A drawing in the making: the rounds of one bit.
struct Drawing<'a> {
    /// This bit's run.
    run: &'a Run,
    bit: u8,
    /// Of the whole number.
    width: Width,
    layout: Layout,
    svg: Svg,
}

/// Whether a number is drawn and not one bit, which has words of its own.
fn is_number(width: Width) -> bool {
    width.count() > 1
}

/// How a ballot byte is shown.
#[derive(Clone, Copy, PartialEq, Eq)]
enum Kind {
    Zero,
    One,
    Blank,
    Silence,
    Garbled,
}

impl Kind {
    /// What a byte was in a round of this kind.
    fn of(part: Part, byte: u8) -> Kind {
        match part.read(byte) {
            Ballot::Bit(0) => Kind::Zero,
            Ballot::Bit(_) => Kind::One,
            Ballot::Blank => Kind::Blank,
            Ballot::Silence => Kind::Silence,
            Ballot::Garbled => Kind::Garbled,
        }
    }

    /// What a station holds: a bit or blank, as it is told in the second round of an exchange.
    fn held(byte: u8) -> Kind {
        Kind::of(Part::Second, byte)
    }

    /// Its colour, of the Okabe and Ito palette, and its symbol.
    fn looks(self) -> Look {
        match self {
            Kind::Zero => ("#56b4e9", "0"),
            Kind::One => ("#e69f00", "1"),
            Kind::Blank => ("#f0e442", "\u{2013}"),
            Kind::Silence => ("#ececec", "\u{b7}"),
            Kind::Garbled => ("#cc79a7", "\u{d7}"),
        }
    }
}

/// A cell's colour and symbol.
type Look = (&'static str, &'static str);

/// How grades 0, 1 and 2 are shown.
const GRADES: [Look; 3] = [("#f0f0f0", "0"), ("#d0d0d0", "1"), ("#a6a6a6", "2")];

/// Each station's state before the first round and after each; none for a bad one.
fn states(run: &Run) -> Vec<Vec<Option<Station>>> {
    let Header { n, t, upper, sender, value, marks, .. } = run.header;
    let open = |own| Station::open((n, t, upper), sender, own, value).ok().filter(|_| !marks.bad(own));
    let mut now: Vec<Option<Station>> = run.line.stations().map(open).collect();
    let mut states = vec![now.clone()];
    for round in 1..=run.line.rounds() {
        for station in now.iter_mut().flatten() {
            let byte = |from| run.log[run.line.place(round, from, station.own)];
            let row: Vec<u8> = run.line.stations().map(byte).collect();
            *station = station.take(&row).expect("a good station takes its rows");
        }
        states.push(now.clone());
    }
    states
}

impl Drawing<'_> {
    /// Whether cells are wide enough for a garbled byte's number.
    fn numbers_fit(&self) -> bool {
        self.layout.cell >= 20
    }

    /// A rule and the words below it.
    fn heading(&mut self, (x, y, width): (i32, i32, i32), words: &str) {
        self.svg.rect(x, y, (width, 1), "#999999");
        self.svg.text(x, y + 20, HEADING, words);
    }

    /// The headings of the blocks: round 1, each phase, the last exchange. Those of a number tell their bit.
    fn headings(&mut self) {
        let (kings, bit) = (self.run.line.t() + 1, self.bit);
        let number = is_number(self.width);
        let [first, last] = match number {
            false => ["The sender speaks".to_string(), "Last exchange: y is the value decided".to_string()],
            true => ["the sender speaks", "last exchange: y is the bit decided"]
                .map(|words| format!("Bit {bit}, {words}")),
        };
        self.heading(self.layout.block(0), &first);
        for phase in 1..=kings {
            let bad = if self.run.header.marks.bad(phase) { ", who is bad" } else { "" };
            let words = match number {
                false => format!("Phase {phase}: the king is station {phase}{bad}"),
                true => format!("Bit {bit}, phase {phase}: the king is {phase}{bad}"),
            };
            self.heading(self.layout.block(phase), &words);
        }
        self.heading(self.layout.block(kings + 1), &last);
    }

    /// Draws the bit's rounds, the first bit's with the legend.
    fn rounds(&mut self) {
        if self.bit == 0 {
            self.legend();
        }
        self.headings();
        for (round, states) in (1..).zip(states(self.run).windows(2)) {
            self.round(round, &states[0], &states[1]);
        }
    }
}

/// The drawing of a run, as SVG.
pub fn draw(run: &Run) -> String {
    let width = run.header.width().expect("an accepted run");
    let mut svg = Svg::default();
    let mut end = head::head(&mut svg, run);
    for bit in width.bits() {
        let of_bit = &run.of_bit(bit);
        let title = title::of_bit(of_bit, bit, width);
        let layout = Layout::new(&run.line, end, title.height(), bit == 0);
        title.draw(&mut svg, layout.top());
        let mut drawing = Drawing { run: of_bit, bit, width, layout, svg };
        drawing.rounds();
        (svg, end) = (drawing.svg, drawing.layout.end());
    }
    let seed = run.seed.map_or(String::new(), |seed| format!(" generated from seed {seed}"));
    let title = format!("A rehearsal{seed}: what came out, and each round");
    svg.finish((WIDTH, end + MARGIN - BELOW), &title)
}
