//! One round: a row for each sender, a column for each receiver, and below what the receivers hold then.

use super::layout::{BAR, GAP, GUTTER, HEAD};
use super::svg::Font;
use super::{Drawing, Kind, Look, GRADES, SMALL};
use crate::line::Part;
use crate::station::Station;

/// Stands right of a bad station's row that has different bytes for other stations.
pub const DIFFER: &str = "\u{2260}";

/// Whether a station's row has different bytes for others than itself. Bytes that are read alike may differ.
fn differs(from: u8, row: &[u8]) -> bool {
    let others = (1..).zip(row).filter(|(to, _)| *to != from).map(|(_, byte)| byte);
    others.clone().zip(others.skip(1)).any(|(byte, next)| byte != next)
}

/// The one station that should speak in a round; none where all should.
fn speaker(sender: u8, part: Part) -> Option<u8> {
    match part {
        Part::Sender => Some(sender),
        Part::King(king) => Some(king),
        Part::First | Part::Second => None,
    }
}

impl Drawing<'_> {
    /// Draws a round with its title, grid and strips.
    pub fn round(&mut self, round: u8, before: &[Option<Station>], after: &[Option<Station>]) {
        let line = self.run.line;
        let part = line.part(round);
        let (x, y) = self.layout.round_corner(round, part);
        self.svg.text(x, y + 14, SMALL, &self.round_title(round, part));
        self.svg.open(x + GUTTER, y + HEAD);
        self.borders();
        self.svg.open_cells(self.layout.cell);
        for from in line.stations() {
            self.said(part, from, &self.run.log[line.place(round, from, 1)..][..line.n()]);
        }
        self.svg.lattice(0, self.layout.cell, (line.n() as i32, line.n() as i32));
        self.strips(part, after);
        self.svg.close();
        self.counted(before, after);
        let speaker = speaker(self.run.header.sender, part);
        if let Some(speaker) = speaker {
            self.one_speaks(speaker);
        }
        self.marks(round, speaker);
        self.svg.close();
    }

    /// A round's title. What a bad station should tell is not said of it.
    fn round_title(&self, round: u8, part: Part) -> String {
        let (sender, marks) = (self.run.header.sender, self.run.header.marks);
        match part {
            Part::Sender if marks.bad(sender) => format!("Round 1: sender {sender}, who is bad"),
            Part::Sender => format!("Round 1: sender {sender} tells its value"),
            Part::First => format!("Round {round}: all tell x"),
            Part::Second => format!("Round {round}: all tell z"),
            Part::King(king) if marks.bad(king) => format!("Round {round}: king {king}, who is bad"),
            Part::King(king) => format!("Round {round}: king {king} tells its y"),
        }
    }

    /// The stations' numbers above and left of the grid, with bars for the bad ones.
    fn borders(&mut self) {
        let (cell, font) = (self.layout.cell, self.layout.number_font());
        for station in self.run.line.stations() {
            let (at, bad) = (self.layout.at(station), self.run.header.marks.bad(station));
            let (font, number) = (if bad { font.bold() } else { font }, station.to_string());
            self.svg.text(at + cell / 2, -BAR - 4, font.middle(), &number);
            self.svg.text(-BAR - 4, at + cell / 2 + font.drop(), font.end(), &number);
            if bad {
                self.svg.hatched(at, -BAR - 1, (cell - 1, BAR));
                self.svg.hatched(-BAR - 1, at, (BAR, cell - 1));
            }
        }
    }

    /// What one station said to each: a row of the grid.
    fn said(&mut self, part: Part, from: u8, row: &[u8]) {
        let (cell, y) = (self.layout.cell, self.layout.at(from));
        self.cells(y, row.iter().map(|&byte| Some(Kind::of(part, byte).looks())).collect());
        let font = Font::plain(cell * 2 / 5).middle();
        for (to, &byte) in (1..).zip(row) {
            if Kind::of(part, byte) == Kind::Garbled && self.numbers_fit() {
                let x = self.layout.at(to) + cell / 2;
                self.svg.text(x, y + cell / 2 + font.drop(), font, &byte.to_string());
            }
        }
    }

    /// A row of cells, with none for a bad station.
    fn cells(&mut self, y: i32, looks: Vec<Option<Look>>) {
        let (cell, mut x) = (self.layout.cell, 0);
        for same in looks.chunk_by(|a, b| a == b) {
            let many = same.len() as i32;
            match same[0] {
                Some((colour, symbol)) => {
                    self.svg.rect(x, y, (many * cell, cell), colour);
                    self.symbols(x, y, many, symbol);
                }
                None => (0..many).for_each(|i| self.svg.hatched(x + i * cell, y, (cell - 1, cell - 1))),
            }
            x += many * cell;
        }
    }

    /// The same symbol in so many cells. Where there is room, a garbled byte's number stands for it.
    fn symbols(&mut self, x: i32, y: i32, many: i32, symbol: &str) {
        let cell = self.layout.cell;
        if symbol == Kind::Silence.looks().1 {
            self.svg.dots(x, y, cell, many);
        } else if symbol != Kind::Garbled.looks().1 || !self.numbers_fit() {
            (0..many).for_each(|i| self.svg.symbol(x + i * cell, y, cell, symbol));
        }
    }

    /// Frames the one who should speak, and fades what bad stations say out of turn.
    fn one_speaks(&mut self, speaker: u8) {
        let (cell, width) = (self.layout.cell, self.layout.grid());
        for station in self.run.line.stations() {
            if station != speaker && self.run.header.marks.bad(station) {
                self.svg.veil(0, self.layout.at(station), (width, cell));
            }
        }
        self.svg.frame(0, self.layout.at(speaker), (width - 1, cell - 1));
    }

    /// Marks the bad stations that told others different bytes; in grey where it was out of turn.
    fn marks(&mut self, round: u8, speaker: Option<u8>) {
        let (line, cell) = (self.run.line, self.layout.cell);
        let font = Font::plain(cell.min(16)).bold();
        for from in line.stations().filter(|&from| self.run.header.marks.bad(from)) {
            let row = &self.run.log[line.place(round, from, 1)..][..line.n()];
            if differs(from, row) {
                let font = if speaker.is_none_or(|one| one == from) { font } else { font.grey() };
                let y = self.layout.at(from) + cell / 2 + font.drop();
                self.svg.text(self.layout.grid() + 4, y, font, DIFFER);
            }
        }
    }

    /// A bar right below the grid for each station that counts the round as garbled.
    fn counted(&mut self, before: &[Option<Station>], after: &[Option<Station>]) {
        let (side, y) = (self.layout.cell - 1, self.layout.grid() + 1);
        for (before, after) in before.iter().flatten().zip(after.iter().flatten()) {
            if after.count > before.count {
                self.svg.garbled_bar(self.layout.at(after.own), y, side);
            }
        }
    }

    /// What the good stations hold after the round.
    fn strips(&mut self, part: Part, after: &[Option<Station>]) {
        let value = |station: &Station| Kind::held(station.value).looks();
        match part {
            Part::Sender | Part::King(_) => self.strip(0, "x", after, value),
            Part::First => self.strip(0, "z", after, |station| Kind::held(station.z).looks()),
            Part::Second => {
                self.strip(0, "y", after, value);
                self.strip(1, "grade", after, |station| GRADES[usize::from(station.grade)]);
            }
        }
    }

    fn strip(&mut self, place: i32, name: &str, after: &[Option<Station>], look: fn(&Station) -> Look) {
        let (cell, font) = (self.layout.cell, self.layout.number_font());
        let y = self.layout.grid() + GAP + place * cell;
        self.svg.text(-BAR - 4, y + cell / 2 + font.drop(), font.end(), name);
        self.cells(y, after.iter().map(|state| state.as_ref().map(look)).collect());
        self.svg.lattice(y, cell, (after.len() as i32, 1));
    }
}

#[cfg(test)]
mod tests {
    use super::differs;

    #[test]
    fn rows_that_differ() {
        assert!(differs(1, &[255, 0, 1]));
        assert!(differs(2, &[0, 0, 255]));
        assert!(differs(4, &[7, 7, 8, 7]), "bytes that are read alike differ all the same");
        assert!(!differs(1, &[255, 1, 1]), "its word to itself is nobody else's");
        assert!(!differs(3, &[0, 0, 9]));
        assert!(!differs(1, &[1, 1]) && !differs(1, &[5]));
    }
}
