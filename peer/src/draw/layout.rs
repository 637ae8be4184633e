//! Where the parts of a drawing stand, by the number of stations and phases.
//!
//! The page is A4, upright. Above the rounds is the head, which begins with the outcome. Then come the
//! blocks of each bit: round 1, beside the first of which is the legend, each phase, the last exchange. The rounds of a
//! block stand side by side where three grids fit the page's width, otherwise one below the other, with two blocks side by
//! side. No block of rounds is cut by the end of a page.

use super::svg::Font;
use crate::line::{Line, Part};

/// The page's width, which is 190 mm on paper.
pub const WIDTH: i32 = 1000;
pub const MARGIN: i32 = 24;
/// The width between the margins.
pub const INNER: i32 = WIDTH - 2 * MARGIN;
/// Left of a grid: the senders' numbers and the bar of a bad one.
pub const GUTTER: i32 = 44;
/// Above a grid: the title, the receivers' numbers and the bar of a bad one.
pub const HEAD: i32 = 42;
/// Between a grid and the strips below it.
pub const GAP: i32 = 6;
/// The bar of a bad station, and of one that counts a round as garbled.
pub const BAR: i32 = 4;

/// Above a block: a rule and what the block is.
const BLOCK_HEAD: i32 = 28;
/// Between columns; a grid's marks stand there.
const BETWEEN: i32 = 24;
/// Below a panel.
pub const BELOW: i32 = 14;
/// The largest cell.
const MOST_CELL: i32 = 21;
/// The least height of round 1's band, which has the legend.
const LEGEND: i32 = 231;
/// The most stations of a line whose rounds stand three in a row.
const MOST_ACROSS: i32 = 16;

/// Free at a page's top and bottom, since browsers round a page's height.
const SLACK: i32 = 4;

/// Where the blocks of a page begin. A page has 277 mm, as 1000 is 190 mm.
fn page_top(page: i32) -> i32 {
    (page * 277 * WIDTH + 189) / 190 + SLACK
}

/// The page that a line of the drawing is on, counted from 0.
fn page(y: i32) -> i32 {
    y * 190 / (277 * WIDTH)
}

/// The layout of one bit's rounds.
pub struct Layout {
    n: i32,
    /// The last block, which is the last exchange: block 0 is round 1, block p phase p.
    last: i32,
    /// The side of a cell.
    pub cell: i32,
    /// The height of what stands above round 1.
    title: i32,
    /// The least height of round 1's band.
    least: i32,
    /// Where each band of blocks begins, and where the last one ends.
    tops: Vec<i32>,
}

impl Layout {
    /// The layout below what ends here: a title of this height, then the rounds, with the legend or not.
    pub fn new(line: &Line, above: i32, title: i32, legend: bool) -> Layout {
        let n = line.n() as i32;
        let room = page_top(1) - page_top(0) - 2 * SLACK;
        let (columns, by_height) = match n <= MOST_ACROSS {
            true => (3, room / 4 - BLOCK_HEAD),
            false => (2, (room - BLOCK_HEAD) / 3),
        };
        let by_width = (column_width(columns) - GUTTER) / n;
        let by_height = (by_height - HEAD - GAP - BELOW) / (n + 2);
        let cell = by_width.min(by_height).min(MOST_CELL);
        let least = if legend { LEGEND } else { 0 };
        let mut layout = Layout { n, last: i32::from(line.t()) + 2, cell, title, least, tops: Vec::new() };
        layout.tops = layout.tops(above);
        layout
    }

    /// Whether the rounds of a block stand side by side.
    fn across(&self) -> bool {
        self.n <= MOST_ACROSS
    }

    /// Bands one below the other; one that would be cut by a page's end begins on the next page. The title stands right
    /// above the first.
    fn tops(&self, above: i32) -> Vec<i32> {
        let (mut tops, mut y) = (Vec::new(), above);
        for band in 0..=self.band(self.last) {
            let title = if band == 0 { self.title } else { 0 };
            let height = title + self.band_height(band);
            if page(y) != page(y + height + SLACK) {
                y = page_top(page(y) + 1);
            }
            tops.push(y + title);
            y += height;
        }
        tops.push(y);
        tops
    }

    /// Where the title begins.
    pub fn top(&self) -> i32 {
        self.tops[0] - self.title
    }

    fn band(&self, block: i32) -> i32 {
        if self.across() {
            block
        } else {
            (block + 1) / 2
        }
    }

    fn band_height(&self, band: i32) -> i32 {
        let panels = match band {
            0 => 1,
            _ if self.across() => 1,
            _ if 2 * band - 1 == self.last => 2,
            _ => 3,
        };
        let least = if band == 0 { self.least } else { 0 };
        least.max(BLOCK_HEAD + panels * self.panel_height())
    }

    /// The side of a grid.
    pub fn grid(&self) -> i32 {
        self.n * self.cell
    }

    /// Where a station's row or column begins.
    pub fn at(&self, station: u8) -> i32 {
        (i32::from(station) - 1) * self.cell
    }

    /// The stations' numbers beside a grid. Two digits fit a cell's width.
    pub fn number_font(&self) -> Font {
        Font::plain(match self.cell {
            18.. => 12,
            15.. => 10,
            _ => 8,
        })
    }

    /// A panel has room for two strips below its grid.
    fn panel_height(&self) -> i32 {
        HEAD + self.grid() + GAP + 2 * self.cell + BELOW
    }

    fn columns(&self) -> i32 {
        if self.across() {
            3
        } else {
            2
        }
    }

    /// Where a column begins, counted from 0.
    fn column(&self, column: i32) -> i32 {
        MARGIN + column * (column_width(self.columns()) + BETWEEN)
    }

    /// The left top corner of a block's heading, and its width.
    pub fn block(&self, block: u8) -> (i32, i32, i32) {
        let block = i32::from(block);
        let (column, width) = match (block, self.across()) {
            (0, _) => (0, column_width(self.columns())),
            (_, true) => (0, INNER),
            (_, false) => ((block + 1) % 2, column_width(2)),
        };
        (self.column(column), self.tops[self.band(block) as usize], width)
    }

    pub fn round_corner(&self, round: u8, part: Part) -> (i32, i32) {
        let step = match part {
            Part::Sender | Part::First => 0,
            Part::Second => 1,
            Part::King(_) => 2,
        };
        let phase = match part {
            Part::Sender => 0,
            Part::King(king) => king,
            Part::First | Part::Second => (round + 1) / 3,
        };
        let (x, y, _) = self.block(phase);
        if self.across() {
            (self.column(step), y + BLOCK_HEAD)
        } else {
            (x, y + BLOCK_HEAD + step * self.panel_height())
        }
    }

    /// The legend's corner and width: all that is right of round 1.
    pub fn legend(&self) -> (i32, i32, i32) {
        let (x, (_, y, _)) = (self.column(1), self.block(0));
        (x, y, MARGIN + INNER - x)
    }

    /// How many columns the legend has.
    pub fn legend_columns(&self) -> i32 {
        self.columns() - 1
    }

    /// Where the rounds end.
    pub fn end(&self) -> i32 {
        self.tops[self.tops.len() - 1]
    }
}

/// The width of a column where there are so many.
fn column_width(columns: i32) -> i32 {
    (INNER - (columns - 1) * BETWEEN) / columns
}
