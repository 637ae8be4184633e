//! The few SVG elements that a drawing is made of. Coordinates are whole numbers.

use std::fmt::{self, Write};

use super::layout::BAR;
use super::Kind;

/// A text's size, weight, colour, and which of its points stands at the given place.
#[derive(Clone, Copy)]
pub struct Font {
    pub size: i32,
    bold: bool,
    colour: &'static str,
    anchor: &'static str,
}

impl Font {
    pub const fn plain(size: i32) -> Font {
        Font { size, bold: false, colour: "#000000", anchor: "start" }
    }

    pub const fn bold(self) -> Font {
        Font { bold: true, ..self }
    }

    pub const fn grey(self) -> Font {
        Font { colour: "#767676", ..self }
    }

    pub const fn middle(self) -> Font {
        Font { anchor: "middle", ..self }
    }

    pub const fn end(self) -> Font {
        Font { anchor: "end", ..self }
    }

    /// How far below the middle of a line of text its base line stands.
    pub const fn drop(self) -> i32 {
        self.size * 7 / 20
    }

    /// How many letters have room in this width, also in a wide font.
    pub const fn letters(self, width: i32) -> usize {
        let percent = if self.bold { 70 } else { 64 };
        (width * 100 / (self.size * percent)) as usize
    }
}

/// How a browser prints it: as wide as an A4 page, upright, with margins of 10 mm.
const PRINTED: &str = "@page{size:A4;margin:10mm}@media print{svg{width:190mm;height:auto}}";

/// A drawing in the making.
#[derive(Default)]
pub struct Svg {
    text: String,
}

impl Svg {
    fn put(&mut self, element: fmt::Arguments) {
        writeln!(self.text, "{element}").expect("a string takes any text");
    }

    /// A rectangle with these attributes of its paint.
    fn shape(&mut self, x: i32, y: i32, (width, height): (i32, i32), paint: fmt::Arguments) {
        self.put(format_args!("<rect x=\"{x}\" y=\"{y}\" width=\"{width}\" height=\"{height}\" {paint}/>"));
    }

    pub fn rect(&mut self, x: i32, y: i32, size: (i32, i32), fill: &str) {
        self.shape(x, y, size, format_args!("fill=\"{fill}\""));
    }

    /// A veil through which what is below is seen faded.
    pub fn veil(&mut self, x: i32, y: i32, size: (i32, i32)) {
        self.shape(x, y, size, format_args!("fill=\"#ffffff\" fill-opacity=\"0.7\""));
    }

    pub fn frame(&mut self, x: i32, y: i32, size: (i32, i32)) {
        self.shape(x, y, size, format_args!("fill=\"none\" stroke=\"#000000\" stroke-width=\"2\""));
    }

    /// The bar of a station that counts a round as garbled.
    pub fn garbled_bar(&mut self, x: i32, y: i32, width: i32) {
        self.rect(x, y, (width, BAR), Kind::Garbled.looks().0);
    }

    /// A flag on its pole, 8 wide and 11 high.
    pub fn flag(&mut self, x: i32, y: i32) {
        self.put(format_args!("<path d=\"M{x} {y}v11h1v-4l7 -3.5l-7 -3.5z\" fill=\"#b34700\"/>"));
    }

    /// Text whose base line is at y.
    pub fn text(&mut self, x: i32, y: i32, font: Font, words: &str) {
        let Font { size, bold, colour, anchor } = font;
        let weight = if bold { "bold" } else { "normal" };
        self.put(format_args!(
            "<text x=\"{x}\" y=\"{y}\" font-size=\"{size}\" font-weight=\"{weight}\" \
             fill=\"{colour}\" text-anchor=\"{anchor}\">{words}</text>"
        ));
    }

    /// Begins a group whose coordinates count from (x, y).
    pub fn open(&mut self, x: i32, y: i32) {
        self.put(format_args!("<g transform=\"translate({x} {y})\">"));
    }

    pub fn close(&mut self) {
        self.put(format_args!("</g>"));
    }

    /// A coloured square with a symbol in its middle.
    pub fn square(&mut self, x: i32, y: i32, side: i32, colour: &str, symbol: &str) {
        self.rect(x, y, (side - 1, side - 1), colour);
        if !symbol.is_empty() {
            let font = Font::plain(side * 2 / 3).middle();
            self.text(x + side / 2, y + side / 2 + font.drop(), font, symbol);
        }
    }

    /// Slanted lines in a rectangle.
    pub fn hatched(&mut self, x: i32, y: i32, (width, height): (i32, i32)) {
        let mut path = String::new();
        for across in (2..width + height).step_by(4) {
            let low = (x + (across - height).max(0), y + across.min(height));
            let high = (x + across.min(width), y + (across - width).max(0));
            write!(path, "M{} {}L{} {}", low.0, low.1, high.0, high.1).expect("a string takes any text");
        }
        self.put(format_args!("<path d=\"{path}\" stroke=\"#000000\" stroke-width=\"1.3\"/>"));
    }

    /// Begins a group of square cells with this side.
    pub fn open_cells(&mut self, side: i32) {
        self.put(format_args!("<g class=\"cells\" font-size=\"{}\" text-anchor=\"middle\">", side * 2 / 3));
    }

    /// A symbol in the middle of the cell that begins here, within a group of cells.
    pub fn symbol(&mut self, x: i32, y: i32, side: i32, symbol: &str) {
        let (x, y) = (x + side / 2, y + side / 2 + Font::plain(side * 2 / 3).drop());
        self.put(format_args!("<text x=\"{x}\" y=\"{y}\">{symbol}</text>"));
    }

    /// A dot in the middle of each of so many cells in a row.
    pub fn dots(&mut self, x: i32, y: i32, side: i32, many: i32) {
        let (x, y, length, gap) = (x + side / 2 - 1, y + side / 2, (many - 1) * side + 2, side - 2);
        self.put(format_args!(
            "<path d=\"M{x} {y}h{length}\" stroke=\"#444444\" stroke-width=\"2\" stroke-dasharray=\"2 {gap}\"/>"
        ));
    }

    /// White lines that part cells from each other, in so many columns and rows.
    pub fn lattice(&mut self, y: i32, side: i32, (columns, rows): (i32, i32)) {
        let mut path = String::new();
        for column in 1..=columns {
            write!(path, "M{} {y}h1v{}h-1z", column * side - 1, rows * side)
                .expect("a string takes any text");
        }
        for row in 1..=rows {
            let y = y + row * side - 1;
            write!(path, "M0 {y}h{}v1h-{0}z", columns * side).expect("a string takes any text");
        }
        self.put(format_args!("<path d=\"{path}\" fill=\"#ffffff\"/>"));
    }

    /// The whole drawing, white where nothing is drawn.
    pub fn finish(self, (width, height): (i32, i32), title: &str) -> String {
        let mut whole = Svg::default();
        whole.put(format_args!(
            "<svg xmlns=\"http://www.w3.org/2000/svg\" viewBox=\"0 0 {width} {height}\" width=\"{width}\" \
             height=\"{height}\" font-family=\"Helvetica, Arial, sans-serif\">\n<title>{title}</title>\n\
             <style>{PRINTED}</style>"
        ));
        whole.rect(0, 0, (width, height), "#ffffff");
        whole.text.push_str(&self.text);
        whole.put(format_args!("</svg>"));
        whole.text
    }
}
