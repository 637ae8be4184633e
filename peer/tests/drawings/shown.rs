//! A drawing read back: its texts, and each round's cells with their colours and symbols.

use std::collections::HashMap;

/// An element's name and attributes, or a text's words.
pub struct Element<'a> {
    pub tag: &'a str,
    pub words: &'a str,
}

impl<'a> Element<'a> {
    fn find(&self, name: &str) -> Option<&'a str> {
        let start = self.tag.find(&format!(" {name}=\""))?;
        let value = &self.tag[start + name.len() + 3..];
        Some(&value[..value.find('"').unwrap()])
    }

    fn attribute(&self, name: &str) -> &'a str {
        self.find(name).unwrap_or_else(|| panic!("{name} in {}", self.tag))
    }

    fn number(&self, name: &str) -> f64 {
        self.attribute(name).parse().unwrap()
    }
}

/// The elements in their order.
pub fn elements(svg: &str) -> impl Iterator<Item = Element<'_>> {
    svg.split('<').skip(1).map(|part| {
        let (tag, words) = part.split_once('>').unwrap();
        Element { tag, words }
    })
}

/// A box on the page: left, top, right, bottom.
pub type Area = (f64, f64, f64, f64);

pub fn apart(a: &Area, b: &Area) -> bool {
    a.2 <= b.0 || b.2 <= a.0 || a.3 <= b.1 || b.3 <= a.1
}

/// A text with its own font.
pub struct Text<'a> {
    pub area: Area,
    pub baseline: f64,
    pub words: &'a str,
    pub size: f64,
    pub colour: &'a str,
    /// Whether it stands among a round's cells.
    pub in_cells: bool,
}

impl<'a> Text<'a> {
    /// Where a text stands, with letters as wide as a wide font has them.
    fn new(text: &Element<'a>, (x, y): (f64, f64), in_cells: bool) -> Text<'a> {
        let size = text.number("font-size");
        let letter = if text.attribute("font-weight") == "bold" { 0.70 } else { 0.64 };
        let width = text.words.chars().count() as f64 * letter * size;
        let (x, y) = (x + text.number("x"), y + text.number("y"));
        let left = match text.attribute("text-anchor") {
            "start" => x,
            "middle" => x - width / 2.0,
            _ => x - width,
        };
        let area = (left, y - 0.75 * size, left + width, y + 0.22 * size);
        Text { area, baseline: y, words: text.words, size, colour: text.attribute("fill"), in_cells }
    }

    /// How far right its middle is.
    pub fn middle(&self) -> f64 {
        (self.area.0 + self.area.2) / 2.0
    }
}

/// A round's grid and the strips below it.
pub struct Cells<'a> {
    place: (f64, f64),
    pub side: f64,
    /// Colours by row and column, counted from 0; the strips' rows come after the grid's.
    colours: HashMap<(i64, i64), &'a str>,
    symbols: HashMap<(i64, i64), String>,
    right: f64,
    bottom: f64,
}

impl<'a> Cells<'a> {
    fn new(place: (f64, f64)) -> Cells<'a> {
        let (colours, symbols) = (HashMap::new(), HashMap::new());
        Cells { place, side: 0.0, colours, symbols, right: 0.0, bottom: 0.0 }
    }

    /// The cell that this point, counted from the grid's corner, is in.
    fn cell(&self, x: f64, y: f64) -> (i64, i64) {
        let below = y - self.grid();
        let row = if below < 0.0 { y / self.side } else { (y - 6.0) / self.side };
        (row.floor() as i64, (x / self.side).floor() as i64)
    }

    /// The grid's height, which is its width: the first row's.
    fn grid(&self) -> f64 {
        self.right
    }

    /// Cells of one colour in a row. The first of a round is in the first row's first column.
    fn rect(&mut self, rect: &Element<'a>) {
        let [x, y, width, height] = ["x", "y", "width", "height"].map(|name| rect.number(name));
        self.side = height;
        if y == 0.0 {
            self.right = self.right.max(x + width);
        }
        self.bottom = self.bottom.max(y + height);
        for column in 0..(width / height) as i64 {
            let cell = self.cell(x + (column as f64 + 0.5) * height, y + height / 2.0);
            assert!(self.colours.insert(cell, rect.attribute("fill")).is_none(), "two colours");
        }
    }

    /// A symbol whose base line is at y.
    fn symbol(&mut self, x: f64, y: f64, symbol: &str) {
        let cell = self.cell(x, y - self.side / 4.0);
        assert!(self.symbols.insert(cell, symbol.to_string()).is_none(), "two symbols");
    }

    /// A row of dots, which is a dashed line.
    fn dots(&mut self, path: &Element<'a>) {
        assert_eq!(path.attribute("stroke-dasharray"), format!("2 {}", self.side - 2.0));
        let (start, length) = path.attribute("d").split_once('h').unwrap();
        let (x, y) = start.strip_prefix('M').unwrap().split_once(' ').unwrap();
        let [x, y, length] = [x, y, length].map(|number| number.parse::<f64>().unwrap());
        let mut at = 0.0;
        while at < length {
            self.symbol(x + at + 1.0, y + self.side / 4.0, "\u{b7}");
            at += self.side;
        }
    }

    fn look(&self, cell: (i64, i64)) -> Option<(&'a str, String)> {
        let colour = self.colours.get(&cell)?;
        Some((colour, self.symbols.get(&cell).cloned().unwrap_or_default()))
    }

    /// The colour and symbol of what one told another.
    pub fn at(&self, from: u8, to: u8) -> (&'a str, String) {
        self.look((i64::from(from) - 1, i64::from(to) - 1)).expect("a cell")
    }

    /// A station's cell in the first or second strip; none where it is hatched.
    pub fn strip(&self, strip: i64, station: u8) -> Option<(&'a str, String)> {
        let n = (self.grid() / self.side) as i64;
        self.look((n + strip, i64::from(station) - 1))
    }

    /// Whether a text stands right of this station's row.
    pub fn beside(&self, from: u8, text: &Text) -> bool {
        let top = self.place.1 + (f64::from(from) - 1.0) * self.side;
        let (left, middle) = (self.place.0 + self.grid(), (text.area.1 + text.area.3) / 2.0);
        (left..left + 10.0).contains(&text.area.0) && (top..top + self.side).contains(&middle)
    }

    /// Whether a bar stands between this station's column and the strips, as wide as a cell.
    pub fn right_below(&self, to: u8, bar: &Area) -> bool {
        let left = self.place.0 + (f64::from(to) - 1.0) * self.side;
        let top = self.place.1 + self.grid();
        (bar.0, bar.2) == (left, left + self.side - 1.0) && bar.1 >= top && bar.3 <= top + 6.0
    }

    /// The grid and its strips.
    pub fn area(&self) -> Area {
        let (x, y) = self.place;
        (x, y, x + self.right, y + self.bottom)
    }
}

/// What a drawing shows.
pub struct Shown<'a> {
    pub width: f64,
    pub height: f64,
    pub texts: Vec<Text<'a>>,
    pub cells: Vec<Cells<'a>>,
    /// The lines above the blocks of rounds.
    pub rules: Vec<Area>,
    /// The bars of stations that count a round as garbled, the legend's too.
    pub bars: Vec<Area>,
}

impl Shown<'_> {
    /// The words of all texts of this size and colour that aren't bold headings, in their order.
    pub fn joined(&self, size: f64, colour: &str) -> String {
        let first_heading = self.texts.iter().position(|text| text.words.starts_with("What the numbers"));
        let above = &self.texts[..first_heading.unwrap()];
        let alike = above.iter().filter(|text| text.size == size && text.colour == colour);
        alike.map(|text| text.words).collect::<Vec<_>>().join(" ")
    }

    fn take(&mut self, element: &Element<'_>, place: (f64, f64)) {
        let size = || (element.number("width"), element.number("height"));
        if element.tag.starts_with("svg ") {
            (self.width, self.height) = size();
        } else if element.tag.starts_with("rect ") {
            let (x, y) = (place.0 + element.number("x"), place.1 + element.number("y"));
            let area = (x, y, x + size().0, y + size().1);
            match (size().1, element.attribute("fill")) {
                (1.0, _) => self.rules.push(area),
                (4.0, "#cc79a7") => self.bars.push(area),
                _ => {}
            }
        }
    }
}

/// Reads a drawing back.
pub fn shown(svg: &str) -> Shown<'_> {
    let mut shown =
        Shown { width: 0.0, height: 0.0, texts: vec![], cells: vec![], rules: vec![], bars: vec![] };
    let mut groups = vec![((0.0, 0.0), false)];
    for element in elements(svg) {
        let (place, in_cells) = *groups.last().unwrap();
        let cells = shown.cells.last_mut().filter(|_| in_cells);
        match (element.tag.split_whitespace().next().unwrap(), cells) {
            ("g", _) if element.find("class") == Some("cells") => {
                shown.cells.push(Cells::new(place));
                groups.push((place, true));
            }
            ("g", _) => groups.push((moved(&element, place), false)),
            ("/g", _) => drop(groups.pop()),
            ("rect", Some(cells)) => cells.rect(&element),
            ("path", Some(cells)) if element.find("stroke-dasharray").is_some() => cells.dots(&element),
            ("text", Some(cells)) => {
                let [x, y] = ["x", "y"].map(|name| element.number(name));
                if x > 0.0 {
                    cells.symbol(x, y, element.words);
                }
                if element.find("font-size").is_some() {
                    shown.texts.push(Text::new(&element, place, true));
                }
            }
            ("text", None) => shown.texts.push(Text::new(&element, place, false)),
            _ => shown.take(&element, place),
        }
    }
    assert_eq!(groups.len(), 1);
    shown
}

/// Where a group's coordinates count from.
fn moved(group: &Element, (x, y): (f64, f64)) -> (f64, f64) {
    let moved = group.attribute("transform").strip_prefix("translate(").unwrap();
    let (dx, dy) = moved.strip_suffix(')').unwrap().split_once(' ').unwrap();
    (x + dx.parse::<f64>().unwrap(), y + dy.parse::<f64>().unwrap())
}
