//! The drawing: well formed, no text over another or over the edge, every byte of the log in its cell, and
//! above the rounds what came out.

#[path = "drawings/claims.rs"]
mod claims;
mod common;
#[path = "drawings/numbers.rs"]
mod numbers;
#[path = "drawings/shown.rs"]
mod shown;

use std::collections::HashMap;

use claims::Truth;
use common::{header, Lot};
use peer::draw::draw;
use peer::line::{Header, Part};
use peer::listing::{run, Run};
use peer::outcome::outcomes;
use peer::sheet::{write, Record};
use shown::{apart, elements, shown, Area, Cells, Shown, Text};

/// Every element that is opened is closed, in order.
fn well_formed(svg: &str) {
    let mut open = Vec::new();
    for element in elements(svg) {
        let name = element.tag.split_whitespace().next().unwrap();
        match name.strip_prefix('/') {
            Some(closed) => assert_eq!(open.pop(), Some(closed)),
            None if element.tag.ends_with('/') => {}
            None => open.push(name),
        }
        assert!(!element.words.contains(['&', '>']));
        assert_eq!(element.tag.matches('"').count() % 2, 0);
    }
    assert!(open.is_empty() && !svg.contains("script"));
}

/// No text stands over another, over a grid or over the edge.
fn texts_stand_clear(shown: &Shown) {
    let grids: Vec<Area> = shown.cells.iter().map(Cells::area).collect();
    for (place, text) in shown.texts.iter().enumerate() {
        let Text { area, words, .. } = text;
        let inside = area.0 >= 0.0 && area.1 >= 0.0 && area.2 <= shown.width && area.3 <= shown.height;
        assert!(inside, "`{words}` stands over the edge");
        let over = shown.texts[..place].iter().find(|other| !apart(area, &other.area));
        assert!(over.is_none(), "`{words}` stands over `{}`", over.unwrap().words);
        let in_cell = text.in_cells && words.parse::<u8>().is_ok();
        assert!(in_cell || grids.iter().all(|grid| apart(area, grid)), "`{words}` stands over a grid");
    }
    assert!(shown.texts.len() > 20);
}

fn header_by_lot(lot: &mut Lot, n: u8) -> Header {
    loop {
        let by_lot = lot.header(n);
        if by_lot.n == n {
            return by_lot;
        }
    }
}

/// The run with this header of tables drawn by lot.
fn run_by_lot(lot: &mut Lot, header: Header) -> Run {
    let tables = lot.tables(&header);
    Run::new(header, &tables).unwrap()
}

#[test]
fn texts_of_every_n() {
    let mut lot = Lot(40);
    for n in 1..=32 {
        let by_lot = header_by_lot(&mut lot, n);
        let from_sheet = draw(&run(&write(&by_lot, &lot.records(&by_lot))).unwrap());
        let from_table = draw(&run_by_lot(&mut lot, by_lot));
        for svg in [from_sheet, from_table] {
            well_formed(&svg);
            texts_stand_clear(&shown(&svg));
        }
    }
}

#[test]
fn texts_of_the_largest_runs() {
    for marks in [0, 0xffff_ffff, 0x5555_5555] {
        let bad: Vec<u8> = (1..=32).filter(|i| marks >> (i - 1) & 1 == 1).take(1).collect();
        let told: Vec<Record> = bad
            .iter()
            .flat_map(|&from| (1..=32).map(move |to| Record { bit: 0, round: 4, from, to, ballot: 100 + to }))
            .collect();
        let svg = draw(&run(&write(&header(32, 10, 10, 32, 1, marks), &told)).unwrap());
        well_formed(&svg);
        texts_stand_clear(&shown(&svg));
    }
}

/// How a ballot byte is shown in a round of this kind: its colour and symbol. A garbled one may have its number instead.
fn look(part: Part, byte: u8) -> (&'static str, String) {
    match (byte, part) {
        (0, _) => ("#56b4e9", "0".to_string()),
        (1, _) => ("#e69f00", "1".to_string()),
        (2, Part::Second) => ("#f0e442", "\u{2013}".to_string()),
        (255, _) => ("#ececec", "\u{b7}".to_string()),
        _ => ("#cc79a7", "\u{d7}".to_string()),
    }
}

/// How a value or z is shown that a station holds.
fn held_look(byte: u8) -> (&'static str, String) {
    look(Part::Second, byte)
}

/// The cells of the grids, read back from their colours and from their symbols, are the log's ballots.
#[test]
fn cells_show_the_log() {
    let mut lot = Lot(41);
    for n in [1, 2, 4, 9, 16, 17, 32] {
        let by_lot = header_by_lot(&mut lot, n);
        let run = run_by_lot(&mut lot, by_lot);
        let svg = draw(&run);
        let shown = shown(&svg);
        assert_eq!(shown.cells.len(), usize::from(run.line.rounds()));
        check_cells(&run, &run.log, &shown.cells);
    }
}

/// The cells of a bit's rounds are its log's ballots.
fn check_cells(run: &Run, log: &[u8], all: &[Cells]) {
    for (round, cells) in (1..).zip(all) {
        let pairs = run.line.stations().flat_map(|from| run.line.stations().map(move |to| (from, to)));
        for (from, to) in pairs {
            let byte = log[run.line.place(round, from, to)];
            let (colour, symbol) = look(run.line.part(round), byte);
            let (shown_colour, shown_symbol) = cells.at(from, to);
            assert_eq!(shown_colour, colour, "round {round} from {from} to {to}: {byte}");
            let number = cells.side >= 20.0 && symbol == "\u{d7}";
            let symbol = if number { byte.to_string() } else { symbol };
            assert_eq!(shown_symbol, symbol, "round {round} from {from} to {to}: {byte}");
        }
    }
}

/// Below a grid stands what each good station sends next; below the last one its value and grade.
#[test]
fn strips_show_what_stations_hold() {
    let mut lot = Lot(42);
    for n in [1, 3, 8, 16, 17, 32] {
        let by_lot = header_by_lot(&mut lot, n);
        let run = run_by_lot(&mut lot, by_lot);
        let svg = draw(&run);
        let shown = shown(&svg);
        let last = run.line.rounds();
        for (round, cells) in (1..).zip(&shown.cells) {
            for (station, outcome) in run.line.stations().zip(outcomes(&run.outcomes)) {
                let [held, grade] = [0, 1].map(|strip| cells.strip(strip, station));
                let sent = |round| run.log[run.line.place(round, station, 1)];
                match run.line.part(round) {
                    _ if run.header.marks.bad(station) => assert_eq!([held, grade], [None, None]),
                    Part::Sender | Part::First | Part::King(_) => {
                        assert_eq!([held, grade], [Some(held_look(sent(round + 1))), None]);
                    }
                    Part::Second if round == last => {
                        assert_eq!(held, Some(held_look(outcome.value)));
                        assert_eq!(grade.unwrap().1, outcome.grade.to_string());
                    }
                    Part::Second if run.line.part(round + 1) == Part::King(station) => {
                        assert_eq!(held, Some(held_look(sent(round + 1))));
                    }
                    Part::Second => assert!(held.is_some() && grade.is_some()),
                }
            }
        }
    }
}

/// The thresholds and letters stand above the rounds, with the line's numbers.
#[test]
fn meanings_stand_above_the_rounds() {
    for (n, t, upper) in [(1, 0, 0), (3, 0, 1), (9, 1, 3), (16, 5, 5), (17, 0, 8), (32, 10, 10)] {
        let svg = draw(&run(&write(&header(n, t, upper, 1, 0, 0), &[])).unwrap());
        let shown = shown(&svg);
        let rounds = shown.cells.iter().map(|cells| cells.area().1).fold(PAGE, f64::min);
        let quorums = [format!("n\u{2212}T = {}", n - upper), format!("n\u{2212}t = {}", n - t)];
        let letters = ["x", "z", "y", "grade", "king", "phase", "flag", "ballot", "garbled"];
        for term in quorums.iter().map(String::as_str).chain(letters) {
            let terms = shown.texts.iter().filter(|text| text.words == term && text.area.0 == 24.0);
            assert!(terms.filter(|text| text.area.3 < rounds).count() >= 1, "{term}");
        }
        // how a ballot other than 0 or 1 counts, and what a balance gives, each in one line
        for (begins, ends) in [
            (
                "what most ballots of the second round say",
                "1 if more ones than zeros, otherwise 0; blanks don't count",
            ),
            ("one station a phase: with grade 0", "the king's 0 or 1 as its new x, otherwise its own y"),
            ("the byte that one tells another", "it counts for neither, but in round 1 it is read as 0"),
        ] {
            let whole = |text: &Text| text.words.starts_with(begins) && text.words.ends_with(ends);
            assert!(shown.texts.iter().any(whole), "{begins}");
        }
    }
}

/// The table above the rounds: its texts by station, below each station's number, in these rows.
fn table<'a>(run: &Run, shown: &Shown<'a>, labels: &[&str]) -> Vec<Vec<Option<&'a str>>> {
    let beside = |label: &str| {
        shown.texts.iter().find(|text| text.words == label && text.area.0 < 30.0).expect("a label")
    };
    let row = |label: &Text| -> Vec<&Text<'a>> {
        let beside = |text: &&Text| (text.baseline - label.baseline).abs() < 6.0 && text.area.0 > 150.0;
        shown.texts.iter().filter(beside).collect()
    };
    let numbers = row(beside("station"));
    assert_eq!(numbers.len(), run.line.n());
    assert!(run.line.stations().zip(&numbers).all(|(station, number)| number.words == station.to_string()));
    let below = |number: &Text, label: &str| {
        let words = |text: &&Text| (text.middle() - number.middle()).abs() < 10.0;
        row(beside(label)).into_iter().find(words).map(|text| text.words)
    };
    numbers.iter().map(|number| labels.iter().map(|label| below(number, label)).collect()).collect()
}

/// The table above the rounds has every station's outcome, and says who is bad.
#[test]
fn the_table_shows_the_outcomes() {
    let mut lot = Lot(43);
    for n in 1..=32 {
        let by_lot = header_by_lot(&mut lot, n);
        let run = run_by_lot(&mut lot, by_lot);
        let svg = draw(&run);
        let labels = ["value decided", "grade (how sure)", "flag", "rounds garbled"];
        let shown = table(&run, &shown(&svg), &labels);
        for ((station, shown), outcome) in run.line.stations().zip(shown).zip(outcomes(&run.outcomes)) {
            if run.header.marks.bad(station) {
                assert_eq!(shown, [None, Some("bad"), None, None]);
            } else {
                let bytes = outcome.to_bytes().map(|byte| byte.to_string());
                assert_eq!(shown, bytes.each_ref().map(|byte| Some(byte.as_str())));
            }
        }
    }
}

/// Whether a station's bytes for others than itself differ.
fn told_differently(run: &Run, round: u8, from: u8) -> bool {
    let others = run.line.stations().filter(|&to| to != from);
    let bytes: Vec<u8> = others.map(|to| run.log[run.line.place(round, from, to)]).collect();
    bytes.iter().any(|byte| *byte != bytes[0])
}

fn should_speak(run: &Run, round: u8, from: u8) -> bool {
    match run.line.part(round) {
        Part::Sender => from == run.header.sender,
        Part::King(king) => from == king,
        Part::First | Part::Second => true,
    }
}

/// Compares a run's marks with its log. Gives how many there are, how many of them are grey, and how many rows of
/// bad stations have none.
fn check_marks(run: &Run) -> [usize; 3] {
    let svg = draw(run);
    let shown = shown(&svg);
    let marks: Vec<&Text> = shown.texts.iter().filter(|text| text.words == "\u{2260}").collect();
    let [mut marked, mut grey, mut unmarked] = [0; 3];
    for (round, cells) in (1..).zip(&shown.cells) {
        for from in run.line.stations() {
            let bad = run.header.marks.bad(from);
            let beside: Vec<&&Text> = marks.iter().filter(|mark| cells.beside(from, mark)).collect();
            let expected = usize::from(bad && told_differently(run, round, from));
            assert_eq!(beside.len(), expected, "round {round} from {from}");
            let speaks = should_speak(run, round, from);
            assert!(beside.iter().all(|mark| (mark.colour == "#000000") == speaks));
            marked += expected;
            grey += expected * usize::from(!speaks);
            unmarked += usize::from(bad) - expected;
        }
    }
    assert_eq!(marks.len(), marked + 1, "these and the legend's");
    [marked, grey, unmarked]
}

/// A bad station's row is marked exactly if its bytes for others than itself differ; in grey where it
/// should not speak.
#[test]
fn bytes_that_differ_are_marked() {
    let mut lot = Lot(44);
    let mut seen = [0; 3];
    for n in [1, 2, 3, 4, 9, 16, 17, 32] {
        let by_lot = header_by_lot(&mut lot, n);
        let sheet = write(&by_lot, &lot.records(&by_lot));
        for run in [run(&sheet).unwrap(), run_by_lot(&mut lot, by_lot)] {
            let counts = check_marks(&run);
            seen = [0, 1, 2].map(|i| seen[i] + counts[i]);
        }
    }
    assert!(seen.iter().all(|count| *count > 50), "{seen:?}");
}

/// Whether a ballot that a station expects in a round came garbled.
fn hears_garbled(run: &Run, round: u8, to: u8) -> bool {
    let part = run.line.part(round);
    let garbled = |from: u8| look(part, run.log[run.line.place(round, from, to)]).0 == "#cc79a7";
    run.line.stations().any(|from| should_speak(run, round, from) && garbled(from))
}

/// A bar stands below a grid exactly at the good stations that count the round.
#[test]
fn garbled_rounds_are_marked() {
    let mut lot = Lot(47);
    let mut seen = [0; 2];
    for n in [1, 2, 3, 4, 9, 16, 17, 32] {
        for _ in 0..3 {
            let by_lot = header_by_lot(&mut lot, n);
            let run = run_by_lot(&mut lot, by_lot);
            let svg = draw(&run);
            let shown = shown(&svg);
            let mut bars = 1;
            for (round, cells) in (1..).zip(&shown.cells) {
                for to in run.line.stations() {
                    let below = shown.bars.iter().filter(|bar| cells.right_below(to, bar)).count();
                    let counts = !run.header.marks.bad(to) && hears_garbled(&run, round, to);
                    assert_eq!(below, usize::from(counts), "round {round} to {to}");
                    bars += below;
                    seen[below] += 1;
                }
            }
            assert_eq!(shown.bars.len(), bars, "these and the legend's");
            assert!(shown.bars.iter().all(on_one_page));
        }
    }
    assert!(seen.iter().all(|&many| many > 100), "{seen:?}");
}

/// The header's value leaves no trace where the sender is bad, and is told where it is good.
#[test]
fn a_bad_senders_value_is_not_shown() {
    let mut lot = Lot(45);
    let (mut bad, mut good) = (0, 0);
    for _ in 0..60 {
        let by_lot = lot.header(9);
        let table = lot.word();
        let [zero, one] = [0, 1].map(|value| draw(&run_by_lot(&mut Lot(table), Header { value, ..by_lot })));
        let sender = by_lot.sender;
        if by_lot.marks.bad(sender) {
            bad += 1;
            assert!(zero == one, "a value that was not sent is shown");
            assert!(zero.contains(&format!("The sender, station {sender}, is bad")));
        } else {
            good += 1;
            assert!(zero.contains(&format!("station {sender}, is good and sent 0: keep the old recipe.")));
            assert!(one.contains(&format!("station {sender}, is good and sent 1: change over.")));
        }
    }
    assert!(bad > 10 && good > 10);
}

/// A generated run is drawn as any other with its tables, but that its title and a line in grey below the line's numbers tell its seed.
#[test]
fn a_generated_run_tells_its_seed() {
    let mut lot = Lot(48);
    for seed in [1, 100, u32::MAX] {
        for n in [1, 4, 17, 32] {
            let by_lot = header_by_lot(&mut lot, n);
            let header = if n < 17 { lot.numbered(&by_lot) } else { by_lot };
            let run = Run::generated(header, seed).unwrap();
            let (svg, other) = (draw(&run), draw(&Run { seed: None, ..run }));
            well_formed(&svg);
            let [generated, other_shown] = [&svg, &other].map(|svg| shown(svg));
            texts_stand_clear(&generated);
            assert!(generated.texts.iter().all(|text| on_one_page(&text.area)), "n {n}");
            let line = format!("The run is generated from seed {seed}, which decides what bad stations say.");
            let told: Vec<&Text> = generated.texts.iter().filter(|text| text.words == line).collect();
            let [told] = told[..] else { panic!("{line}") };
            assert!(told.colour != "#000000" && told.area.1 < 60.0);
            let words =
                |shown: &Shown| shown.texts.iter().map(|text| text.words.to_string()).collect::<Vec<_>>();
            let mut expected = words(&generated);
            expected.retain(|words| *words != line);
            assert_eq!(words(&other_shown), expected);
            assert!(svg.contains(&format!("<title>A rehearsal generated from seed {seed}: what came out, ")));
            assert!(other.contains("<title>A rehearsal: what came out, ") && !other.contains("generated"));
        }
    }
}

/// Where a page of A4 ends, printed 190 mm wide and 277 mm high.
const PAGE: f64 = 1000.0 * 277.0 / 190.0;

/// Whether something is clear of the pages' ends.
fn on_one_page(area: &Area) -> bool {
    ((area.1 - 3.0).max(0.0) / PAGE).floor() == ((area.3 + 3.0) / PAGE).floor()
}

/// A drawing is as wide as a page, its cells are at least 2.2 mm wide there, no round is cut by a page's
/// end, and the outcome stands above all rounds on the first page.
#[test]
fn every_line_fits_a_page() {
    for n in 1..=32u8 {
        for (t, upper) in [(0, 0), (0, (n - 1) / 2), ((n - 1) / 3, (n - 1) / 3)] {
            let svg = draw(&run(&write(&header(n, t, upper, 1, 0, 0), &[])).unwrap());
            let shown = shown(&svg);
            assert_eq!(shown.width, 1000.0);
            assert!(svg.contains("@page{size:A4;margin:10mm}@media print{svg{width:190mm;height:auto}}"));
            let first = shown.cells.iter().map(|cells| cells.area().1).fold(f64::MAX, f64::min);
            for text in shown.texts.iter().filter(|text| text.size == 20.0 || text.words == "value decided") {
                assert!(text.area.3 < first && text.area.3 < PAGE / 4.0, "`{}`", text.words);
            }
            for cells in &shown.cells {
                let (left, top, right, bottom) = cells.area();
                assert!(left > 0.0 && right < 1000.0 - 16.0 && bottom < shown.height);
                assert!(cells.side * 0.19 >= 2.2, "n {n}");
                assert!(on_one_page(&(left, top, right, bottom)), "n {n}, t {t}");
            }
            assert!(shown.texts.iter().all(|text| on_one_page(&text.area)), "n {n}, t {t}");
            let on_page = |page: i32| shown.cells.iter().any(|cells| (cells.area().1 / PAGE) as i32 == page);
            assert!((0..=(shown.height / PAGE) as i32).all(on_page), "n {n}, t {t}: a page has no round");
            assert_eq!(shown.rules.len(), usize::from(t) + 4);
            assert!(shown.rules.iter().all(on_one_page), "n {n}, t {t}");
        }
    }
}

/// The same line's rounds are never one over another.
#[test]
fn rounds_stand_apart() {
    for (n, t) in [(1, 0), (4, 1), (16, 5), (17, 5), (20, 6), (32, 10)] {
        let svg = draw(&run(&write(&header(n, t, t, 1, 0, 0), &[])).unwrap());
        let areas: Vec<Area> = shown(&svg).cells.iter().map(Cells::area).collect();
        for (place, area) in areas.iter().enumerate() {
            assert!(areas[..place].iter().all(|other| apart(area, other)), "n {n}, round {}", place + 1);
        }
    }
}

/// Every claim of the sentences above the rounds is true of the run, in runs of every kind.
#[test]
fn the_sentences_are_true() {
    let mut lot = Lot(46);
    let mut claims: HashMap<String, u32> = HashMap::new();
    for turn in 0..3000 {
        let most = lot.pick(&[1, 3, 5, 9]);
        let by_lot = if turn % 2 == 0 { lot.header(most) } else { lot.header_near_thresholds(most).0 };
        let run = run_by_lot(&mut lot, by_lot);
        let svg = draw(&run);
        let shown = shown(&svg);
        let truth = Truth::of(&run);
        let kinds = truth.check_outcome(&shown.joined(20.0, "#000000"));
        let below = shown.joined(14.0, "#000000");
        let [sender, promise, garbled] = below.split(". ").collect::<Vec<_>>().try_into().unwrap();
        assert_eq!(sender.contains("is bad"), by_lot.marks.bad(by_lot.sender));
        let promised = truth.check_promise(promise);
        *claims.entry(format!("{} {}", kinds.0, kinds.1)).or_default() += 1;
        *claims.entry(promised.to_string()).or_default() += 1;
        *claims.entry(truth.check_garbled(garbled).to_string()).or_default() += 1;
    }
    for kind in ["differ", "all keep", "all change over"] {
        for flags in ["no flag", "some flags", "every flag"] {
            assert!(claims.contains_key(&format!("{kind} {flags}")), "{kind} {flags} of {claims:?}");
        }
    }
    assert_eq!(claims.len(), 9 + 1 + 5 + 3, "{claims:?}");
}
