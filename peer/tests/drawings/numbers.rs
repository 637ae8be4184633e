//! The drawing of a number: its head tells numbers, then come the rounds of each bit, told apart. One bit is drawn as it was.

use super::*;
use peer::outcome::outcome;

const ROWS: [&str; 4] = ["number decided", "grade (how sure)", "flag", "rounds garbled"];

/// A run of a number of at least two bits, on a line of n; of few bits where it is long, since that takes long.
fn number_by_lot(lot: &mut Lot, n: u8) -> Run {
    let header = header_by_lot(lot, n);
    let w = if n > 9 { 2 } else { 2 + lot.below(7) as u8 };
    let any = lot.byte() & (u8::MAX >> (8 - w));
    run_by_lot(lot, Header { w, value: any, ..header })
}

/// The picture of case C is the one that stands in `examples/`, and a w of 0 or 1 changes none.
#[test]
fn one_bit_is_drawn_as_it_was() {
    let sheet = include_bytes!("../../../examples/c.sheet");
    assert!(draw(&run(sheet).unwrap()) == include_str!("../../../examples/c.svg"));
    let mut lot = Lot(70);
    for _ in 0..20 {
        let (header, table) = (lot.header(9), lot.word());
        let [zero, one] = [0, 1].map(|w| draw(&run_by_lot(&mut Lot(table), Header { w, ..header })));
        assert!(zero == one && !zero.contains("bit") && !zero.contains("Bit") && !zero.contains("number<"));
    }
}

#[test]
fn texts_of_numbers() {
    let mut lot = Lot(71);
    for n in [1, 2, 3, 4, 5, 8, 9, 16, 17, 31] {
        let svg = draw(&number_by_lot(&mut lot, n));
        well_formed(&svg);
        let shown = shown(&svg);
        texts_stand_clear(&shown);
        assert!(shown.texts.iter().all(|text| on_one_page(&text.area)), "n {n}");
    }
    // the longest words: every station bad, and every king
    let svg = draw(&run_by_lot(&mut lot, common::numbered(header(20, 6, 6, 20, 1, 0xf_ffff), 2, 3)));
    well_formed(&svg);
    texts_stand_clear(&shown(&svg));
}

/// The grids are the bits' logs, bit 0's first.
#[test]
fn cells_show_each_bit() {
    let mut lot = Lot(72);
    for n in [1, 2, 4, 9, 16, 17] {
        let run = number_by_lot(&mut lot, n);
        let svg = draw(&run);
        let shown = shown(&svg);
        let rounds = usize::from(run.line.rounds());
        assert_eq!(shown.cells.len(), usize::from(run.header.w) * rounds);
        for (cells, log) in shown.cells.chunks(rounds).zip(run.log.chunks(run.line.table_len())) {
            check_cells(&run, log, cells);
        }
    }
}

/// Below a bit's last grid stand its value and grade, and the table above has the number and each bit.
#[test]
fn outcomes_of_numbers() {
    let (mut lot, mut seen) = (Lot(73), [0; 2]);
    for n in [1, 2, 3, 4, 5, 6, 7, 8, 9, 20, 32] {
        let run = number_by_lot(&mut lot, n);
        let bits: Vec<Run> = (0..run.header.w).map(|bit| run.of_bit(bit)).collect();
        let svg = draw(&run);
        let shown = shown(&svg);
        let names: Vec<String> =
            (0..run.header.w).map(|bit| format!("bit {bit}, worth {}", 1 << bit)).collect();
        let labels: Vec<&str> = ROWS.into_iter().chain(names.iter().map(String::as_str)).collect();
        let rows = table(&run, &shown, &labels);
        let last = shown.cells.chunks(run.line.rounds().into()).map(|rounds| rounds.last().unwrap());
        let last: Vec<&Cells> = last.collect();
        for (station, row) in run.line.stations().zip(rows) {
            let of_bits: Vec<_> = bits.iter().map(|bit| outcome(&bit.outcomes, station)).collect();
            let strips = last.iter().map(|cells| [0, 1].map(|strip| cells.strip(strip, station)));
            if run.header.marks.bad(station) {
                assert_eq!(row[..4], [None, Some("bad"), None, None]);
                assert!(row[4..].iter().all(Option::is_none) && strips.flatten().all(|look| look.is_none()));
                continue;
            }
            let bytes = outcome(&run.outcomes, station).to_bytes().map(|byte| byte.to_string());
            assert_eq!(row[..4], bytes.each_ref().map(|byte| Some(byte.as_str())));
            let values: Vec<String> = of_bits.iter().map(|end| end.value.to_string()).collect();
            assert_eq!(row[4..], values.iter().map(|value| Some(value.as_str())).collect::<Vec<_>>());
            for (strips, end) in strips.zip(&of_bits) {
                let symbols = strips.map(|look| look.unwrap().1);
                assert_eq!(symbols, [end.value, end.grade].map(|byte| byte.to_string()));
            }
            seen[usize::from(of_bits.iter().any(|end| end.value != of_bits[0].value))] += 1;
        }
    }
    assert!(seen.iter().all(|&many| many > 3), "{seen:?}");
}

/// Flags stand in the table: one for each station that flags, and one for each of its bits that do.
#[test]
fn flags_of_bits() {
    let (mut lot, mut seen) = (Lot(74), 0);
    for n in [3, 4, 5, 7, 9].repeat(6) {
        let run = number_by_lot(&mut lot, n);
        let flags = |run: &Run| outcomes(&run.outcomes).filter(|end| end.flag == 1).count();
        let bits: usize = (0..run.header.w).map(|bit| flags(&run.of_bit(bit))).sum();
        assert_eq!(draw(&run).matches("fill=\"#b34700\"").count(), flags(&run) + bits);
        seen += bits;
    }
    assert!(seen > 5, "{seen}");
}

/// Each bit's title stands between its rounds and those of the bit before, and each block's heading names its bit.
#[test]
fn bits_are_told_apart() {
    let mut lot = Lot(75);
    for n in [1, 4, 9, 16, 17, 32] {
        let run = number_by_lot(&mut lot, n);
        let svg = draw(&run);
        let shown = shown(&svg);
        let mut above = 0.0;
        for (bit, cells) in shown.cells.chunks(run.line.rounds().into()).enumerate() {
            let first = cells.iter().map(|cells| cells.area().1).fold(f64::MAX, f64::min);
            let name = format!("Bit {bit}, worth {}", 1 << bit);
            let titles: Vec<&Text> = shown.texts.iter().filter(|text| text.words == name).collect();
            let [title] = titles[..] else { panic!("{name}") };
            assert!(title.size == 18.0 && title.area.1 > above && title.area.3 < first, "{name}");
            above = cells.iter().map(|cells| cells.area().3).fold(0.0, f64::max);
            let begins = format!("Bit {bit}, ");
            let heading = |text: &&Text| text.size == 14.0 && text.words.starts_with(&begins);
            let headings: Vec<&Text> = shown.texts.iter().filter(heading).collect();
            assert_eq!(headings.len(), usize::from(run.line.t()) + 3, "{name}");
            assert!(headings.iter().all(|text| text.area.1 > title.area.3 && text.area.3 < above), "{name}");
        }
    }
}

/// As one bit's: as wide as a page, no round, heading or title is cut by its end, no page is without a round, and the number
/// stands above all rounds on the first page.
#[test]
fn numbers_fit_pages() {
    for (n, w) in [(1, 8), (2, 2), (3, 8), (5, 3), (9, 4), (12, 8), (16, 2), (17, 8), (24, 2), (32, 8)] {
        for (t, upper) in [(0, (n - 1) / 2), ((n - 1) / 3, (n - 1) / 3)] {
            let run = run(&write(&common::numbered(header(n, t, upper, 1, 0, 0), w, 1), &[])).unwrap();
            let svg = draw(&run);
            let shown = shown(&svg);
            assert_eq!(shown.width, 1000.0);
            let first = shown.cells.iter().map(|cells| cells.area().1).fold(f64::MAX, f64::min);
            let decided = shown.texts.iter().find(|text| text.words == "number decided").unwrap();
            assert!(decided.area.3 < first && decided.area.3 < PAGE / 4.0);
            for cells in &shown.cells {
                let (left, top, right, bottom) = cells.area();
                assert!(left > 0.0 && right < 1000.0 - 16.0 && bottom < shown.height);
                assert!(cells.side * 0.19 >= 2.2 && on_one_page(&(left, top, right, bottom)), "n {n}, w {w}");
            }
            assert!(shown.texts.iter().all(|text| on_one_page(&text.area)), "n {n}, w {w}");
            let on_page = |page: i32| shown.cells.iter().any(|cells| (cells.area().1 / PAGE) as i32 == page);
            assert!((0..=(shown.height / PAGE) as i32).all(on_page), "n {n}, w {w}: a page has no round");
            assert_eq!(shown.rules.len(), usize::from(w) * (usize::from(t) + 3) + 1);
            assert!(shown.rules.iter().all(on_one_page), "n {n}, w {w}");
        }
    }
}

/// The value leaves no trace where the sender is bad, and is told where it is good.
#[test]
fn a_bad_senders_number_is_not_shown() {
    let (mut lot, mut seen) = (Lot(76), [0; 2]);
    for _ in 0..30 {
        let (one_bit, table) = (lot.header(7), lot.word());
        let [five, six] = [5, 6].map(|value| {
            let header = common::numbered(one_bit, 3, value);
            draw(&run_by_lot(&mut Lot(table), header))
        });
        let (sender, bad) = (one_bit.sender, one_bit.marks.bad(one_bit.sender));
        seen[usize::from(bad)] += 1;
        if bad {
            assert!(five == six && five.contains(&format!("The sender, station {sender}, is bad")));
        } else {
            assert!(five.contains(&format!("station {sender}, is good and sent 5.")));
            assert!(six.contains(&format!("station {sender}, is good and sent 6.")));
        }
    }
    assert!(seen.iter().all(|&many| many > 5), "{seen:?}");
}

/// Every claim of the sentences above the rounds is true of the number, and each bit's of the bit.
#[test]
fn the_sentences_are_true_of_numbers() {
    let mut lot = Lot(77);
    let mut claims: HashMap<String, u32> = HashMap::new();
    for turn in 0..600 {
        let most = lot.pick(&[1, 3, 5, 7]);
        let one_bit = if turn % 2 == 0 { lot.header(most) } else { lot.header_near_thresholds(most).0 };
        let (w, value) = (2 + lot.below(3) as u8, lot.below(4) as u8);
        let run = run_by_lot(&mut lot, common::numbered(one_bit, w, value));
        let svg = draw(&run);
        let shown = shown(&svg);
        let truth = Truth::of(&run);
        let kinds = truth.check_outcome(&shown.joined(20.0, "#000000"));
        let below = shown.joined(14.0, "#000000");
        let [sender, promise, garbled] = below.split(". ").collect::<Vec<_>>().try_into().unwrap();
        assert_eq!(sender.contains("is bad"), one_bit.marks.bad(one_bit.sender));
        *claims.entry(format!("{} {}", kinds.0, kinds.1)).or_default() += 1;
        *claims.entry(truth.check_promise(promise).to_string()).or_default() += 1;
        *claims.entry(truth.check_garbled(garbled).to_string()).or_default() += 1;
        for bit in 0..w {
            let of_bit = run.of_bit(bit);
            let (sent, outcome) = bit_words(&shown, bit);
            let expected = match of_bit.header.marks.bad(of_bit.header.sender) {
                true => "The sender is bad".to_string(),
                false => format!("The sender sent {}", of_bit.header.value),
            };
            assert_eq!(sent, expected);
            Truth::of_bit(&of_bit).check_outcome(&outcome);
        }
    }
    let outcomes =
        ["differ every flag", "all decide no flag", "all decide some flags", "all decide every flag"];
    for claim in outcomes {
        assert!(claims.contains_key(claim), "{claim} of {claims:?}");
    }
    let others =
        claims.keys().filter(|claim| !claim.starts_with("differ") && !claim.starts_with("all decide"));
    assert_eq!(others.count(), 1 + 5 + 3, "{claims:?}");
}

/// What stands below a bit's title: what the sender sent, and what came out.
fn bit_words(shown: &Shown, bit: u8) -> (String, String) {
    let title = format!("Bit {bit}, worth ");
    let after = shown.texts.iter().skip_while(|text| !text.words.starts_with(&title)).skip(1);
    let words: Vec<&str> =
        after.take_while(|text| !text.words.starts_with("Bit ")).map(|text| text.words).collect();
    let legend = words.iter().position(|words| *words == "How to read a round").unwrap_or(words.len());
    let words = words[..legend].join(" ");
    let (sent, outcome) = words.split_once(". ").unwrap();
    (sent.to_string(), outcome.to_string())
}
