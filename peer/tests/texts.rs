//! The text form: text to sheet and back, and what is said of a text that is wrong.

mod common;

use common::{header, numbered, Lot};
use peer::listing::listing;
use peer::sheet::{records, write, Record};
use peer::text::{of_sheet, to_sheet};

const CASE_C: &str = "\
# case C
n 3
t 0
T 1
sender 1
value 0
bad 1   # the sender lies

round 1-3 5 6 from 1 to 2 ballot 0
round 1-3 5 6 from 1 to 3 ballot 1
";

#[test]
fn case_c() {
    let sheet = to_sheet(CASE_C).unwrap();
    assert_eq!(listing(&sheet), "agree 3 0 1 1 6\n1 - - - -\n2 0 1 1 0\n3 1 1 1 0\n");
    let normal = of_sheet(&sheet).unwrap();
    assert!(
        normal.starts_with("n 3\nt 0\nT 1\nsender 1\nvalue 0\nbad 1\nround 1 from 1 to 2 ballot 0\nround 2 ")
    );
    assert_eq!(normal.lines().count(), 16);
}

/// Text to sheet to text gives a normal text back; so does any text's normal form.
#[test]
fn there_and_back() {
    let mut lot = Lot(30);
    for turn in 0..2_000 {
        let one_bit = lot.header(32);
        let header = if turn % 2 == 0 { one_bit } else { lot.numbered(&one_bit) };
        let told = lot.records(&header);
        let sheet = write(&header, &told);
        let text = of_sheet(&sheet).unwrap();
        assert_eq!(to_sheet(&text).as_ref(), Ok(&sheet));
        assert_eq!(of_sheet(&to_sheet(&text).unwrap()).as_ref(), Ok(&text));
        assert_eq!(text.contains("w "), header.w != 0);
        assert_eq!(text.contains("bit "), header.w > 1 && !told.is_empty());
    }
}

#[test]
fn the_normal_form() {
    let told = [(1, 0), (2, 0), (3, 0), (5, 0), (4, 0), (1, 2), (2, 255), (3, 77)];
    let rounds = [1, 1, 1, 1, 1, 2, 2, 2];
    let told =
        rounds.iter().zip(told).map(|(&round, (to, ballot))| Record { bit: 0, round, from: 5, to, ballot });
    let sheet = write(&header(5, 1, 1, 1, 1, 0b11001), &told.collect::<Vec<_>>());
    let expected = "\
n 5
t 1
T 1
sender 1
value 1
bad 1 4 5
round 1 from 5 to 1-3 5 ballot 0
round 1 from 5 to 4 ballot 0
round 2 from 5 to 1 ballot blank
round 2 from 5 to 2 ballot silence
round 2 from 5 to 3 ballot 77
";
    assert_eq!(of_sheet(&sheet).unwrap(), expected);
    let none = write(&header(5, 1, 1, 1, 1, 0), &[]);
    assert!(of_sheet(&none).unwrap().ends_with("bad none\n"));
}

/// Case C in bit 1; in bit 0 the sender tells both a one.
const NUMBER: &str = "\
n 3
t 0
T 1
sender 1
w 2
value 2
bad 1
bit 0 round all from 1 to 2 3 ballot 1
bit 1 round 1-3 5 6 from 1 to 2 ballot 0
bit 1 round 1-3 5 6 from 1 to 3 ballot 1
";

#[test]
fn a_number() {
    let sheet = to_sheet(NUMBER).unwrap();
    assert_eq!(sheet[..12], [3, 0, 1, 1, 2, 2, 1, 0, 1, 0, 0, 0]);
    assert_eq!(listing(&sheet), "agree 3 0 1 1 6\n1 - - - -\n2 1 1 1 0\n3 3 1 1 0\n");
    let normal = of_sheet(&sheet).unwrap();
    assert!(normal.starts_with(
        "n 3\nt 0\nT 1\nsender 1\nw 2\nvalue 2\nbad 1\nbit 0 round 1 from 1 to 2 3 ballot 1\nbit 0 round 2 "
    ));
    assert!(normal.ends_with("bit 1 round 5 from 1 to 3 ballot 1\nbit 1 round 6 from 1 to 3 ballot 1\n"));
    assert_eq!(to_sheet(&normal).as_ref(), Ok(&sheet));
}

/// Without w and with `w 0` byte 5 is 0, with `w 1` it is 1; the number has one bit, which may be named.
#[test]
fn one_bit() {
    let of = |w: &str, bit: &str| {
        to_sheet(&format!("{w}n 4\nt 1\nT 1\nsender 1\nvalue 1\nbad 4\n{bit}round 1 from 4 to 1 ballot 1\n"))
    };
    let [zero, one] = [0, 1].map(|w| {
        let told = Record { bit: 0, round: 1, from: 4, to: 1, ballot: 1 };
        write(&numbered(header(4, 1, 1, 1, 1, 0b1000), w, 1), &[told])
    });
    for bit in ["", "bit 0 ", "bit all ", "bit 0-0 "] {
        assert_eq!([of("", bit), of("w 0\n", bit)], [Ok(zero.clone()), Ok(zero.clone())], "`{bit}`");
        assert_eq!(of("w 1\n", bit).as_ref(), Ok(&one), "`{bit}`");
    }
    assert!(!of_sheet(&zero).unwrap().contains("w ") && of_sheet(&one).unwrap().contains("\nw 1\nvalue 1\n"));
    assert!(!of_sheet(&one).unwrap().contains("bit"));
}

/// The records of a line are chained by bit, then round, then from, then to, each list in its own order.
#[test]
fn bits_in_their_order() {
    let head = "n 4\nt 1\nT 1\nsender 1\nvalue 200\nw 8\nbad 3 4\n";
    let (told, records) =
        records(&to_sheet(&format!("{head}bit 7 0-1 round 2 from 3 to 4 1 ballot 77\n")).unwrap()).unwrap();
    assert_eq!(told, numbered(header(4, 1, 1, 1, 0, 0b1100), 8, 200));
    let placed = |bit, to| Record { bit, round: 2, from: 3, to, ballot: 77 };
    assert_eq!(records, [(7, 4), (7, 1), (0, 4), (0, 1), (1, 4), (1, 1)].map(|(bit, to)| placed(bit, to)));
    let all = to_sheet(&format!("{head}bit all round 1 from 4 to 1 ballot 0\n")).unwrap();
    assert_eq!(all.len(), 12 + 8 * 8);
    // in the normal form a bit is no range
    assert_eq!(of_sheet(&all).unwrap().lines().count(), 7 + 8);
}

#[test]
fn wrong_numbers() {
    let wrong = |from: &str, to: &str| to_sheet(&NUMBER.replacen(from, to, 1)).unwrap_err().to_string();
    assert_eq!(wrong("w 2", "w 9"), "line 5: w 9 is above 8");
    assert_eq!(wrong("w 2", "w 256"), "line 5: `256` is not a number from 0 to 255");
    assert_eq!(wrong("w 2", "w"), "line 5: one number is wanted after `w`");
    assert_eq!(wrong("w 2", "w 2\nw 2"), "line 6: `w` already stands in line 5");
    assert_eq!(wrong("value 2", "value 4"), "line 6: value 4 is not below 4, 2 to the power w 2");
    assert_eq!(wrong("w 2", "w 1"), "line 6: value 2 is not 0 or 1");
    assert_eq!(wrong("w 2\nvalue 2", "value 1"), "line 8: bit 1 is beyond the last bit 0");
    assert_eq!(wrong("bit 1", "bit 2"), "line 9: bit 2 is beyond the last bit 1");
    assert_eq!(wrong("bit 1", "bit 0-2"), "line 9: bit 2 is beyond the last bit 1");
    assert_eq!(
        wrong("bit 1 round", "round"),
        "line 9: `bit` is wanted before `round`: the number has 2 bits"
    );
    assert_eq!(wrong("bit 1 round", "bit round"), "line 9: a number is wanted after `bit`");
    assert_eq!(wrong("bit 1 round 1-3 5 6", "bit 1"), "line 9: `round` is wanted before `from`");
    assert_eq!(wrong("bit 1 round 1-3 5 6 from", "bit 1 to"), "line 9: `round` is wanted before `to`");
    assert_eq!(
        wrong("bit 1 round 1-3 5 6 from 1 to 3", "round 1 bit 1 from 1 to 3"),
        "line 10: `from` is wanted before `bit`"
    );
    assert_eq!(
        wrong("to 3 ballot 1\n", "to 2 3 ballot 1\n"),
        "line 10: bit 1 round 1 from 1 to 2 is already given in line 9"
    );
    let long = "n 32\nt 10\nT 10\nsender 1\nw 8\nvalue 255\nbad 1\n";
    let most = format!("{long}bit all round 1-16 from 1 to all ballot 0\n");
    assert_eq!(to_sheet(&most).unwrap().len(), 12 + 8 * 4_096);
    let more = format!("{most}bit 7 round 17 from 1 to 1 ballot 0\n");
    assert_eq!(to_sheet(&more).unwrap_err().to_string(), "line 9: more than 4096 records");
}

#[test]
fn all_and_any_order() {
    let text =
        "bad 2-4\nround all from all to all ballot 2\r\nvalue 1\n\tsender 4\n T 3\nt 0\nn 8 # stations\n";
    let (header_read, told) = records(&to_sheet(text).unwrap()).unwrap();
    assert_eq!(header_read, header(8, 0, 3, 4, 1, 0b1110));
    assert_eq!(told.len(), 6 * 3 * 8);
    assert_eq!(told[0], Record { bit: 0, round: 1, from: 2, to: 1, ballot: 2 });
    assert_eq!(told[8], Record { bit: 0, round: 1, from: 3, to: 1, ballot: 2 });
    assert_eq!(told[24], Record { bit: 0, round: 2, from: 2, to: 1, ballot: 2 });
}

/// What is said of case A's text with one line replaced or added.
fn wrong(line: usize, with: &str) -> String {
    let mut lines = vec!["n 4", "t 1", "T 1", "sender 1", "value 1", "bad 4", "round 1 from 4 to 1 ballot 1"];
    if line > lines.len() {
        lines.push(with);
    } else {
        lines[line - 1] = with;
    }
    to_sheet(&lines.join("\n")).unwrap_err().to_string()
}

#[test]
fn wrong_headers() {
    assert_eq!(wrong(1, "n 33"), "line 1: n 33 is outside 1 to 32");
    assert_eq!(wrong(1, "n four"), "line 1: `four` is not a number from 0 to 255");
    assert_eq!(wrong(1, "n 256"), "line 1: `256` is not a number from 0 to 255");
    assert_eq!(wrong(1, "n +4"), "line 1: `+4` is not a number from 0 to 255");
    assert_eq!(wrong(1, "n 4 5"), "line 1: one number is wanted after `n`");
    assert_eq!(wrong(1, "n"), "line 1: one number is wanted after `n`");
    assert_eq!(wrong(1, "# n 4"), "no line begins with `n`");
    assert_eq!(
        wrong(1, "N 4"),
        "line 1: a line begins with n, t, T, sender, w, value, bad, bit or round, not with `N`"
    );
    assert_eq!(
        wrong(1, "\u{1b}[2Jn 4"),
        "line 1: a line begins with n, t, T, sender, w, value, bad, bit or round, not with `\\u{1b}[2Jn`"
    );
    assert!((200..220).contains(&wrong(1, &"n".repeat(5000)).len()));
    assert_eq!(wrong(2, "t 2"), "line 2: t 2 is above T 1");
    assert_eq!(wrong(3, "T 2"), "line 3: t + 2T is 5, which is not below n 4");
    assert_eq!(wrong(4, "sender 0"), "line 4: station 0: stations are numbered from 1");
    assert_eq!(wrong(4, "sender 5"), "line 4: station 5 is beyond n 4");
    assert_eq!(wrong(5, "value 2"), "line 5: value 2 is not 0 or 1");
    assert_eq!(wrong(6, "bad 4 33"), "line 6: station 33 is beyond n 4");
    assert_eq!(wrong(6, "bad"), "line 6: a number is wanted after `bad`");
    assert_eq!(wrong(8, "value 1"), "line 8: `value` already stands in line 5");
}

#[test]
fn wrong_records() {
    assert_eq!(wrong(7, "round 1 from 4 to 9 ballot 1"), "line 7: station 9 is beyond n 4");
    assert_eq!(wrong(7, "round 10 from 4 to 1 ballot 1"), "line 7: round 10 is beyond the last round 9");
    assert_eq!(wrong(7, "round 0 from 4 to 1 ballot 1"), "line 7: round 0: rounds are numbered from 1");
    assert_eq!(
        wrong(7, "round 1 from 3 to 1 ballot 1"),
        "line 7: station 3 is not bad; only a bad station's ballots can be given"
    );
    assert_eq!(wrong(7, "round 1 from 4 to 3-1 ballot 1"), "line 7: range `3-1` runs backwards");
    assert_eq!(
        wrong(7, "round 1 from 4 to 1- ballot 1"),
        "line 7: `1-` is not a number from 0 to 255, nor a range"
    );
    assert_eq!(wrong(7, "round 1 from 4 to ballot 1"), "line 7: a number is wanted after `to`");
    assert_eq!(wrong(7, "round 1 to 1 from 4 ballot 1"), "line 7: `from` is wanted before `to`");
    assert_eq!(wrong(7, "round 1 from 4 to 1"), "line 7: `ballot` is missing");
    assert_eq!(wrong(7, "round 1 from 4 to 1 ballot 1 to 2"), "line 7: `to` is one too many");
    assert_eq!(wrong(7, "round 1 from 4 to 1 ballot"), "line 7: one ballot is wanted after `ballot`");
    assert_eq!(wrong(7, "round 1 from 4 to 1 ballot 256"), "line 7: `256` is not a number from 0 to 255");
    assert_eq!(
        wrong(7, "round 1 from 4 to 1 ballot nil"),
        "line 7: `nil` is not a ballot: 0, 1, blank, silence or a byte's number"
    );
    assert_eq!(
        wrong(8, "round 1 from 4 to all ballot 0"),
        "line 8: round 1 from 4 to 1 is already given in line 7"
    );
}

#[test]
fn too_many_records() {
    let head = "n 32\nt 10\nT 10\nsender 1\nvalue 1\nbad 1-10\n";
    let most = format!("{head}round 1-32 from 1-4 to all ballot 0\n");
    assert_eq!(to_sheet(&most).unwrap().len(), 12 + 8 * 4096);
    let error = to_sheet(&format!("{most}round 33 from 1 to 1 ballot 0\n")).unwrap_err();
    assert_eq!(error.to_string(), "line 8: more than 4096 records");
}

/// Whatever a text is, the sheet made of it is one that the reader accepts.
#[test]
fn made_sheets_are_accepted() {
    let mut lot = Lot(31);
    let words = [
        "n", "t", "T", "sender", "value", "bad", "round", "from", "to", "ballot", "1", "0", "2", "4", "1-3",
        "w", "bit",
    ];
    let mut accepted = 0;
    for turn in 0..20_000 {
        let mut text = String::from(if turn % 2 == 0 { CASE_C } else { NUMBER });
        for _ in 0..lot.below(3) {
            let at = lot.below(text.len() as u64) as usize;
            let end = text[at..].find(char::is_whitespace).map_or(text.len(), |end| at + end);
            text.replace_range(at..end, lot.pick(&words));
        }
        if let Ok(sheet) = to_sheet(&text) {
            assert!(records(&sheet).is_ok(), "{text}");
            accepted += 1;
        }
    }
    assert!(accepted > 1_000, "{accepted}");
}

#[test]
fn nobody_is_bad() {
    let text = "n 4\nt 1\nT 1\nsender 1\nvalue 1\nbad none\nround 1 from all to 2 ballot 1\n";
    assert_eq!(
        to_sheet(text).unwrap_err().to_string(),
        "line 7: no station is bad, so `from all` names none"
    );
    let long = "#".repeat((1 << 24) + 1);
    assert_eq!(to_sheet(&long).unwrap_err().to_string(), "a text has at most 16777216 bytes");
}
