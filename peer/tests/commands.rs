//! The program's commands: what they print, where, and their exit status.

use std::io::Write;
use std::process::{Command, Stdio};

use peer::line::Cause;

const CASE_A: [u8; 12] = [4, 1, 1, 1, 1, 0, 0, 0, 8, 0, 0, 0];
const CASE_A_TEXT: &str = "n 4\nt 1\nT 1\nsender 1\nvalue 1\nbad 4\n";
const CASE_A_LISTING: &str = "agree 4 1 1 1 9\n1 1 2 0 0\n2 1 2 0 0\n3 1 2 0 0\n4 - - - -\n";

/// Exit status, standard output and standard error of a command that is fed these bytes.
fn peer(words: &[&str], fed: &[u8]) -> (i32, Vec<u8>, String) {
    let mut command = Command::new(env!("CARGO_BIN_EXE_peer"));
    command.args(words).stdin(Stdio::piped()).stdout(Stdio::piped()).stderr(Stdio::piped());
    let mut child = command.spawn().unwrap();
    // a command that has read enough may close its end
    let _ = child.stdin.take().unwrap().write_all(fed);
    let output = child.wait_with_output().unwrap();
    let said = String::from_utf8(output.stderr).unwrap();
    (output.status.code().unwrap(), output.stdout, said)
}

#[test]
fn listing() {
    assert_eq!(peer(&["listing"], &CASE_A), (0, CASE_A_LISTING.as_bytes().to_vec(), String::new()));
    for fed in [&CASE_A[..11], &[], &[0; 100_000]] {
        let (status, printed, said) = peer(&["listing"], fed);
        assert_eq!((status, printed.as_slice()), (1, &b"refused 1\n"[..]));
        assert!(said.starts_with("listing: standard input: refused 1: the sheet's length is not 12 + 8k "));
    }
}

/// Case A with seed 1: what station 4 says.
fn case_a_generated() -> Vec<u8> {
    let mut sheet = CASE_A.to_vec();
    sheet.extend([1, 4, 1, 1, 0, 0, 0, 0]);
    sheet[6] = 1;
    peer(&["rewrite", "--seed", "1"], &sheet).1
}

/// Station 4 alone says something: 1 1 1 and silence in round 1, which is not its own. What is made of the run with a seed is
/// what is made of its sheet.
#[test]
fn generated_runs() {
    let sheet = case_a_generated();
    assert_eq!(sheet[..12], [4, 1, 1, 1, 1, 0, 1, 0, 8, 0, 0, 0]);
    assert_eq!(sheet[12..36], [1, 4, 1, 1, 2, 0, 0, 0, 1, 4, 2, 1, 3, 0, 0, 0, 1, 4, 3, 1, 4, 0, 0, 0]);
    assert_eq!(sheet[36..39], [2, 4, 1]);
    for command in ["listing", "rewrite", "log", "outcomes"] {
        let made = peer(&[command], &sheet);
        assert_eq!((made.0, made.2.as_str()), (0, ""));
        for words in
            [&[command, "--seed", "1"][..], &[command, "--seed", "001", "-"], &[command, "-", "--seed", "1"]]
        {
            assert_eq!(peer(words, &CASE_A), made);
        }
        let file = file("case-a-seed", &CASE_A);
        assert_eq!(peer(&[command, "--seed", "1", &file], &[]), made);
        assert_eq!(peer(&[command, &file, "--seed", "1"], &[]), made);
    }
    assert_ne!(peer(&["log", "--seed", "4294967295"], &CASE_A), peer(&["log", "--seed", "1"], &CASE_A));
}

/// The hundred listings begin with seed 1's and end with seed 100's; of a refused sheet there is one line.
#[test]
fn seeds() {
    let (status, printed, said) = peer(&["seeds"], &CASE_A);
    assert_eq!((status, said.as_str()), (0, ""));
    let printed = String::from_utf8(printed).unwrap();
    assert_eq!((printed.lines().count(), printed.matches("agree 4 1 1 1 9\n").count()), (500, 100));
    for (seed, at) in [("1", 0), ("100", 99)] {
        let listing: Vec<&str> = printed.lines().skip(5 * at).take(5).collect();
        assert_eq!(peer(&["listing", "--seed", seed], &CASE_A).1, (listing.join("\n") + "\n").into_bytes());
    }
    let mut sheet = CASE_A;
    sheet[6] = 1;
    let said = "seeds: standard input: refused 9: the chain reaches an index above k\n".to_string();
    assert_eq!(peer(&["seeds", "-"], &sheet), (1, b"refused 9\n".to_vec(), said));
}

/// Seed 0, a sheet that is refused by itself, and one whose generated run has more records than a sheet.
#[test]
fn refused_seeds() {
    let mut unchained = CASE_A;
    unchained[6] = 1;
    let large = [32, 10, 10, 1, 1, 0, 0, 0, 255, 255, 255, 255];
    for (command, printed) in [("listing", true), ("rewrite", true), ("draw", false), ("log", false)] {
        for (seed, sheet, cause) in [("0", CASE_A, Cause::Seed), ("00", unchained, Cause::IndexBeyond)] {
            let (number, words) = (cause.number(), cause.words());
            let said = format!("{command}: standard input: refused {number}: {words}\n");
            let line = if printed { format!("refused {number}\n") } else { String::new() };
            assert_eq!(peer(&[command, "--seed", seed], &sheet), (1, line.into_bytes(), said));
        }
    }
    let said = "rewrite: standard input: refused 14: more than 4,096 records are to be written\n".to_string();
    assert_eq!(peer(&["rewrite", "--seed", "1"], &large), (1, b"refused 14\n".to_vec(), said));
    assert_eq!(peer(&["listing", "--seed", "1"], &large).0, 0);
}

/// What is no decimal number below 2 to the power 32, and commands without the option.
#[test]
fn wrong_seeds() {
    for command in ["listing", "rewrite", "draw", "log", "outcomes", "offers"] {
        let said = format!("{command}: a decimal number below 4,294,967,296 is wanted after --seed\n");
        for seed in ["4294967296", "99999999999999999999", "-1", "+1", "", " 1", "1.0", "0x1", "x", "--seed"]
        {
            assert_eq!(peer(&[command, "--seed", seed], &CASE_A), (2, vec![], said.clone()), "{seed}");
        }
        assert_eq!(peer(&[command, "--seed"], &CASE_A), (2, vec![], said));
    }
    for words in [
        &["draw", "--seed", "1", "--seed", "2"][..],
        &["draw", "--seed", "1", "a", "b"],
        &["seeds", "--seed", "1"],
        &["text", "--seed", "1"],
        &["runs", "--seed", "1"],
    ] {
        let (status, printed, said) = peer(words, &CASE_A);
        assert_eq!((status, printed), (2, vec![]));
        assert!(said.starts_with("usage: peer listing"));
    }
}

/// Case A with a record of silence and one outside the chain, and what is refused of it.
#[test]
fn rewrite() {
    let mut untidy = CASE_A.to_vec();
    untidy[6] = 2;
    untidy.extend([7; 8]);
    untidy.extend([1, 4, 1, 255, 0, 0, 0, 0]);
    for sheet in [&CASE_A[..], &untidy] {
        assert_eq!(peer(&["rewrite"], sheet), (0, CASE_A.to_vec(), String::new()));
    }
    untidy[6] = 1;
    let said = "rewrite: standard input: refused 9: the chain reaches an index above k\n".to_string();
    assert_eq!(peer(&["rewrite", "-"], &untidy), (1, b"refused 9\n".to_vec(), said));
    let (status, printed, said) = peer(&["rewrite"], &[0; 32_788]);
    assert_eq!((status, printed.as_slice()), (1, &b"refused 1\n"[..]));
    assert!(said.starts_with("rewrite: standard input: refused 1: the sheet's length is not 12 + 8k "));
}

#[test]
fn sheet_and_text() {
    assert_eq!(peer(&["sheet"], CASE_A_TEXT.as_bytes()), (0, CASE_A.to_vec(), String::new()));
    assert_eq!(peer(&["text"], &CASE_A), (0, CASE_A_TEXT.as_bytes().to_vec(), String::new()));
}

#[test]
fn a_wrong_text() {
    let wrong = format!("{CASE_A_TEXT}round 1 from 4 to 9 ballot 1\n");
    let said = "sheet: standard input: line 7: station 9 is beyond n 4\n".to_string();
    assert_eq!(peer(&["sheet"], wrong.as_bytes()), (1, vec![], said));
}

#[test]
fn refused_sheets() {
    let mut sheet = CASE_A;
    sheet[6] = 1;
    for command in ["text", "draw", "log", "outcomes"] {
        let said = format!("{command}: standard input: refused 9: the chain reaches an index above k\n");
        assert_eq!(peer(&[command], &sheet), (1, vec![], said));
    }
}

/// Case A with its table, then with one that is too short, then a run whose sheet ends too early.
#[test]
fn stored_runs() {
    let mut stored = Vec::new();
    for lent in [144, 143, 144] {
        stored.extend([12, 0, lent, 0]);
        stored.extend(CASE_A);
    }
    stored.pop();
    let (status, printed, said) = peer(&["runs"], &stored);
    assert_eq!((status, said.as_str()), (0, ""));
    let printed = String::from_utf8(printed).unwrap();
    let lines: Vec<&str> = printed.lines().collect();
    assert_eq!(lines.len(), 2);
    assert!(lines[0].starts_with("run 1: 4 1 1 1 1 0 8; table 2653487104; accepted: 1 2 0 0 1 2 0 0 "));
    assert!(lines[1].starts_with("run 2: refused 8; table ") && !lines[1].contains("accepted"));
}

/// Case A with a number of two bits: its tables, then one bit's; and a number whose tables are longer than one bit's can be.
#[test]
fn stored_runs_of_numbers() {
    let mut number = CASE_A;
    (number[4], number[5]) = (2, 2);
    let large = [32, 10, 10, 1, 1, 2, 0, 0, 0, 0, 0, 0];
    let small = [32, 0, 0, 1, 9, 8, 0, 0, 0, 0, 0, 0];
    let mut stored = Vec::new();
    for (sheet, lent) in [(number, 288u16), (number, 144), (large, 36_864), (small, 49_152)] {
        stored.extend([12, 0]);
        stored.extend(lent.to_le_bytes());
        stored.extend(sheet);
    }
    let (status, printed, said) = peer(&["runs"], &stored);
    assert_eq!((status, said.as_str()), (0, ""));
    let printed = String::from_utf8(printed).unwrap();
    let begins = [
        "run 1: 4 1 1 1 2 2 8; table ",
        "run 2: refused 8; table ",
        "run 3: refused 8; table ",
        "run 4: 32 0 0 1 9 8 0; table ",
    ];
    assert_eq!(printed.lines().count(), 4);
    assert!(printed.lines().zip(begins).all(|(line, begins)| line.starts_with(begins)), "{printed}");
    let accepted = printed.lines().map(|line| line.split("accepted: ").nth(1).unwrap_or("")[..].to_string());
    let accepted: Vec<String> = accepted.collect();
    assert!(accepted[0].starts_with("2 2 0 0 2 2 0 0 2 2 0 0 255 255 255 255; sums "));
    assert!(accepted[3].starts_with("9 2 0 0 9 2 0 0 "));
}

#[test]
fn a_drawing() {
    let (status, drawing, said) = peer(&["draw"], &CASE_A);
    assert_eq!((status, said.as_str()), (0, ""));
    assert!(drawing.starts_with(b"<svg ") && drawing.ends_with(b"</svg>\n"));
    let (status, generated, said) = peer(&["draw", "--seed", "7"], &CASE_A);
    assert_eq!((status, said.as_str()), (0, ""));
    assert!(String::from_utf8(generated).unwrap().contains("generated from seed 7"));
}

/// Case A's log and outcomes.
#[test]
fn log_and_outcomes() {
    let (status, log, said) = peer(&["log"], &CASE_A);
    assert_eq!((status, log.len(), said.as_str()), (0, 144, ""));
    // round 1 is the sender's, in round 2 all good stations speak
    assert_eq!(log[..32], [[1; 4], [255; 4], [255; 4], [255; 4], [1; 4], [1; 4], [1; 4], [255; 4]].concat());
    let outcomes = [[1, 2, 0, 0], [1, 2, 0, 0], [1, 2, 0, 0], [255; 4]].concat();
    assert_eq!(peer(&["outcomes", "-"], &CASE_A), (0, outcomes, String::new()));
}

/// Case A's station 2: nine rounds, of which it is king in the seventh. Station 4 says nothing.
#[test]
fn offers() {
    let lines = "\
        round 1: row 1 silence silence silence; offer round 2, value 1, z blank, grade 0, garbled 0, ballot 1\n\
        round 2: row 1 1 1 silence; offer round 3, value 1, z 1, grade 0, garbled 0, ballot 1\n\
        round 3: row 1 1 1 silence; offer round 4, value 1, z 1, grade 2, garbled 0, ballot silence\n\
        round 4: row 1 silence silence silence; offer round 5, value 1, z 1, grade 2, garbled 0, ballot 1\n\
        round 5: row 1 1 1 silence; offer round 6, value 1, z 1, grade 2, garbled 0, ballot 1\n\
        round 6: row 1 1 1 silence; offer round 7, value 1, z 1, grade 2, garbled 0, ballot 1\n\
        round 7: row silence 1 silence silence; offer round 8, value 1, z 1, grade 2, garbled 0, ballot 1\n\
        round 8: row 1 1 1 silence; offer round 9, value 1, z 1, grade 2, garbled 0, ballot 1\n\
        round 9: row 1 1 1 silence; offer round 10, value 1, z 1, grade 2, garbled 0, done\n";
    let made = (0, lines.as_bytes().to_vec(), String::new());
    for words in [&["offers", "2"][..], &["offers", "2", "-"], &["offers", "02", &file("offers", &CASE_A)]] {
        assert_eq!(peer(words, &CASE_A), made);
    }
    let generated = peer(&["offers", "2"], &case_a_generated());
    assert_ne!(generated, made);
    for words in [["offers", "2", "--seed", "1"], ["offers", "--seed", "1", "2"]] {
        assert_eq!(peer(&words, &CASE_A), generated);
    }
    let mut number = CASE_A;
    (number[4], number[5]) = (2, 2);
    let (status, of_number, _) = peer(&["offers", "2"], &number);
    let of_number = String::from_utf8(of_number).unwrap();
    let bit_1: Vec<&str> =
        of_number.lines().skip(9).map(|line| line.strip_prefix("bit 1 ").unwrap()).collect();
    assert_eq!((status, bit_1), (0, lines.lines().collect()));
    assert!(of_number.starts_with("bit 0 round 1: row 0 silence silence silence; offer round 2, value 0, "));
}

/// README.md shows case C's station 2.
#[test]
fn offers_of_the_readme() {
    let (status, printed, said) = peer(&["offers", "2"], include_bytes!("../../examples/c.sheet"));
    assert_eq!((status, said.as_str()), (0, ""));
    let shown: String =
        String::from_utf8(printed).unwrap().lines().map(|line| format!("    {line}\n")).collect();
    let words = "    peer offers 2 ../examples/c.sheet\n";
    assert!(include_str!("../README.md").contains(&format!("\n{words}\n{shown}\n")), "{shown}");
}

/// A station that the run doesn't have or that is bad, a sheet that is refused, which comes first, and words that are wrong.
#[test]
fn no_offers() {
    for (own, why) in [
        ("0", "station 0: stations are numbered from 1"),
        ("4", "station 4 is bad: it may show anything"),
        ("5", "station 5 is beyond n 4"),
        ("255", "station 255 is beyond n 4"),
        ("256", "a station's number in decimal, 1 to 32, is wanted before the sheet"),
        ("-1", "a station's number in decimal, 1 to 32, is wanted before the sheet"),
        ("a.sheet", "a station's number in decimal, 1 to 32, is wanted before the sheet"),
    ] {
        assert_eq!(peer(&["offers", own], &CASE_A), (2, vec![], format!("offers: {why}\n")));
    }
    let mut sheet = CASE_A;
    sheet[6] = 1;
    for words in [&["offers", "2"][..], &["offers", "9"], &["offers", "9", "--seed", "0"]] {
        let said = "offers: standard input: refused 9: the chain reaches an index above k\n".to_string();
        assert_eq!(peer(words, &sheet), (1, vec![], said));
    }
    let said = "offers: standard input: refused 16: the seed is 0\n".to_string();
    assert_eq!(peer(&["offers", "2", "--seed", "0"], &CASE_A), (1, vec![], said));
    let (status, printed, said) = peer(&["offers", "2", env!("CARGO_TARGET_TMPDIR")], &[]);
    assert_eq!((status, printed), (2, vec![]));
    assert!(said.starts_with("offers: ") && said.ends_with("(os error 21)\n"));
    let (status, printed, said) = peer(&["offers", "2", "a", "b"], &CASE_A);
    assert_eq!((status, printed), (2, vec![]));
    assert!(said.starts_with("usage: peer listing"));
    let wanted = "offers: a station's number in decimal, 1 to 32, is wanted before the sheet\n".to_string();
    assert_eq!(peer(&["offers"], &CASE_A), (2, vec![], wanted));
}

/// Case A with the number 2 of two bits: the bits' logs one after another, and the outcomes of the number. The checker keeps to
/// one bit, and says so of two; of one it gives the marks.
#[test]
fn a_number() {
    let mut sheet = CASE_A;
    (sheet[4], sheet[5]) = (2, 2);
    let listed = CASE_A_LISTING.replace(" 1 2 0 0", " 2 2 0 0").into_bytes();
    assert_eq!(peer(&["listing"], &sheet), (0, listed, String::new()));
    assert_eq!(peer(&["rewrite"], &sheet), (0, sheet.to_vec(), String::new()));
    let (_, log, _) = peer(&["log"], &sheet);
    let (_, outcomes, _) = peer(&["outcomes"], &sheet);
    assert_eq!(outcomes, [[2, 2, 0, 0], [2, 2, 0, 0], [2, 2, 0, 0], [255; 4]].concat());
    let [zero, one] = [0, 1].map(|value| {
        let mut sheet = CASE_A;
        sheet[4] = value;
        ["log", "outcomes"].map(|command| peer(&[command], &sheet).1)
    });
    assert_eq!(log, [&zero[0][..], &one[0]].concat());
    let audit = |log: &[u8], outcomes: &[u8]| {
        let files = [file("number-log", log), file("number-outcomes", outcomes)];
        peer(&["audit", "4", "1", "1", "1", &files[0], &files[1]], &[])
    };
    assert_eq!(audit(&log[144..], &one[1]), (0, b"broke 4\n".to_vec(), String::new()));
    let words = Cause::Length.words();
    let several = "; the log is as long as 2 bits' logs, and one bit is checked at a time";
    for (log, why) in [(&log[..], several), (&log[..287], "")] {
        let said = format!("audit: refused 8: {words}{why}\n");
        assert_eq!(audit(log, &outcomes), (1, b"refused 8\n".to_vec(), said));
    }
    sheet[5] = 9;
    let said = "rewrite: standard input: refused 15: w is above 8\n".to_string();
    assert_eq!(peer(&["rewrite"], &sheet), (1, b"refused 15\n".to_vec(), said));
}

/// Case A's log and outcomes, changed, refused, and words that are wrong.
#[test]
fn audit() {
    let (mut log, mut outcomes) = (peer(&["log"], &CASE_A).1, peer(&["outcomes"], &CASE_A).1);
    let names = ["audit-log", "audit-outcomes"];
    let audit = |log: &[u8], outcomes: &[u8], numbers: [&str; 4]| {
        let [log, outcomes] = [file(names[0], log), file(names[1], outcomes)];
        peer(&[&["audit"][..], &numbers, &[&log, &outcomes]].concat(), &[])
    };
    let case = ["4", "1", "1", "1"];
    let printed = |text: &str| (0, text.as_bytes().to_vec(), String::new());
    assert_eq!(audit(&log, &outcomes, case), printed("broke 4\n"));
    assert_eq!(audit(&log, &outcomes, ["004", "1", "01", "1"]), printed("broke 4\n"));
    // station 2 to station 4 in round 2
    log[16 + 7] = 0;
    assert_eq!(audit(&log, &outcomes, case), printed("broke 2 4\n"));
    (log[16 + 7], outcomes[2]) = (1, 1);
    assert_eq!(audit(&log, &outcomes, case), printed("broke 1 4\n"));
    // station 2 counts a garbled round that it didn't have
    (outcomes[2], outcomes[7]) = (0, 1);
    assert_eq!(audit(&log, &outcomes, case), printed("broke 2 4\n"));
    assert_eq!(audit(&[1; 6], &[1, 2, 0, 0], ["1", "0", "0", "1"]), printed("broke\n"));

    let long = vec![0; 100_000];
    for (log, outcomes, numbers, cause) in [
        (&log, &outcomes, ["256", "1", "1", "1"], Cause::StationCount),
        (&log, &outcomes, ["4", "99999999999999999999", "1", "1"], Cause::Thresholds),
        (&log, &outcomes, ["4", "1", "1", "0"], Cause::StationNumber),
        (&long, &outcomes, case, Cause::Length),
        (&log, &long, case, Cause::Length),
    ] {
        let (number, words) = (cause.number(), cause.words());
        let (printed, said) = (format!("refused {number}\n"), format!("audit: refused {number}: {words}\n"));
        assert_eq!(audit(log, outcomes, numbers), (1, printed.into_bytes(), said));
    }
}

#[test]
fn audit_of_nothing() {
    let there = file("audit-there", &[]);
    let words =
        "audit: wanted are n, t, T and the sender in decimal, the log's file and the outcomes' file\n";
    for numbers in
        [&["4", "1", "1"][..], &["4", "1", "1", "1", "1"], &["4", "1", "1", ""], &["4", "1", "+1", "1"]]
    {
        let said = peer(&[&["audit"], numbers, &[&there, &there]].concat(), &[]);
        assert_eq!(said, (2, vec![], words.to_string()));
    }
    let folder = env!("CARGO_TARGET_TMPDIR");
    for (log, outcomes, missing) in [("no log", "no outcomes", "no log"), (&there, folder, folder)] {
        let (status, printed, said) = peer(&["audit", "4", "1", "1", "1", log, outcomes], &[]);
        assert_eq!((status, printed), (2, vec![]));
        assert!(said.starts_with(&format!("audit: {missing}: ")));
    }
}

/// A file with these bytes, by its name.
fn file(name: &str, bytes: &[u8]) -> String {
    let file = std::path::Path::new(env!("CARGO_TARGET_TMPDIR")).join(name);
    std::fs::write(&file, bytes).unwrap();
    file.to_str().unwrap().to_string()
}

#[test]
fn files() {
    let name = &file("case-a", &CASE_A);
    assert_eq!(peer(&["listing", name], &[]), (0, CASE_A_LISTING.as_bytes().to_vec(), String::new()));
    let (status, printed, said) = peer(&["listing", "no such file"], &CASE_A);
    assert_eq!((status, printed), (2, vec![]));
    assert!(said.starts_with("listing: no such file: "));
}

/// A failed read is no sheet: a folder can be opened and not read.
#[test]
fn what_cannot_be_read_or_written() {
    for command in ["listing", "seeds", "sheet", "text", "rewrite", "draw", "log", "outcomes", "runs"] {
        let (status, printed, said) = peer(&[command, env!("CARGO_TARGET_TMPDIR")], &[]);
        assert_eq!((status, printed), (2, vec![]));
        assert!(said.starts_with(&format!("{command}: ")) && said.ends_with("(os error 21)\n"));
    }
    let full = std::fs::File::create("/dev/full").unwrap();
    let mut command = Command::new(env!("CARGO_BIN_EXE_peer"));
    let file = file("case-a-text", CASE_A_TEXT.as_bytes());
    let output = command.arg("sheet").arg(file).stdout(full).output().unwrap();
    assert_eq!(output.status.code(), Some(2));
    assert!(String::from_utf8(output.stderr).unwrap().starts_with("sheet: standard output: "));
}

#[test]
fn usage() {
    for words in [&[][..], &["lisitng"], &["listing", "a", "b"]] {
        let (status, printed, said) = peer(words, &[]);
        assert_eq!((status, printed), (2, vec![]));
        assert!(said.starts_with("usage: peer listing"));
    }
    let (status, printed, said) = peer(&["--help"], &[]);
    assert_eq!((status, said.as_str()), (0, ""));
    assert!(printed.starts_with(b"usage: peer listing"));
}

#[cfg(not(feature = "verified"))]
#[test]
fn commands_that_are_not_built() {
    let said = "peer: compare, fuzz and bench need the feature verified\n".to_string();
    assert_eq!(peer(&["compare", "1", "1"], &[]), (2, vec![], said.clone()));
    assert_eq!(peer(&["fuzz", "1", "1"], &[]), (2, vec![], said.clone()));
    assert_eq!(peer(&["bench"], &[]), (2, vec![], said));
}

/// So many turns of a fuzz that each of the programs is given some inputs.
#[cfg(feature = "verified")]
const FUZZED: &str = "1000";

/// The calls that both commands compare, those that one of them does, and offer and acceptance.
#[cfg(feature = "verified")]
const BOTH: [&str; 13] = [
    "read",
    "read_bit",
    "sheet_len",
    "write",
    "generate",
    "rehearse",
    "check",
    "exchange",
    "open",
    "ballot",
    "advance",
    "advance_lent",
    "result",
];
#[cfg(feature = "verified")]
const COMPARED: [&str; 4] = ["read back", "generated back", "marks back", "whole run"];
#[cfg(feature = "verified")]
const FUZZED_TOO: [&str; 4] = ["agree", "rewrite", "audit", "seeds"];
#[cfg(feature = "verified")]
const OFFERS: [&str; 3] = ["offer", "accept", "accept_lent"];

/// Seed 7 and so many turns of a command that compares seventeen calls and the three of offer and acceptance: all pass, without
/// a difference.
#[cfg(feature = "verified")]
fn finds_no_difference(command: &str, turns: &str, further: &[&str; 4]) {
    let (status, printed, said) = peer(&[command, "7", turns], &[]);
    // a slow machine may have said how far it is
    assert!(status == 0 && !said.contains("to repeat: "));
    let printed = String::from_utf8(printed).unwrap();
    assert!(
        printed.starts_with(&format!("seed 7, {turns} turns; "))
            && printed.ends_with("\n20 passed, 0 failed\n")
    );
    let told: Vec<&str> = printed.lines().filter_map(|line| line.get(..15)).map(str::trim_end).collect();
    for calls in [&BOTH[..], further, &OFFERS] {
        assert!(calls.iter().all(|call| told.contains(call)), "{command} {calls:?}: {printed}");
    }
}

#[cfg(feature = "verified")]
#[test]
fn comparing() {
    finds_no_difference("compare", "3", &COMPARED);
    for words in [&["compare", "x"][..], &["compare", "1", "2", "3"], &["bench", "1"]] {
        assert_eq!(peer(words, &[]).0, 2);
    }
}

#[cfg(feature = "verified")]
#[test]
fn fuzzing() {
    finds_no_difference("fuzz", FUZZED, &FUZZED_TOO);
    for words in [&["fuzz", "x"][..], &["fuzz", "1", "2m"], &["fuzz", "1", "1", "a", "b", "c", "d", "e"]] {
        assert_eq!(peer(words, &[]).0, 2);
    }
    for (words, name) in programs("nowhere") {
        let said = format!("peer fuzz: nowhere isn't there: ./build {name} makes it\n");
        assert_eq!(peer(&[&["fuzz", "1", "1"], &words[..]].concat(), &[]), (2, vec![], said));
    }
}

/// This file for each program in turn, those before it as they are built; and the program's name.
#[cfg(feature = "verified")]
fn programs(file: &str) -> [(Vec<&str>, &'static str); 4] {
    let built = ["../target/bin/agree", "../target/bin/rewrite", "../target/bin/audit"];
    let place = |at: usize| [&built[..at], &[file]].concat();
    [(place(0), "agree"), (place(1), "rewrite"), (place(2), "audit"), (place(3), "seeds")]
}

/// A program that prints none of what is wanted stands for each program: this one, which wants a command.
#[cfg(feature = "verified")]
#[test]
fn fuzzing_a_wrong_program() {
    let wrong = env!("CARGO_BIN_EXE_peer");
    for (words, name) in programs(wrong) {
        let (status, printed, said) = peer(&[&["fuzz", "7", FUZZED], &words[..]].concat(), &[]);
        let printed = String::from_utf8(printed).unwrap();
        // sixteen others, and the three of offer and acceptance
        assert!(status == 1 && printed.ends_with(" inputs with a difference\n19 passed, 1 failed\n"));
        let exit = format!("{name}: exit status: 2, on standard error ");
        for words in [&exit, " bytes\n", "to repeat: peer fuzz 7 "] {
            assert!(said.contains(words));
        }
    }
}
