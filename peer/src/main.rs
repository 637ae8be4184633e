//! Commands on run sheets and logs.

use std::io::{self, IsTerminal, Read, Write};
use std::process::ExitCode;
use std::str::FromStr;

use peer::audit::{self, Asked};
use peer::draw::draw;
use peer::line::Cause;
use peer::listing::{self, accepted, all_seeds, Run};
use peer::offers::offers;
use peer::runs::runs;
use peer::writer::{generated_form, normal_form};
use peer::{sheet, text};

const USAGE: &str = "\
usage: peer listing [SHEET]    the listing of a run sheet
       peer seeds [SHEET]      the listings of the runs that seeds 1 to 100 give to a run sheet's header
       peer sheet [TEXT]       the run sheet that a text stands for
       peer text [SHEET]       a run sheet as text, in the normal form
       peer rewrite [SHEET]    a run sheet's normal form, as a sheet
       peer draw [SHEET]       a drawing of the run, as SVG
       peer log [SHEET]        the run's log, as bytes; of a number the logs of its bits, bit 0's first
       peer outcomes [SHEET]   the run's outcomes, as bytes
       peer offers STATION [SHEET]
                               what a good station of the run offers in each round: the row that it receives, the
                               state that follows and the ballot that it then tells
       peer runs [RUNS]        what the program of crate stored_runs must print of stored runs
       peer audit N LOWER UPPER SENDER LOG OUTCOMES
                               the stations that broke the rules, by the files of one bit's log and of its
                               outcomes; LOWER and UPPER are document 01's t and T
A SHEET, TEXT or RUNS that isn't named, or is named -, is read from standard input. What is made goes to
standard output.
listing, rewrite, draw, log, outcomes and offers take --seed N: the run is then the one that seed N gives to
SHEET's header. SHEET's records are judged and not used.
Exit status: 0 if it is made, 1 if the sheet, the seed or the log is refused or the text is wrong, 2 for any other
trouble.

Built with the feature verified:
       peer compare [SEED] [TURNS]    the verified calls compared with this program's answers
       peer fuzz [SEED] [TURNS] [AGREE] [REWRITE] [AUDIT] [SEEDS]
                                      the same on mutated bytes, and the programs; TURNS may be seconds: 600s
       peer bench                     how long both take";

fn main() -> ExitCode {
    let words: Vec<String> = std::env::args().skip(1).collect();
    let Some((command, rest)) = words.split_first() else { return usage() };
    match command.as_str() {
        "--help" | "-h" => {
            println!("{USAGE}");
            ExitCode::SUCCESS
        }
        "compare" => verified::compare(rest).unwrap_or_else(usage),
        "fuzz" => verified::fuzz(rest).unwrap_or_else(usage),
        "bench" => verified::bench(rest).unwrap_or_else(usage),
        "audit" => ended(command, make_audit(rest)),
        _ => make(command, rest).unwrap_or_else(usage),
    }
}

/// Runs a command that makes something of a file. None where there is no such command, or nothing to read but what a person types.
fn make(command: &str, rest: &[String]) -> Option<ExitCode> {
    let (seed, mut rest) = match split_seed(command, rest) {
        Ok(split) => split,
        Err(wrong) => return Some(told(command, wrong, 2)),
    };
    let own = if command == "offers" && !rest.is_empty() { rest.remove(0) } else { "" };
    let file = match rest[..] {
        [] if io::stdin().is_terminal() => return None,
        [] | ["-"] => None,
        [file] => Some(file),
        _ => return None,
    };
    let source = Source { file, seed };
    let made = match command {
        "listing" => make_listing(&source),
        "seeds" => make_listings(file),
        "sheet" => make_sheet(file),
        "text" => make_text(file),
        "rewrite" => make_normal_form(&source),
        "draw" => make_of_run(&source, |run| draw(&run)),
        "log" => make_of_run(&source, |run| run.log),
        "outcomes" => make_of_run(&source, |run| run.outcomes),
        "offers" => make_offers(&source, own),
        "runs" => make_runs(file),
        _ => return None,
    };
    Some(ended(command, made))
}

/// The commands that make something of a run, which may be a generated one.
const OF_RUNS: [&str; 6] = ["listing", "rewrite", "draw", "log", "outcomes", "offers"];

/// What is said where no seed comes after the option.
const SEED_WANTED: &str = "a decimal number below 4,294,967,296 is wanted after --seed";
/// What is said where no station comes after `offers`.
const STATION_WANTED: &str = "a station's number in decimal, 1 to 32, is wanted before the sheet";

/// Takes `--seed N` off the words after such a command.
fn split_seed<'a>(command: &str, rest: &'a [String]) -> Result<(Option<u32>, Vec<&'a str>), &'static str> {
    let words: Vec<&str> = rest.iter().map(String::as_str).collect();
    match words.iter().position(|&word| word == "--seed") {
        Some(at) if OF_RUNS.contains(&command) => {
            let seed = words.get(at + 1).and_then(|word| number(word)).ok_or(SEED_WANTED)?;
            Ok((Some(seed), [&words[..at], &words[at + 2..]].concat()))
        }
        _ => Ok((None, words)),
    }
}

/// A number of digits alone.
fn number<N: FromStr>(word: &str) -> Option<N> {
    let digits = word.bytes().all(|byte| byte.is_ascii_digit());
    word.parse().ok().filter(|_| digits)
}

/// What a run is made of: a sheet, with a seed its header alone.
struct Source<'a> {
    /// None for standard input.
    file: Option<&'a str>,
    seed: Option<u32>,
}

impl Source<'_> {
    fn run(&self) -> Result<Result<Run, Cause>, String> {
        let sheet = read_sheet(self.file)?;
        Ok(self.seed.map_or_else(|| listing::run(&sheet), |seed| listing::generated(&sheet, seed)))
    }

    /// The run's sheet.
    fn normal_form(&self) -> Result<Result<Vec<u8>, Cause>, String> {
        let sheet = read_sheet(self.file)?;
        Ok(self.seed.map_or_else(|| normal_form(&sheet), |seed| generated_form(&sheet, seed)))
    }
}

/// Prints what a command has made, and says on standard error what is wrong.
fn ended(command: &str, made: Result<Made, String>) -> ExitCode {
    match made.and_then(|made| print(&made.bytes).map(|()| made.refused)) {
        Ok(None) => ExitCode::SUCCESS,
        Ok(Some(refusal)) => told(command, &refusal, 1),
        Err(trouble) => told(command, &trouble, 2),
    }
}

/// What a command makes of its files, and why they are refused, if they are.
struct Made {
    bytes: Vec<u8>,
    refused: Option<String>,
}

impl Made {
    fn whole(bytes: impl Into<Vec<u8>>) -> Made {
        Made { bytes: bytes.into(), refused: None }
    }

    fn refused(refusal: String) -> Made {
        Made { bytes: vec![], refused: Some(refusal) }
    }

    /// What is made of a sheet, if it isn't refused.
    fn of_sheet(file: Option<&str>, made: Result<impl Into<Vec<u8>>, Cause>) -> Made {
        made.map_or_else(|cause| Made::refused(refusal(file, cause)), Made::whole)
    }

    /// The same, where a refusal is printed too: one line in the place of what isn't made.
    fn or_line(file: Option<&str>, made: Result<impl Into<Vec<u8>>, Cause>) -> Made {
        let line = made.as_ref().err().map(|&cause| listing::refusal(cause).into_bytes());
        let made = Made::of_sheet(file, made);
        Made { bytes: line.unwrap_or(made.bytes), ..made }
    }
}

/// Says on standard error why a command ends with this status.
fn told(command: &str, why: &str, status: u8) -> ExitCode {
    eprintln!("{command}: {why}");
    ExitCode::from(status)
}

/// The commands on the verified implementation. None where the words after the command are wrong.
#[cfg(feature = "verified")]
mod verified {
    use super::ExitCode;
    use peer::compare::Comparison;
    use peer::fuzz::{Fuzz, Until, PROGRAMS};
    use std::path::{Path, PathBuf};

    /// The word at a place, if there is one, of at most so many.
    fn word(words: &[String], place: usize, most: usize, default: &'static str) -> Option<String> {
        let word = words.get(place).map_or(default, String::as_str);
        (words.len() <= most).then(|| word.to_string())
    }

    fn ended(report: &str, failed: usize) -> ExitCode {
        print!("{report}");
        if failed == 0 {
            ExitCode::SUCCESS
        } else {
            ExitCode::FAILURE
        }
    }

    pub fn compare(words: &[String]) -> Option<ExitCode> {
        let seed = word(words, 0, 2, "1")?.parse().ok()?;
        let turns = word(words, 1, 2, "10000")?.parse().ok()?;
        let comparison = Comparison::run(seed, turns);
        Some(ended(&comparison.report(), comparison.failed()))
    }

    pub fn fuzz(words: &[String]) -> Option<ExitCode> {
        let most = 2 + PROGRAMS.len();
        let seed = word(words, 0, most, "1")?.parse().ok()?;
        let until = Until::new(&word(words, 1, most, "20000")?)?;
        let named = words.iter().skip(2).map(Path::new);
        let built = PROGRAMS.map(|name| Path::new("../target/bin").join(name));
        let mut programs = built.each_ref().map(PathBuf::as_path);
        programs.iter_mut().zip(named).for_each(|(program, named)| *program = named);
        match Fuzz::new(seed, programs) {
            Ok(mut fuzz) => {
                fuzz.run(until);
                Some(ended(&fuzz.report(), fuzz.failed()))
            }
            Err(message) => {
                eprintln!("peer fuzz: {message}");
                Some(ExitCode::from(2))
            }
        }
    }

    pub fn bench(words: &[String]) -> Option<ExitCode> {
        words.is_empty().then(|| {
            peer::bench::report(&mut |line| println!("{line}"));
            ExitCode::SUCCESS
        })
    }
}

/// Stands for these commands where they aren't built.
#[cfg(not(feature = "verified"))]
mod verified {
    use super::ExitCode;

    pub fn compare(_: &[String]) -> Option<ExitCode> {
        eprintln!("peer: compare, fuzz and bench need the feature verified");
        Some(ExitCode::from(2))
    }

    pub use compare as bench;
    pub use compare as fuzz;
}

fn usage() -> ExitCode {
    eprintln!("{USAGE}");
    ExitCode::from(2)
}

fn make_listing(source: &Source) -> Result<Made, String> {
    Ok(Made::or_line(source.file, source.run()?.map(|run| accepted(&run))))
}

fn make_listings(file: Option<&str>) -> Result<Made, String> {
    Ok(Made::or_line(file, all_seeds(&read_sheet(file)?)))
}

fn make_sheet(file: Option<&str>) -> Result<Made, String> {
    let bytes = read_at_most(file, text::LONGEST as u64 + 1)?;
    Ok(match text::to_sheet(&String::from_utf8_lossy(&bytes)) {
        Ok(sheet) => Made::whole(sheet),
        Err(error) => Made::refused(format!("{}: {error}", name(file))),
    })
}

fn make_text(file: Option<&str>) -> Result<Made, String> {
    Ok(Made::of_sheet(file, text::of_sheet(&read_sheet(file)?)))
}

fn make_normal_form(source: &Source) -> Result<Made, String> {
    Ok(Made::or_line(source.file, source.normal_form()?))
}

/// What is made of a run.
fn make_of_run<B: Into<Vec<u8>>>(source: &Source, of: impl Fn(Run) -> B) -> Result<Made, String> {
    Ok(Made::of_sheet(source.file, source.run()?.map(of)))
}

/// What a good station of a run offers. The sheet's own refusals come before what is wrong with the station.
fn make_offers(source: &Source, own: &str) -> Result<Made, String> {
    let own = number(own).ok_or(STATION_WANTED)?;
    match source.run()? {
        Ok(run) => Ok(Made::whole(offers(&run, own)?)),
        Err(cause) => Ok(Made::refused(refusal(source.file, cause))),
    }
}

fn make_runs(file: Option<&str>) -> Result<Made, String> {
    Ok(Made::whole(runs(&read_at_most(file, u64::MAX)?)))
}

/// The checker's answer to a log and its outcomes.
fn make_audit(words: &[String]) -> Result<Made, String> {
    let asked = Asked::new(words).ok_or(audit::WANTED)?;
    let answer = asked.checked().map_err(|unread| format!("{}: {}", unread.file, unread.error))?;
    let why = |cause| match asked.several_bits() {
        Some(bits) if cause == Cause::Length => {
            format!(
                "{}; the log is as long as {bits} bits' logs, and one bit is checked at a time",
                words_of(cause)
            )
        }
        _ => words_of(cause),
    };
    Ok(Made { bytes: audit::line(answer).into_bytes(), refused: answer.err().map(why) })
}

fn refusal(file: Option<&str>, cause: Cause) -> String {
    format!("{}: {}", name(file), words_of(cause))
}

fn words_of(cause: Cause) -> String {
    format!("refused {}: {}", cause.number(), cause.words())
}

fn name(file: Option<&str>) -> &str {
    file.unwrap_or("standard input")
}

/// A sheet's bytes. Of a longer file only one byte too many is read, which is refused all the same.
fn read_sheet(file: Option<&str>) -> Result<Vec<u8>, String> {
    read_at_most(file, sheet::LONGEST as u64 + 1)
}

fn read_at_most(file: Option<&str>, most: u64) -> Result<Vec<u8>, String> {
    let mut bytes = Vec::new();
    let read = match file {
        Some(path) => std::fs::File::open(path).and_then(|file| file.take(most).read_to_end(&mut bytes)),
        None => io::stdin().lock().take(most).read_to_end(&mut bytes),
    };
    match read {
        Ok(_) => Ok(bytes),
        Err(error) => Err(format!("{}: {error}", name(file))),
    }
}

fn print(bytes: &[u8]) -> Result<(), String> {
    let mut out = io::stdout().lock();
    let printed = out.write_all(bytes).and_then(|()| out.flush());
    printed.map_err(|error| format!("standard output: {error}"))
}
