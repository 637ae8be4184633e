//! The program `audit`: a line's numbers and the files of a log and of its outcomes as its words, one line on standard output.

use std::path::{Path, PathBuf};
use std::process::{Command, Output, Stdio};
use std::sync::atomic::{AtomicU32, Ordering};
use std::{env, fs, io, process};

use super::calls::{logged, of_checked, tried, Call, Tried};
use super::pool::Shape;
use super::program::{fault, found, Printed};
use crate::audit::{line, Asked, WANTED};
use crate::compare::checker;
use crate::compare::input::Told;
use crate::compare::report::Compared;
use crate::line::{Cause, Marks};
use crate::logs::Logged;
use crate::lot::Lot;

/// A folder of its own for the files, which goes when it is dropped.
struct Folder(PathBuf);

impl Folder {
    fn new() -> io::Result<Folder> {
        static MADE: AtomicU32 = AtomicU32::new(0);
        let made = MADE.fetch_add(1, Ordering::Relaxed);
        let folder = env::temp_dir().join(format!("peer-fuzz-{}-{made}", process::id()));
        fs::create_dir(&folder)?;
        Ok(Folder(folder))
    }

    /// The name of a file in it.
    fn file(&self, name: &str) -> String {
        self.0.join(name).to_string_lossy().into_owned()
    }

    /// The names of the log's file and of the outcomes', which are written.
    fn written(&self, logged: &Logged) -> io::Result<[String; 2]> {
        let names = ["log", "outcomes"].map(|name| self.file(name));
        fs::write(&names[0], &logged.log)?;
        fs::write(&names[1], &logged.outcomes)?;
        Ok(names)
    }
}

impl Drop for Folder {
    fn drop(&mut self) {
        // what is left can't be helped
        let _ = fs::remove_dir_all(&self.0);
    }
}

/// The program as a call. It is a process each time, so few inputs are given to it.
pub fn audit(program: &Path) -> Result<Call, String> {
    let program = found("audit", program)?;
    let folder = Folder::new().map_err(|error| format!("no folder for files: {error}"))?;
    let give = move |lot: &mut Lot, input: &[u8]| {
        let logged = logged(lot, input);
        compare(&program, &folder, lot, &logged)
    };
    Ok(Call::new("audit", Shape::Line, 128, &checker::NUMBERS, give))
}

fn compare(program: &Path, folder: &Folder, lot: &mut Lot, logged: &Logged) -> Tried {
    let files = folder.written(logged).expect("files can be written");
    let words = words(lot, logged, files, folder);
    let (printed, answer) = wanted(&words);
    let fault = match started(program, &words) {
        Ok(output) => fault(&output, &printed),
        Err(error) => Some(format!("the program can't be run: {error}")),
    };
    let told = |what| checker::told(Told::new(&format!("{what}\n  words {words:?}")), logged).text();
    let number = answer.and_then(Result::err).map_or(0, Cause::number);
    let features = answer.and_then(|answer| of_checked(logged, answer));
    tried(Compared { number, difference: fault.map(told) }, logged.numbers.0, features)
}

/// What the program is started with: mostly the line's numbers and the files, now and then wrong words.
fn words(lot: &mut Lot, logged: &Logged, files: [String; 2], folder: &Folder) -> Vec<String> {
    let (n, t, upper) = logged.numbers;
    let mut words = [n, t, upper, logged.sender].map(|number| decimal(lot, number)).to_vec();
    words.extend(files);
    match lot.below(16) {
        0 => drop(words.remove(lot.below(6) as usize)),
        1 => words.insert(lot.below(7) as usize, lot.pick(&["1", "", "x"]).to_string()),
        2 => {
            words[lot.below(4) as usize] =
                lot.pick(&["", "-1", "+4", " 4", "4 ", "0x4", "4.", "n"]).to_string()
        }
        3 => words[4 + lot.below(2) as usize] = folder.file(lot.pick(&["", "none", "log/none"])),
        _ => {}
    }
    words
}

/// A number in decimal, now and then with zeros before it; instead of 255 any above it.
fn decimal(lot: &mut Lot, number: u8) -> String {
    let zeros = "0".repeat(if lot.one_in(8) { lot.below(30) as usize } else { 0 });
    let larger = ["255", "256", "260", "999", "65536", "4294967297", "18446744073709551617"];
    let number = if number == 255 { lot.pick(&larger).to_string() } else { number.to_string() };
    zeros + &number
}

/// What the program must print, and the checker's answer if it comes to that.
fn wanted(words: &[String]) -> (Printed, Option<Result<Marks, Cause>>) {
    let said = |said: String| (Printed { stdout: vec![], stderr: said }, None);
    let Some(asked) = Asked::new(words) else { return said(format!("audit: {WANTED}\n")) };
    match asked.checked() {
        Ok(answer) => (Printed::whole(line(answer).into_bytes()), Some(answer)),
        Err(unread) => said(format!("{}: {}\n", unread.file, system_words(&unread.error))),
    }
}

/// An error in the system's words, without its number.
fn system_words(error: &io::Error) -> String {
    let words = error.to_string();
    words.split(" (os error ").next().unwrap_or_default().to_string()
}

/// What the program gives when it is started with these words.
fn started(program: &Path, words: &[String]) -> io::Result<Output> {
    Command::new(program).args(words).stdin(Stdio::null()).output()
}

#[cfg(test)]
mod tests {
    use super::*;

    fn wanted_of(words: &[&str]) -> (Vec<u8>, String) {
        let words: Vec<String> = words.iter().map(|word| word.to_string()).collect();
        let (Printed { stdout, stderr }, _) = wanted(&words);
        (stdout, stderr)
    }

    #[test]
    fn what_is_wanted() {
        let folder = Folder::new().unwrap();
        let logged = Logged { numbers: (1, 0, 0), sender: 1, log: vec![1; 6], outcomes: vec![1, 2, 0, 0] };
        let [log, outcomes] = folder.written(&logged).unwrap();
        let said = |text: &str| (vec![], text.to_string());
        let printed = |text: &str| (text.as_bytes().to_vec(), String::new());
        assert_eq!(wanted_of(&["1", "0", "0", "1", &log, &outcomes]), printed("broke\n"));
        assert_eq!(wanted_of(&["1", "0", "0", "1", &log, &log]), printed("refused 8\n"));
        assert_eq!(wanted_of(&["256", "0", "0", "1", &log, &outcomes]), printed("refused 2\n"));
        let words =
            "audit: wanted are n, t, T and the sender in decimal, the log's file and the outcomes' file\n";
        assert_eq!(wanted_of(&["1", "0", "0", "1", &log]), said(words));
        assert_eq!(wanted_of(&["1", "0", "0", "", &log, &outcomes]), said(words));
        let none = |file: &str| said(&format!("{file}: No such file or directory\n"));
        assert_eq!(wanted_of(&["1", "0", "0", "1", "no log", "none"]), none("no log"));
        assert_eq!(wanted_of(&["1", "0", "0", "1", &log, "none"]), none("none"));
        let here = said(".: Is a directory\n");
        assert_eq!(wanted_of(&["1", "0", "0", "1", ".", "none"]), here);
    }

    /// A program that prints its words differs on every input.
    #[test]
    fn a_wrong_program() {
        let call = audit(Path::new("/bin/echo")).unwrap();
        for seed in 0..40 {
            let told = (call.give)(&mut Lot(seed), &[4, 1, 1, 1]).compared.difference.unwrap();
            assert!(["\n  words [", "\n  n 4\n", "\n  log, "].iter().all(|part| told.contains(part)));
        }
        let none = audit(Path::new("none")).err().unwrap();
        assert_eq!(none, "none isn't there: ./build audit makes it");
    }

    /// Every kind of words comes, and the files are gone with the folder.
    #[test]
    fn words_by_lot() {
        let folder = Folder::new().unwrap();
        let logged = Logged { numbers: (4, 1, 255), sender: 1, log: vec![], outcomes: vec![] };
        let drawn = |seed| words(&mut Lot(seed), &logged, folder.written(&logged).unwrap(), &folder);
        let drawn: Vec<Vec<String>> = (0..200).map(drawn).collect();
        assert!([5, 6, 7].iter().all(|len| drawn.iter().any(|words| words.len() == *len)));
        let said: Vec<String> = drawn.iter().map(|words| wanted(words).0.stderr).collect();
        for end in
            ["outcomes' file\n", "No such file or directory\n", "Is a directory\n", "Not a directory\n"]
        {
            assert!(said.iter().any(|said| said.ends_with(end)), "{end}");
        }
        assert!(said.iter().any(String::is_empty));
        let kept = folder.0.clone();
        drop(folder);
        assert!(!kept.exists());
    }
}
