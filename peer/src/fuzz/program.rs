//! The programs `agree`, `rewrite` and `seeds`: a sheet on standard input; its listing, its normal form or the listings of its
//! header with seeds on standard output.

use std::io::Write;
use std::path::{Path, PathBuf};
use std::process::{Command, Output, Stdio};

use super::calls::{sheet, written, Call, Tried};
use super::features::features;
use super::pool::Shape;
use crate::compare::input::Told;
use crate::compare::report::Compared;
use crate::line::Cause;
use crate::listing::{listing, listings};
use crate::lot::Lot;
use crate::sheet::{records, write, RECORDS};
use crate::writer::rewritten;

/// The numbers that the programs can tell: the reader's without a lent table.
const NUMBERS: [u8; 13] = [0, 1, 2, 3, 4, 5, 6, 9, 10, 11, 12, 13, 15];

/// The sheet that an input is to a program.
type Drawn = fn(&mut Lot, &[u8]) -> Vec<u8>;
/// What a program must print of a sheet.
type Wanted = fn(&[u8]) -> Vec<u8>;

/// One in 4 inputs is a line and a table, whose sheet has more ballots than most that are mutated and still accepted.
pub fn agree(program: &Path) -> Result<Call, String> {
    let drawn =
        |lot: &mut Lot, input: &[u8]| if lot.one_in(4) { written(lot, input) } else { sheet(lot, input) };
    call("agree", program, 48, drawn, |sheet| listing(sheet).into_bytes())
}

pub fn rewrite(program: &Path) -> Result<Call, String> {
    call("rewrite", program, 64, sheet, rewritten)
}

/// It makes a hundred listings of an input, so it is given the fewest. Half of the chains have a repeated record, which would
/// hardly come among so few.
pub fn seeds(program: &Path) -> Result<Call, String> {
    let drawn = |lot: &mut Lot, input: &[u8]| {
        let sheet = sheet(lot, input);
        if lot.one_in(2) {
            repeated(sheet)
        } else {
            sheet
        }
    };
    call("seeds", program, 200, drawn, |sheet| listings(sheet).into_bytes())
}

/// An accepted sheet with the first record of its chain once more; any other as it is.
fn repeated(sheet: Vec<u8>) -> Vec<u8> {
    match records(&sheet) {
        Ok((header, chain)) if (1..RECORDS).contains(&chain.len()) => {
            write(&header, &[&chain[..1], &chain].concat())
        }
        _ => sheet,
    }
}

/// A program's file, if it is there.
pub fn found(name: &str, program: &Path) -> Result<PathBuf, String> {
    let missing = || format!("{} isn't there: ./build {name} makes it", program.display());
    program.is_file().then(|| program.into()).ok_or_else(missing)
}

/// A program as a call. It is a process each time, so few inputs are given to it.
fn call(
    name: &'static str,
    program: &Path,
    one_in: u64,
    drawn: Drawn,
    wanted: Wanted,
) -> Result<Call, String> {
    let program = found(name, program)?;
    let give = move |lot: &mut Lot, input: &[u8]| compare(&program, &drawn(lot, input), wanted);
    Ok(Call::new(name, Shape::Sheet, one_in, &NUMBERS, give))
}

fn compare(program: &Path, sheet: &[u8], wanted: Wanted) -> Tried {
    let number = records(sheet).map_or_else(Cause::number, |_| 0);
    let wanted = Printed::whole(wanted(sheet));
    let fault = match started(program, sheet) {
        Ok(output) => fault(&output, &wanted),
        Err(error) => Some(format!("the program can't be run: {error}")),
    };
    let told = |what: String| Told::new(&what).bytes("sheet", sheet).text();
    let sum = wanted.stdout.iter().fold(0u8, |sum, byte| sum.rotate_left(3) ^ byte);
    Tried { compared: Compared { number, difference: fault.map(told) }, features: features(&[sum % 16]) }
}

/// What the program gives when it is fed a sheet.
fn started(program: &Path, sheet: &[u8]) -> std::io::Result<Output> {
    let mut command = Command::new(program);
    command.stdin(Stdio::piped()).stdout(Stdio::piped()).stderr(Stdio::piped());
    let mut child = command.spawn()?;
    // a program that has read enough may close its end
    let _ = child.stdin.take().expect("a pipe").write_all(sheet);
    child.wait_with_output()
}

/// What a program prints, with the exit status 0.
pub struct Printed {
    pub stdout: Vec<u8>,
    pub stderr: String,
}

impl Printed {
    /// On standard output alone.
    pub fn whole(stdout: Vec<u8>) -> Printed {
        Printed { stdout, stderr: String::new() }
    }
}

/// What is wrong with what the program gives, if anything is.
pub fn fault(output: &Output, wanted: &Printed) -> Option<String> {
    let Output { status, stdout, stderr } = output;
    if !status.success() || stderr != wanted.stderr.as_bytes() {
        let said = String::from_utf8_lossy(stderr);
        return Some(format!("{status}, on standard error {said:?}"));
    }
    let [wanted_text, printed] = [&wanted.stdout, stdout].map(|bytes| bytes.escape_ascii());
    (*stdout != wanted.stdout).then(|| format!("peer prints \"{wanted_text}\", the program \"{printed}\""))
}

#[cfg(test)]
mod tests {
    use super::*;
    use std::os::unix::process::ExitStatusExt;
    use std::process::ExitStatus;

    fn output(status: i32, stdout: &str, stderr: &str) -> Output {
        Output { status: ExitStatus::from_raw(status), stdout: stdout.into(), stderr: stderr.into() }
    }

    #[test]
    fn what_is_found_in_an_output() {
        let wanted = &Printed::whole(b"refused 1\n".to_vec());
        assert_eq!(fault(&output(0, "refused 1\n", ""), wanted), None);
        let other = fault(&output(0, "refused 1", ""), wanted).unwrap();
        assert_eq!(other, r#"peer prints "refused 1\n", the program "refused 1""#);
        assert!(fault(&output(0, "refused 1\n", "x"), wanted).is_some());
        assert!(fault(&output(256, "refused 1\n", ""), wanted).is_some());
        assert!(fault(&output(11, "refused 1\n", ""), wanted).is_some());
        let said = &Printed { stdout: vec![], stderr: "why\n".to_string() };
        assert_eq!(fault(&output(0, "", "why\n"), said), None);
        assert_eq!(fault(&output(0, "", "why"), said).unwrap(), r#"exit status: 0, on standard error "why""#);
        assert!(fault(&output(0, "x", "why\n"), said).is_some());
        let other = fault(&output(0, "\x04\x01", ""), &Printed::whole(vec![4, 255])).unwrap();
        assert_eq!(other, r#"peer prints "\x04\xff", the program "\x04\x01""#);
    }

    /// Case B has a chain, case A none.
    #[test]
    fn a_record_once_more() {
        let [a, b] =
            [&include_bytes!("../../../examples/a.sheet")[..], include_bytes!("../../../examples/b.sheet")];
        assert!(repeated(a.to_vec()) == a && repeated(b[1..].to_vec()) == b[1..]);
        assert_eq!(records(&repeated(b.to_vec())), Err(Cause::Repeated));
    }

    #[test]
    fn a_program_that_is_not_there() {
        let none = Path::new("none");
        for (call, name) in [(agree(none), "agree"), (rewrite(none), "rewrite"), (seeds(none), "seeds")] {
            assert_eq!(call.err().unwrap(), format!("none isn't there: ./build {name} makes it"));
        }
        let tried = compare(Path::new("./none"), &[], rewritten);
        assert!(tried.compared.difference.unwrap().starts_with("the program can't be run: "));
    }
}
