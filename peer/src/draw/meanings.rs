//! The thresholds and letters of a run, in a planner's words: document 01, "The graded exchange" and "The
//! broadcast", with requests 2, 4, 5 and 6 of document 02.

use super::is_number;
use crate::line::Line;
use crate::number::Width;

/// A term and what it means on this line.
pub type Meaning = (String, String);

/// The thresholds, of a number with its bits before them, what a station holds during an exchange, and the other words.
pub fn meanings(line: &Line, width: Width) -> [Vec<Meaning>; 3] {
    let number = if is_number(width) { bits(width) } else { vec![] };
    [[number, thresholds(line)].concat(), letters(line), words(line)]
}

fn entry(term: impl Into<String>, meaning: impl Into<String>) -> Meaning {
    (term.into(), meaning.into())
}

/// How a number and what comes out of it are made of bits.
fn bits(width: Width) -> Vec<Meaning> {
    vec![
        entry(
            format!("w = {}", width.count()),
            "so many bits has the number, each agreed on alone, bit 0 first; a 1 in bit b is worth 2 to the power b",
        ),
        entry("number", "its grade is its bits' smallest, its count their largest; its flag is raised if a bit's is"),
    ]
}

/// Where n−T and n−t are the same, grade 1 does not occur.
fn thresholds(line: &Line) -> Vec<Meaning> {
    let (t, upper, quorum, full) = (line.t(), line.upper(), line.quorum(), line.full_quorum());
    let (grade_1, no_grade_1) = match t == upper {
        true => ("", "; here n\u{2212}T is the same, so grade 1 does not occur"),
        false => (" and give grade 1", ""),
    };
    vec![
        entry(format!("t = {t}"), "while no more than t are bad, all good stations decide alike and none flags"),
        entry(
            format!("T = {upper}"),
            "while no more than T are bad, they decide what a good sender sent, and if they differ all of them flag",
        ),
        entry(format!("n\u{2212}T = {quorum}"), format!("so many equal ballots keep x as z{grade_1}")),
        entry(format!("n\u{2212}t = {full}"), format!("so many equal ballots give grade 2{no_grade_1}")),
    ]
}

fn letters(line: &Line) -> Vec<Meaning> {
    let (quorum, full) = (line.quorum(), line.full_quorum());
    let z = format!(
        "x, if at least n\u{2212}T = {quorum} of the ballots it got, its own counted, equal x; otherwise blank. \
         It tells all"
    );
    let y = "what most ballots of the second round say: 1 if more ones than zeros, otherwise 0; blanks don't count";
    let grade = format!(
        "how sure it is of y: 2 with n\u{2212}t = {full} or more ballots for y, else 1 with n\u{2212}T = {quorum} or more, \
         else 0"
    );
    vec![
        entry("x", "what a station stands for when it enters an exchange, 0 or 1. It tells all"),
        entry("z", z),
        entry("y", y),
        entry("grade", grade),
    ]
}

fn words(line: &Line) -> Vec<Meaning> {
    let (t, kings) = (line.t(), line.t() + 1);
    let phases = if kings == 1 { "phase" } else { "phases" };
    let king =
        "one station a phase: with grade 0 a station takes the king's 0 or 1 as its new x, otherwise its own y";
    let flag = format!(
        "raised if the last grade is below 2; a good station's flag proves that more than t = {t} are bad"
    );
    let ballot =
        "the byte that one tells another; if not 0 or 1 it counts for neither, but in round 1 it is read as 0";
    let garbled =
        "a ballot that says nothing in its round, silence apart; a station counts the rounds with one from \
                   those who should speak";
    vec![
        entry("king", king),
        entry(
            "phase",
            format!(
                "an exchange, in which all tell x and then z, and the king's round; {kings} {phases}, then the last \
                 exchange"
            ),
        ),
        entry("flag", flag),
        entry("ballot", ballot),
        entry("garbled", garbled),
    ]
}

#[cfg(test)]
mod tests {
    use super::*;

    const ONE: u8 = 1;

    fn meaning(line: &Line, term: &str) -> String {
        let all = meanings(line, Width::new(ONE).unwrap()).concat();
        let (_, meaning) = all.iter().find(|(name, _)| name == term).unwrap_or_else(|| panic!("{term}"));
        meaning.clone()
    }

    #[test]
    fn thresholds_of_a_line() {
        let line = Line::new(9, 1, 3).unwrap();
        assert!(meaning(&line, "n\u{2212}T = 6").contains("grade 1"));
        assert!(meaning(&line, "n\u{2212}t = 8").ends_with("grade 2"));
        assert!(meaning(&line, "z").contains("at least n\u{2212}T = 6 "));
        let grade = meaning(&line, "grade");
        assert!(grade.contains("2 with n\u{2212}t = 8 ") && grade.contains("1 with n\u{2212}T = 6 "));
        assert!(meaning(&line, "flag").contains("more than t = 1 are"));
        assert!(meaning(&line, "phase").contains("2 phases"));
        ["t = 1", "T = 3", "x", "y", "king", "ballot", "garbled"]
            .iter()
            .for_each(|term| drop(meaning(&line, term)));
    }

    /// Grade 1 is said to occur exactly where some count gives it.
    #[test]
    fn whether_grade_1_occurs() {
        for (n, t, upper) in [(1, 0, 0), (3, 0, 1), (4, 1, 1), (9, 1, 3), (32, 10, 10), (32, 0, 15)] {
            let line = Line::new(n, t, upper).unwrap();
            let occurs = (0..=n).any(|count| count >= line.quorum() && count < line.full_quorum());
            let words = meanings(&line, Width::new(ONE).unwrap())[0]
                .iter()
                .map(|(_, words)| words.clone())
                .collect::<String>();
            assert_eq!(words.contains("give grade 1"), occurs, "{words}");
            assert_eq!(words.contains("grade 1 does not occur"), !occurs, "{words}");
        }
    }
    /// Of a number it is said how it is made of its bits; of one bit alone nothing is.
    #[test]
    fn bits_of_a_number() {
        let line = Line::new(9, 1, 3).unwrap();
        let terms = |w| meanings(&line, Width::new(w).unwrap()).concat().into_iter().map(|(term, _)| term);
        let more = |w| terms(w).filter(|term| !terms(ONE).any(|other| other == *term)).collect::<Vec<_>>();
        assert_eq!([0, 2, 8].map(more), [vec![], vec!["w = 2", "number"], vec!["w = 8", "number"]]);
    }
}
