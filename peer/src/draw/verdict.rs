//! What came out of a run, in a planner's words.

use std::cmp::Reverse;

use super::is_number;
use super::words::{begun, count};
use crate::line::Line;
use crate::listing::Run;
use crate::outcome::{outcomes, Outcome};
use crate::text::list_text;

/// What the sentences about a run are made of.
pub struct Verdict {
    line: Line,
    /// Whether it is about a number or a bit of it: one bit alone keeps the old recipe or changes over.
    number: bool,
    sender: u8,
    /// What the sender sent; none where it is bad, since then it may have told each station another thing.
    sent: Option<u8>,
    bad: Vec<u8>,
    /// The values that good stations decide, and how many do.
    decided: Vec<(u8, usize)>,
    /// How many good stations flag.
    flags: usize,
    /// The good stations that count garbled rounds, and how many.
    garbled: Vec<(u8, u8)>,
}

/// No more different numbers are told; of more than these the first ones are.
const TOLD: usize = 4;

/// Stations in a sentence.
fn listed(stations: &[u8]) -> String {
    list_text(stations).replace(' ', ", ")
}

/// Each value with how often it stands there: of numbers the most frequent first, of bits 1.
fn frequencies(mut values: Vec<u8>, number: bool) -> Vec<(u8, usize)> {
    values.sort_by_key(|&value| Reverse(value));
    let mut all: Vec<(u8, usize)> =
        values.chunk_by(|a, b| a == b).map(|same| (same[0], same.len())).collect();
    if number {
        all.sort_by_key(|&(value, stations)| (Reverse(stations), value));
    }
    all
}

impl Verdict {
    pub fn of(run: &Run) -> Verdict {
        Verdict::in_words(run, is_number(run.header.width().expect("an accepted run")))
    }

    /// Of one bit of a number, by its own run.
    pub fn of_bit(run: &Run) -> Verdict {
        Verdict::in_words(run, true)
    }

    /// In the words of a number or of one bit alone.
    fn in_words(run: &Run, number: bool) -> Verdict {
        let (line, header) = (run.line, &run.header);
        let is_bad = |&station: &u8| header.marks.bad(station);
        let all = line.stations().zip(outcomes(&run.outcomes));
        let good: Vec<(u8, Outcome)> = all.filter(|(_, outcome)| !outcome.is_bad()).collect();
        let counts = good.iter().map(|(station, outcome)| (*station, outcome.count));
        let decided = frequencies(good.iter().map(|(_, outcome)| outcome.value).collect(), number);
        Verdict {
            line,
            number,
            sender: header.sender,
            sent: Some(header.value).filter(|_| !is_bad(&header.sender)),
            bad: line.stations().filter(is_bad).collect(),
            decided,
            flags: good.iter().filter(|(_, outcome)| outcome.flag == 1).count(),
            garbled: counts.filter(|(_, count)| *count > 0).collect(),
        }
    }

    fn good(&self) -> usize {
        self.decided.iter().map(|(_, stations)| stations).sum()
    }

    /// What the good stations decide, who of them flags, and what a flag proves.
    pub fn outcome(&self) -> String {
        match (&self.decided[..], self.line.n()) {
            ([], 1) => "The one station is bad: there is no outcome.".to_string(),
            ([], n) => format!("All {} stations are bad: there is no outcome.", count(n)),
            (&[(value, good)], _) => {
                format!("{} {}{}.", self.all_good(), self.does(value, good), self.flagging())
            }
            _ => format!(
                "The {} good stations differ{}. {}.",
                count(self.good()),
                self.flagging(),
                begun(&self.split())
            ),
        }
    }

    /// What stations with this value do.
    fn does(&self, value: u8, stations: usize) -> String {
        let one = stations == 1;
        match (self.number, value) {
            (true, _) => format!("{} {value}", if one { "decides" } else { "decide" }),
            (false, 0) => format!("{} the old recipe", if one { "keeps" } else { "keep" }),
            (false, _) => format!("{} over", if one { "changes" } else { "change" }),
        }
    }

    /// How many good stations decide each value.
    fn split(&self) -> String {
        let told = if self.decided.len() > TOLD { TOLD - 1 } else { TOLD };
        let (first, others) = self.decided.split_at(told.min(self.decided.len()));
        let does =
            |&(value, stations): &(u8, usize)| format!("{} {}", count(stations), self.does(value, stations));
        let told = first.iter().map(does).collect::<Vec<_>>().join(", ");
        match others.iter().map(|(_, stations)| stations).sum() {
            0 => told,
            others => format!("{told}, and {} decide other numbers", count(others)),
        }
    }

    /// What the sender sent in one bit of a number, and what came out of it.
    pub fn bit(&self) -> String {
        let sent =
            self.sent.map_or("The sender is bad.".to_string(), |bit| format!("The sender sent {bit}."));
        format!("{sent} {}", self.outcome())
    }

    fn all_good(&self) -> String {
        match self.good() {
            1 => "The one good station".to_string(),
            2 => "Both good stations".to_string(),
            good => format!("All {} good stations", count(good)),
        }
    }

    /// Who flags. A good station's flag proves that more than t are bad.
    fn flagging(&self) -> String {
        let who = match (self.flags, self.good()) {
            (0, 1) => return " and does not flag".to_string(),
            (0, 2) => return ", and neither flags".to_string(),
            (0, _) => return ", and none flags".to_string(),
            (1, 1) => " and flags".to_string(),
            (2, 2) => ", and both flag".to_string(),
            (flags, good) if flags == good => ", and every one flags".to_string(),
            (1, _) => ", and one of them flags".to_string(),
            (flags, _) => format!(", and {} of them flag", count(flags)),
        };
        format!("{who}: more than t = {} are bad", self.line.t())
    }

    /// Whether the sender is good, and only then what it sent.
    pub fn sender(&self) -> String {
        let sender = self.sender;
        match (self.sent, self.number) {
            (Some(number), true) => format!("The sender, station {sender}, is good and sent {number}."),
            (Some(0), _) => format!("The sender, station {sender}, is good and sent 0: keep the old recipe."),
            (Some(_), _) => format!("The sender, station {sender}, is good and sent 1: change over."),
            (None, number) => {
                let bits = if number { " of each bit" } else { "" };
                format!(
                    "The sender, station {sender}, is bad: what it told each station is in round 1{bits}."
                )
            }
        }
    }

    /// Who is bad, and what is promised of a line with so many bad stations.
    pub fn promise(&self) -> String {
        let (t, upper, f) = (self.line.t(), self.line.upper(), self.bad.len());
        let (over_t, over_upper) = (f > usize::from(t), f > usize::from(upper));
        let so_many = match (over_t, over_upper) {
            _ if f == 0 => String::new(),
            (false, _) => format!(", no more than t = {t}"),
            (true, false) => format!(", more than t = {t} but no more than T = {upper}"),
            (_, true) => format!(", more than T = {upper}"),
        };
        let promised = match (over_t, over_upper, self.sent.is_some()) {
            (false, _, true) => "every good one decides what the sender sent, and none flags",
            (false, _, false) => "the good ones decide alike, and none flags",
            (true, false, true) => "every good one decides what the sender sent, but may flag",
            (true, false, false) => "the good ones may differ, but then every one of them flags",
            (_, true, _) => "no agreement is promised of such a run",
        };
        format!("{}{so_many}: {promised}.", self.who_is_bad())
    }

    /// Who counts garbled rounds, and how many. A number's count is that of the bit that has most.
    pub fn garbled(&self) -> String {
        let most = count(self.garbled.iter().map(|(_, rounds)| *rounds).max().unwrap_or(0).into());
        let stations: Vec<u8> = self.garbled.iter().map(|(station, _)| *station).collect();
        let of_bit = if self.number { " in one bit" } else { "" };
        match (&stations[..], self.number, &most[..]) {
            ([], ..) => "No good station counts a garbled round.".to_string(),
            ([station], true, _) => {
                format!("Station {station} counts garbled rounds, {most} at most in one bit.")
            }
            ([station], false, "one") => format!("Station {station} counts one garbled round."),
            ([station], false, _) => format!("Station {station} counts {most} garbled rounds."),
            _ => format!("Stations {} count garbled rounds, {most} at most{of_bit}.", listed(&stations)),
        }
    }

    fn who_is_bad(&self) -> String {
        match (&self.bad[..], self.line.n()) {
            ([], _) => "No station is bad (f = 0)".to_string(),
            ([one], _) => format!("Station {one} is bad (f = 1)"),
            (all, n) if all.len() == n => format!("Every station is bad (f = {n})"),
            (some, _) => {
                format!("Stations {} are bad (f = {})", listed(some), some.len())
            }
        }
    }
}

#[cfg(test)]
mod tests {
    use super::*;

    /// A line of 9 stations, t 1 and T 3, of which so many decide 0 and 1 and flag; the rest are bad.
    fn of_nine(zeros: usize, ones: usize, flags: usize) -> Verdict {
        of_numbers(&[&[1].repeat(ones)[..], &[0].repeat(zeros)].concat(), flags, false)
    }

    /// The same of good stations that decide these values, bits or numbers.
    fn of_numbers(values: &[u8], flags: usize, number: bool) -> Verdict {
        let bad = (1..=9 - values.len() as u8).collect();
        let line = Line::new(9, 1, 3).unwrap();
        let decided = frequencies(values.to_vec(), number);
        Verdict { line, number, sender: 9, sent: Some(1), bad, decided, flags, garbled: vec![] }
    }

    #[test]
    fn all_decide_alike() {
        let said = |zeros, ones, flags| of_nine(zeros, ones, flags).outcome();
        assert_eq!(said(0, 8, 0), "All eight good stations change over, and none flags.");
        let more = "more than t = 1 are bad.";
        assert_eq!(
            said(7, 0, 1),
            format!("All seven good stations keep the old recipe, and one of them flags: {more}")
        );
        assert_eq!(
            said(0, 7, 3),
            format!("All seven good stations change over, and three of them flag: {more}")
        );
        assert_eq!(
            said(6, 0, 6),
            format!("All six good stations keep the old recipe, and every one flags: {more}")
        );
    }

    #[test]
    fn they_differ() {
        let said = |zeros, ones, flags| of_nine(zeros, ones, flags).outcome();
        assert_eq!(
            said(1, 5, 6),
            "The six good stations differ, and every one flags: more than t = 1 are bad. Five change over, one \
             keeps the old recipe."
        );
        assert_eq!(
            said(4, 1, 0),
            "The five good stations differ, and none flags. One changes over, four keep the old recipe."
        );
        assert_eq!(
            said(1, 1, 2),
            "The two good stations differ, and both flag: more than t = 1 are bad. One changes over, one keeps \
             the old recipe."
        );
    }

    /// Of a number the most frequent comes first; of more than four different ones three are told.
    #[test]
    fn numbers_are_decided() {
        let said = |values: &[u8], flags| of_numbers(values, flags, true).outcome();
        assert_eq!(said(&[255; 8], 0), "All eight good stations decide 255, and none flags.");
        assert_eq!(said(&[0], 1), "The one good station decides 0 and flags: more than t = 1 are bad.");
        let differ = "good stations differ, and every one flags: more than t = 1 are bad.";
        assert_eq!(
            said(&[7, 1, 1, 255, 7, 1], 6),
            format!("The six {differ} Three decide 1, two decide 7, one decides 255.")
        );
        assert_eq!(
            said(&[9, 3, 3, 1], 4),
            format!("The four {differ} Two decide 3, one decides 1, one decides 9.")
        );
        assert_eq!(
            said(&[4, 3, 2, 1], 4),
            format!("The four {differ} One decides 1, one decides 2, one decides 3, one decides 4.")
        );
        assert_eq!(
            said(&[4, 3, 2, 1, 5, 5], 6),
            format!(
                "The six {differ} Two decide 5, one decides 1, one decides 2, and two decide other numbers."
            )
        );
    }

    #[test]
    fn one_bit_of_a_number() {
        let bit = |sent| Verdict { sent, ..of_numbers(&[1, 1, 1], 0, true) }.bit();
        assert_eq!(bit(Some(0)), "The sender sent 0. All three good stations decide 1, and none flags.");
        assert_eq!(bit(None), "The sender is bad. All three good stations decide 1, and none flags.");
    }

    #[test]
    fn two_one_or_no_good_station() {
        let said = |zeros, ones, flags| of_nine(zeros, ones, flags).outcome();
        let more = "more than t = 1 are bad.";
        assert_eq!(said(2, 0, 0), "Both good stations keep the old recipe, and neither flags.");
        assert_eq!(said(0, 2, 1), format!("Both good stations change over, and one of them flags: {more}"));
        assert_eq!(said(0, 2, 2), format!("Both good stations change over, and both flag: {more}"));
        assert_eq!(said(0, 1, 0), "The one good station changes over and does not flag.");
        assert_eq!(said(1, 0, 1), format!("The one good station keeps the old recipe and flags: {more}"));
        assert_eq!(said(0, 0, 0), "All nine stations are bad: there is no outcome.");
        let alone = Verdict { line: Line::new(1, 0, 0).unwrap(), ..of_nine(0, 0, 0) };
        assert_eq!(alone.outcome(), "The one station is bad: there is no outcome.");
    }

    #[test]
    fn what_the_sender_sent() {
        let said = |sent| Verdict { sent, ..of_nine(0, 8, 0) }.sender();
        assert_eq!(said(Some(0)), "The sender, station 9, is good and sent 0: keep the old recipe.");
        assert_eq!(said(Some(1)), "The sender, station 9, is good and sent 1: change over.");
        assert_eq!(said(None), "The sender, station 9, is bad: what it told each station is in round 1.");
        let of_number = |sent| Verdict { sent, ..of_numbers(&[1], 0, true) }.sender();
        assert_eq!(of_number(Some(0)), "The sender, station 9, is good and sent 0.");
        assert_eq!(of_number(Some(201)), "The sender, station 9, is good and sent 201.");
        assert_eq!(
            of_number(None),
            "The sender, station 9, is bad: what it told each station is in round 1 of each bit."
        );
    }

    #[test]
    fn who_counts_garbled_rounds() {
        let said = |garbled: &[(u8, u8)]| Verdict { garbled: garbled.to_vec(), ..of_nine(0, 8, 0) }.garbled();
        assert_eq!(said(&[]), "No good station counts a garbled round.");
        assert_eq!(said(&[(4, 1)]), "Station 4 counts one garbled round.");
        assert_eq!(said(&[(4, 9)]), "Station 4 counts nine garbled rounds.");
        assert_eq!(said(&[(2, 1), (3, 1)]), "Stations 2, 3 count garbled rounds, one at most.");
        assert_eq!(
            said(&[(2, 1), (3, 13), (4, 2), (9, 2)]),
            "Stations 2-4, 9 count garbled rounds, 13 at most."
        );
        let of_number = |garbled: &[(u8, u8)]| {
            Verdict { garbled: garbled.to_vec(), ..of_numbers(&[1], 0, true) }.garbled()
        };
        assert_eq!(of_number(&[]), "No good station counts a garbled round.");
        assert_eq!(of_number(&[(4, 1)]), "Station 4 counts garbled rounds, one at most in one bit.");
        assert_eq!(
            of_number(&[(2, 3), (3, 1)]),
            "Stations 2, 3 count garbled rounds, three at most in one bit."
        );
    }

    #[test]
    fn what_is_promised() {
        let said = |good, sent| Verdict { sent, ..of_nine(0, good, 0) }.promise();
        let all_as_sent = "every good one decides what the sender sent";
        assert_eq!(said(9, Some(1)), format!("No station is bad (f = 0): {all_as_sent}, and none flags."));
        let one = "Station 1 is bad (f = 1), no more than t = 1";
        assert_eq!(said(8, Some(1)), format!("{one}: {all_as_sent}, and none flags."));
        assert_eq!(said(8, None), format!("{one}: the good ones decide alike, and none flags."));
        let three = "Stations 1-3 are bad (f = 3), more than t = 1 but no more than T = 3";
        assert_eq!(said(6, Some(1)), format!("{three}: {all_as_sent}, but may flag."));
        assert_eq!(
            said(6, None),
            format!("{three}: the good ones may differ, but then every one of them flags.")
        );
        let more = "more than T = 3: no agreement is promised of such a run.";
        assert_eq!(said(5, Some(1)), format!("Stations 1-4 are bad (f = 4), {more}"));
        assert_eq!(said(5, None), said(5, Some(0)));
        assert_eq!(said(0, None), format!("Every station is bad (f = 9), {more}"));
        let some = Verdict { bad: vec![1, 4, 6, 7, 8], ..of_nine(4, 0, 0) };
        assert_eq!(some.promise(), format!("Stations 1, 4, 6-8 are bad (f = 5), {more}"));
    }
}
