//! The sentences above the rounds, taken apart and held against the run.

use peer::line::Header;
use peer::listing::Run;
use peer::outcome::{outcome, Outcome};

/// A count as the sentences write it.
fn count(word: &str) -> usize {
    const WORDS: [&str; 12] =
        ["one", "two", "three", "four", "five", "six", "seven", "eight", "nine", "ten", "eleven", "twelve"];
    let word = word.to_lowercase();
    match WORDS.iter().position(|name| *name == word) {
        Some(place) => place + 1,
        None => word.parse().ok().filter(|number| *number > 12).unwrap_or_else(|| panic!("`{word}`")),
    }
}

/// Stations as the sentences list them.
fn listed(words: &str) -> Vec<u8> {
    let range = |range: &str| {
        let (low, high) = range.split_once('-').unwrap_or((range, range));
        low.parse::<u8>().unwrap()..=high.parse().unwrap()
    };
    words.split(", ").flat_map(range).collect()
}

/// What is true of a run, for the sentences to be held against.
pub struct Truth<'a> {
    header: &'a Header,
    /// Whether the words are those of a number, or of a bit of it.
    number: bool,
    f: usize,
    values: Vec<u8>,
    flags: usize,
    /// The good stations that count garbled rounds, and how many.
    garbled: Vec<(u8, usize)>,
}

impl Truth<'_> {
    pub fn of(run: &Run) -> Truth<'_> {
        let good = |station: &u8| !run.header.marks.bad(*station);
        let outcome = |station: u8| (station, outcome(&run.outcomes, station));
        let good: Vec<(u8, Outcome)> = run.line.stations().filter(good).map(outcome).collect();
        let counts = good.iter().map(|(station, outcome)| (*station, usize::from(outcome.count)));
        Truth {
            header: &run.header,
            number: run.header.w > 1,
            f: run.header.marks.count() as usize,
            values: good.iter().map(|(_, outcome)| outcome.value).collect(),
            flags: good.iter().filter(|(_, outcome)| outcome.flag == 1).count(),
            garbled: counts.filter(|(_, count)| *count > 0).collect(),
        }
    }

    /// Of one bit of a number.
    pub fn of_bit(run: &Run) -> Truth<'_> {
        Truth { number: true, ..Truth::of(run) }
    }

    fn good(&self) -> usize {
        self.values.len()
    }

    fn deciding(&self, value: u8) -> usize {
        self.values.iter().filter(|decided| **decided == value).count()
    }

    fn differ(&self) -> bool {
        self.values.iter().any(|value| *value != self.values[0])
    }

    /// Takes what so many stations are said to do off the words, and gives the value.
    fn does<'w>(&self, words: &'w str, stations: usize) -> (u8, &'w str) {
        if self.number {
            let number = words.strip_prefix(if stations == 1 { "decides " } else { "decide " }).unwrap();
            let end = number.find(|letter: char| !letter.is_ascii_digit()).unwrap_or(number.len());
            return (number[..end].parse().unwrap(), &number[end..]);
        }
        let forms = match stations {
            1 => [(0, "keeps the old recipe"), (1, "changes over")],
            _ => [(0, "keep the old recipe"), (1, "change over")],
        };
        let found = forms.iter().find_map(|(value, form)| Some((*value, words.strip_prefix(form)?)));
        found.unwrap_or_else(|| panic!("`{words}`"))
    }

    /// Who is said to flag, and what it is said to prove. Gives the kind of claim.
    fn check_flags(&self, words: &str) -> &'static str {
        let (who, proof) = words.split_once(": ").unwrap_or((words, ""));
        let (flags, kind) = match who.trim_start_matches(',').trim_start_matches(" and ") {
            "none flags" | "neither flags" | "does not flag" => (0, "no flag"),
            "every one flags" | "both flag" | "flags" => (self.good(), "every flag"),
            some => (count(some.split(" of them flag").next().unwrap()), "some flags"),
        };
        assert_eq!((flags, flags == self.good()), (self.flags, kind == "every flag"), "`{words}`");
        let proved = format!("more than t = {} are bad", self.header.t);
        assert_eq!(proof, if flags == 0 { "" } else { &proved });
        assert!(flags == 0 || self.f > usize::from(self.header.t), "`{words}`");
        kind
    }

    /// The sentence about the outcome. Gives the kinds of claims that it makes.
    pub fn check_outcome(&self, said: &str) -> (&'static str, &'static str) {
        let n = usize::from(self.header.n);
        let said = said.strip_suffix('.').unwrap();
        if let Some(who) = said.strip_suffix(" bad: there is no outcome") {
            assert!(self.good() == 0);
            match who.strip_prefix("All ").and_then(|who| who.strip_suffix(" stations are")) {
                Some(all) => assert_eq!((count(all), n > 1), (n, true)),
                None => assert_eq!((who, n), ("The one station is", 1)),
            }
            return ("none good", "");
        }
        if let Some((who, what)) = said.split_once(" good stations differ") {
            let (flags, counts) = what.split_once(". ").unwrap();
            assert_eq!(count(who.strip_prefix("The ").unwrap()), self.good());
            self.check_split(counts);
            assert!(self.differ());
            return ("differ", self.check_flags(flags));
        }
        let (who, what) = said.split_once(" good station").unwrap();
        let stations = match who {
            "The one" => 1,
            "Both" => 2,
            all => count(all.strip_prefix("All ").unwrap()),
        };
        assert_eq!(stations, self.good());
        let (value, flags) = self.does(what.trim_start_matches('s').trim_start(), stations);
        assert_eq!(self.deciding(value), self.good());
        let kinds =
            if self.number { "all decide" } else { ["all keep", "all change over"][usize::from(value)] };
        (kinds, self.check_flags(flags))
    }

    /// How many good stations are said to decide each value: of one bit 1 and then 0, of a number the most frequent first, then
    /// the smallest; where the last are other numbers, there are too many to be told.
    fn check_split(&self, words: &str) {
        let (told, others) = match words.strip_suffix(" decide other numbers") {
            Some(words) => words.split_once(", and ").map(|(told, others)| (told, count(others))).unwrap(),
            None => (words, 0),
        };
        let mut values = Vec::new();
        for words in told.split(", ") {
            let (many, what) = words.split_once(' ').unwrap();
            let (value, rest) = self.does(what, count(many));
            assert_eq!((self.deciding(value), rest), (count(many), ""));
            values.push(value);
        }
        let many: usize = values.iter().map(|&value| self.deciding(value)).sum();
        assert_eq!(many + others, self.good());
        assert!(if others == 0 { values.len() <= 4 } else { values.len() == 3 });
        let order = |value: &u8| (self.good() - self.deciding(*value), *value);
        match self.number {
            true => assert!(values.windows(2).all(|two| order(&two[0]) < order(&two[1]))),
            false => assert_eq!(values, [1, 0]),
        }
    }

    /// Who is said to be bad.
    fn check_bad(&self, who: &str) {
        let stations: Vec<u8> = (1..=self.header.n).filter(|i| self.header.marks.bad(*i)).collect();
        let (who, f) = who.strip_suffix(')').unwrap().split_once(" (f = ").unwrap();
        assert_eq!(f, self.f.to_string());
        let told = match who {
            "No station is bad" => vec![],
            "Every station is bad" => (1..=self.header.n).collect(),
            some => {
                let some = some.trim_start_matches("Stations ").trim_start_matches("Station ");
                listed(some.trim_end_matches(" are bad").trim_end_matches(" is bad"))
            }
        };
        assert_eq!(told, stations, "`{who}`");
    }

    /// The sentence about garbled rounds. Gives the kind of claim.
    pub fn check_garbled(&self, said: &str) -> &'static str {
        let said = said.strip_suffix('.').unwrap();
        if said == "No good station counts a garbled round" {
            assert_eq!(self.garbled, []);
            return "no garbled round";
        }
        let of_bit = said.strip_suffix(" in one bit");
        assert_eq!(of_bit.is_some(), self.number);
        let said = of_bit.unwrap_or(said);
        if let Some((station, most)) = said.split_once(" counts garbled rounds, ").filter(|_| self.number) {
            let station = station.strip_prefix("Station ").unwrap().parse().unwrap();
            assert_eq!(self.garbled, [(station, count(most.strip_suffix(" at most").unwrap()))]);
            return "garbled rounds at one station";
        }
        if let Some((station, rounds)) = said.split_once(" counts ") {
            let station = station.strip_prefix("Station ").unwrap().parse().unwrap();
            let (rounds, plural) = rounds.split_once(" garbled round").unwrap();
            assert_eq!(
                (&self.garbled[..], count(rounds) > 1),
                (&[(station, count(rounds))][..], plural == "s")
            );
            return "garbled rounds at one station";
        }
        let (stations, most) = said.split_once(" count garbled rounds, ").unwrap();
        let (told, counts): (Vec<u8>, Vec<usize>) = self.garbled.iter().copied().unzip();
        assert_eq!(listed(stations.strip_prefix("Stations ").unwrap()), told);
        assert_eq!(counts.iter().max(), Some(&count(most.strip_suffix(" at most").unwrap())));
        assert!(told.len() > 1);
        "garbled rounds at several"
    }

    /// The sentence about what is promised. Gives the promise, which the outcomes must keep.
    pub fn check_promise<'w>(&self, said: &'w str) -> &'w str {
        let Header { t, upper, sender, value, marks, .. } = *self.header;
        let (who, promised) = said.split_once(": ").unwrap();
        let (who, so_many) =
            who.split_once("), ").map_or((who.to_string(), ""), |(who, so)| (format!("{who})"), so));
        self.check_bad(&who);
        let (over_t, over_upper) = (self.f > usize::from(t), self.f > usize::from(upper));
        let expected = match (over_t, over_upper) {
            _ if self.f == 0 => String::new(),
            (false, _) => format!("no more than t = {t}"),
            (true, false) => format!("more than t = {t} but no more than T = {upper}"),
            (_, true) => format!("more than T = {upper}"),
        };
        assert_eq!(so_many, expected);
        let as_sent = !marks.bad(sender) && self.deciding(value) == self.good();
        let kept = match promised {
            "every good one decides what the sender sent, and none flags" => {
                as_sent && self.flags == 0 && !over_t
            }
            "the good ones decide alike, and none flags" => !self.differ() && self.flags == 0 && !over_t,
            "every good one decides what the sender sent, but may flag" => as_sent && over_t && !over_upper,
            "the good ones may differ, but then every one of them flags" => {
                (!self.differ() || self.flags == self.good()) && over_t && !over_upper
            }
            "no agreement is promised of such a run" => over_upper,
            other => panic!("`{other}`"),
        };
        assert!(kept, "`{said}`");
        promised
    }
}
