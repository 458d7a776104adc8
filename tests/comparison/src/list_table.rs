//! Which lists of the classroom dialect came, which fields, and how often each
//! number was answered.

use std::fmt;

/// Locations that a list can have, never 5, 6 and 11.
const LOCATIONS: [usize; 10] = [1, 2, 3, 4, 7, 8, 9, 10, 12, 13];

/// What can come instead of a list of a field that is reached; 10 never does.
const NO_LIST: [&str; 4] = ["refused 29", "file 5", "file 6", "file 7"];

/// What came of going, by its reports.
#[derive(Default)]
pub struct Lists {
    /// By the place in [`NO_LIST`].
    refused: [usize; NO_LIST.len()],
    others: Vec<String>,
    /// Lists by how many they have, none to five, and how often each location was in one.
    lengths: [usize; 6],
    locations: [usize; 14],
}

impl Lists {
    pub fn count(&mut self, report: &[u8]) {
        let report = std::str::from_utf8(report).expect("ASCII");
        if report.starts_with(|first: char| first.is_ascii_alphabetic()) {
            match NO_LIST.into_iter().position(|other| other == report.trim_end()) {
                Some(place) => self.refused[place] += 1,
                None => self.others.push(report.trim_end().to_string()),
            }
            return;
        }
        self.lengths[report.lines().count()] += 1;
        for line in report.lines() {
            let location = line.split(' ').nth(1).unwrap_or_default();
            self.locations[location.parse::<usize>().expect("a location")] += 1;
        }
    }

    /// What should have come and did not, and what came and should not.
    pub fn faults(&self) -> Vec<String> {
        let Lists { refused, others, lengths, locations } = self;
        let mut faults: Vec<String> = others.iter().map(|other| format!("a list was `{other}`")).collect();
        if refused.contains(&0) || lengths.contains(&0) {
            faults.push(String::from("one of these never came"));
        }
        for (location, &count) in locations.iter().enumerate() {
            match (LOCATIONS.contains(&location), count) {
                (true, 0) => faults.push(format!("location {location} was never in a list")),
                (false, 1..) => faults.push(format!("location {location} was in a list")),
                _ => {}
            }
        }
        faults
    }
}

impl fmt::Display for Lists {
    /// How many of each length and each refusal, and a column for each location.
    fn fmt(&self, f: &mut fmt::Formatter) -> fmt::Result {
        let Lists { refused: [unlisted, five, six, seven], lengths, locations, .. } = self;
        write!(f, "lists of none to five came {lengths:?} times; {unlisted} fields were refused 29; ")?;
        writeln!(f, "{five} files were refused 5, {six} refused 6, {seven} refused 7; in the lists:")?;
        write!(f, "location")?;
        LOCATIONS.into_iter().try_for_each(|location| write!(f, "{location:>9}"))?;
        write!(f, "\n        ")?;
        LOCATIONS.into_iter().try_for_each(|location| write!(f, "{:>9}", locations[location]))
    }
}

/// Every number that coming back can be answered with, in the order in which they are judged; 0 where a field is built.
const NUMBERS: [&str; 5] = ["0", "7", "4", "29", "25"];

/// What came of coming back, by its reports.
#[derive(Default)]
pub struct Built {
    /// By the place in [`NUMBERS`].
    counts: [usize; NUMBERS.len()],
    others: Vec<String>,
    /// Fields by how many are on them, none to four, and by their next fix.
    present: [usize; 5],
    next: [usize; 2],
}

impl Built {
    pub fn count(&mut self, report: &[u8]) {
        let report = std::str::from_utf8(report).expect("ASCII");
        let (first, list) = report.split_once('\n').unwrap_or_default();
        let number = first.strip_prefix("refused ").unwrap_or("0");
        match NUMBERS.into_iter().position(|other| other == number) {
            Some(place) => self.counts[place] += 1,
            None => self.others.push(first.to_string()),
        }
        match first {
            "next 1" => self.next[0] += 1,
            "next 2" => self.next[1] += 1,
            _ => return,
        }
        self.present[list.lines().count()] += 1;
    }

    /// How many fields were built.
    pub fn fields(&self) -> usize {
        self.present.iter().sum()
    }

    /// What should have come and did not, and what came and should not.
    pub fn faults(&self) -> Vec<String> {
        let Built { counts, others, present, next } = self;
        let mut faults: Vec<String> = others.iter().map(|other| format!("a field was `{other}`")).collect();
        if counts.iter().chain(present).chain(next).any(|&count| count == 0) {
            faults.push(String::from("one of these never came"));
        }
        faults
    }
}

impl fmt::Display for Built {
    fn fmt(&self, f: &mut fmt::Formatter) -> fmt::Result {
        let Built { counts, present, next: [right, left], .. } = self;
        write!(f, "number")?;
        NUMBERS.into_iter().try_for_each(|number| write!(f, "{number:>9}"))?;
        write!(f, "\n      ")?;
        counts.iter().try_for_each(|count| write!(f, "{count:>9}"))?;
        write!(
            f,
            "\nfields with none to four came {present:?} times; the next fix was {right} times right, "
        )?;
        write!(f, "{left} times left")
    }
}
