//! How often each number was answered for each kind, what the button proposed, which gaps came, and how often each number was
//! answered to a writing.

use crate::lessons::Lesson;
use reference::binder::NUMBERS;
use reference::file::MOST_REQUESTS;
use reference::PracticeFile;
use std::fmt;

/// What can be answered to a kind from an empty field, never 10, 20 and 25, and to desk 1 alone, as which a file plays, never 26 and 31;
/// kind 0 stands for every other than 1 to 12.
fn reachable(kind: u8) -> &'static [u8] {
    match kind {
        0 => &[1],
        1 => &[0, 2, 3, 4, 11, 16, 17, 18, 19],
        2 => &[0, 2, 3, 4, 11, 16],
        3 => &[0, 2, 3, 4, 12, 13, 21],
        4 => &[0, 2, 3, 4, 12, 13, 22, 23],
        5 | 9 => &[0, 2, 3, 4, 12, 13, 14, 15, 22],
        6 | 11 => &[0, 2, 3, 4, 12, 13, 14, 15],
        7 => &[0, 2, 3, 4, 12, 13, 14, 15, 24],
        8 => &[0, 2, 3, 4, 12, 13],
        10 => &[0, 2, 3, 4, 12, 13, 14],
        _ => &[0, 2, 3, 4],
    }
}

/// Whether the answer to a kind can name another in `along`: a vertical entry and a hold.
fn moves_two(kind: u8) -> bool {
    matches!(kind, 1 | 11)
}

/// Counts by kind, 0 to 12, and number.
#[derive(Default)]
pub struct Table {
    counts: [[usize; 26]; 13],
    /// By kind, the answers that name another in `along`. The report of a binder does not say them.
    along: [usize; 13],
    pub requests: usize,
}

impl Table {
    /// Counts the answers of a report to a file.
    pub fn count(&mut self, file: &[u8], report: &[u8]) {
        let Ok(practice) = PracticeFile::read(file) else { return };
        for (request, line) in practice.requests.iter().zip(report.split(|&byte| byte == b'\n')) {
            let kind = usize::from(if request.kind <= 12 { request.kind } else { 0 });
            self.counts[kind][in_line(line, 1)] += 1;
            self.along[kind] += usize::from(in_line(line, 6) != 0);
            self.requests += 1;
        }
    }

    /// Adds the rows of a binder's report, one for each kind and the last for all others.
    pub fn add<'a>(&mut self, rows: impl Iterator<Item = &'a str>) {
        for (kind, row) in (1..=12).chain([0]).zip(rows) {
            for (number, count) in NUMBERS.into_iter().zip(row.split(' ').skip(1)) {
                let count: usize = count.parse().expect("a count");
                self.counts[kind][usize::from(number)] += count;
                self.requests += count;
            }
        }
    }

    /// What should have come and did not, and what came and should not.
    pub fn faults(&self) -> Vec<String> {
        let mut faults = Vec::new();
        for kind in 0..=12 {
            for number in NUMBERS {
                let came = self.counts[usize::from(kind)][usize::from(number)] > 0;
                match (reachable(kind).contains(&number), came) {
                    (true, false) => faults.push(format!("kind {kind} was never answered {number}")),
                    (false, true) => faults.push(format!("kind {kind} was answered {number}")),
                    _ => {}
                }
            }
        }
        faults
    }

    /// The same of `along`, where reports were counted. A hold seldom moves another, so that one is not asked for.
    pub fn along_faults(&self) -> Vec<String> {
        let mut faults = Vec::new();
        if self.along[1] == 0 {
            faults.push(String::from("no vertical entry moved another along"));
        }
        for kind in (0..=12).filter(|&kind| !moves_two(kind) && self.along[usize::from(kind)] > 0) {
            faults.push(format!("kind {kind} moved another along"));
        }
        faults
    }
}

/// One of the numbers in a line, the first at 0. In a report's line, the answer's is at 1 and `along` at 6.
pub fn in_line(line: &[u8], place: usize) -> usize {
    let word = line.split(|&byte| byte == b' ').nth(place).unwrap_or_default();
    word.iter().fold(0, |number, digit| 10 * number + usize::from(digit - b'0'))
}

impl fmt::Display for Table {
    /// A row for each number and one for `along`, a column for each kind; a dash where a number cannot come.
    fn fmt(&self, f: &mut fmt::Formatter) -> fmt::Result {
        write!(f, "number")?;
        for kind in 1..=12 {
            write!(f, "{:>9}", format!("kind {kind}"))?;
        }
        writeln!(f, "    other")?;
        for number in NUMBERS {
            let counts = self.counts.map(|of_kind| of_kind[usize::from(number)]);
            row(f, &number.to_string(), counts, |kind| reachable(kind).contains(&number))?;
        }
        row(f, "along", self.along, moves_two)
    }
}

/// A row of counts by kind.
fn row(
    f: &mut fmt::Formatter,
    name: &str,
    counts: [usize; 13],
    can_come: impl Fn(u8) -> bool,
) -> fmt::Result {
    write!(f, "{name:>6}")?;
    for kind in (1..=12).chain([0]) {
        match counts[usize::from(kind)] {
            0 if !can_come(kind) => write!(f, "        -")?,
            count => write!(f, "{count:>9}")?,
        }
    }
    writeln!(f)
}

/// What came of binders, by their reports.
#[derive(Default)]
pub struct Weeks {
    read: usize,
    refused: usize,
    /// How many of their files were played, and refused 5, 6 and 7.
    files: [usize; 4],
    table: Table,
}

impl Weeks {
    pub fn count(&mut self, report: &[u8]) {
        let report = std::str::from_utf8(report).expect("ASCII");
        if report == "binder 30\n" {
            self.refused += 1;
            return;
        }
        self.read += 1;
        let mut lines = report.lines();
        for (sum, line) in self.files.iter_mut().zip(&mut lines) {
            let files = line.rsplit(' ').next().unwrap_or_default();
            *sum += files.parse::<usize>().expect("a count");
        }
        self.table.add(lines.skip(1));
    }

    /// As for the table of answers; and whether each kind of binder and of file came.
    pub fn faults(&self) -> Vec<String> {
        let mut faults = self.table.faults();
        if [self.read, self.refused].contains(&0) || self.files.contains(&0) {
            faults.push(String::from("one of these never came"));
        }
        faults
    }
}

impl fmt::Display for Weeks {
    fn fmt(&self, f: &mut fmt::Formatter) -> fmt::Result {
        let Weeks { read, refused, files: [played, five, six, seven], .. } = self;
        let requests = self.table.requests;
        write!(f, "{refused} binders refused 30, {read} read; of their files {played} played, ")?;
        write!(f, "{five} refused 5, {six} refused 6, {seven} refused 7; {requests} answers counted")
    }
}

/// What the button proposes, in its order.
const PROPOSED: [usize; 8] = [8, 7, 6, 5, 11, 4, 3, 12];

/// What came of holding the button down, by its reports.
#[derive(Default)]
pub struct Presses {
    /// Requests that were played, by kind.
    kinds: [usize; 13],
    none: usize,
    spent: usize,
    refused: usize,
    /// The most requests that were played after one file.
    most: usize,
}

impl Presses {
    pub fn count(&mut self, report: &[u8]) {
        let mut lines: Vec<&[u8]> = report.trim_ascii_end().split(|&byte| byte == b'\n').collect();
        let last = lines.pop().unwrap_or_default();
        match last.split(|&byte| byte == b' ').next() {
            Some(b"none") => self.none += 1,
            Some(b"spent") => self.spent += 1,
            _ => {
                self.refused += 1;
                return;
            }
        }
        for line in &lines {
            self.kinds[in_line(line, 1)] += 1;
        }
        let played = in_line(last, 1);
        self.kinds[12] += played - lines.len();
        self.most = self.most.max(played);
    }

    /// What should have come and did not, and what came and should not.
    pub fn faults(&self) -> Vec<String> {
        let mut faults = Vec::new();
        for (kind, &count) in self.kinds.iter().enumerate() {
            match (PROPOSED.contains(&kind), count) {
                (true, 0) => faults.push(format!("the button never proposed kind {kind}")),
                (false, 1..) => faults.push(format!("the button proposed kind {kind}")),
                _ => {}
            }
        }
        if self.none == 0 || self.refused == 0 {
            faults.push(String::from("one of these never came"));
        }
        if self.spent > 0 {
            faults.push(String::from("the button did not empty a field that was reached"));
        }
        faults
    }
}

impl fmt::Display for Presses {
    /// How it ended, and a column for each kind.
    fn fmt(&self, f: &mut fmt::Formatter) -> fmt::Result {
        let Presses { kinds, none, spent, refused, most } = self;
        write!(f, "{none} times it ended with none, {spent} with spent, and {refused} files were refused; ")?;
        writeln!(f, "at most {most} requests after a file; proposed so often:")?;
        for kind in PROPOSED {
            write!(f, "{:>9}", format!("kind {kind}"))?;
        }
        writeln!(f)?;
        PROPOSED.into_iter().try_for_each(|kind| write!(f, "{:>9}", kinds[kind]))
    }
}

/// What came of the spacing, by its reports.
#[derive(Default)]
pub struct Gaps {
    /// Pairs that were close and clear.
    close: usize,
    clear: usize,
    /// Gaps under 0, at 0, and with digits after the point.
    negative: usize,
    zero: usize,
    fractions: usize,
    /// How many reports had each number of pairs.
    pairs: [usize; 4],
    /// How often the spacing was refused, and the file.
    refused: [usize; 2],
}

impl Gaps {
    pub fn count(&mut self, report: &[u8]) {
        let report = std::str::from_utf8(report).expect("ASCII");
        match report.split(' ').next() {
            Some("spacing") => self.refused[0] += 1,
            Some("file") => self.refused[1] += 1,
            _ => {
                self.pairs[report.lines().count()] += 1;
                report.lines().for_each(|line| self.pair(line));
            }
        }
    }

    /// Counts a line: leader, follower, `close` or `clear`, the gap.
    fn pair(&mut self, line: &str) {
        let words: Vec<&str> = line.split(' ').collect();
        self.close += usize::from(words[2] == "close");
        self.clear += usize::from(words[2] == "clear");
        self.negative += usize::from(words[3].starts_with('-'));
        self.zero += usize::from(words[3] == "0");
        self.fractions += usize::from(words[3].contains('.'));
    }

    /// What should have come and did not.
    pub fn faults(&self) -> Vec<String> {
        let Gaps { close, clear, negative, zero, fractions, pairs, refused } = self;
        let all = [close, clear, negative, zero, fractions];
        match all.into_iter().chain(pairs).chain(refused).any(|&count| count == 0) {
            true => vec![String::from("one of these never came")],
            false => Vec::new(),
        }
    }
}

impl fmt::Display for Gaps {
    fn fmt(&self, f: &mut fmt::Formatter) -> fmt::Result {
        let Gaps { close, clear, negative, zero, fractions, pairs, refused: [spacing, file] } = self;
        write!(
            f,
            "{close} pairs were close and {clear} clear; {negative} gaps were negative, {zero} were 0, "
        )?;
        write!(f, "{fractions} were fractions; 0, 1, 2 and 3 pairs came {pairs:?} times, ")?;
        write!(f, "{spacing} spacings and {file} files were refused")
    }
}

/// Every number that a writing can be answered with, in the order in which they are judged; 0 where the file is written.
const WRITING_NUMBERS: [u16; 8] = [0, 7, 5, 1, 2, 3, 4, 28];

/// What came of writings.
#[derive(Default)]
pub struct Writings {
    /// By the place in [`WRITING_NUMBERS`], how often each number came.
    counts: [usize; WRITING_NUMBERS.len()],
    /// Those that came and should not.
    others: Vec<u16>,
    /// Files in a buffer of just their length, in a longer one, and of the most requests.
    exact: usize,
    longer: usize,
    longest: usize,
    /// Refusals of an empty buffer, and of one that has room for the file.
    empty: usize,
    roomy: usize,
}

impl Writings {
    pub fn count(&mut self, lesson: &Lesson, number: u16) {
        let file = 34 + lesson.requests.len();
        match WRITING_NUMBERS.into_iter().position(|other| other == number) {
            Some(place) => self.counts[place] += 1,
            None => self.others.push(number),
        }
        if number == 0 {
            self.exact += usize::from(lesson.room == file);
            self.longer += usize::from(lesson.room > file);
            self.longest += usize::from(lesson.requests.len() == 6 * MOST_REQUESTS);
        } else {
            self.empty += usize::from(lesson.room == 0);
            self.roomy += usize::from(lesson.room >= file);
        }
    }

    /// What should have come and did not, and what came and should not.
    pub fn faults(&self) -> Vec<String> {
        let Writings { counts, others, exact, longer, longest, empty, roomy } = self;
        let mut faults: Vec<String> =
            others.iter().map(|number| format!("a writing was answered {number}")).collect();
        if counts.iter().chain([exact, longer, longest, empty, roomy]).any(|&count| count == 0) {
            faults.push(String::from("one of these never came"));
        }
        faults
    }
}

impl fmt::Display for Writings {
    fn fmt(&self, f: &mut fmt::Formatter) -> fmt::Result {
        let Writings { counts, exact, longer, longest, empty, roomy, .. } = self;
        write!(f, "number")?;
        WRITING_NUMBERS.into_iter().try_for_each(|number| write!(f, "{number:>9}"))?;
        write!(f, "\n      ")?;
        counts.iter().try_for_each(|count| write!(f, "{count:>9}"))?;
        write!(f, "\n{exact} files had a buffer of just their length and {longer} a longer one, ")?;
        write!(f, "{longest} had {MOST_REQUESTS} requests; ")?;
        write!(f, "{empty} refusals had an empty buffer, {roomy} one with room for the file")
    }
}
