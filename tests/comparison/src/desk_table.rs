//! How often calls by two desks were answered each number, and what else came
//! of them.

use crate::table::in_line;
use reference::file::MOST_REQUESTS;
use reference::history::KEPT;
use reference::{calls, Asked};
use std::fmt;

/// Every number that a request can be answered with from an empty field, never 10, 20 and 25, and then 27, by which a step back is refused
/// where none is kept.
const NUMBERS: [usize; 21] =
    [0, 1, 2, 3, 4, 11, 12, 13, 14, 15, 16, 17, 18, 19, 21, 22, 23, 24, 26, NONE_KEPT, DESK];
const NONE_KEPT: usize = 27;
/// The number of a desk that is none.
const DESK: usize = 31;

const CALLS: [&str; 2] = ["request", "back"];

fn column(call: Asked) -> usize {
    match call {
        Asked::Request(_) => 0,
        Asked::Back(_) => 1,
    }
}

fn can_come(column: usize, number: usize) -> bool {
    match column {
        0 => number != NONE_KEPT && NUMBERS.contains(&number),
        _ => [0, NONE_KEPT, DESK].contains(&number),
    }
}

/// What came of calls by two desks, by their reports.
#[derive(Default)]
pub struct DeskTable {
    counts: [[usize; DESK + 1]; CALLS.len()],
    others: Vec<String>,
    /// Inputs that were refused 5 and 7.
    refused: [usize; 2],
    /// Lists by how many fields are kept at the end, and those of the most calls.
    kept: [usize; KEPT + 1],
    longest: usize,
}

impl DeskTable {
    /// Counts the answers of a report to an input.
    pub fn count(&mut self, input: &[u8], report: &[u8]) {
        let Ok((_, calls)) = calls::from_bytes(input) else {
            match report {
                b"refused 5\n" => self.refused[0] += 1,
                b"refused 7\n" => self.refused[1] += 1,
                _ => self.others.push(format!("an input was `{}`", String::from_utf8_lossy(report))),
            }
            return;
        };
        let mut lines = report.split(|&byte| byte == b'\n');
        for (call, line) in calls.iter().zip(&mut lines) {
            self.answer(column(*call), in_line(line, 1));
        }
        self.kept[in_line(lines.next().unwrap_or_default(), 2)] += 1;
        self.longest += usize::from(calls.len() == MOST_REQUESTS);
    }

    fn answer(&mut self, column: usize, number: usize) {
        match can_come(column, number) {
            true => self.counts[column][number] += 1,
            false => self.others.push(format!("a {} was answered {number}", CALLS[column])),
        }
    }

    /// What should have come and did not, and what came and should not.
    pub fn faults(&self) -> Vec<String> {
        let DeskTable { counts, others, refused, kept, longest } = self;
        let mut faults = others.clone();
        for (column, call) in CALLS.iter().enumerate() {
            for number in NUMBERS {
                if can_come(column, number) && counts[column][number] == 0 {
                    faults.push(format!("a {call} was never answered {number}"));
                }
            }
        }
        if refused.iter().chain([&kept[0], &kept[KEPT], longest]).any(|&count| count == 0) {
            faults.push(String::from("one of these never came"));
        }
        faults
    }
}

impl fmt::Display for DeskTable {
    /// A row for requests and one for steps back, a column for each number; a dash where it cannot come.
    fn fmt(&self, f: &mut fmt::Formatter) -> fmt::Result {
        write!(f, "number ")?;
        NUMBERS.into_iter().try_for_each(|number| write!(f, "{number:>7}"))?;
        for (column, call) in CALLS.iter().enumerate() {
            write!(f, "\n{call:<7}")?;
            for number in NUMBERS {
                match self.counts[column][number] {
                    0 if !can_come(column, number) => write!(f, "      -")?,
                    count => write!(f, "{count:>7}")?,
                }
            }
        }
        let DeskTable { refused: [five, seven], kept, longest, .. } = self;
        write!(
            f,
            "\n{five} inputs were refused 5 and {seven} refused 7; none to eight were kept at the end of "
        )?;
        write!(f, "{kept:?} lists, {longest} had {MOST_REQUESTS} calls")
    }
}
