//! How often each call of a host program was answered each number, and what
//! else came of them.

use crate::host_calls::COUNT_AT;
use crate::host_library::{Call, Reply};
use reference::button::MOST_PRESSES;
use reference::state::Bytes;
use std::fmt;

/// The calls, in the order of the header.
const CALLS: [&str; 8] = ["start", "ask", "back", "press", "hold", "spacing", "list", "field"];

/// Every number that any call can be answered with, and 20, which never comes.
const NUMBERS: [usize; 25] =
    [0, 1, 2, 3, 4, 7, 10, 11, 12, 13, 14, 15, 16, 17, 18, 19, 20, 21, 22, 23, 24, 25, 26, 27, 29];
/// The number of a desk that is none, which stands last.
const DESK: usize = 31;

/// The numbers that refuse a number which is too wide for its part, or another part before it.
const WIDE_NUMBERS: [usize; 6] = [DESK, 1, 2, 3, 4, 7];

fn column(call: &Call) -> usize {
    match call {
        Call::Start(_) => 0,
        Call::Ask(_) => 1,
        Call::Back(_) => 2,
        Call::Press => 3,
        Call::HoldDown => 4,
        Call::Spacing(_) => 5,
        Call::List => 6,
        Call::Field(..) => 7,
    }
}

/// What a call can be answered, on states that no list of calls reaches too.
fn can_come(column: usize, number: usize) -> bool {
    let numbers: &[usize] = match column {
        0 => &[0, 7],
        1 => &[0, 1, 2, 3, 4, 10, 11, 12, 13, 14, 15, 16, 17, 18, 19, 21, 22, 23, 24, 25, 26, DESK],
        2 => &[0, 10, 27, DESK],
        3 | 4 => &[0, 10],
        5 => &[0, 4, 10],
        6 => &[0, 10, 29],
        _ => &[0, 4, 7, 25, 29],
    };
    numbers.contains(&number)
}

/// Counts by call and number.
#[derive(Default)]
pub struct HostTable {
    counts: [[usize; DESK + 1]; CALLS.len()],
    others: Vec<String>,
    /// Accepted calls by how many fields count after them.
    kept: [usize; 9],
    /// Accepted requests that say who leads, and who moved along.
    leaders: usize,
    along: usize,
    /// Presses that played something, and that did not.
    played: usize,
    nobody: usize,
    /// The button held down to the end, and with its presses spent.
    emptied: usize,
    spent: usize,
    /// Answers by how many pairs they have, and lists by how many entries.
    pairs: [usize; 4],
    entries: [usize; 6],
    /// By the place in [`WIDE_NUMBERS`]: calls with a number that is too wide, and those of them that would be accepted with it narrowed.
    wide: [usize; WIDE_NUMBERS.len()],
    narrowed: [usize; WIDE_NUMBERS.len()],
    /// Calls on damaged states that were refused 10, and that were accepted.
    pub damaged_refused: usize,
    pub damaged_accepted: usize,
}

impl HostTable {
    /// Counts a call, its reply and the state after it.
    pub fn count(&mut self, call: &Call, reply: &Reply, state: &Bytes) {
        let (column, number) = (column(call), usize::from(reply.number));
        match can_come(column, number) {
            true => self.counts[column][number] += 1,
            false => self.others.push(format!("{} was answered {number}", CALLS[column])),
        }
        if number == 0 {
            self.kept[usize::from(state[COUNT_AT]).min(8)] += 1;
            self.accepted(call, &reply.outputs);
        }
    }

    /// Counts a call with a number that is too wide, and whether it would be accepted with the number narrowed to its part.
    pub fn count_wide(&mut self, call: &Call, reply: &Reply, narrowed: bool) {
        let Some(place) = WIDE_NUMBERS.into_iter().position(|number| number == usize::from(reply.number))
        else {
            return self.others.push(format!("{call:?}, too wide, was answered {}", reply.number));
        };
        self.wide[place] += 1;
        self.narrowed[place] += usize::from(narrowed);
    }

    fn accepted(&mut self, call: &Call, outputs: &[usize]) {
        match call {
            Call::Ask(_) => {
                self.leaders += usize::from(outputs[4] != 0);
                self.along += usize::from(outputs[5] != 0);
            }
            Call::Press if outputs[0] == 0 => self.nobody += 1,
            Call::Press => self.played += 1,
            Call::HoldDown if outputs[1] == 0 => self.emptied += 1,
            Call::HoldDown if outputs[0] == MOST_PRESSES => self.spent += 1,
            Call::HoldDown => self.others.push(format!("held down the button answered {outputs:?}")),
            Call::Spacing(_) => self.pairs[outputs[0]] += 1,
            Call::List => self.entries[outputs[0]] += 1,
            Call::Start(_) | Call::Back(_) | Call::Field(..) => {}
        }
    }

    /// What should have come and did not, and what came and should not.
    pub fn faults(&self) -> Vec<String> {
        let mut faults = self.others.clone();
        for (column, call) in CALLS.iter().enumerate() {
            for number in NUMBERS.into_iter().chain([DESK]) {
                if can_come(column, number) && self.counts[column][number] == 0 {
                    faults.push(format!("{call} was never answered {number}"));
                }
            }
        }
        let HostTable { kept, leaders, along, played, nobody, emptied, spent, pairs, entries, .. } = self;
        let single = [leaders, along, played, nobody, emptied, spent];
        let damaged = [&self.damaged_refused, &self.damaged_accepted];
        let wide = self.wide.iter().chain(&self.narrowed);
        let all = single.into_iter().chain(damaged).chain(kept).chain(pairs).chain(entries).chain(wide);
        if all.into_iter().any(|&count| count == 0) {
            faults.push(String::from("one of these never came"));
        }
        faults
    }
}

impl fmt::Display for HostTable {
    /// A row for each number, a column for each call; a dash where a number cannot come.
    fn fmt(&self, f: &mut fmt::Formatter) -> fmt::Result {
        write!(f, "number")?;
        CALLS.into_iter().try_for_each(|call| write!(f, "{call:>9}"))?;
        writeln!(f)?;
        for number in NUMBERS.into_iter().chain([DESK]) {
            write!(f, "{number:>6}")?;
            for column in 0..CALLS.len() {
                match self.counts[column][number] {
                    0 if !can_come(column, number) => write!(f, "        -")?,
                    count => write!(f, "{count:>9}")?,
                }
            }
            writeln!(f)?;
        }
        let HostTable { kept, leaders, along, played, nobody, emptied, spent, pairs, entries, .. } = self;
        writeln!(
            f,
            "none to eight kept after {kept:?} calls; {leaders} answers had a leader, {along} an along;"
        )?;
        write!(
            f,
            "{played} presses played and {nobody} did not, held down the button emptied {emptied} fields "
        )?;
        writeln!(f, "and was spent on {spent};")?;
        write!(f, "0 to 3 pairs came {pairs:?} times, lists of none to five {entries:?} times; of calls on damaged ")?;
        writeln!(
            f,
            "states {} were refused 10 and {} accepted;",
            self.damaged_refused, self.damaged_accepted
        )?;
        let HostTable { wide, narrowed, .. } = self;
        write!(f, "numbers wider than their part were refused by {WIDE_NUMBERS:?} {wide:?} times, and would be accepted ")?;
        write!(f, "narrowed in {narrowed:?} of these calls")
    }
}
