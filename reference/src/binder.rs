//! A binder of practice files, and what its report counts (document 02, 2.1).

use crate::field::Field;
use crate::file::{u16_at, u32_at, PracticeFile};
use crate::refusal::BinderRefusal;
use crate::request::Request;
use crate::{line, played};

pub const LONGEST: usize = 65_536;
pub const MOST_FILES: usize = 64;
/// The count before the table, and an entry of it: offset and length.
pub const COUNT: usize = 2;
pub const ENTRY: usize = 8;

/// Every number that a request can be answered with, in the order of the report's columns.
pub const NUMBERS: [u8; 21] = [0, 1, 2, 3, 4, 10, 11, 12, 13, 14, 15, 16, 17, 18, 19, 20, 21, 22, 23, 24, 25];

/// The files of a binder in the order of its table, by the table alone: none of them is looked at.
pub fn files(binder: &[u8]) -> Result<Vec<&[u8]>, BinderRefusal> {
    if !(COUNT..=LONGEST).contains(&binder.len()) {
        return Err(BinderRefusal);
    }
    let count = usize::from(u16_at(binder, 0));
    if !(1..=MOST_FILES).contains(&count) {
        return Err(BinderRefusal);
    }
    let table = binder.get(COUNT..COUNT + ENTRY * count).ok_or(BinderRefusal)?;
    // Sums of 64 bits: offset and length together may need more than 32.
    let mut end = (COUNT + table.len()) as u64;
    let mut stretches = Vec::new();
    for entry in table.chunks_exact(ENTRY) {
        let (offset, length) = (u64::from(u32_at(entry, 0)), u64::from(u32_at(entry, 4)));
        if offset != end {
            return Err(BinderRefusal);
        }
        end = offset + length;
        stretches.push((offset, end));
    }
    if end != binder.len() as u64 {
        return Err(BinderRefusal);
    }
    // No end is less than the one before, so none is past the binder's.
    Ok(stretches.into_iter().map(|(start, end)| &binder[start as usize..end as usize]).collect())
}

/// The binder of these files, the other way round; also where it would be refused.
pub fn to_bytes(files: &[impl AsRef<[u8]>]) -> Vec<u8> {
    let mut binder = (files.len() as u16).to_le_bytes().to_vec();
    let mut offset = COUNT + ENTRY * files.len();
    for file in files {
        let length = file.as_ref().len();
        binder.extend((offset as u32).to_le_bytes());
        binder.extend((length as u32).to_le_bytes());
        offset += length;
    }
    for file in files {
        binder.extend(file.as_ref());
    }
    binder
}

/// What the report of a binder says.
#[derive(Clone, Debug, Default, PartialEq, Eq)]
pub struct Week {
    /// Files that were played.
    pub played: usize,
    /// Files refused 5, 6 and 7.
    pub refused: [usize; 3],
    /// How often each kind was answered each number. Row 0 is of all kinds that are not 1 to 12.
    pub answers: [[usize; 26]; 13],
    /// Accepted requests of kinds 3 to 11.
    pub moves: usize,
    /// Accepted requests of kind 7.
    pub landings: usize,
}

impl Week {
    /// Plays every file of a binder.
    pub fn of(binder: &[u8]) -> Result<Week, BinderRefusal> {
        let mut week = Week::default();
        for file in files(binder)? {
            match PracticeFile::read(file) {
                Ok(practice) => {
                    week.played += 1;
                    played(&practice, Field::step, |request, number, _| week.answered(request, number));
                }
                Err(refusal) => week.refused[usize::from(refusal.number()) - 5] += 1,
            }
        }
        Ok(week)
    }

    fn answered(&mut self, request: &Request, number: u8) {
        let row = if (1..=12).contains(&request.kind) { request.kind } else { 0 };
        self.answers[usize::from(row)][usize::from(number)] += 1;
        if number == 0 && (3..=11).contains(&request.kind) {
            self.moves += 1;
        }
        if number == 0 && request.kind == 7 {
            self.landings += 1;
        }
    }

    /// The lines of the report.
    pub(crate) fn write(&self, out: &mut Vec<u8>) {
        line(out, format_args!("files {}", self.played));
        for (number, files) in (5..).zip(self.refused) {
            line(out, format_args!("refused {number} {files}"));
        }
        line(out, format_args!("kind{}", spaced(NUMBERS)));
        for kind in 1..=12 {
            line(out, format_args!("{kind}{}", self.row(kind)));
        }
        line(out, format_args!("other{}", self.row(0)));
        line(out, format_args!("moves {}", self.moves));
        line(out, format_args!("landings {}", self.landings));
    }

    fn row(&self, row: usize) -> String {
        spaced(NUMBERS.map(|number| self.answers[row][usize::from(number)]))
    }
}

/// Each with a space before it.
fn spaced(numbers: impl IntoIterator<Item = impl std::fmt::Display>) -> String {
    numbers.into_iter().map(|number| format!(" {number}")).collect()
}
