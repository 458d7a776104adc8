//! The practice file: letters, contents, legs, requests.

use crate::field::Legs;
use crate::refusal::FileRefusal;
use crate::request::Request;

pub const LETTERS: &[u8; 4] = b"SCAP";
/// Letters, count and two entries of ten bytes.
pub const HEADER: usize = 26;
pub const LONGEST: usize = REQUESTS_AT + LONGEST_REQUESTS;
const LEGS_AT: usize = HEADER;
/// The four legs.
pub const LEGS_LENGTH: usize = 8;
const REQUESTS_AT: usize = LEGS_AT + LEGS_LENGTH;
/// One request.
pub const REQUEST: usize = 6;
const LONGEST_REQUESTS: usize = 24_576;
pub const MOST_REQUESTS: usize = LONGEST_REQUESTS / REQUEST;

/// A file that plays.
#[derive(Clone, Debug, PartialEq, Eq)]
pub struct PracticeFile {
    /// Base, intermediate, final and missed, in 64ths of a mile.
    pub legs_64ths: [u16; 4],
    pub requests: Vec<Request>,
}

impl PracticeFile {
    pub fn read(file: &[u8]) -> Result<PracticeFile, FileRefusal> {
        if file.len() < HEADER || file.len() > LONGEST || !file.starts_with(LETTERS) {
            return Err(FileRefusal::SizeOrLetters);
        }
        if !contents_as_said(file) {
            return Err(FileRefusal::Contents);
        }
        let legs_64ths = [0, 1, 2, 3].map(|leg| u16_at(file, LEGS_AT + 2 * leg));
        if !legs_64ths.into_iter().all(leg_allowed) {
            return Err(FileRefusal::Leg);
        }
        let requests = file[REQUESTS_AT..]
            .chunks_exact(REQUEST)
            .map(|bytes| Request::from_bytes(bytes.try_into().expect("six bytes")))
            .collect();
        Ok(PracticeFile { legs_64ths, requests })
    }

    /// The bytes of this file, the other way round.
    pub fn to_bytes(&self) -> Vec<u8> {
        let length = self.requests.len() * REQUEST;
        let mut file = LETTERS.to_vec();
        file.extend(2u16.to_le_bytes());
        for (kind, offset, length) in [(1u16, LEGS_AT, LEGS_LENGTH), (2, REQUESTS_AT, length)] {
            file.extend(kind.to_le_bytes());
            file.extend((offset as u32).to_le_bytes());
            file.extend((length as u32).to_le_bytes());
        }
        for leg in self.legs_64ths {
            file.extend(leg.to_le_bytes());
        }
        for request in &self.requests {
            file.extend(request.to_bytes());
        }
        file
    }

    pub fn legs(&self) -> Legs {
        Legs::from_64ths(self.legs_64ths)
    }
}

/// The count, both entries, and where the requests end. The header is there.
fn contents_as_said(file: &[u8]) -> bool {
    let count = u16_at(file, 4);
    let entry = |at| (u16_at(file, at), u32_at(file, at + 2), u32_at(file, at + 6));
    let (kind, offset, length) = entry(16);
    let length = length as usize;
    count == 2
        && entry(6) == (1, LEGS_AT as u32, LEGS_LENGTH as u32)
        && (kind, offset) == (2, REQUESTS_AT as u32)
        && length <= LONGEST_REQUESTS
        && length.is_multiple_of(REQUEST)
        && REQUESTS_AT + length == file.len()
}

/// Whether a file may have this leg, in 64ths of a mile.
pub(crate) fn leg_allowed(leg: u16) -> bool {
    (1..=4096).contains(&leg)
}

pub(crate) fn u16_at(file: &[u8], at: usize) -> u16 {
    u16::from_le_bytes([file[at], file[at + 1]])
}

pub(crate) fn u32_at(file: &[u8], at: usize) -> u32 {
    u32::from_le_bytes([file[at], file[at + 1], file[at + 2], file[at + 3]])
}
