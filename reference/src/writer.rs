//! Writing a practice file into a lent buffer (document 02, 2.11).

use crate::file::{leg_allowed, u16_at, PracticeFile, LEGS_LENGTH, MOST_REQUESTS, REQUEST};
use crate::parts;
use crate::refusal::WriteRefusal;
use crate::request::Request;

/// The longest input that is written as a file: the legs and the most requests.
pub const LONGEST_INPUT: usize = LEGS_LENGTH + REQUEST * MOST_REQUESTS;

/// Writes the practice file of four legs (base, intermediate, final, missed, in 64ths of a mile, as wide as they come) and of requests, six
/// bytes each, to the start of a buffer, and yields its length. Where it is refused, the buffer stays as it was.
pub fn write(legs_64ths: [usize; 4], requests: &[u8], buffer: &mut [u8]) -> Result<usize, WriteRefusal> {
    let legs_64ths = parts::legs(legs_64ths).ok_or(WriteRefusal::Leg)?;
    let file = checked(legs_64ths, requests)?.to_bytes();
    let start = buffer.get_mut(..file.len()).ok_or(WriteRefusal::Buffer)?;
    start.copy_from_slice(&file);
    Ok(file.len())
}

/// The same from the bytes of the legs, as a practice file has them, and those of the requests after them; the file alone. A leg that
/// is not wholly there is none.
pub fn from_bytes(input: &[u8]) -> Result<Vec<u8>, WriteRefusal> {
    let (legs, requests) = input.split_at_checked(LEGS_LENGTH).ok_or(WriteRefusal::Leg)?;
    let legs_64ths = [0, 2, 4, 6].map(|at| u16_at(legs, at));
    Ok(checked(legs_64ths, requests)?.to_bytes())
}

/// What is to be written: the legs, then how many requests there are, then each request in the order of the list.
fn checked(legs_64ths: [u16; 4], requests: &[u8]) -> Result<PracticeFile, WriteRefusal> {
    if !legs_64ths.into_iter().all(leg_allowed) {
        return Err(WriteRefusal::Leg);
    }
    if !requests.len().is_multiple_of(REQUEST) || requests.len() / REQUEST > MOST_REQUESTS {
        return Err(WriteRefusal::Count);
    }
    let requests = requests.chunks_exact(REQUEST).map(|bytes| {
        let request = Request::from_bytes(bytes.try_into().expect("six bytes"));
        request.check().map(|_| request).map_err(WriteRefusal::Request)
    });
    Ok(PracticeFile { legs_64ths, requests: requests.collect::<Result<_, _>>()? })
}
