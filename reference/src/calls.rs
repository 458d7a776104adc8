//! Calls by two desks, requests and steps back, from their bytes (document 02, 2.10 and 2.13).

use crate::desks::Asked;
use crate::field::Legs;
use crate::file::{leg_allowed, u16_at, LEGS_LENGTH, MOST_REQUESTS};
use crate::refusal::WriteRefusal;
use crate::request::Request;

/// The bytes of a call: whether it is a step back, the desk, the kind, the side, the number and the amount.
pub const CALL: usize = 8;

/// The longest input that is played: the legs and the most calls.
pub const LONGEST_INPUT: usize = LEGS_LENGTH + CALL * MOST_REQUESTS;

/// The legs, as a practice file has them, and the calls behind them.
pub fn from_bytes(input: &[u8]) -> Result<(Legs, Vec<Asked>), WriteRefusal> {
    let (legs, calls) = input.split_at_checked(LEGS_LENGTH).ok_or(WriteRefusal::Leg)?;
    let legs_64ths = [0, 2, 4, 6].map(|at| u16_at(legs, at));
    if !legs_64ths.into_iter().all(leg_allowed) {
        return Err(WriteRefusal::Leg);
    }
    if !calls.len().is_multiple_of(CALL) || calls.len() / CALL > MOST_REQUESTS {
        return Err(WriteRefusal::Count);
    }
    Ok((Legs::from_64ths(legs_64ths), calls.chunks_exact(CALL).map(call).collect()))
}

fn call(bytes: &[u8]) -> Asked {
    let desk = bytes[1];
    match bytes[0] {
        0 => Asked::Request(Request::from_bytes(bytes[2..].try_into().expect("six bytes")).by(desk)),
        _ => Asked::Back(desk),
    }
}
