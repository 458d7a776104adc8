//! Spacing along the path (document 02, 2.8): how far each follower on the approach is behind its leader.

use std::fmt;

use crate::field::{Aircraft, Field, Zone};
use crate::refusal::Refusal;

/// The widest spacing that can be asked for, in 64ths of a mile.
pub const WIDEST: u16 = 512;

/// Whether a follower is nearer than the spacing asked for; with the gap in miles.
#[derive(Clone, Copy, Debug, PartialEq)]
pub enum Gap {
    Close(f64),
    Clear(f64),
}

/// Neighbours in the sequence, both on the approach.
#[derive(Clone, Copy, Debug, PartialEq)]
pub struct Pair {
    pub leader: u16,
    pub follower: u16,
    pub gap: Gap,
}

/// A spacing in 64ths of a mile, as wide as it comes, if it may be asked for.
pub fn check(spacing: usize) -> Result<u16, Refusal> {
    match u16::try_from(spacing) {
        Ok(spacing @ 1..=WIDEST) => Ok(spacing),
        _ => Err(Refusal::Amount),
    }
}

/// The pairs of a field in the order of the sequence, each by the spacing in 64ths of a mile.
pub fn pairs(field: &Field, spacing: u16) -> Result<Vec<Pair>, Refusal> {
    check(spacing.into())?;
    if !field.within_bounds() {
        return Err(Refusal::FieldBreaksBound);
    }
    let neighbours = field.sequence.iter().zip(field.sequence.iter().skip(1));
    Ok(neighbours.filter_map(|(&leader, &follower)| pair(field, leader, follower, spacing)).collect())
}

/// Two neighbours, unless one of them is not on the approach.
fn pair(field: &Field, leader: u16, follower: u16, spacing: u16) -> Option<Pair> {
    let gap = to_go(field, follower)? - to_go(field, leader)?;
    let gap = if gap < f64::from(spacing) / 64.0 { Gap::Close(gap) } else { Gap::Clear(gap) };
    Some(Pair { leader, follower, gap })
}

/// Miles to the threshold of one on the approach: what is left of its leg, and then the legs that follow.
fn to_go(field: &Field, number: u16) -> Option<f64> {
    let (zone, &Aircraft { leg, progress, .. }) = field.find(number)?;
    let left = leg - progress.miles();
    match zone {
        Zone::Base(_) => Some(left + field.legs.intermediate + field.legs.final_),
        Zone::Intermediate => Some(left + field.legs.final_),
        Zone::Final => Some(left),
        _ => None,
    }
}

impl fmt::Display for Pair {
    /// As it stands in a line of a report.
    fn fmt(&self, f: &mut fmt::Formatter) -> fmt::Result {
        let Pair { leader, follower, gap } = self;
        match gap {
            Gap::Close(miles) => write!(f, "{leader} {follower} close {}", decimal(*miles)),
            Gap::Clear(miles) => write!(f, "{leader} {follower} clear {}", decimal(*miles)),
        }
    }
}

/// Miles that are whole 4096ths, as a decimal fraction without zeros at its end.
pub fn decimal(miles: f64) -> String {
    let in_4096ths = miles * 4096.0;
    assert!(in_4096ths.fract() == 0.0 && in_4096ths.abs() < 1e9, "not in 4096ths: {miles}");
    let sign = if in_4096ths < 0.0 { "-" } else { "" };
    let number = in_4096ths.abs() as u64;
    // A 4096th is 244,140,625 of the twelfth digit.
    let digits = format!("{:012}", number % 4096 * 244_140_625);
    let whole = number / 4096;
    match digits.trim_end_matches('0') {
        "" => format!("{sign}{whole}"),
        digits => format!("{sign}{whole}.{digits}"),
    }
}
