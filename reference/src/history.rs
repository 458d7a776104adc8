//! One step back (document 02, 2.13): a field with its index, and the last fields before accepted requests.

use crate::field::{Answer, Legs};
use crate::index::Indexed;
use crate::refusal::{BackRefusal, Refusal};
use crate::request::Request;

/// As many fields as are kept.
pub const KEPT: usize = 8;

/// A field with its index, and what is kept of those before it. A kept field keeps none itself.
#[derive(Clone, Debug, PartialEq)]
pub struct History {
    pub field: Indexed,
    /// Oldest first; the places past the count say nothing.
    pub kept: [Indexed; KEPT],
    pub count: usize,
}

impl History {
    pub fn empty(legs: Legs) -> History {
        History::new(Indexed::empty(legs))
    }

    /// A field with its index of which nothing is kept, as at the start or built from a list of the classroom dialect. The eight
    /// places hold the empty field with its legs.
    pub fn new(field: Indexed) -> History {
        let legs = field.field.legs;
        History { field, kept: [(); KEPT].map(|()| Indexed::empty(legs)), count: 0 }
    }

    /// The fields that are kept, oldest first; none where they are said to be more than eight.
    pub fn counted(&self) -> Option<&[Indexed]> {
        self.kept.get(..self.count)
    }

    /// The bounds of the field with its index and of each kept one, which need not belong together; at most eight are kept.
    pub fn within_bounds(&self) -> bool {
        self.field.within_bounds()
            && self.counted().is_some_and(|kept| kept.iter().all(Indexed::within_bounds))
    }

    /// Plays one request. An accepted one keeps the field before it; a refusal leaves everything as it was.
    pub fn step(&mut self, request: &Request) -> Result<Answer, Refusal> {
        request.check()?;
        if !self.within_bounds() {
            return Err(Refusal::FieldBreaksBound);
        }
        let before = self.field.clone();
        let answer = self.field.step(request)?;
        self.keep(before);
        Ok(answer)
    }

    /// Takes back the last accepted request that is not taken back yet, for either desk. The places stay as they are.
    pub fn step_back(&mut self, desk: u8) -> Result<Answer, BackRefusal> {
        if !matches!(desk, 1 | 2) {
            return Err(BackRefusal::Desk);
        }
        if !self.within_bounds() {
            return Err(BackRefusal::FieldBreaksBound);
        }
        let last = self.count.checked_sub(1).ok_or(BackRefusal::NoneKept)?;
        self.field = self.kept[last].clone();
        self.count = last;
        Ok(Answer::ZEROS)
    }

    /// One more behind those that are kept; of eight the oldest is dropped, and the others move up.
    fn keep(&mut self, before: Indexed) {
        if self.count == KEPT {
            self.kept.rotate_left(1);
            self.count -= 1;
        }
        self.kept[self.count] = before;
        self.count += 1;
    }
}
