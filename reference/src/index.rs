//! A finder beside the zones (document 02, 2.9): a small index from each number present to its zone and place.

use std::fmt;

use crate::field::{Answer, Field, Legs, Zone};
use crate::refusal::Refusal;
use crate::request::Request;

/// As many as the bounds let be present: four in the operation area and one on the runway.
pub const PLACES: usize = 5;

/// One place of the index. An unused one is all zero.
#[derive(Clone, Copy, Debug, Default, PartialEq, Eq)]
pub struct Entry {
    pub number: u16,
    pub zone: u8,
    /// Place in the zone's queue, from 1.
    pub place: u8,
}

#[derive(Clone, Copy, Debug, Default, PartialEq, Eq)]
pub struct Index(pub [Entry; PLACES]);

/// What a look through the queues says of a number: its zone and its place there; zeros if it is absent.
pub fn look(field: &Field, number: u16) -> (u8, u8) {
    if number == 0 {
        return (0, 0);
    }
    let in_queue = |zone: Zone| {
        let place = field.zone(zone).iter().position(|aircraft| aircraft.number == number)?;
        Some((zone.number(), place as u8 + 1))
    };
    Zone::ALL.into_iter().find_map(in_queue).unwrap_or((0, 0))
}

impl Index {
    /// The index of a field within the bounds.
    pub fn of(field: &Field) -> Index {
        let mut numbers: Vec<u16> = field.everyone().map(|(_, aircraft)| aircraft.number).collect();
        numbers.sort_unstable();
        let mut index = Index::default();
        for (entry, number) in index.0.iter_mut().zip(numbers) {
            let (zone, place) = look(field, number);
            *entry = Entry { number, zone, place };
        }
        index
    }

    /// What the index says of a number: zone and place; zeros if it is absent. Nobody has the number 0.
    pub fn find(&self, number: u16) -> (u8, u8) {
        let found = self.0.iter().find(|entry| number != 0 && entry.number == number);
        found.map_or((0, 0), |entry| (entry.zone, entry.place))
    }

    /// Whether everyone on the field, and nobody else, is listed where the queues have them, in order of number, with
    /// the unused places last and all zero.
    pub fn agrees_with(&self, field: &Field) -> bool {
        let (used, unused) = self.0.split_at(field.present().min(PLACES));
        let listed = field.everyone().all(|(_, aircraft)| used.iter().any(|e| e.number == aircraft.number));
        let in_order = used.windows(2).all(|pair| pair[0].number < pair[1].number);
        let as_in_queues = used.iter().all(|e| (e.zone, e.place) == look(field, e.number));
        listed && in_order && as_in_queues && unused.iter().all(|entry| *entry == Entry::default())
    }
}

impl fmt::Display for Index {
    /// Number, zone and place of each of its five.
    fn fmt(&self, f: &mut fmt::Formatter) -> fmt::Result {
        let entries = self.0.map(|Entry { number, zone, place }| format!("{number} {zone} {place}"));
        f.write_str(&entries.join(", "))
    }
}

/// A field and the index that is kept beside it.
#[derive(Clone, Debug, PartialEq)]
pub struct Indexed {
    pub field: Field,
    pub index: Index,
}

impl Indexed {
    pub fn empty(legs: Legs) -> Indexed {
        Indexed::new(Field::empty(legs))
    }

    /// A field within the bounds, with its own index.
    pub fn new(field: Field) -> Indexed {
        Indexed { index: Index::of(&field), field }
    }

    /// An index that disagrees breaks the bounds, as the field by itself may.
    pub fn within_bounds(&self) -> bool {
        self.field.within_bounds() && self.index.agrees_with(&self.field)
    }

    /// Plays one request. A refusal leaves the field and the index as they were.
    pub fn step(&mut self, request: &Request) -> Result<Answer, Refusal> {
        request.check()?;
        if !self.within_bounds() {
            return Err(Refusal::FieldBreaksBound);
        }
        let answer = self.field.step(request)?;
        self.index = Index::of(&self.field);
        Ok(answer)
    }
}
