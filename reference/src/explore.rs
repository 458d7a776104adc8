//! Every field that can be reached from the empty one, numbers and miles aside;
//! and every field within the bounds, reached or not.
//!
//! Of the reached ones, legs are so short that one tick flies all of them out,
//! and a tick follows every step, so that no request is refused for its leg.
//! Fields that differ in nothing but the numbers of their aircraft are one.

use std::collections::hash_map::Entry;
use std::collections::{HashMap, VecDeque};

use crate::field::{Aircraft, Field, Legs, Progress, Side, Zone};
use crate::refusal::Refusal;
use crate::request::{Request, FIRST_DESK};

/// A field without numbers and miles: for each aircraft in the order of zones
/// and places its zone, fix and place in the sequence; then the next fix.
pub type Shape = Vec<u8>;

pub fn shape(field: &Field) -> Shape {
    let mut shape = Vec::new();
    for (zone, aircraft) in field.everyone() {
        let place = field.sequence.iter().position(|&number| number == aircraft.number);
        shape.extend([zone.number(), aircraft.fix.number(), place.map_or(0, |place| place as u8 + 1)]);
    }
    shape.push(field.next_fix.number());
    shape
}

/// One field of each shape, and how it was reached.
pub struct Reached {
    pub fields: Vec<Field>,
    /// The field before and the request, for all but the first.
    from: Vec<Option<(usize, Request)>>,
    places: HashMap<Shape, usize>,
    /// How often a kind of request was refused with a number on the way.
    pub refusals: HashMap<(u8, u8), usize>,
}

pub fn tick() -> Request {
    Request::new(12, 0, 0, 64)
}

/// One request of every kind but the tick, for everyone there, by its own desk, and for one new, by desk 1.
pub fn requests(field: &Field) -> Vec<Request> {
    let there: Vec<(u16, u8)> =
        field.everyone().map(|(_, aircraft)| (aircraft.number, aircraft.desk)).collect();
    let new = (1..).find(|&new| there.iter().all(|&(number, _)| number != new)).unwrap_or(0);
    let entries = [(1, 1), (1, 2), (2, 1), (2, 2)].map(|(kind, side)| Request::new(kind, side, new, 512));
    let moves = there
        .iter()
        .flat_map(|&(number, desk)| (3..=11).map(move |kind| Request::new(kind, 0, number, 0).by(desk)));
    entries.into_iter().chain(moves).collect()
}

/// The step and the tick after it.
fn stepped(field: &Field, request: &Request) -> Result<Field, Refusal> {
    let mut after = field.clone();
    after.step(request)?;
    after.step(&tick())?;
    Ok(after)
}

impl Reached {
    pub fn all() -> Reached {
        let empty = Field::empty(Legs::from_64ths([1; 4]));
        let mut reached = Reached {
            places: HashMap::from([(shape(&empty), 0)]),
            fields: vec![empty],
            from: vec![None],
            refusals: HashMap::new(),
        };
        let mut next = 0;
        while let Some(field) = reached.fields.get(next).cloned() {
            for request in requests(&field) {
                match stepped(&field, &request) {
                    Ok(after) => reached.add(after, next, request),
                    Err(refusal) => {
                        let met = (request.kind, refusal.number());
                        *reached.refusals.entry(met).or_default() += 1;
                    }
                }
            }
            next += 1;
        }
        reached
    }

    fn add(&mut self, field: Field, before: usize, request: Request) {
        if let Entry::Vacant(vacant) = self.places.entry(shape(&field)) {
            vacant.insert(self.fields.len());
            self.fields.push(field);
            self.from.push(Some((before, request)));
        }
    }

    /// A shortest list of requests to a field, ticks left out.
    pub fn way_to(&self, mut place: usize) -> Vec<Request> {
        let mut way = VecDeque::new();
        while let Some((before, request)) = self.from[place] {
            way.push_front(request);
            place = before;
        }
        way.into()
    }

    /// For each field the most moves (kinds 3 to 11 but 10) that can follow.
    pub fn most_moves(&self) -> Vec<usize> {
        let mut known = vec![None; self.fields.len()];
        (0..self.fields.len()).map(|place| self.moves_from(place, &mut known)).collect()
    }

    fn moves_from(&self, place: usize, known: &mut Vec<Option<usize>>) -> usize {
        if let Some(moves) = known[place] {
            return moves;
        }
        let followers = self.moves(&self.fields[place]);
        let moves =
            followers.into_iter().map(|(_, after)| 1 + self.moves_from(self.places[&shape(&after)], known));
        let most = moves.max().unwrap_or(0);
        known[place] = Some(most);
        most
    }

    /// Accepted moves without misses, each with the field after it.
    fn moves(&self, field: &Field) -> Vec<(Request, Field)> {
        let wanted = |request: &Request| matches!(request.kind, 3..=9 | 11);
        requests(field)
            .into_iter()
            .filter(wanted)
            .filter_map(|request| stepped(field, &request).ok().map(|after| (request, after)))
            .collect()
    }

    /// A longest list of moves from a field, ticks left out.
    pub fn longest_from(&self, place: usize, most: &[usize]) -> Vec<Request> {
        let mut field = self.fields[place].clone();
        let mut way = Vec::new();
        while let Some((request, after)) =
            self.moves(&field).into_iter().max_by_key(|(_, after)| most[self.places[&shape(after)]])
        {
            way.push(request);
            field = after;
        }
        way
    }
}

/// Whether a request of kinds 3 to 8 or 11 is accepted.
pub fn somebody_can_move(field: &Field) -> bool {
    requests(field)
        .into_iter()
        .filter(|request| matches!(request.kind, 3..=8 | 11))
        .any(|request| field.clone().step(&request).is_ok())
}

/// The zones of a field, for reading: `zone:number/fix` in zone order.
pub fn describe(field: &Field) -> String {
    let describe_one = |(zone, aircraft): (Zone, &Aircraft)| {
        format!("{}:{}/{}", zone.number(), aircraft.number, aircraft.fix.number())
    };
    field.everyone().map(describe_one).collect::<Vec<_>>().join(" ")
}

/// Hands on every field within the bounds, reached or not, numbers and miles aside. They are 1, 2 and so on along
/// the sequence, then the runway, all of desk 1; each has its own speed, miles and miles waited, and after a miss its own leg.
pub fn each_within_bounds(mut each: impl FnMut(&Field)) {
    for next_fix in Side::BOTH {
        let none = Field { next_fix, ..Field::empty(Legs::from_64ths([64; 4])) };
        each_longer(&none, next_fix, &mut each);
    }
}

/// The field with the runway empty and taken; then those that have more behind in sequence, the next with this fix.
fn each_longer(field: &Field, fix: Side, each: &mut impl FnMut(&Field)) {
    each(field);
    let number = field.sequence.len() as u16 + 1;
    for fix in Side::BOTH {
        let mut landed = field.clone();
        landed.zone_mut(Zone::Runway).push_back(distinct(number, fix, Zone::Runway));
        each(&landed);
    }
    for zone in Zone::ALL.into_iter().filter(|zone| zone.is_operation()) {
        for place in 0..=field.zone(zone).len() {
            let mut longer = field.clone();
            longer.zone_mut(zone).insert(place, distinct(number, fix, zone));
            longer.sequence.push_back(number);
            longer.next_fix = fix.opposite();
            // One more behind in sequence mends no bound.
            if longer.within_bounds() {
                each_longer(&longer, longer.next_fix, each);
            }
        }
    }
}

fn distinct(number: u16, fix: Side, zone: Zone) -> Aircraft {
    let part = f64::from(number) / 8.0;
    let (progress, leg) = match zone {
        Zone::Missed(_) => (Progress::Flying(part), 1.0 + part),
        _ if zone.is_flying() => (Progress::Flying(part), 1.0),
        _ => (Progress::Waiting, 0.0),
    };
    Aircraft { number, fix, speed: 100 + number, progress, waited: 2.0 + part, leg, desk: FIRST_DESK }
}
