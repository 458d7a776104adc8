//! The field: zones, sequence, next fix, legs; its bounds; and one step.

mod bounds;
mod step;

use std::collections::VecDeque;
use std::fmt;

use crate::refusal::Refusal;
use crate::request::{Call, Newcomer, Request, DESKS, FASTEST};

#[derive(Clone, Copy, Debug, PartialEq, Eq, Hash)]
pub enum Side {
    Right,
    Left,
}

impl Side {
    pub const BOTH: [Side; 2] = [Side::Right, Side::Left];

    pub fn from_number(number: u8) -> Option<Side> {
        match number {
            1 => Some(Side::Right),
            2 => Some(Side::Left),
            _ => None,
        }
    }

    pub fn number(self) -> u8 {
        match self {
            Side::Right => 1,
            Side::Left => 2,
        }
    }

    pub fn opposite(self) -> Side {
        match self {
            Side::Right => Side::Left,
            Side::Left => Side::Right,
        }
    }
}

#[derive(Clone, Copy, Debug, PartialEq, Eq, Hash)]
pub enum Zone {
    Holding3(Side),
    Holding2(Side),
    Lateral(Side),
    Missed(Side),
    Base(Side),
    Intermediate,
    Final,
    Runway,
}

use Side::{Left, Right};
use Zone::{Base, Final, Holding2, Holding3, Intermediate, Lateral, Missed, Runway};

impl Zone {
    /// In number order, 1 to 13.
    pub const ALL: [Zone; 13] = [
        Holding3(Right),
        Holding3(Left),
        Holding2(Right),
        Holding2(Left),
        Lateral(Right),
        Lateral(Left),
        Missed(Right),
        Missed(Left),
        Base(Right),
        Base(Left),
        Intermediate,
        Final,
        Runway,
    ];

    pub fn number(self) -> u8 {
        match self {
            Holding3(side) => side.number(),
            Holding2(side) => 2 + side.number(),
            Lateral(side) => 4 + side.number(),
            Missed(side) => 6 + side.number(),
            Base(side) => 8 + side.number(),
            Intermediate => 11,
            Final => 12,
            Runway => 13,
        }
    }

    /// The side whose area this zone is in.
    pub fn area(self) -> Option<Side> {
        match self {
            Holding3(side) | Holding2(side) | Lateral(side) | Missed(side) => Some(side),
            Base(_) | Intermediate | Final | Runway => None,
        }
    }

    pub fn is_approach(self) -> bool {
        matches!(self, Base(_) | Intermediate | Final)
    }

    pub fn is_operation(self) -> bool {
        self != Runway
    }

    pub fn is_flying(self) -> bool {
        matches!(self, Missed(_)) || self.is_approach()
    }
}

#[derive(Clone, Copy, Debug, PartialEq)]
pub enum Progress {
    Waiting,
    /// Miles flown on this leg.
    Flying(f64),
}

impl Progress {
    /// Miles flown on this leg; 0 while waiting.
    pub fn miles(self) -> f64 {
        match self {
            Progress::Waiting => 0.0,
            Progress::Flying(miles) => miles,
        }
    }
}

#[derive(Clone, Copy, Debug, PartialEq)]
pub struct Aircraft {
    pub number: u16,
    pub fix: Side,
    /// 64ths of a nautical mile per minute.
    pub speed: u16,
    pub progress: Progress,
    /// Miles that it would have flown past the ends of its legs, since its entry.
    pub waited: f64,
    /// Length of its own leg in miles; 0 while it waits.
    pub leg: f64,
    /// The desk that let it in.
    pub desk: u8,
}

/// The most miles that are added up as waited.
pub const MOST_WAITED: f64 = 4096.0;

/// The longest leg after a miss: all of final, and then the missed leg.
pub const LONGEST_MISSED: f64 = 128.0;

/// Lengths of the legs in miles.
#[derive(Clone, Copy, Debug, PartialEq)]
pub struct Legs {
    pub base: f64,
    pub intermediate: f64,
    pub final_: f64,
    pub missed: f64,
}

impl Legs {
    /// Base, intermediate, final, missed, as in a practice file.
    pub fn from_64ths(legs: [u16; 4]) -> Legs {
        let [base, intermediate, final_, missed] = legs.map(|leg| f64::from(leg) / 64.0);
        Legs { base, intermediate, final_, missed }
    }

    /// The field's leg in a zone; none where aircraft wait.
    pub fn of(&self, zone: Zone) -> Option<f64> {
        match zone {
            Missed(_) => Some(self.missed),
            Base(_) => Some(self.base),
            Intermediate => Some(self.intermediate),
            Final => Some(self.final_),
            Holding3(_) | Holding2(_) | Lateral(_) | Runway => None,
        }
    }
}

/// What an accepted request answers, besides its 0.
#[derive(Clone, Copy, Debug, PartialEq, Eq)]
pub struct Answer {
    pub aircraft: u16,
    pub zone: u8,
    pub fix: u8,
    pub leader: u16,
    pub along: u16,
}

impl Answer {
    pub const ZEROS: Answer = Answer { aircraft: 0, zone: 0, fix: 0, leader: 0, along: 0 };
}

impl fmt::Display for Answer {
    /// Its five numbers, as they stand in a line of a report.
    fn fmt(&self, f: &mut fmt::Formatter) -> fmt::Result {
        let Answer { aircraft, zone, fix, leader, along } = self;
        write!(f, "{aircraft} {zone} {fix} {leader} {along}")
    }
}

/// One letter for each bound of the paper.
#[derive(Clone, Copy, Debug, PartialEq, Eq)]
pub enum Bound {
    A,
    B,
    C,
    D,
    E,
    F,
    G,
}

/// Places in every queue and in the sequence.
const PLACES: usize = 4;

#[derive(Clone, Debug, PartialEq)]
pub struct Field {
    /// A queue for each of `Zone::ALL`, its head first.
    pub zones: [VecDeque<Aircraft>; 13],
    /// Numbers, in landing order.
    pub sequence: VecDeque<u16>,
    pub next_fix: Side,
    pub legs: Legs,
}

impl Field {
    pub fn empty(legs: Legs) -> Field {
        Field { zones: Default::default(), sequence: VecDeque::new(), next_fix: Right, legs }
    }

    pub fn zone(&self, zone: Zone) -> &VecDeque<Aircraft> {
        &self.zones[usize::from(zone.number()) - 1]
    }

    pub fn zone_mut(&mut self, zone: Zone) -> &mut VecDeque<Aircraft> {
        &mut self.zones[usize::from(zone.number()) - 1]
    }

    fn is_empty(&self, zone: Zone) -> bool {
        self.zone(zone).is_empty()
    }

    /// Everyone, with the zone they are in.
    pub fn everyone(&self) -> impl Iterator<Item = (Zone, &Aircraft)> {
        Zone::ALL.into_iter().zip(&self.zones).flat_map(|(zone, queue)| queue.iter().map(move |a| (zone, a)))
    }

    pub fn in_operation(&self) -> impl Iterator<Item = (Zone, &Aircraft)> {
        self.everyone().filter(|(zone, _)| zone.is_operation())
    }

    /// Aircraft on the field, the runway included.
    pub fn present(&self) -> usize {
        self.zones.iter().map(VecDeque::len).sum()
    }

    pub fn find(&self, number: u16) -> Option<(Zone, &Aircraft)> {
        self.everyone().find(|(_, aircraft)| aircraft.number == number)
    }

    /// The one just ahead in the sequence.
    pub fn leader(&self, number: u16) -> Option<u16> {
        let place = self.sequence.iter().position(|&n| n == number)?;
        self.sequence.get(place.checked_sub(1)?).copied()
    }

    fn is_first(&self, number: u16) -> bool {
        self.sequence.front() == Some(&number)
    }

    /// First in sequence, or the leader's zone is as asked.
    fn is_first_or_follows(&self, number: u16, leader_zone: impl Fn(Zone) -> bool) -> bool {
        self.is_first(number)
            || self
                .leader(number)
                .and_then(|leader| self.find(leader))
                .is_some_and(|(zone, _)| leader_zone(zone))
    }

    /// Everyone in the side's area, and everyone elsewhere with that fix.
    pub fn potential(&self, side: Side) -> usize {
        self.in_operation()
            .filter(|(zone, aircraft)| zone.area() == Some(side) || aircraft.fix == side)
            .count()
    }

    fn approach_holds(&self, fix: Side) -> bool {
        self.everyone().any(|(zone, aircraft)| zone.is_approach() && aircraft.fix == fix)
    }
}
