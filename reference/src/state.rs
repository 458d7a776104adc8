//! The state that a host program lends (`include/baguymo.h`): any 15,605 bytes as fields with their indexes, and back.

use std::collections::VecDeque;

use crate::field::{Aircraft, Field, Legs, Progress, Side, Zone};
use crate::history::{History, KEPT};
use crate::index::{Entry, Index, Indexed};

/// Places in every queue and in the sequence.
const PLACES: usize = 4;
/// An aircraft: number, fix, desk, speed, progress, miles waited, own leg.
pub const AIRCRAFT: usize = 2 + 1 + 1 + 2 + 8 + 8 + 8;
/// A queue: its places and its length.
pub const QUEUE: usize = PLACES * AIRCRAFT + 8;
/// A field with its index: zones, sequence with its length, next fix, legs, index.
pub const FIELD: usize = 13 * QUEUE + PLACES * 2 + 8 + 1 + 4 * 8 + 5 * 4;
/// The field, the kept ones, and how many of them count.
pub const STATE: usize = (1 + KEPT) * FIELD + 8;

pub type Bytes = [u8; STATE];

/// The progress of one that waits.
pub const WAITING: u64 = u64::MAX;
/// The one NaN that is written.
pub const NAN: u64 = 0x7ff8_0000_0000_0000;

/// Bytes that are read from the first on.
struct Reader<'a>(&'a [u8]);

impl Reader<'_> {
    fn take<const N: usize>(&mut self) -> [u8; N] {
        let (first, rest) = self.0.split_first_chunk().expect("as many bytes as the layout has");
        self.0 = rest;
        *first
    }

    fn u8(&mut self) -> u8 {
        u8::from_le_bytes(self.take())
    }

    fn u16(&mut self) -> u16 {
        u16::from_le_bytes(self.take())
    }

    fn u64(&mut self) -> u64 {
        u64::from_le_bytes(self.take())
    }

    /// The bits of a float; those of the one NaN for every NaN.
    fn float(&mut self) -> u64 {
        let bits = self.u64();
        if f64::from_bits(bits).is_nan() {
            NAN
        } else {
            bits
        }
    }

    /// All bits set where it waits, else the bits of the miles flown.
    fn progress(&mut self) -> u64 {
        match self.0.starts_with(&WAITING.to_le_bytes()) {
            true => self.u64(),
            false => self.float(),
        }
    }
}

/// One place of a queue, whoever is in it; floats as their bits.
#[derive(Clone, Copy, Debug, PartialEq, Eq)]
pub struct Place {
    pub number: u16,
    pub fix: u8,
    pub desk: u8,
    pub speed: u16,
    pub progress: u64,
    pub waited: u64,
    pub leg: u64,
}

impl Place {
    /// All zero and waiting.
    pub const FREE: Place =
        Place { number: 0, fix: 0, desk: 0, speed: 0, progress: WAITING, waited: 0, leg: 0 };

    fn read(from: &mut Reader) -> Place {
        Place {
            number: from.u16(),
            fix: from.u8(),
            desk: from.u8(),
            speed: from.u16(),
            progress: from.progress(),
            waited: from.float(),
            leg: from.float(),
        }
    }

    fn write(&self, to: &mut Vec<u8>) {
        to.extend(self.number.to_le_bytes());
        to.extend([self.fix, self.desk]);
        to.extend(self.speed.to_le_bytes());
        [self.progress, self.waited, self.leg].iter().for_each(|bits| to.extend(bits.to_le_bytes()));
    }

    fn of(aircraft: &Aircraft) -> Place {
        let &Aircraft { number, fix, speed, progress, waited, leg, desk } = aircraft;
        let progress = match progress {
            Progress::Waiting => WAITING,
            Progress::Flying(miles) => miles.to_bits(),
        };
        let (waited, leg) = (waited.to_bits(), leg.to_bits());
        Place { number, fix: fix.number(), desk, speed, progress, waited, leg }
    }

    /// Who is in it; none where its fix is no side, which breaks bound g.
    fn aircraft(&self) -> Option<Aircraft> {
        let &Place { number, fix, desk, speed, progress, waited, leg } = self;
        let progress = match progress {
            WAITING => Progress::Waiting,
            miles => Progress::Flying(f64::from_bits(miles)),
        };
        let (waited, leg) = (f64::from_bits(waited), f64::from_bits(leg));
        Some(Aircraft { number, fix: Side::from_number(fix)?, speed, progress, waited, leg, desk })
    }

    /// All zero and waiting, where a float's zero may have either sign (document 02, 2.2).
    fn is_free(&self) -> bool {
        let is_zero = |bits| f64::from_bits(bits) == 0.0;
        let other = Place { waited: 0, leg: 0, ..*self };
        other == Place::FREE && is_zero(self.waited) && is_zero(self.leg)
    }
}

/// A queue with every place, also past its length.
#[derive(Clone, Debug, PartialEq, Eq)]
pub struct Queue {
    pub places: [Place; PLACES],
    pub length: u64,
}

impl Queue {
    const EMPTY: Queue = Queue { places: [Place::FREE; PLACES], length: 0 };

    fn read(from: &mut Reader) -> Queue {
        Queue { places: [(); PLACES].map(|()| Place::read(from)), length: from.u64() }
    }

    fn write(&self, to: &mut Vec<u8>) {
        self.places.iter().for_each(|place| place.write(to));
        to.extend(self.length.to_le_bytes());
    }

    /// Those within the length, if it fits, and if the places past it are free.
    fn aircraft(&self) -> Option<VecDeque<Aircraft>> {
        let (used, free) = split(&self.places, self.length)?;
        match free.iter().all(Place::is_free) {
            true => used.iter().map(Place::aircraft).collect(),
            false => None,
        }
    }

    /// The queue after a step. Where heads have left, all places move up and the last ones are free anew; who has come stands behind
    /// the others. A place past the length is one that was there, with the signs of its zeros.
    fn after(&self, queue: &VecDeque<Aircraft>) -> Queue {
        let before = &self.places[..self.length as usize];
        let stay = |left: &usize| {
            let staying = before[*left..].iter().map(|place| place.number);
            queue.iter().map(|aircraft| aircraft.number).take(before.len() - left).eq(staying)
        };
        let left = (0..=before.len()).find(stay).expect("nobody stays where all have left");
        let mut places = self.places;
        places.rotate_left(left);
        places[PLACES - left..].fill(Place::FREE);
        places.iter_mut().zip(queue).for_each(|(place, aircraft)| *place = Place::of(aircraft));
        Queue { places, length: queue.len() as u64 }
    }
}

/// What is within a length, and what is past it; none if it does not fit.
fn split<T>(places: &[T], length: u64) -> Option<(&[T], &[T])> {
    places.split_at_checked(usize::try_from(length).ok()?)
}

/// A field with its index as it is stored, every place of it.
#[derive(Clone, Debug, PartialEq, Eq)]
pub struct Stored {
    pub zones: [Queue; 13],
    pub sequence: [u16; PLACES],
    pub sequence_length: u64,
    pub next_fix: u8,
    /// Missed, base, intermediate and final, the bits of each.
    pub legs: [u64; 4],
    pub index: Index,
}

impl Stored {
    /// A field with its index, and nothing past its lengths.
    pub fn new(indexed: &Indexed) -> Stored {
        let empty = Stored {
            zones: [Queue::EMPTY; 13],
            sequence: [0; PLACES],
            sequence_length: 0,
            next_fix: 0,
            legs: [0; 4],
            index: Index::default(),
        };
        empty.after(indexed)
    }

    fn read(from: &mut Reader) -> Stored {
        Stored {
            zones: [(); 13].map(|()| Queue::read(from)),
            sequence: [(); PLACES].map(|()| from.u16()),
            sequence_length: from.u64(),
            next_fix: from.u8(),
            legs: [(); 4].map(|()| from.float()),
            index: Index([(); 5].map(|()| Entry { number: from.u16(), zone: from.u8(), place: from.u8() })),
        }
    }

    fn write(&self, to: &mut Vec<u8>) {
        self.zones.iter().for_each(|queue| queue.write(to));
        self.sequence.iter().for_each(|number| to.extend(number.to_le_bytes()));
        to.extend(self.sequence_length.to_le_bytes());
        to.push(self.next_fix);
        self.legs.iter().for_each(|bits| to.extend(bits.to_le_bytes()));
        for Entry { number, zone, place } in self.index.0 {
            to.extend(number.to_le_bytes());
            to.extend([zone, place]);
        }
    }

    /// The field with its index. None where it breaks a bound that no such field can: a length that does not fit, a place past a length that
    /// is not free, a side that is none. The other bounds are not asked.
    pub fn indexed(&self) -> Option<Indexed> {
        let (sequence, past) = split(&self.sequence, self.sequence_length)?;
        if past.iter().any(|&number| number != 0) {
            return None;
        }
        let [missed, base, intermediate, final_] = self.legs.map(f64::from_bits);
        let mut field = Field::empty(Legs { base, intermediate, final_, missed });
        for (zone, queue) in Zone::ALL.into_iter().zip(&self.zones) {
            *field.zone_mut(zone) = queue.aircraft()?;
        }
        field.sequence = sequence.iter().copied().collect();
        field.next_fix = Side::from_number(self.next_fix)?;
        Some(Indexed { field, index: self.index })
    }

    /// The same after a step.
    fn after(&self, Indexed { field, index }: &Indexed) -> Stored {
        let mut after = self.clone();
        for (queue, zone) in after.zones.iter_mut().zip(Zone::ALL) {
            *queue = queue.after(field.zone(zone));
        }
        after.sequence = [0; PLACES];
        after.sequence.iter_mut().zip(&field.sequence).for_each(|(place, &number)| *place = number);
        after.sequence_length = field.sequence.len() as u64;
        after.next_fix = field.next_fix.number();
        let Legs { base, intermediate, final_, missed } = field.legs;
        after.legs = [missed, base, intermediate, final_].map(f64::to_bits);
        after.index = *index;
        after
    }
}

/// The whole state, the kept fields past the count too.
#[derive(Clone, Debug, PartialEq, Eq)]
pub struct State {
    pub field: Stored,
    pub kept: [Stored; KEPT],
    pub count: u64,
}

impl State {
    /// The state of a history of which nothing lies past a length.
    pub fn new(history: &History) -> State {
        let kept = std::array::from_fn(|at| Stored::new(&history.kept[at]));
        State { field: Stored::new(&history.field), kept, count: history.count as u64 }
    }

    pub fn read(bytes: &Bytes) -> State {
        let mut from = Reader(bytes);
        let field = Stored::read(&mut from);
        let kept = [(); KEPT].map(|()| Stored::read(&mut from));
        State { field, kept, count: from.u64() }
    }

    pub fn to_bytes(&self) -> Bytes {
        let mut bytes = Vec::with_capacity(STATE);
        self.field.write(&mut bytes);
        self.kept.iter().for_each(|kept| kept.write(&mut bytes));
        bytes.extend(self.count.to_le_bytes());
        bytes.try_into().expect("as many bytes as the layout has")
    }

    /// The field with the kept ones that count; the empty field stands in the places past the count. None where more than eight count, or
    /// where one breaks a bound that no field with its index can. The other bounds are not asked.
    pub fn history(&self) -> Option<History> {
        let (counted, _) = split(&self.kept, self.count)?;
        let mut history = History::new(self.field.indexed()?);
        for (place, kept) in history.kept.iter_mut().zip(counted) {
            *place = kept.indexed()?;
        }
        history.count = counted.len();
        Some(history)
    }

    /// An accepted request leads to a field, and the one before it is kept; of eight the oldest is dropped.
    pub fn accepted(&mut self, after: &Indexed) {
        let after = self.field.after(after);
        let before = std::mem::replace(&mut self.field, after);
        if self.count == KEPT as u64 {
            self.kept.rotate_left(1);
            self.count -= 1;
        }
        self.kept[self.count as usize] = before;
        self.count += 1;
    }

    /// A step back: the last that counts is the field, and stays where it is.
    pub fn taken_back(&mut self) {
        self.count -= 1;
        self.field = self.kept[self.count as usize].clone();
    }
}
