//! Random sessions. The reference's field is played along, so that most
//! requests make sense where they stand.

use crate::dice::Dice;
use reference::{Aircraft, Field, PracticeFile, Refusal, Request, Zone};

/// What one session is drawn by.
pub struct Habits {
    numbers: [u16; 6],
    speeds: [u16; 3],
    ticks: [u16; 3],
    /// Weights of an entry, a tick and a move.
    weights: [usize; 3],
    /// In 8: a landing is missed, an intermediate exits, an entry is lateral.
    miss: usize,
    exit: usize,
    lateral: usize,
    /// In 64: the kind and the aircraft of a request are drawn blindly.
    blind: usize,
}

impl Habits {
    pub fn drawn(dice: &mut Dice) -> Habits {
        Habits {
            numbers: [(); 6].map(|()| number(dice)),
            speeds: [(); 3].map(|()| speed(dice)),
            ticks: [(); 3].map(|()| tick_amount(dice)),
            weights: [dice.between(1, 6), dice.between(1, 4), dice.between(4, 12)],
            miss: dice.pick(&[0, 2, 4, 6]),
            exit: dice.pick(&[0, 1, 4]),
            lateral: dice.pick(&[0, 3, 4, 8]),
            blind: dice.pick(&[0, 4, 16, 40]),
        }
    }

    /// The next request on a field, by the desk of the aircraft that is meant where it is drawn by where that is.
    pub fn request(&self, dice: &mut Dice, field: &Field) -> Request {
        match dice.below(64) {
            0 => self.damaged(dice),
            1 => any_request(dice),
            draw if draw < 2 + self.blind => self.blind_request(dice),
            _ => self.sensible(dice, field),
        }
    }

    /// A request that passes the input rules.
    fn blind_request(&self, dice: &mut Dice) -> Request {
        match dice.between(1, 12) {
            kind @ 1..=2 => self.entry(dice, kind as u8),
            12 => self.tick(dice),
            kind => Request::new(kind as u8, 0, dice.pick(&self.numbers), 0),
        }
    }

    fn entry(&self, dice: &mut Dice, kind: u8) -> Request {
        Request::new(kind, dice.between(1, 2) as u8, dice.pick(&self.numbers), dice.pick(&self.speeds))
    }

    fn tick(&self, dice: &mut Dice) -> Request {
        Request::new(12, 0, 0, dice.pick(&self.ticks))
    }

    /// One part of a request changed.
    fn damaged(&self, dice: &mut Dice) -> Request {
        let mut request = self.blind_request(dice);
        match dice.below(4) {
            0 => request.kind = dice.pick(&[0, 13, 14, 128, 255]),
            1 => request.side = dice.pick(&[0, 1, 2, 3, 4, 255]),
            2 => request.number = dice.pick(&[0, 0, 1, 32_768]),
            _ => request.amount = dice.pick(&[0, 1, 64, 65, 512, 513, 32_768, 65_535]),
        }
        request
    }

    /// An entry, a tick, or what an aircraft would ask for where it is.
    fn sensible(&self, dice: &mut Dice, field: &Field) -> Request {
        let there: Vec<(Zone, Aircraft)> =
            field.everyone().map(|(zone, &aircraft)| (zone, aircraft)).collect();
        let choice = if there.is_empty() { 0 } else { dice.weighted(&self.weights) };
        match choice {
            0 => self.sensible_entry(dice, &there),
            1 => self.tick(dice),
            _ => {
                let (zone, aircraft) = dice.pick(&there);
                let request =
                    Request::new(self.kind_from(dice, zone), 0, aircraft.number, 0).by(aircraft.desk);
                let early = field.clone().step(&request) == Err(Refusal::LegNotFlownOut);
                // Mostly it waits until its leg is flown out.
                if early && !dice.once_in(8) {
                    self.tick(dice)
                } else {
                    request
                }
            }
        }
    }

    /// An entry, mostly of one who is not there.
    fn sensible_entry(&self, dice: &mut Dice, there: &[(Zone, Aircraft)]) -> Request {
        let kind = if dice.below(8) < self.lateral { 2 } else { 1 };
        let mut request = self.entry(dice, kind);
        let new = |number: &u16| there.iter().all(|(_, aircraft)| aircraft.number != *number);
        let others: Vec<u16> = self.numbers.into_iter().filter(new).collect();
        if !others.is_empty() && !dice.once_in(8) {
            request.number = dice.pick(&others);
        }
        request
    }

    /// A kind that starts from a zone.
    fn kind_from(&self, dice: &mut Dice, zone: Zone) -> u8 {
        match zone {
            Zone::Holding3(_) => 3,
            Zone::Holding2(_) | Zone::Lateral(_) => 4,
            Zone::Missed(_) => 11,
            Zone::Base(_) => 5,
            Zone::Intermediate => {
                if dice.below(8) < self.exit {
                    9
                } else {
                    6
                }
            }
            Zone::Final => {
                if dice.below(8) < self.miss {
                    10
                } else {
                    7
                }
            }
            Zone::Runway => 8,
        }
    }
}

fn number(dice: &mut Dice) -> u16 {
    let edge = dice.pick(&[1, 2, 255, 256, 32_768, 65_534, 65_535]);
    let any = dice.between(1, 65_535) as u16;
    dice.pick(&[edge, any])
}

fn speed(dice: &mut Dice) -> u16 {
    let edge = dice.pick(&[1, 2, 63, 64, 65, 256, 511, 512]);
    let any = dice.between(1, 512) as u16;
    let fast = dice.between(200, 512) as u16;
    dice.pick(&[edge, any, fast])
}

fn tick_amount(dice: &mut Dice) -> u16 {
    let edge = dice.pick(&[1, 2, 31, 32, 33, 63, 64]);
    let any = dice.between(1, 64) as u16;
    dice.pick(&[edge, any, 64])
}

/// Four legs, short in most files.
pub fn legs(dice: &mut Dice) -> [u16; 4] {
    let longest = dice.pick(&[4, 64, 64, 512, 4096]);
    [(); 4].map(|()| leg(dice, longest))
}

fn leg(dice: &mut Dice, longest: usize) -> u16 {
    if dice.once_in(4) {
        dice.pick(&[1, 2, 63, 64, 65, 100])
    } else {
        dice.between(1, longest) as u16
    }
}

/// A request of any six bytes, most of them small.
pub fn any_request(dice: &mut Dice) -> Request {
    let [kind, side, n0, n1, a0, a1] =
        [(); 6].map(|()| if dice.once_in(2) { dice.byte() % 14 } else { dice.byte() });
    Request::from_bytes([kind, side, n0, n1, a0, a1])
}

/// How many requests a session has: 4,096 once in 512.
pub fn length(dice: &mut Dice) -> usize {
    match dice.below(512) {
        0 => 4096,
        1..=32 => dice.between(0, 4),
        _ => dice.between(5, 240),
    }
}

/// A valid practice file.
pub fn session(dice: &mut Dice) -> Vec<u8> {
    let length = length(dice);
    session_of(dice, length)
}

/// A valid practice file with this many requests.
pub fn session_of(dice: &mut Dice, length: usize) -> Vec<u8> {
    let legs_64ths = legs(dice);
    let habits = Habits::drawn(dice);
    drawn(dice, legs_64ths, &habits, length).to_bytes()
}

/// A practice file whose legs and speeds are the least and the greatest that are allowed.
pub fn at_the_edges(dice: &mut Dice) -> Vec<u8> {
    let legs_64ths = [(); 4].map(|()| dice.pick(&[1, 4096]));
    let habits = Habits { speeds: [(); 3].map(|()| dice.pick(&[1, 512])), ..Habits::drawn(dice) };
    let length = dice.between(1, 100);
    drawn(dice, legs_64ths, &habits, length).to_bytes()
}

/// Four who have come in at the least speed, on the longest legs.
pub fn slowest() -> Vec<u8> {
    let requests = (1..=4).map(|number| Request::new(1, 2 - number as u8 % 2, number, 1)).collect();
    PracticeFile { legs_64ths: [4096; 4], requests }.to_bytes()
}

/// Two on opposite bases, the second behind the first by so many 4096ths of a mile.
pub fn apart(gap: usize) -> Vec<u8> {
    let ready = [(1, 1, 1, 2), (1, 2, 2, 1), (3, 0, 1, 0), (3, 0, 2, 0), (4, 0, 1, 0), (4, 0, 2, 0)];
    let ready = ready.map(|(kind, side, number, amount)| Request::new(kind, side, number, amount));
    let mut practice = PracticeFile { legs_64ths: [4096; 4], requests: ready.to_vec() };
    // A 64th of a minute makes a 4096th of a mile.
    let mut left = gap as u16;
    while left > 0 {
        let amount = left.min(64);
        practice.requests.push(Request::new(12, 0, 0, amount));
        left -= amount;
    }
    practice.to_bytes()
}

/// A session as in practice: legs of two to five miles, 90 to 180 knots, ticks
/// of half a minute or a minute, few misses and exits, some requests in error.
pub fn typical(dice: &mut Dice, length: usize) -> PracticeFile {
    let habits = Habits {
        numbers: [101, 102, 203, 304, 405, 506],
        speeds: [96, 128, 192],
        ticks: [32, 64, 64],
        weights: [2, 2, 6],
        miss: 2,
        exit: 1,
        lateral: 3,
        blind: 6,
    };
    drawn(dice, [192, 128, 320, 256], &habits, length)
}

fn drawn(dice: &mut Dice, legs_64ths: [u16; 4], habits: &Habits, length: usize) -> PracticeFile {
    let mut practice = PracticeFile { legs_64ths, requests: Vec::new() };
    let mut field = Field::empty(practice.legs());
    for _ in 0..length {
        let request = habits.request(dice, &field);
        // Accepted or refused, the next one sees the field that this one left.
        let _ = field.step(&request);
        practice.requests.push(request);
    }
    practice
}
