//! Fields and requests for the tests.
#![allow(dead_code)]

pub mod classroom;
pub mod desks;
pub mod history;

use reference::explore::requests;
use reference::{Aircraft, Answer, Field, Legs, PracticeFile, Progress, Refusal, Request, Side, Zone};

pub fn empty() -> Field {
    Field::empty(Legs::from_64ths([64; 4]))
}

/// One more at the end of a zone, at the start of its leg, and of the sequence, of desk 1.
pub fn put(field: &mut Field, zone: Zone, number: u16, fix: Side) {
    let (progress, leg) = match field.legs.of(zone) {
        Some(leg) => (Progress::Flying(0.0), leg),
        None => (Progress::Waiting, 0.0),
    };
    field.zone_mut(zone).push_back(Aircraft { number, fix, speed: 64, progress, waited: 0.0, leg, desk: 1 });
    if zone != Zone::Runway {
        field.sequence.push_back(number);
        field.next_fix = fix.opposite();
    }
}

/// A field of aircraft numbered from 1, in sequence order.
pub fn field(aircraft: &[(Zone, Side)]) -> Field {
    let mut field = empty();
    for (number, &(zone, fix)) in (1..).zip(aircraft) {
        put(&mut field, zone, number, fix);
    }
    field
}

pub fn ask(field: &mut Field, kind: u8, side: u8, number: u16, amount: u16) -> Result<Answer, Refusal> {
    field.step(&Request::new(kind, side, number, amount))
}

/// Asks and gives the answer as the six numbers of a report line.
pub fn line(field: &mut Field, kind: u8, side: u8, number: u16, amount: u16) -> [u16; 6] {
    match ask(field, kind, side, number, amount) {
        Ok(a) => [0, a.aircraft, a.zone.into(), a.fix.into(), a.leader, a.along],
        Err(refusal) => [refusal.number().into(), 0, 0, 0, 0, 0],
    }
}

pub fn refused(number: u16) -> [u16; 6] {
    [number, 0, 0, 0, 0, 0]
}

/// Plays requests that must all be accepted.
pub fn play(field: &mut Field, requests: &[(u8, u8, u16, u16)]) {
    for &(kind, side, number, amount) in requests {
        let answer = ask(field, kind, side, number, amount);
        assert!(answer.is_ok(), "{kind} {side} {number} {amount}: {answer:?}");
    }
}

/// From 2000 or lateral to final, a leg of one mile at a mile a minute each.
pub fn to_final(field: &mut Field, number: u16) {
    play(field, &[(4, 0, number, 0), (12, 0, 0, 64), (5, 0, number, 0), (12, 0, 0, 64), (6, 0, number, 0)]);
}

pub fn miles(field: &Field, number: u16) -> f64 {
    match field.find(number).expect("on the field").1.progress {
        Progress::Flying(miles) => miles,
        Progress::Waiting => panic!("{number} is waiting"),
    }
}

pub fn leg(field: &Field, number: u16) -> f64 {
    field.find(number).expect("on the field").1.leg
}

pub fn waited(field: &Field, number: u16) -> f64 {
    field.find(number).expect("on the field").1.waited
}

pub fn file(legs_64ths: [u16; 4], requests: &[(u8, u8, u16, u16)]) -> Vec<u8> {
    let requests = requests.iter().map(|&(k, s, n, a)| Request::new(k, s, n, a)).collect();
    PracticeFile { legs_64ths, requests }.to_bytes()
}

/// The report of a file, the same with the bounds checked and without.
pub fn report(file: &[u8]) -> String {
    let report = reference::report(file);
    assert_eq!(report, reference::report_unjudged(file));
    String::from_utf8(report).expect("ASCII")
}

/// Numbers drawn from a seed.
pub struct Dice(pub u64);

impl Dice {
    pub fn below(&mut self, n: usize) -> usize {
        self.0 = self.0.wrapping_mul(6364136223846793005).wrapping_add(1442695040888963407);
        (self.0 >> 33) as usize % n
    }

    pub fn pick<T: Copy>(&mut self, among: &[T]) -> T {
        among[self.below(among.len())]
    }

    /// A tick, so often in 16, or a request of any kind for somebody there or one new.
    pub fn request(&mut self, field: &Field, speeds: &[u16], ticks_in_16: usize) -> Request {
        if self.below(16) < ticks_in_16 {
            let amount = 1 + self.below(64) as u16;
            return Request::new(12, 0, 0, self.pick(&[amount, 64, 64]));
        }
        let mut request = self.pick(&requests(field));
        if request.kind <= 2 {
            request.amount = self.pick(speeds);
        }
        request
    }
}
