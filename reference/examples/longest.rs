//! Prints the longest practice file in readable form: 4,096 requests from a
//! fixed seed. 19 in 32 are picked among those that the field accepts,
//! one in 32 has a damaged part, the others are drawn blindly.

use reference::{Field, PracticeFile, Request};

const SEED: u64 = 20040301;
const REQUESTS: usize = 4096;
const LEGS: [u16; 4] = [64, 96, 80, 112];
const NUMBERS: [u16; 5] = [1, 255, 256, 40_000, 65_535];
const SPEEDS: [u16; 6] = [63, 64, 100, 250, 511, 512];
const TICKS: [u16; 4] = [7, 32, 63, 64];
/// How often a kind is tried when an accepted one is looked for.
const WEIGHTS: [usize; 12] = [60, 60, 1, 6, 30, 30, 90, 3, 10, 10, 20, 6];

struct Dice(u64);

impl Dice {
    fn below(&mut self, n: usize) -> usize {
        self.0 = self.0.wrapping_mul(6364136223846793005).wrapping_add(1442695040888963407);
        (self.0 >> 33) as usize % n
    }

    fn pick<T: Copy>(&mut self, among: &[T]) -> T {
        among[self.below(among.len())]
    }

    fn kind(&mut self) -> u8 {
        let mut left = self.below(WEIGHTS.iter().sum());
        for (index, weight) in WEIGHTS.into_iter().enumerate() {
            if left < weight {
                return index as u8 + 1;
            }
            left -= weight;
        }
        unreachable!("the weights are used up")
    }

    fn request(&mut self) -> Request {
        match 1 + self.below(12) as u8 {
            kind @ 1..=2 => {
                Request::new(kind, 1 + self.below(2) as u8, self.pick(&NUMBERS), self.pick(&SPEEDS))
            }
            12 => Request::new(12, 0, 0, self.pick(&TICKS)),
            kind => Request::new(kind, 0, self.pick(&NUMBERS), 0),
        }
    }

    fn damaged(&mut self) -> Request {
        let mut request = self.request();
        match self.below(4) {
            0 => request.kind = self.pick(&[0, 13, 128, 255]),
            1 => request.side = self.pick(&[0, 1, 2, 3, 255]),
            2 => request.number = self.pick(&[0, 2, 32_768]),
            _ => request.amount = self.pick(&[0, 65, 513, 65_535]),
        }
        request
    }

    /// A kind that the field accepts now, by weight; then one such request.
    fn accepted(&mut self, field: &Field) -> Request {
        let all = every_request();
        loop {
            let kind = self.kind();
            let of_kind: Vec<Request> = all
                .iter()
                .copied()
                .filter(|request| request.kind == kind && field.clone().step(request).is_ok())
                .collect();
            // A tick is always accepted, so this ends.
            if !of_kind.is_empty() {
                return self.pick(&of_kind);
            }
        }
    }
}

fn every_request() -> Vec<Request> {
    let mut all: Vec<Request> = TICKS.iter().map(|&amount| Request::new(12, 0, 0, amount)).collect();
    for number in NUMBERS {
        all.extend((3..=11).map(|kind| Request::new(kind, 0, number, 0)));
        for (kind, side) in [(1, 1), (1, 2), (2, 1), (2, 2)] {
            all.extend(SPEEDS.iter().map(|&speed| Request::new(kind, side, number, speed)));
        }
    }
    all
}

fn main() {
    let mut dice = Dice(SEED);
    let practice = PracticeFile { legs_64ths: LEGS, requests: Vec::new() };
    let mut field = Field::empty(practice.legs());
    println!("64 96 80 112");
    println!("# The longest file, from seed {SEED}.");
    for _ in 0..REQUESTS {
        let request = match dice.below(32) {
            0..=18 => dice.accepted(&field),
            19 => dice.damaged(),
            _ => dice.request(),
        };
        // Accepted or refused, the next one sees the field that this one left.
        let _ = field.step(&request);
        let Request { kind, side, number, amount, .. } = request;
        println!("{kind} {side} {number} {amount}");
    }
}
