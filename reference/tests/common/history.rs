//! Histories for the tests.

use reference::{Aircraft, Field, History, Indexed, Progress, Request};

/// All of a field and of the index beside it, floats by their bits.
pub fn bits(indexed: &Indexed) -> Vec<u64> {
    let Indexed { field: Field { zones, sequence, next_fix, legs }, index } = indexed;
    let mut all = Vec::new();
    for queue in zones {
        all.push(queue.len() as u64);
        for &Aircraft { number, fix, speed, progress, waited, leg, desk } in queue {
            let (flies, miles) = match progress {
                Progress::Waiting => (0, 0),
                Progress::Flying(miles) => (1, miles.to_bits()),
            };
            all.extend([u64::from(number), fix.number().into(), speed.into(), flies, miles]);
            all.extend([waited, leg].map(f64::to_bits));
            all.push(desk.into());
        }
    }
    all.push(sequence.len() as u64);
    all.extend(sequence.iter().map(|&number| u64::from(number)));
    all.push(next_fix.number().into());
    all.extend([legs.base, legs.intermediate, legs.final_, legs.missed].map(f64::to_bits));
    for entry in index.0 {
        all.extend([u64::from(entry.number), entry.zone.into(), entry.place.into()]);
    }
    all
}

pub fn each_bits<'a>(fields: impl IntoIterator<Item = &'a Indexed>) -> Vec<Vec<u64>> {
    fields.into_iter().map(bits).collect()
}

/// All of a history: the field, the eight places, counted or not, and the count.
pub fn all_bits(history: &History) -> (Vec<u64>, Vec<Vec<u64>>, usize) {
    let History { field, kept, count } = history;
    (bits(field), each_bits(kept), *count)
}

/// The fields that count, by their bits.
pub fn kept_bits(history: &History) -> Vec<Vec<u64>> {
    each_bits(history.counted().expect("at most eight"))
}

/// Plays requests that must all be accepted.
pub fn play_on(history: &mut History, requests: &[(u8, u8, u16, u16)]) {
    for &(kind, side, number, amount) in requests {
        let answer = history.step(&Request::new(kind, side, number, amount));
        assert!(answer.is_ok(), "{kind} {side} {number} {amount}: {answer:?}");
    }
}

/// Steps back, with zeros for an answer; yields the number.
pub fn back(history: &mut History, desk: u8) -> u8 {
    match history.step_back(desk) {
        Ok(answer) => {
            assert_eq!(answer.to_string(), "0 0 0 0 0");
            0
        }
        Err(refusal) => refusal.number(),
    }
}

/// Requests that break an input rule, each with its number.
pub const UNREADABLE: [(Request, u8); 4] = [
    (Request { kind: 0, side: 0, number: 1, amount: 0, desk: 1 }, 1),
    (Request { kind: 2, side: 0, number: 9, amount: 64, desk: 1 }, 2),
    (Request { kind: 12, side: 0, number: 1, amount: 64, desk: 1 }, 3),
    (Request { kind: 1, side: 1, number: 9, amount: 513, desk: 1 }, 4),
];
