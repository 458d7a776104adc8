//! Legs and calls by two desks, requests and steps back, as bytes; those that
//! are answered, and those that are refused, or just about.

use crate::dice::Dice;
use crate::host_calls::{back, request};
use crate::sessions::{legs, length, Habits};
use reference::calls::{CALL, LONGEST_INPUT};
use reference::desks::reply_kept;
use reference::file::{LEGS_LENGTH, MOST_REQUESTS};
use reference::request::DESKS;
use reference::{Asked, Field, History, Legs, PracticeFile, Request};

const LEGS: [u16; 4] = [64, 128, 192, 4096];
/// Calls of a short list.
const SHORT: usize = 4;

/// Four legs and calls by two desks, with the history after them.
struct Calls {
    input: Vec<u8>,
    history: History,
}

impl Calls {
    /// None so far.
    fn of(legs_64ths: [u16; 4]) -> Calls {
        let history = History::empty(Legs::from_64ths(legs_64ths));
        Calls { input: legs_64ths.map(u16::to_le_bytes).concat(), history }
    }

    fn field(&self) -> &Field {
        &self.history.field.field
    }

    fn count(&self) -> usize {
        (self.input.len() - LEGS_LENGTH) / CALL
    }

    /// A request, and whether it is accepted.
    fn ask(&mut self, request: Request) -> bool {
        self.input.extend([0, request.desk]);
        self.input.extend(request.to_bytes());
        reply_kept(&mut self.history, Asked::Request(request)).0 == 0
    }

    /// A step back, by any byte but 0. Its last six bytes say nothing: they are those of a request that might be asked here.
    fn back(&mut self, dice: &mut Dice, desk: u8, beside: Request) {
        let any = dice.between(1, 255) as u8;
        self.input.extend([dice.pick(&[1, 1, 2, 128, 255, any]), desk]);
        self.input.extend(beside.to_bytes());
        let _ = reply_kept(&mut self.history, Asked::Back(desk));
    }

    /// A request; once in so many a step back in its place, or several one after the other, up to more than are kept.
    fn next(&mut self, dice: &mut Dice, habits: &Habits, often: usize) {
        let drawn = request(dice, habits, self.field());
        if !dice.once_in(often) {
            self.ask(drawn);
            return;
        }
        for _ in 0..dice.pick(&[1, 1, 1, 1, 1, 2, 3, 9]) {
            let desk = back(dice);
            self.back(dice, desk, drawn);
        }
    }
}

/// So many random calls behind these legs.
fn drawn(dice: &mut Dice, legs_64ths: [u16; 4], count: usize) -> Vec<u8> {
    let habits = Habits::drawn(dice);
    let often = dice.pick(&[2, 4, 8, 16, 64]);
    let mut calls = Calls::of(legs_64ths);
    while calls.count() < count {
        calls.next(dice, &habits, often);
    }
    calls.input.truncate(LEGS_LENGTH + CALL * count);
    calls.input
}

/// A session's requests by one desk, by the other, and by both: each number has its desk, and ticks are asked by either. Of the last, a
/// second time, each accepted request is taken back by a desk and asked again.
pub fn of_session(dice: &mut Dice, file: &[u8]) -> Vec<Vec<u8>> {
    let Ok(PracticeFile { legs_64ths, requests }) = PracticeFile::read(file) else { return Vec::new() };
    let [one, other] = DESKS;
    let odd = dice.pick(&DESKS);
    let both = |dice: &mut Dice, number: u16| match number {
        0 => dice.pick(&DESKS),
        _ if number % 2 == 1 => odd,
        _ => one + other - odd,
    };
    let mut inputs = Vec::new();
    for desk in [Some(one), Some(other), None] {
        let mut calls = Calls::of(legs_64ths);
        for request in &requests {
            calls.ask(request.by(desk.unwrap_or_else(|| both(dice, request.number))));
        }
        inputs.push(calls.input);
    }
    let mut calls = Calls::of(legs_64ths);
    for request in requests.iter().take(MOST_REQUESTS / 3) {
        let request = request.by(both(dice, request.number));
        if calls.ask(request) {
            let desk = dice.pick(&DESKS);
            calls.back(dice, desk, request);
            calls.ask(request);
        }
    }
    inputs.push(calls.input);
    inputs
}

/// An entry by each desk, a step back, and a descend of the first, all of them accepted.
fn short(dice: &mut Dice) -> Vec<u8> {
    let number = dice.between(1, 65_534) as u16;
    let mut calls = Calls::of(LEGS);
    let [one, other] = DESKS;
    let mut accepted = calls.ask(Request::new(1, 1, number, 300).by(one));
    accepted &= calls.ask(Request::new(1, 2, number + 1, 300).by(other));
    let desk = dice.pick(&DESKS);
    calls.back(dice, desk, Request::new(12, 0, 0, 64));
    accepted &= calls.ask(Request::new(3, 0, number, 0).by(one));
    assert!(accepted && calls.count() == SHORT && calls.history.count == SHORT - 2);
    calls.input
}

/// Legs at the edges of what is allowed, in every place, before lists that are answered and before those that are refused 5.
pub fn edge_legs(dice: &mut Dice) -> Vec<Vec<u8>> {
    let short = &short(dice)[LEGS_LENGTH..];
    let lists = [&[], short, &short[..short.len() - 1], &[0; CALL * (MOST_REQUESTS + 1)]];
    let mut inputs = Vec::new();
    for place in 0..4 {
        for leg in [0, 1, 4095, 4096, 4097, 8192, 32_768, 65_535] {
            let mut legs_64ths = LEGS;
            legs_64ths[place] = leg;
            let legs = legs_64ths.map(u16::to_le_bytes).concat();
            inputs.extend(lists.map(|list| [&legs, list].concat()));
        }
    }
    inputs
}

/// Each byte of a short input with each value.
pub fn damaged(dice: &mut Dice) -> Vec<Vec<u8>> {
    let whole = short(dice);
    let changed = |at: usize, value: u8| {
        let mut input = whole.clone();
        input[at] = value;
        input
    };
    (0..whole.len()).flat_map(|at| (0..=255).map(move |value| changed(at, value))).collect()
}

/// The first bytes of an input, from none to 40, also with a leg that is refused; lengths about 4,096 calls; and counts that are right by 16
/// bits.
pub fn lengths(dice: &mut Dice) -> Vec<Vec<u8>> {
    let mut inputs = Vec::new();
    let short = short(dice);
    for legs_64ths in [LEGS, [0, 64, 64, 64], [64, 64, 64, 4097]] {
        let whole = [&legs_64ths.map(u16::to_le_bytes).concat(), &short[LEGS_LENGTH..]].concat();
        inputs.extend((0..=whole.len()).map(|length| whole[..length].to_vec()));
    }
    let legs_64ths = legs(dice);
    let long = drawn(dice, legs_64ths, MOST_REQUESTS + 2);
    inputs.extend((LONGEST_INPUT - CALL..=LONGEST_INPUT + 2 * CALL).map(|length| long[..length].to_vec()));
    for count in [65_535, 65_536, 65_537, 65_536 + MOST_REQUESTS] {
        let mut input = short.clone();
        input.resize(LEGS_LENGTH + CALL * count, 0);
        inputs.push(input);
    }
    inputs
}

/// A random one: calls that mostly fit the field, as they are, cut, or with some bytes changed; one leg in 16 lists may be any.
pub fn random(dice: &mut Dice) -> Vec<u8> {
    let (legs_64ths, count) = (legs(dice), length(dice));
    let mut input = drawn(dice, legs_64ths, count);
    if dice.once_in(16) {
        let any = dice.bits() as u16;
        let leg: u16 = dice.pick(&[0, 1, 4096, 4097, 65_535, any]);
        let at = 2 * dice.below(4);
        input[at..at + 2].copy_from_slice(&leg.to_le_bytes());
    }
    match dice.below(16) {
        0 => {
            let length = dice.between(0, input.len());
            input.truncate(length);
        }
        1 => input.push(dice.byte()),
        2..=4 => {
            for _ in 0..dice.between(1, 4) {
                let at = dice.below(input.len());
                input[at] = dice.byte();
            }
        }
        5 => {
            let length = CALL * dice.between(0, 12);
            input.truncate(LEGS_LENGTH);
            input.extend(dice.bytes(length));
        }
        _ => {}
    }
    input
}
