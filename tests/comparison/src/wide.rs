//! Numbers that are wider than their part, in each call of a host program that takes a number.

use crate::dice::Dice;
use crate::host_library::Call;
use reference::{Parts, Request};

/// Desk, kind, side, number, amount.
type Five = [usize; 5];

/// How many bits each of them has, and for each what breaks its rule, or just about.
const BITS: [u32; 5] = [8, 8, 8, 16, 16];
const BROKEN: [[usize; 4]; 5] =
    [[0, 3, 128, 255], [0, 13, 128, 255], [0, 1, 3, 255], [0, 1, 7, 65_535], [0, 65, 513, 65_535]];
/// The same of a leg, a speed and a spacing.
const LEG_BITS: u32 = 16;
const BROKEN_LEG: [usize; 3] = [0, 4097, 65_535];

/// A number that is too wide for so many bits: those of a narrow one with others above them, or what does not depend on it.
pub fn wide(dice: &mut Dice, bits: u32, narrow: usize) -> usize {
    let above = (dice.bits() as usize | 1) << bits;
    dice.pick(&[
        narrow | 1 << bits,
        narrow | 2 << bits,
        narrow | 1 << 16,
        narrow | 1 << 32,
        narrow | 1 << 63,
        narrow | usize::MAX << bits,
        narrow | above,
        65_543,
        65_600,
        usize::MAX,
    ])
}

/// The numbers of which the set has the place are too wide; a set is a bit for each place, the first the lowest.
fn widened<const N: usize>(dice: &mut Dice, numbers: [usize; N], bits: [u32; N], set: usize) -> [usize; N] {
    std::array::from_fn(|at| if has(set, at) { wide(dice, bits[at], numbers[at]) } else { numbers[at] })
}

fn has(set: usize, at: usize) -> bool {
    set >> at & 1 == 1
}

fn five(Request { kind, side, number, amount, desk }: Request) -> Five {
    [desk.into(), kind.into(), side.into(), number.into(), amount.into()]
}

fn ask([desk, kind, side, number, amount]: Five) -> Call {
    Call::Ask(Parts { desk, kind, side, number, amount })
}

/// Each set of the parts of a request too wide, by itself, and with one of the others broken; the same of the legs of a start, and of the
/// legs and the speed of a list; a desk that steps back; and a spacing.
pub fn calls(dice: &mut Dice, request: Request) -> Vec<Call> {
    let mut calls =
        vec![Call::Back(wide(dice, 8, request.desk.into())), Call::Spacing(wide(dice, LEG_BITS, 64))];
    for set in 1..1 << 5 {
        let mut parts = widened(dice, five(request), BITS, set);
        calls.push(ask(parts));
        let other = dice.below(5);
        if !has(set, other) {
            parts[other] = dice.pick(&BROKEN[other]);
            calls.push(ask(parts));
        }
        calls.push(of_list(dice, set));
    }
    calls.extend((1..1 << 4).map(|set| Call::Start(legs(dice, set))));
    calls
}

/// One of them.
pub fn call(dice: &mut Dice, request: Request) -> Call {
    let mut calls = calls(dice, request);
    calls.swap_remove(dice.below(calls.len()))
}

/// Legs of which a set is too wide, one in four with another broken.
fn legs(dice: &mut Dice, set: usize) -> [usize; 4] {
    let mut legs = widened(dice, [64, 1, 4096, 128], [LEG_BITS; 4], set);
    let other = dice.below(16);
    if other < 4 && !has(set, other) {
        legs[other] = dice.pick(&BROKEN_LEG);
    }
    legs
}

/// Legs, a speed and a list: the set's fifth place is the speed, and one list in two is none.
fn of_list(dice: &mut Dice, set: usize) -> Call {
    let speed = dice.pick(&[64, 512, 0, 513]);
    let speed = if has(set, 4) { wide(dice, LEG_BITS, speed) } else { speed };
    let list =
        dice.pick(&[&[5, 0, 2, 0, 1, 0, 2, 0][..], &[], &[5, 0, 2, 0, 1, 0, 2], &[5, 0, 9, 0, 1, 0, 2, 0]]);
    Call::Field(legs(dice, set), speed, list.to_vec())
}

/// A call as it would be with every number narrowed to its part: itself where none is too wide.
pub fn narrowed(call: &Call) -> Call {
    let byte = |number: usize| usize::from(number as u8);
    let word = |number: usize| usize::from(number as u16);
    match call {
        Call::Start(legs_64ths) => Call::Start(legs_64ths.map(word)),
        &Call::Ask(Parts { desk, kind, side, number, amount }) => {
            ask([byte(desk), byte(kind), byte(side), word(number), word(amount)])
        }
        Call::Back(desk) => Call::Back(byte(*desk)),
        Call::Spacing(spacing) => Call::Spacing(word(*spacing)),
        Call::Field(legs_64ths, speed, list) => Call::Field(legs_64ths.map(word), word(*speed), list.clone()),
        Call::Press | Call::HoldDown | Call::List => call.clone(),
    }
}
