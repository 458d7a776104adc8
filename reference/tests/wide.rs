//! Numbers that are wider than their part, as C may hand them over: each is refused by the number of its part, in the order of the rules,
//! and leaves what is lent.

mod common;
use common::*;

use reference::host::{ask, back, field, spacing, start};
use reference::state::{Bytes, STATE};
use reference::writer::write;
use reference::{Parts, Request, WriteRefusal};

const LEGS: [usize; 4] = [64, 64, 64, 128];
/// Desk, kind, side, number, amount.
type Five = [usize; 5];
/// What refuses each of them.
const NUMBERS: [u16; 5] = [31, 1, 2, 3, 4];
/// An entry, a descent and a tick, each of which is accepted where 7 is at 3000 and nobody else is there.
const ACCEPTED: [Five; 3] = [[2, 1, 2, 9, 64], [1, 3, 0, 7, 0], [1, 12, 0, 0, 64]];

fn parts([desk, kind, side, number, amount]: Five) -> Parts {
    Parts { desk, kind, side, number, amount }
}

/// 7 is at 3000 right.
fn state() -> Bytes {
    let mut state = [0; STATE];
    assert_eq!(start(LEGS, &mut state), 0);
    assert_eq!(ask(&mut state, parts([1, 1, 1, 7, 64])).0, 0);
    state
}

/// Numbers that are too wide for a part of so many bits, and that are this one when they are narrowed.
fn wide(bits: usize, narrow: usize) -> Vec<usize> {
    let more = [1 << bits, 2 << bits, 1 << 31, 1 << 32, 1 << 63, usize::MAX << bits];
    more.map(|more| narrow + more).into_iter().chain([usize::MAX]).collect()
}

/// The same for the part at a place of the five.
fn wide_at(place: usize, narrow: usize) -> Vec<usize> {
    wide(if place < 3 { 8 } else { 16 }, narrow)
}

/// Refused by this number on a state within the bounds and on others; the state stays.
fn refused(five: Five, number: u16) {
    for state in [state(), [0; STATE], [0xff; STATE]] {
        let mut after = state;
        assert_eq!(ask(&mut after, parts(five)), (number, [number.into(), 0, 0, 0, 0, 0]), "{five:?}");
        assert!(after == state, "{five:?}");
    }
}

#[test]
fn each_part_by_itself() {
    for request in ACCEPTED {
        assert_eq!(ask(&mut state(), parts(request)).0, 0);
        for place in 0..5 {
            for wide in wide_at(place, request[place]) {
                let mut five = request;
                five[place] = wide;
                refused(five, NUMBERS[place]);
            }
        }
    }
}

/// Two parts and more that are too wide or break their rule: the first has its number.
#[test]
fn the_first_in_order() {
    for (five, number) in [
        ([257, 257, 257, 65_543, 65_600], 31),
        ([257, 13, 9, 0, 999], 31),
        ([0, 257, 257, 65_543, 65_600], 31),
        ([3, 1, 1, 65_543, 64], 31),
        ([1, 257, 257, 65_543, 65_600], 1),
        ([1, 268, 1, 7, 999], 1),
        ([1, 0, 257, 65_543, 65_600], 1),
        ([2, 13, 0, 65_536, 0], 1),
        ([1, 1, 257, 65_543, 65_600], 2),
        ([1, 12, 256, 5, 65], 2),
        ([1, 1, 0, 65_543, 65_600], 2),
        ([1, 3, 1, 65_543, 0], 2),
        ([1, 1, 1, 65_543, 65_600], 3),
        ([1, 1, 1, 65_536, 513], 3),
        ([1, 12, 0, 65_536, 65], 3),
        ([1, 12, 0, 65_537, 64], 3),
        ([1, 3, 0, 0, 65_536], 3),
        ([1, 12, 0, 1, 65_600], 3),
        ([1, 1, 1, 65_535, 65_600], 4),
        ([1, 3, 0, 7, 65_536], 4),
        ([1, 12, 0, 0, 65_537], 4),
    ] {
        refused(five, number);
    }
}

/// The widest that a part can be is judged as ever.
#[test]
fn the_widest_of_a_part() {
    refused([255, 1, 1, 9, 64], 31);
    refused([1, 255, 1, 9, 64], 1);
    refused([1, 1, 255, 9, 64], 2);
    refused([1, 1, 1, 9, 65_535], 4);
    assert_eq!(ask(&mut state(), parts([1, 1, 2, 65_535, 64])), (0, [0, 65_535, 2, 2, 7, 0]));
    let any = Request { kind: 200, side: 255, number: 65_535, amount: 65_535, desk: 255 };
    assert_eq!(Parts::from(any).request(), Ok(any));
}

#[test]
fn a_desk_that_steps_back() {
    for wide in wide(8, 1) {
        let mut after = state();
        assert_eq!(back(&mut after, wide), 31);
        assert!(after == state());
        assert_eq!(back(&mut [0; STATE], wide), 31);
    }
    assert_eq!(back(&mut state(), 1), 0);
}

/// A leg before a speed, and both before a list.
#[test]
fn legs_speeds_and_spacings() {
    let list = [5, 0, 2, 0, 1, 0, 2, 0];
    let mut after = state();
    for wide in wide(16, 64) {
        for place in 0..4 {
            let mut legs = LEGS;
            legs[place] = wide;
            assert_eq!(start(legs, &mut after), 7);
            assert_eq!(field(legs, 64, &list, &mut after), 7);
            assert_eq!(field(legs, wide, &list[1..], &mut after), 7);
            let mut buffer = [0xa5; 34];
            assert_eq!(write(legs, &[1], &mut buffer), Err(WriteRefusal::Leg));
            assert_eq!(buffer, [0xa5; 34]);
        }
        assert_eq!(field(LEGS, wide, &list, &mut after), 4);
        assert_eq!(field(LEGS, wide, &list[1..], &mut after), 4);
        assert_eq!(field([64, 64, 0, 64], wide, &list, &mut after), 7);
        assert_eq!(spacing(&after, wide), (4, [0; 10], [0.0; 3]));
        assert_eq!(spacing(&[0; STATE], wide), (4, [0; 10], [0.0; 3]));
        assert_eq!(reference::spacing(&file([64; 4], &[]), wide), b"spacing 4\n");
        assert_eq!(reference::spacing(b"SCAP", wide), b"spacing 4\n");
    }
    assert!(after == state());
    assert_eq!(write(LEGS, &[], &mut [0; 34]), Ok(34));
    assert_eq!(field(LEGS, 64, &list, &mut after), 0);
}
