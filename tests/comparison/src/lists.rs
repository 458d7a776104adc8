//! What a field of the classroom dialect is built from: legs, a speed and a
//! list, as bytes; those of which there is a field, and those that are refused,
//! or just about.

use crate::dice::Dice;
use reference::classroom::LISTED;
use reference::Listed;

const LEGS: [u16; 4] = [64, 128, 192, 4096];
const SPEED: u16 = 300;
/// Legs and speed.
const HEAD: usize = 10;

fn input(legs_64ths: [u16; 4], speed: u16, list: &[Listed]) -> Vec<u8> {
    let mut input = legs_64ths.map(u16::to_le_bytes).concat();
    input.extend(speed.to_le_bytes());
    list.iter().for_each(|listed| input.extend(listed.to_bytes()));
    input
}

fn good(list: &[Listed]) -> Vec<u8> {
    input(LEGS, SPEED, list)
}

/// Locations along the sequence, and the fix of the first; the others alternate. Numbers are drawn.
fn listed(dice: &mut Dice, locations: &[u16], first: u16) -> Vec<Listed> {
    let numbers = numbers(dice, locations.len());
    let one = |((place, &location), number): ((u16, &u16), u16)| {
        let fix = if place % 2 == 1 { first } else { 3 - first };
        Listed { number, location, place, fix }
    };
    (1..).zip(locations).zip(numbers).map(one).collect()
}

/// So many numbers that differ.
fn numbers(dice: &mut Dice, count: usize) -> Vec<u16> {
    let mut numbers = Vec::new();
    while numbers.len() < count {
        let any = dice.between(1, 65_535) as u16;
        let number = dice.pick(&[any, any, 1, 255, 256, 65_535]);
        if !numbers.contains(&number) {
            numbers.push(number);
        }
    }
    numbers
}

/// Every way for so many to stand at the locations 1 to 4 along the sequence, also two at one.
fn ways(count: u32) -> impl Iterator<Item = Vec<u16>> {
    (0..4usize.pow(count)).map(move |way| (0..count).map(|at| (way >> (2 * at) & 3) as u16 + 1).collect())
}

/// Of these so many have a field: up to four, no two at one location. The empty list is there for both fixes.
pub const PATTERNS: usize = 130;

/// Up to five at the locations 1 to 4, by every way and both fixes of the first.
pub fn patterns(dice: &mut Dice) -> Vec<Vec<u8>> {
    let mut inputs = Vec::new();
    for count in 0..=5 {
        for way in ways(count) {
            inputs.extend([1, 2].map(|first| good(&listed(dice, &way, first))));
        }
    }
    inputs
}

/// Lists of up to four of which there is a field: each number of one of them with each other value that is near, or of another, or right by
/// eight bits.
pub fn each_number(dice: &mut Dice) -> Vec<Vec<u8>> {
    let mut inputs = Vec::new();
    for list in some_lists(dice) {
        for at in 0..list.len() {
            let others = list.iter().flat_map(|listed| [listed.number, listed.number ^ 1]);
            let values = (0..=16).chain([255, 256, 32_768, 65_535]).chain((0..=4).map(|by| 256 + by));
            for value in values.chain(others) {
                for part in 0..4 {
                    let mut bytes = good(&list);
                    let from = HEAD + LISTED * at + 2 * part;
                    bytes[from..from + 2].copy_from_slice(&value.to_le_bytes());
                    inputs.push(bytes);
                }
            }
        }
    }
    inputs
}

fn some_lists(dice: &mut Dice) -> Vec<Vec<Listed>> {
    let ways: [&[u16]; 6] = [&[], &[1], &[4, 2], &[3, 1, 4], &[2, 3, 1, 4], &[4, 3, 2, 1]];
    ways.map(|way| {
        let first = dice.pick(&[1, 2]);
        listed(dice, way, first)
    })
    .to_vec()
}

/// Legs and speeds at the edges of what is allowed, before lists of which there is a field, and before those that are refused 29 and 25, by
/// themselves and by both.
pub fn in_order(dice: &mut Dice) -> Vec<Vec<u8>> {
    let mut lists = some_lists(dice);
    let four = lists[4].clone();
    let with = |change: fn(&mut [Listed])| {
        let mut list = four.clone();
        change(&mut list);
        list
    };
    lists.push(with(|list| list[3].location = 5));
    lists.push(with(|list| list[0].place = 0));
    lists.push(with(|list| list[2].number = 0));
    lists.push(with(|list| list[1].fix = 3));
    lists.push(with(|list| (list[0].number, list[3].place) = (0, 5)));
    lists.push(with(|list| (list[0].fix, list[3].location) = (0, 13)));
    lists.push(listed(dice, &[1, 2, 3, 4, 1], 1));
    lists.push(listed(dice, &[1, 2, 3, 4, 1, 2], 1));
    let mut legs = vec![LEGS];
    for place in 0..4 {
        for leg in [0, 1, 4095, 4096, 4097, 32_768, 65_535] {
            let mut edge = LEGS;
            edge[place] = leg;
            legs.push(edge);
        }
    }
    let mut inputs = Vec::new();
    for legs_64ths in legs {
        for speed in [0, 1, 2, 511, 512, 513, 768, 32_768, 65_535] {
            lists.iter().for_each(|list| inputs.push(input(legs_64ths, speed, list)));
        }
    }
    inputs
}

/// Each byte of an input with each value.
pub fn damaged(dice: &mut Dice) -> Vec<Vec<u8>> {
    let mut inputs = Vec::new();
    for list in some_lists(dice) {
        let whole = good(&list);
        for at in 0..whole.len() {
            for value in 0..=255 {
                let mut bytes = whole.clone();
                bytes[at] = value;
                inputs.push(bytes);
            }
        }
    }
    inputs
}

/// The first bytes of an input, from none to all and more: also with legs and speeds that are refused, and lists whose count is that of a
/// short one by eight or by 16 bits.
pub fn lengths(dice: &mut Dice) -> Vec<Vec<u8>> {
    let seven = [1, 2, 3, 4, 1, 2, 3];
    let list = listed(dice, &seven, 2);
    let mut inputs = Vec::new();
    for legs_64ths in [LEGS, [0, 64, 64, 64], [64, 64, 64, 4097]] {
        for speed in [SPEED, 0, 513, 256] {
            let whole = input(legs_64ths, speed, &list);
            inputs.extend((0..=whole.len()).map(|length| whole[..length].to_vec()));
        }
    }
    let four = good(&listed(dice, &[3, 1, 2, 4], 1));
    for count in [252, 256, 257, 3075, 3076, 65_532, 65_536, 65_537, 65_540] {
        for more in [0, 1, 7] {
            let mut long = four.clone();
            long.resize(HEAD + LISTED * count + more, 1);
            inputs.push(long);
        }
    }
    inputs
}

/// A random one: up to six, mostly at locations that differ and with fixes that alternate, then a few numbers or bytes changed, or cut.
pub fn random(dice: &mut Dice) -> Vec<u8> {
    let length = dice.pick(&[0, 1, 2, 2, 3, 3, 4, 4, 4, 5, 6]);
    let mut locations = vec![1, 2, 3, 4];
    while locations.len() < length {
        locations.push(dice.between(1, 4) as u16);
    }
    (1..locations.len()).for_each(|at| locations.swap(at, dice.below(at + 1)));
    let first = dice.pick(&[1, 2]);
    let mut list = listed(dice, &locations[..length], first);
    for listed in &mut list {
        match dice.below(40) {
            0 => listed.number = dice.pick(&[0, 1, 256]),
            1 => listed.location = dice.between(0, 14) as u16,
            2 => listed.place = dice.between(0, 6) as u16,
            3 => listed.fix = dice.between(0, 3) as u16,
            _ => {}
        }
    }
    let edge = dice.pick(&[0, 1, 4096, 4097]);
    let leg = |dice: &mut Dice| {
        let allowed = dice.between(1, 4096) as u16;
        if dice.once_in(32) {
            edge
        } else {
            allowed
        }
    };
    let legs_64ths = [(); 4].map(|()| leg(dice));
    let allowed = dice.between(1, 512) as u16;
    let any = dice.bits() as u16;
    let speed = if dice.once_in(12) { dice.pick(&[0, 1, 512, 513, any]) } else { allowed };
    let mut bytes = input(legs_64ths, speed, &list);
    match dice.below(16) {
        0 => {
            let at = dice.below(bytes.len());
            bytes[at] = dice.byte();
        }
        1 => {
            let length = dice.between(0, bytes.len());
            bytes.truncate(length);
        }
        2 => {
            let length = dice.between(0, 60);
            bytes = dice.bytes(length);
        }
        _ => {}
    }
    bytes
}
