//! Lists of the classroom dialect for the tests.

use reference::classroom::{field as built, list};
use reference::{Field, Indexed, Listed};

pub const LEGS: [u16; 4] = [64, 128, 192, 4096];
pub const SPEED: u16 = 300;

pub fn listed(number: u16, location: u16, place: u16, fix: u16) -> Listed {
    Listed { number, location, place, fix }
}

/// The number by which a list has no field; 0 if it has one.
pub fn number(legs: [u16; 4], speed: u16, list: &[Listed]) -> u8 {
    built(legs, speed, list).map_or_else(|refusal| refusal.number(), |_| 0)
}

/// The field by itself and by bytes, which are the same.
pub fn field_of(list: &[Listed]) -> Result<Indexed, u8> {
    let field = built(LEGS, SPEED, list).map_err(|refusal| refusal.number());
    let by_bytes = reference::classroom::from_bytes(&input(LEGS, SPEED, list));
    assert_eq!(field, by_bytes.map_err(|refusal| refusal.number()));
    field
}

pub fn input(legs: [u16; 4], speed: u16, list: &[Listed]) -> Vec<u8> {
    let mut input = legs.map(u16::to_le_bytes).concat();
    input.extend(speed.to_le_bytes());
    list.iter().for_each(|listed| input.extend(listed.to_bytes()));
    input
}

/// The list of a field with its own index.
pub fn list_of(field: &Field) -> Result<Vec<Listed>, u8> {
    list(&Indexed::new(field.clone())).map_err(|refusal| refusal.number())
}

/// Locations of up to four who wait, no two at the same: each way in which they can stand along the sequence.
pub fn orders() -> Vec<Vec<u16>> {
    let mut orders = vec![vec![]];
    let mut at = 0;
    while at < orders.len() {
        let order = orders[at].clone();
        let free = (1..=4).filter(|location| !order.contains(location));
        orders.extend(free.map(|location| [&order[..], &[location]].concat()));
        at += 1;
    }
    orders
}

/// A list of each order and each fix of the first one, with numbers in no order. The empty one is there for both fixes.
pub fn patterns() -> Vec<(u16, Vec<Listed>)> {
    const NUMBERS: [u16; 4] = [300, 7, 65_535, 1];
    let mut patterns = Vec::new();
    for first in [1, 2] {
        for order in orders() {
            let each = (1..).zip(order).map(|(place, location)| {
                let fix = if place % 2 == 1 { first } else { 3 - first };
                listed(NUMBERS[usize::from(place) - 1], location, place, fix)
            });
            patterns.push((first, each.collect()));
        }
    }
    patterns
}

/// Five with good locations and places, of which no field within the bounds is built.
pub fn five() -> Vec<Listed> {
    [1, 2, 3, 4, 1]
        .into_iter()
        .zip(1..)
        .map(|(location, place)| listed(place, location, place, 2 - place % 2))
        .collect()
}

pub fn one() -> Vec<Listed> {
    vec![listed(7, 1, 1, 2)]
}
