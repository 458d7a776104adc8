//! The classroom dialect (2.12): the list of every field that is reached, the field of every list of up to four, there and back, and
//! back and there.

mod common;
use common::classroom::*;
use common::*;

use std::collections::BTreeSet;

use reference::classroom::list;
use reference::explore::{each_within_bounds, somebody_can_move, Reached};
use reference::index::Entry;
use reference::{Field, Index, Indexed, Legs, Listed, Progress, Side, Zone};

/// What the list of a field says, asked of the field: nobody is missing and nobody is there twice.
fn lists(field: &Field, list: &[Listed]) {
    let (in_sequence, landed) = list.split_at(field.sequence.len());
    for (position, listed) in (1..).zip(in_sequence) {
        assert_eq!((listed.number, listed.place), (field.sequence[usize::from(position) - 1], position));
    }
    assert_eq!(landed.len(), field.zone(Zone::Runway).len());
    assert!(landed.iter().all(|listed| (listed.location, listed.place) == (13, 0)));
    for listed in list {
        let queue = &field.zones[usize::from(listed.location) - 1];
        let aircraft = queue.iter().find(|aircraft| aircraft.number == listed.number).expect("in that zone");
        assert_eq!(listed.fix, aircraft.fix.number().into());
    }
}

/// Going, on a field within the bounds: the list, or 29. Yields whether there is one.
fn goes(field: &Field) -> bool {
    let unknown = [4, 5, 10].into_iter().any(|zone: usize| !field.zones[zone].is_empty());
    match list_of(field) {
        Ok(list) => {
            assert!(!unknown);
            lists(field, &list);
        }
        Err(number) => assert!(unknown && number == 29),
    }
    !unknown
}

#[test]
fn every_reachable_field() {
    let fields = Reached::all().fields;
    let with_list = fields.iter().filter(|field| goes(field)).count();
    assert_eq!((with_list, fields.len()), (1842, 2760));
}

#[test]
fn every_field_within_the_bounds() {
    let (mut with_list, mut and_back) = (0, 0);
    each_within_bounds(|field| {
        with_list += usize::from(goes(field));
        and_back += usize::from(there_and_back(field));
    });
    assert_eq!((with_list, and_back), (28_962, 130));
}

/// What is kept of a field there and back: all but speeds, legs, miles waited and the next fix of an empty one.
fn kept(field: &Field) -> Field {
    let mut kept = Field { legs: Legs::from_64ths(LEGS), ..field.clone() };
    kept.zones.iter_mut().flatten().for_each(|aircraft| {
        aircraft.speed = SPEED;
        aircraft.waited = 0.0;
    });
    if kept.present() == 0 {
        kept.next_fix = Side::Right;
    }
    kept
}

/// Goes and comes back, where the field has a list; yields whether that is accepted, which it is where all wait at 3000 or 2000.
fn there_and_back(field: &Field) -> bool {
    let Ok(list) = list_of(field) else { return false };
    let all_hold = field.zones[4..].iter().all(|queue| queue.is_empty());
    match field_of(&list) {
        Ok(back) => {
            assert!(all_hold && back.within_bounds());
            assert_eq!(back, Indexed::new(kept(field)));
            assert_eq!(list_of(&back.field), Ok(list));
        }
        Err(number) => assert!(!all_hold && number == 29),
    }
    all_hold
}

#[test]
fn every_reachable_field_there_and_back() {
    let fields = Reached::all().fields;
    let and_back = fields.iter().filter(|field| there_and_back(field)).count();
    assert_eq!(and_back, 52);
}

/// A minus zero is lost: what waits has 0 for its leg and its miles waited.
#[test]
fn a_zeros_sign() {
    let mut there = field(&[(Zone::Holding2(Side::Left), Side::Right)]);
    there.zones[3][0].leg = -0.0;
    there.zones[3][0].waited = -0.0;
    let back = field_of(&list_of(&there).expect("a list")).expect("a field");
    let aircraft = back.field.zones[3][0];
    assert_eq!([aircraft.leg, aircraft.waited].map(f64::to_bits), [0, 0]);
}

#[test]
fn every_pattern() {
    let patterns = patterns();
    assert_eq!(patterns.len(), 130);
    let different: BTreeSet<Vec<u8>> =
        patterns.iter().map(|(_, list)| list.iter().flat_map(|listed| listed.to_bytes()).collect()).collect();
    assert_eq!(different.len(), 129, "the empty list has no fix");
    for (_, pattern) in &patterns {
        let Indexed { field, index } = field_of(pattern).expect("a field");
        let numbers: Vec<u16> = pattern.iter().map(|listed| listed.number).collect();
        assert_eq!(field.sequence, numbers);
        assert_eq!(field.present(), pattern.len());
        assert_eq!(field.legs, Legs::from_64ths(LEGS));
        assert_eq!(field.next_fix.number(), pattern.last().map_or(1, |last| 3 - last.fix as u8));
        for listed in pattern {
            let queue = &field.zones[usize::from(listed.location) - 1];
            let aircraft = queue[0];
            assert_eq!(
                (queue.len(), aircraft.number, aircraft.fix.number()),
                (1, listed.number, listed.fix as u8)
            );
            assert_eq!((aircraft.speed, aircraft.progress), (SPEED, Progress::Waiting));
            assert_eq!([aircraft.waited, aircraft.leg].map(f64::to_bits), [0, 0]);
            assert_eq!(index.find(listed.number), (listed.location as u8, 1));
        }
        assert!(index.agrees_with(&field) && field.within_bounds());
        assert_eq!(list_of(&field).as_ref(), Ok(pattern));
    }
}

/// Where somebody is there, nobody can move in 36 of them: the first stands at 3000 with 2000 taken below, and so does everyone else
/// at 3000. A tick changes nothing there, as nobody flies.
#[test]
fn stuck_at_once() {
    let fields: Vec<Field> =
        patterns().iter().map(|(_, list)| field_of(list).expect("a field").field).collect();
    let stuck: Vec<&Field> =
        fields.iter().filter(|field| field.present() > 0 && !somebody_can_move(field)).collect();
    assert_eq!(stuck.len(), 36);
    assert_eq!(fields.iter().filter(|field| !somebody_can_move(field)).count(), 38, "with the empty one");
    for field in stuck {
        let first = field.find(field.sequence[0]).expect("on the field").0;
        assert!(matches!(first, Zone::Holding3(_)));
        for side in [0, 1] {
            assert!(field.zones[side].is_empty() || !field.zones[2 + side].is_empty());
        }
        let mut after = field.clone();
        assert!(ask(&mut after, 12, 0, 0, 64).is_ok());
        assert_eq!(&after, field);
    }
    // None of them is reached.
    let reached = Reached::all();
    assert!(reached.fields.iter().all(|field| field.present() == 0 || somebody_can_move(field)));
}

/// 10 comes before 29, by any bound and by an index that disagrees.
#[test]
fn refused_10_going() {
    let lateral = (Zone::Lateral(Side::Right), Side::Right);
    for aircraft in
        [&[][..], &[(Zone::Base(Side::Left), Side::Left)], &[lateral], &[(Zone::Intermediate, Side::Left)]]
    {
        let whole = Indexed::new(field(aircraft));
        let refused = list(&whole).map_or_else(|refusal| refusal.number(), |_| 0);
        assert_eq!(
            refused,
            if aircraft.is_empty() || matches!(aircraft[0].0, Zone::Base(_)) { 0 } else { 29 }
        );
        let mut legs = whole.clone();
        legs.field.legs.missed = 0.0;
        let mut index = whole.clone();
        index.index.0[4] = Entry { number: 9, zone: 1, place: 1 };
        let mut absent = whole.clone();
        absent.field.sequence.push_back(9);
        for broken in [legs, index, absent] {
            assert_eq!(list(&broken).map_err(|refusal| refusal.number()), Err(10));
        }
        let none = Indexed { index: Index::default(), ..whole.clone() };
        assert_eq!(list(&none).is_ok(), aircraft.is_empty());
    }
}

/// A list that has a field is the list of that field.
#[test]
fn back_and_there() {
    let mut dice = Dice(212);
    let mut came = [0; 2];
    for _ in 0..200_000 {
        let list: Vec<Listed> = (0..dice.below(5) as u16)
            .map(|at| {
                let (number, location, fix) = (dice.below(12), 1 + dice.below(4), 1 + dice.below(2));
                let fix = if dice.below(3) == 0 { fix as u16 } else { 1 + at % 2 };
                listed(number as u16, location as u16, at + 1, fix)
            })
            .collect();
        match field_of(&list) {
            Ok(Indexed { field, .. }) => {
                assert_eq!(list_of(&field), Ok(list));
                came[0] += 1;
            }
            Err(number) => {
                assert_eq!(number, 25);
                came[1] += 1;
            }
        }
    }
    assert!(came.into_iter().all(|count| count > 1000), "{came:?}");
}
