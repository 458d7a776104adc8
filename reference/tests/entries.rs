//! A vertical entry where 3000 is taken: the one there steps down in the same step (02, 2.5).

mod common;
use common::*;

use std::collections::BTreeMap;

use reference::binder::to_bytes;
use reference::explore::{each_within_bounds, Reached};
use reference::{Aircraft, Answer, Field, Progress, Refusal, Request, Side, Week, Zone};
use Zone::{Holding2, Holding3, Lateral, Missed};

const NEW: u16 = 9;
const SPEED: u16 = 77;

fn entry(side: Side) -> Request {
    Request::new(1, side.number(), NEW, SPEED)
}

fn after(field: &Field, request: &Request) -> (Field, Result<Answer, Refusal>) {
    let mut field = field.clone();
    let outcome = field.step(request);
    (field, outcome)
}

fn at_3000(field: &Field, side: Side) -> Option<u16> {
    field.zone(Holding3(side)).front().map(|aircraft| aircraft.number)
}

/// What document 01 alone answers to the entry of somebody new, on a field within the bounds.
fn by_document_01(field: &Field, side: Side) -> u8 {
    let taken = |zone| !field.zone(zone).is_empty();
    let on_approach = field.everyone().any(|(zone, aircraft)| zone.is_approach() && aircraft.fix == side);
    let refused = [
        (field.potential(side) >= 2, 16),
        (on_approach, 17),
        (taken(Missed(side)), 18),
        (taken(Lateral(side)), 19),
        (taken(Holding3(side)), 20),
    ];
    refused.into_iter().find(|(unmet, _)| *unmet).map_or(0, |(_, number)| number)
}

/// Asks for both entries on a field. How often document 01 alone answers each number is added up.
fn as_descend_and_entry(field: &Field, answered: &mut BTreeMap<u8, usize>) {
    assert!(field.within_bounds() && field.find(NEW).is_none());
    for side in Side::BOTH {
        let (entered, outcome) = after(field, &entry(side));
        let before = by_document_01(field, side);
        *answered.entry(before).or_default() += 1;
        match before {
            0 => assert_eq!(outcome.map(|answer| answer.along), Ok(0)),
            20 => {
                let lower = at_3000(field, side).expect("3000 is taken");
                let (below, descended) = after(field, &Request::new(3, 0, lower, 0));
                assert!(descended.is_ok());
                let (both, last) = after(&below, &entry(side));
                assert_eq!(entered, both);
                assert_eq!(last.map(|answer| answer.along), Ok(0));
                assert_eq!(outcome, last.map(|answer| Answer { along: lower, ..answer }));
                assert!(entered.within_bounds());
                seen_in_the_field(field, &entered, side, lower);
            }
            _ => {
                assert_eq!(outcome.map_err(Refusal::number), Err(before));
                assert_eq!(entered, *field);
            }
        }
    }
}

/// What an entry that moves another leaves, said without any step.
fn seen_in_the_field(field: &Field, entered: &Field, side: Side, lower: u16) {
    let fix = field.next_fix;
    let caller = Aircraft {
        number: NEW,
        fix,
        speed: SPEED,
        progress: Progress::Waiting,
        waited: 0.0,
        leg: 0.0,
        desk: 1,
    };
    let mut expected = field.clone();
    let one = expected.zone_mut(Holding3(side)).pop_front().expect("3000 is taken");
    assert_eq!(one.number, lower);
    expected.zone_mut(Holding2(side)).push_back(one);
    expected.zone_mut(Holding3(side)).push_back(caller);
    expected.sequence.push_back(NEW);
    expected.next_fix = fix.opposite();
    assert_eq!(*entered, expected);
}

#[test]
fn on_every_reachable_field() {
    let mut answered = BTreeMap::new();
    for field in &Reached::all().fields {
        as_descend_and_entry(field, &mut answered);
    }
    let expected = [(0, 372), (16, 4188), (17, 492), (18, 174), (19, 120), (20, 174)];
    assert_eq!(answered, BTreeMap::from(expected));
}

#[test]
fn on_every_field_within_the_bounds() {
    let (mut fields, mut answered) = (0, BTreeMap::new());
    each_within_bounds(|field| {
        fields += 1;
        as_descend_and_entry(field, &mut answered);
    });
    assert_eq!(fields, 66_174);
    let expected = [(0, 1482), (16, 127_944), (17, 1680), (18, 414), (19, 414), (20, 414)];
    assert_eq!(answered, BTreeMap::from(expected));
}

/// Four come in by four requests, and each side has two: the one in `along` is not the leader.
#[test]
fn both_sides() {
    let mut field = empty();
    play(&mut field, &[(1, 2, 8, 64), (1, 1, 7, 64)]);
    assert_eq!(line(&mut field, 1, 2, 9, 64), [0, 9, 2, 2, 7, 8]);
    assert_eq!(line(&mut field, 1, 1, 10, 64), [0, 10, 1, 1, 9, 7]);
    let zones: Vec<u8> = [7, 8, 9, 10].map(|number| field.find(number).expect("there").0.number()).into();
    assert_eq!(zones, [3, 4, 2, 1]);
    assert_eq!(field.sequence, [8, 7, 9, 10]);
    for side in [1, 2] {
        assert_eq!(line(&mut field, 1, side, 11, 64), refused(16));
    }
}

/// The input rules and 11 come before, also for the one at 3000, and nobody moves.
#[test]
fn what_comes_before() {
    let mut field = empty();
    play(&mut field, &[(1, 1, 7, 64)]);
    let before = field.clone();
    for (side, number, amount, refusal) in [(3, 8, 64, 2), (1, 0, 64, 3), (1, 8, 513, 4), (1, 7, 64, 11)] {
        assert_eq!(line(&mut field, 1, side, number, amount), refused(refusal));
        assert_eq!(field, before);
    }
}

/// With 2000 taken below, and with two at 3000, the potential number comes first: 20 is not answered outside the
/// bounds either.
#[test]
fn both_holdings_taken() {
    for side in Side::BOTH {
        for below in [Holding2(side), Holding3(side)] {
            let mut field = empty();
            for (number, zone) in [(1, Holding3(side)), (2, below)] {
                let fix = side.opposite();
                let waiting = Aircraft {
                    number,
                    fix,
                    speed: 64,
                    progress: Progress::Waiting,
                    waited: 0.0,
                    leg: 0.0,
                    desk: 1,
                };
                field.zone_mut(zone).push_back(waiting);
            }
            assert_eq!(field.step_unjudged(&entry(side)), Err(Refusal::Potential));
        }
    }
}

/// The one who is moved can go on as after a descend, and the caller waits for it.
#[test]
fn going_on() {
    let mut field = empty();
    play(&mut field, &[(1, 1, 7, 64), (1, 1, 8, 64)]);
    assert_eq!(line(&mut field, 3, 0, 7, 0), refused(13));
    assert_eq!(line(&mut field, 3, 0, 8, 0), refused(21));
    assert_eq!(line(&mut field, 4, 0, 7, 0), [0, 7, 9, 1, 0, 0]);
    // 8 at the right, and 7 elsewhere with the right fix.
    assert_eq!(line(&mut field, 1, 1, 9, 64), refused(16));
    assert_eq!(line(&mut field, 3, 0, 8, 0), [0, 8, 3, 2, 7, 0]);
}

/// One entry in the closing counts, and no move in a week's report.
#[test]
fn counted_as_one_entry() {
    let file = file([64; 4], &[(1, 1, 7, 64), (1, 1, 8, 64)]);
    assert_eq!(report(&file), "1 0 7 1 1 0 0\n2 0 8 1 2 7 7\nend 2 0 0 0 2\n");
    let week = Week::of(&to_bytes(&[file])).expect("a binder");
    assert_eq!((week.answers[1][0], week.answers[3], week.moves), (2, [0; 26], 0));
}
