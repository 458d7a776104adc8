//! Every field that can be reached from the empty one.

use std::collections::{BTreeSet, HashSet};

use reference::button::MOST_MOVES;
use reference::explore::{each_within_bounds, requests, shape, somebody_can_move, tick, Reached};
use reference::{Field, Progress, Request};

#[test]
fn every_reachable_field() {
    let reached = Reached::all();
    assert_eq!(reached.fields.len(), 2760);

    // No bound is ever broken: 10 and 25 never come. Nor does 20.
    let refusals: BTreeSet<u8> = reached.refusals.keys().map(|&(_, number)| number).collect();
    assert_eq!(refusals, BTreeSet::from([13, 14, 16, 17, 18, 19, 21, 22, 23, 24]));

    // So a step does the same where the bounds are not checked.
    for field in &reached.fields {
        for request in requests(field).into_iter().chain([tick()]) {
            let (mut judged, mut unjudged) = (field.clone(), field.clone());
            assert_eq!(judged.step(&request), unjudged.step_unjudged(&request));
            assert_eq!(judged, unjudged);
        }
    }

    // At the start of every leg, kinds 5, 6, 7, 9 and 11 are refused 15 where 12 to 14 do not come before; the
    // others are answered as before.
    for field in &reached.fields {
        let start = at_the_start(field);
        for request in requests(field) {
            let (before, after) = (number(&start, &request), number(field, &request));
            let needs_its_leg = matches!(request.kind, 5 | 6 | 7 | 9 | 11) && !(12..=14).contains(&after);
            assert_eq!(before, if needs_its_leg { 15 } else { after });
        }
    }

    // If anyone is present and all legs are flown out, somebody can move.
    assert!(reached.fields.iter().all(|field| field.present() == 0 || somebody_can_move(field)));

    // The most moves before the next entry or miss (2.14): none has more ahead, and some have as many.
    let most = reached.most_moves();
    assert!(most.iter().all(|&moves| moves <= MOST_MOVES));
    assert!(most.contains(&MOST_MOVES));
}

/// Every field that is reached is one of those within the bounds, of which none comes twice.
#[test]
fn among_those_within_the_bounds() {
    let (mut count, mut shapes) = (0, HashSet::new());
    each_within_bounds(|field| {
        assert!(field.within_bounds());
        count += 1;
        shapes.insert(shape(field));
    });
    assert_eq!(shapes.len(), count);
    assert!(Reached::all().fields.iter().all(|field| shapes.contains(&shape(field))));
}

/// The same field with no mile flown.
fn at_the_start(field: &Field) -> Field {
    let mut start = field.clone();
    for aircraft in start.zones.iter_mut().flatten() {
        if let Progress::Flying(miles) = &mut aircraft.progress {
            *miles = 0.0;
        }
    }
    start
}

fn number(field: &Field, request: &Request) -> u8 {
    field.clone().step(request).map_or_else(|refusal| refusal.number(), |_| 0)
}
