//! One button that empties the field: what it proposes, a press, and holding it down.

mod common;
use common::*;

use reference::button::{hold_down, press, proposed, MOST_MOVES, MOST_PRESSES, MOST_TICKS, TICK};
use reference::explore::{each_within_bounds, requests, Reached};
use reference::{Answer, Ending, Field, Legs, Progress, Refusal, Request, Side, Zone};
use Side::{Left, Right};
use Zone::*;

/// The kinds that a press may propose, in their order.
const ORDER: [u8; 7] = [8, 7, 6, 5, 11, 4, 3];

/// The same field with every leg flown out.
fn flown_out(field: &Field) -> Field {
    let mut end = field.clone();
    for aircraft in end.zones.iter_mut().flatten() {
        if let Progress::Flying(miles) = &mut aircraft.progress {
            *miles = aircraft.leg;
        }
    }
    end
}

/// A field of aircraft numbered from 1, in sequence order, every leg flown out.
fn ready(aircraft: &[(Zone, Side)]) -> Field {
    flown_out(&field(aircraft))
}

fn proposes(field: &Field, kind: u8, number: u16) {
    assert_eq!(proposed(field), Ok(Some(Request::new(kind, 0, number, 0))));
}

/// What each request of these kinds is answered, with its kind's place in the order and its aircraft's zone.
fn answered(field: &Field) -> Vec<(usize, u8, Request, u8)> {
    let mut all = Vec::new();
    for request in requests(field) {
        let place = ORDER.into_iter().position(|kind| kind == request.kind);
        if let (Some(place), Some((zone, _))) = (place, field.find(request.number)) {
            let number = field.clone().step(&request).map_or_else(Refusal::number, |_| 0);
            all.push((place, zone.number(), request, number));
        }
    }
    all
}

/// On one in seven of the fields within the bounds, reached or not, at the starts and at the ends of the legs.
#[test]
fn the_first_accepted_on_any_field() {
    let (mut index, mut passed_25, mut ticks) = (0, 0, 0);
    each_within_bounds(|start| {
        index += 1;
        if index % 7 != 0 {
            return;
        }
        for field in [start, &flown_out(start)] {
            let answered = answered(field);
            let accepted = answered.iter().filter(|(.., number)| *number == 0);
            let first = accepted.min_by_key(|(kind, zone, ..)| (*kind, *zone));
            let expected = match first {
                _ if field.present() == 0 => None,
                Some((_, _, request, _)) => Some(*request),
                None => Some(Request::new(12, 0, 0, 64)),
            };
            assert_eq!(proposed(field), Ok(expected));
            ticks += usize::from(expected == Some(TICK));
            passed_25 += answered.iter().filter(|(.., number)| *number == 25).count();
        }
    });
    assert!(passed_25 > 100 && ticks > 100, "{passed_25} {ticks}");
}

/// Each kind before the next, where both are accepted.
#[test]
fn the_order_of_kinds() {
    let mut field =
        ready(&[(Final, Right), (Intermediate, Left), (Base(Right), Right), (Missed(Left), Left)]);
    put(&mut field, Runway, 5, Right);
    proposes(&field, 8, 5);
    field.zone_mut(Runway).clear();
    proposes(&field, 7, 1);
    proposes(&ready(&[(Intermediate, Right), (Base(Left), Left)]), 6, 1);
    proposes(&ready(&[(Base(Right), Right), (Missed(Left), Left), (Lateral(Right), Right)]), 5, 1);
    proposes(&ready(&[(Holding2(Right), Right), (Missed(Left), Left)]), 11, 2);
    proposes(&ready(&[(Holding3(Left), Right), (Holding2(Right), Left)]), 3, 1);
    proposes(&ready(&[(Holding2(Right), Right), (Holding3(Left), Left)]), 4, 1);
}

/// The zones' numbers and not the sequence.
#[test]
fn the_order_of_zones() {
    proposes(&ready(&[(Holding3(Left), Right), (Holding3(Right), Left)]), 3, 2);
    proposes(&ready(&[(Intermediate, Right), (Missed(Left), Left), (Missed(Right), Right)]), 6, 1);
    proposes(&ready(&[(Missed(Left), Left), (Missed(Right), Right)]), 11, 2);
    // From a lateral zone an approach is always accepted, so that zone 5 comes before zone 6.
    proposes(&ready(&[(Lateral(Left), Right), (Lateral(Right), Left)]), 4, 2);
    // Nobody but the first may merge here, and the second stands on the base with the lower number.
    proposes(&ready(&[(Base(Left), Right), (Base(Right), Left)]), 5, 1);
    let mut behind = ready(&[(Intermediate, Right), (Base(Left), Left), (Base(Right), Right)]);
    play(&mut behind, &[(6, 0, 1, 0), (5, 0, 2, 0)]);
    proposes(&behind, 5, 3);
}

/// Only the head of a zone is tried.
#[test]
fn behind_the_head() {
    let mut two = ready(&[(Intermediate, Right), (Intermediate, Left)]);
    two.zone_mut(Intermediate)[0].progress = Progress::Flying(0.5);
    assert_eq!(proposed(&two), Ok(Some(TICK)));
}

#[test]
fn refused_25_is_passed_over() {
    // The second would be on final before the first in sequence.
    let overtaken = ready(&[(Base(Left), Right), (Intermediate, Left)]);
    assert_eq!(overtaken.clone().step(&Request::new(6, 0, 2, 0)), Err(Refusal::StepBreaksBound));
    proposes(&overtaken, 5, 1);
    let mut early = overtaken;
    early.zone_mut(Base(Left))[0].progress = Progress::Flying(0.0);
    assert_eq!(proposed(&early), Ok(Some(TICK)));
}

#[test]
fn an_exit_or_a_miss_is_not_proposed() {
    // Intermediate is flown out and first, so that an exit would be accepted; on final nothing but a miss would be.
    proposes(&ready(&[(Intermediate, Right)]), 6, 1);
    let on_final = field(&[(Final, Right)]);
    assert!(on_final.accepts(&Request::new(10, 0, 1, 0)));
    assert_eq!(proposed(&on_final), Ok(Some(TICK)));
}

#[test]
fn a_press_plays_what_is_proposed() {
    let mut field = ready(&[(Base(Left), Right), (Missed(Right), Left)]);
    let mut by_hand = field.clone();
    let merged = by_hand.step(&Request::new(5, 0, 1, 0)).expect("accepted");
    assert_eq!(press(&mut field), Ok(Some((Request::new(5, 0, 1, 0), merged))));
    assert_eq!(field, by_hand);
    // A tick of a whole minute answers zeros.
    let mut flying = common::field(&[(Base(Left), Right)]);
    assert_eq!(press(&mut flying), Ok(Some((Request::new(12, 0, 0, 64), Answer::ZEROS))));
    assert_eq!(miles(&flying, 1), 1.0);
    // Nothing is played on an empty field.
    let mut none = empty();
    none.next_fix = Left;
    let before = none.clone();
    assert_eq!(press(&mut none), Ok(None));
    assert_eq!(none, before);
    // One on the runway is on the field.
    let mut landed = empty();
    put(&mut landed, Runway, 9, Left);
    proposes(&landed, 8, 9);
}

/// 10 comes before anything is proposed, and where nobody is there, too.
#[test]
fn a_field_that_breaks_a_bound() {
    let leg = Field::empty(Legs { missed: 0.0, ..empty().legs });
    let mut next = ready(&[(Base(Right), Right)]);
    next.next_fix = Right;
    for mut field in [leg, next] {
        let before = field.clone();
        assert_eq!(proposed(&field), Err(Refusal::FieldBreaksBound));
        assert_eq!(press(&mut field), Err(Refusal::FieldBreaksBound));
        assert_eq!(held(&mut field, MOST_PRESSES), Err(Refusal::FieldBreaksBound));
        assert_eq!(field, before);
    }
}

fn held(field: &mut Field, most: usize) -> Result<(usize, Ending), Refusal> {
    hold_down(field, most, |_, _, _| ())
}

#[test]
fn the_bound() {
    assert_eq!((MOST_MOVES, MOST_TICKS), (27, 8192));
    assert_eq!(MOST_PRESSES, 221_211);
}

/// The last allowed press may empty the field; one less leaves somebody.
#[test]
fn the_last_allowed_press() {
    let field = ready(&[(Base(Left), Right), (Missed(Right), Left)]);
    let (needed, ending) = held(&mut field.clone(), MOST_PRESSES).expect("within the bounds");
    assert_eq!(ending, Ending::None);
    for most in 0..needed {
        let mut left = field.clone();
        assert_eq!(held(&mut left, most), Ok((most, Ending::Spent)));
        assert!(left.present() > 0);
    }
    for most in [needed, needed + 1, MOST_PRESSES] {
        let mut left = field.clone();
        assert_eq!(held(&mut left, most), Ok((needed, Ending::None)));
        assert_eq!(left.present(), 0);
    }
    for most in [0, 1, MOST_PRESSES] {
        assert_eq!(held(&mut empty(), most), Ok((0, Ending::None)));
    }
}

/// Within the bounds, and no list of requests leads there.
#[test]
fn spent() {
    let mut stuck = field(&[(Holding3(Right), Right), (Holding2(Right), Left)]);
    let before = stuck.clone();
    let mut moves = 0;
    let held = hold_down(&mut stuck, MOST_PRESSES, |_, request, _| moves += usize::from(request.kind != 12));
    assert_eq!((held, moves), (Ok((221_211, Ending::Spent)), 0));
    assert_eq!(stuck, before);
}

/// Holds the button down on a field that was reached: it ends with an empty field. Yields moves and ticks.
fn emptied(mut field: Field) -> (usize, usize) {
    let (mut moves, mut ticks, mut in_a_row) = (0, 0, 0);
    let held = hold_down(&mut field, MOST_PRESSES, |press, request, _| {
        in_a_row = if request == TICK { in_a_row + 1 } else { 0 };
        assert!(in_a_row <= MOST_TICKS);
        moves += usize::from(request != TICK);
        ticks += usize::from(request == TICK);
        assert_eq!(press, moves + ticks);
    });
    assert_eq!(held, Ok((moves + ticks, Ending::None)));
    assert_eq!(field.present(), 0);
    assert!(moves <= MOST_MOVES);
    (moves, ticks)
}

/// The same field on other legs, everyone at the start of one; in a missed zone all of final is still ahead.
fn on_legs(field: &Field, legs: Legs) -> Field {
    let mut start = Field { legs, ..field.clone() };
    for (zone, queue) in Zone::ALL.into_iter().zip(&mut start.zones) {
        for aircraft in queue.iter_mut().filter(|_| zone.is_flying()) {
            let ahead = if matches!(zone, Missed(_)) { legs.final_ } else { 0.0 };
            aircraft.leg = legs.of(zone).unwrap_or(0.0) + ahead;
            aircraft.progress = Progress::Flying(0.0);
        }
    }
    start
}

/// Every field that can be reached, numbers aside: with its legs flown out, and on longer legs at many speeds.
#[test]
fn every_reachable_field_is_emptied() {
    let mut most = 0;
    for (index, reached) in Reached::all().fields.iter().enumerate() {
        most = most.max(emptied(reached.clone()).0);
        let mut slow = on_legs(reached, Legs::from_64ths([9, 24, 40, 33]));
        for (place, aircraft) in slow.zones.iter_mut().flatten().enumerate() {
            aircraft.speed = [1, 512, 7, 64, 33][(place + index) % 5];
        }
        emptied(slow.clone());
        // Off the 64ths.
        emptied(on_legs(&slow, Legs { base: 0.3, intermediate: 0.7, final_: 0.1, missed: 0.9 }));
    }
    assert_eq!(most, 27);
}

/// One aircraft at speed 1 flies 4,096 ticks on a leg of 64 miles, and 8,192 after a miss at the start of final.
#[test]
fn the_most_ticks_before_a_move() {
    let mut field = Field::empty(Legs::from_64ths([4096, 1, 1, 1]));
    play(&mut field, &[(2, 1, 7, 1)]);
    assert_eq!(emptied(field), (5, 4098));
    let mut field = Field::empty(Legs::from_64ths([1, 1, 4096, 4096]));
    play(&mut field, &[(2, 1, 7, 1)]);
    to_final(&mut field, 7);
    play(&mut field, &[(10, 0, 7, 0)]);
    assert_eq!(emptied(field), (6, 8192 + 2 + 4096));
}

fn button(file: &[u8]) -> String {
    String::from_utf8(reference::button(file)).expect("ASCII")
}

/// The session of document 01, then a minute to fly final; read by hand.
#[test]
fn the_whole_output() {
    let minute = (12, 0, 0, 64);
    let requests =
        [(1, 1, 7, 64), (3, 0, 7, 0), (4, 0, 7, 0), (5, 0, 7, 0), minute, (5, 0, 7, 0), (9, 0, 7, 0)];
    let expected = "2 6 7 12 1 0 0\n4 7 7 13 1 0 0\n5 8 7 0 0 0 0\nnone 5\n";
    assert_eq!(button(&file([64; 4], &requests)), expected);
    assert_eq!(button(&file([64; 4], &[])), "none 0\n");
    // A second one, at half the speed, who waits for the first on base.
    let two = [(1, 1, 300, 64), (1, 2, 65_535, 32)];
    let expected = "1 3 300 3 1 0 0\n2 4 300 9 1 0 0\n3 3 65535 4 2 300 0\n4 4 65535 10 2 300 0\n\
                    6 5 300 11 1 0 0\n8 6 300 12 1 0 0\n9 5 65535 11 2 300 0\n\
                    11 7 300 13 1 0 0\n12 8 300 0 0 0 0\n14 6 65535 12 2 0 0\n\
                    17 7 65535 13 2 0 0\n18 8 65535 0 0 0 0\nnone 18\n";
    assert_eq!(button(&file([64; 4], &two)), expected);
}

#[test]
fn a_refused_file() {
    assert_eq!(button(b"SCAP"), "file 5\n");
    assert_eq!(button(&[b"SCAP".to_vec(), vec![0; 22]].concat()), "file 6\n");
    assert_eq!(button(&file([64, 64, 64, 0], &[(1, 1, 7, 64)])), "file 7\n");
}
