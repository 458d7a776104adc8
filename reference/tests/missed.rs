//! Final is flown out before turning away: the leg after a miss, and what is measured against it.

mod common;
use common::*;

use reference::{Field, Legs, Side, Zone};

/// 7 on final right at a mile a minute, alone, with so many 64ths of a mile of final flown.
fn on_final(legs: Legs, flown: u16) -> Field {
    let mut field = Field::empty(legs);
    play(
        &mut field,
        &[(2, 1, 7, 64), (4, 0, 7, 0), (12, 0, 0, 64), (5, 0, 7, 0), (12, 0, 0, 64), (6, 0, 7, 0)],
    );
    if flown > 0 {
        play(&mut field, &[(12, 0, 0, flown)]);
    }
    field
}

/// The same after a miss.
fn missed(legs: Legs, flown: u16) -> Field {
    let mut field = on_final(legs, flown);
    play(&mut field, &[(10, 0, 7, 0)]);
    field
}

/// Final of a mile, missed of half a mile.
fn legs() -> Legs {
    Legs { missed: 0.5, ..empty().legs }
}

#[test]
fn the_missed_leg_and_what_was_left_of_final() {
    for (flown, expected) in [(0, 1.5), (16, 1.25), (63, 0.5 + 1.0 / 64.0), (64, 0.5)] {
        let field = missed(legs(), flown);
        assert_eq!((leg(&field, 7), miles(&field, 7)), (expected, 0.0));
        assert_eq!(field.find(7).map(|(zone, _)| zone), Some(Zone::Missed(Side::Right)));
        assert!(field.within_bounds());
    }
}

/// The field's leg in zones 9 to 12, 0 where aircraft wait.
#[test]
fn the_own_leg_in_every_zone() {
    let legs = Legs { base: 0.25, intermediate: 0.5, final_: 0.75, missed: 1.0 };
    let minute = (12, 0, 0, 64);
    let mut field = Field::empty(legs);
    let mut seen = Vec::new();
    let way = [
        &[(1, 1, 7, 64)][..],
        &[(3, 0, 7, 0)],
        &[(4, 0, 7, 0)],
        &[minute, (5, 0, 7, 0)],
        &[minute, (6, 0, 7, 0)],
        &[(12, 0, 0, 16), (10, 0, 7, 0)],
        &[minute, minute, (11, 0, 7, 0)],
        &[(4, 0, 7, 0)],
        &[minute, (5, 0, 7, 0)],
        &[minute, (6, 0, 7, 0)],
        &[minute, (10, 0, 7, 0)],
        &[minute, (11, 0, 7, 0)],
        &[(4, 0, 7, 0)],
        &[minute, (5, 0, 7, 0)],
        &[minute, (6, 0, 7, 0)],
        &[minute, (7, 0, 7, 0)],
    ];
    for requests in way {
        play(&mut field, requests);
        seen.push(leg(&field, 7));
    }
    let round = [0.25, 0.5, 0.75];
    // The leg of the first miss is not kept for the second, which comes at the end of final.
    let expected = [&[0.0, 0.0][..], &round, &[1.5, 0.0], &round, &[1.0, 0.0], &round, &[0.0]].concat();
    assert_eq!(seen, expected);
}

/// A hold waits for the longer leg: refused at the end of the field's missed leg, and just before its own.
#[test]
fn a_hold_waits_for_the_longer_leg() {
    let mut field = missed(legs(), 16);
    play(&mut field, &[(12, 0, 0, 32)]);
    assert_eq!(miles(&field, 7), 0.5);
    assert_eq!(line(&mut field, 11, 0, 7, 0), refused(15));
    play(&mut field, &[(12, 0, 0, 47)]);
    assert_eq!(line(&mut field, 11, 0, 7, 0), refused(15));
    play(&mut field, &[(12, 0, 0, 1)]);
    assert_eq!(line(&mut field, 11, 0, 7, 0), [0, 7, 3, 1, 0, 0]);
}

/// Miles stop at the own leg, and those waited are what is past it.
#[test]
fn a_tick_stops_at_the_own_leg() {
    let mut field = missed(legs(), 32);
    let before = waited(&field, 7);
    play(&mut field, &[(12, 0, 0, 64)]);
    assert_eq!((miles(&field, 7), waited(&field, 7)), (1.0, before));
    play(&mut field, &[(12, 0, 0, 16)]);
    assert_eq!((miles(&field, 7), waited(&field, 7)), (1.0, before + 0.25));
}

/// Two in one missed zone, each with its own leg.
#[test]
fn each_has_its_own() {
    let mut field = empty();
    play(
        &mut field,
        &[(1, 1, 7, 64), (1, 1, 8, 64), (4, 0, 7, 0), (3, 0, 8, 0), (4, 0, 8, 0), (12, 0, 0, 64)],
    );
    play(&mut field, &[(5, 0, 7, 0), (5, 0, 8, 0), (12, 0, 0, 64), (6, 0, 7, 0), (6, 0, 8, 0)]);
    play(&mut field, &[(12, 0, 0, 16), (10, 0, 7, 0), (12, 0, 0, 32), (10, 0, 8, 0)]);
    assert_eq!((leg(&field, 7), leg(&field, 8)), (1.75, 1.25));
    assert_eq!((miles(&field, 7), miles(&field, 8)), (0.5, 0.0));
}

/// First the difference is rounded, then the sum; where the sum came first, the leg would be another.
#[test]
fn the_difference_before_the_sum() {
    let legs = Legs { final_: 0.9, missed: 3.3, ..empty().legs };
    let part = 13.0 / 64.0;
    assert_ne!(3.3 + (0.9 - part), (3.3 + 0.9) - part);
    assert_eq!(leg(&missed(legs, 13), 7), 3.3 + (0.9 - part));
}

/// The least and the greatest: 1/64 and 128 miles.
#[test]
fn the_ends_of_the_range() {
    let short = missed(Legs { final_: 1.0 / 64.0, missed: 1.0 / 64.0, ..empty().legs }, 64);
    assert_eq!(leg(&short, 7), 1.0 / 64.0);
    let long = missed(Legs { final_: 64.0, missed: 64.0, ..empty().legs }, 0);
    assert_eq!(leg(&long, 7), 128.0);
    assert!(short.within_bounds() && long.within_bounds());
}

/// No legs that bound g allows, and no miles, make a miss break it, on the 64ths or off them.
#[test]
fn a_miss_never_breaks_a_bound() {
    let lengths = [1.0 / 64.0, 0.1, 0.3, 1.0, 63.9, 64.0 - f64::EPSILON * 32.0, 64.0];
    for final_ in lengths {
        for missed in lengths {
            let legs = Legs { final_, missed, ..empty().legs };
            for part in [0.0, -0.0, f64::MIN_POSITIVE, 0.1, 0.5, 0.9, 1.0 - f64::EPSILON, 1.0] {
                let mut field = on_final(legs, 0);
                field.zone_mut(Zone::Final)[0].progress = reference::Progress::Flying(final_ * part);
                assert_eq!(line(&mut field, 10, 0, 7, 0), [0, 7, 7, 1, 0, 0]);
                assert!(field.within_bounds());
            }
        }
    }
}
