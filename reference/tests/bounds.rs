//! Fields that break a bound are refused 10; steps that would break one, 25.

mod common;
use common::*;

use reference::field::Bound;
use reference::{Field, Legs, Progress, Side, Zone};
use Side::{Left, Right};
use Zone::*;

fn breaks(mut field: Field, bound: Bound) {
    assert_eq!(field.broken_bound(), Some(bound));
    let before = field.clone();
    assert_eq!(line(&mut field, 12, 0, 0, 64), refused(10));
    assert_eq!(line(&mut field, 1, 1, 9, 64), refused(10));
    // Input refusals come first.
    assert_eq!(line(&mut field, 12, 0, 0, 65), refused(4));
    // Not comparable where a mile or a leg is no number.
    assert!(field == before || before != before.clone());
}

fn holds(field: &Field) {
    assert_eq!(field.broken_bound(), None);
}

#[test]
fn bound_a_four_and_one() {
    let four = [(Base(Right), Right), (Base(Right), Left), (Base(Left), Right), (Base(Left), Left)];
    holds(&field(&four));
    let mut five = field(&four);
    put(&mut five, Base(Left), 5, Right);
    breaks(five, Bound::A);
    let mut runway = empty();
    put(&mut runway, Runway, 1, Right);
    holds(&runway);
    put(&mut runway, Runway, 2, Left);
    breaks(runway, Bound::A);
}

#[test]
fn bound_b_two_in_an_area() {
    let two = [(Holding3(Right), Right), (Missed(Right), Left)];
    holds(&field(&two));
    breaks(field(&[two[0], two[1], (Missed(Right), Right)]), Bound::B);
}

#[test]
fn bound_c_one_in_zones_1_to_6() {
    for side in Side::BOTH {
        for zone in [Holding3(side), Holding2(side), Lateral(side)] {
            breaks(field(&[(zone, Right), (zone, Left)]), Bound::C);
        }
        for zone in [Holding3(side), Holding2(side), Missed(side)] {
            breaks(field(&[(Lateral(side), Right), (zone, Left)]), Bound::C);
        }
        holds(&field(&[(Missed(side), Right), (Missed(side), Left)]));
        holds(&field(&[(Lateral(side), Right), (Base(side), Left)]));
    }
}

#[test]
fn bound_d_two_per_fix() {
    // Three with one fix cannot alternate, so bound f is broken, too; d comes first.
    breaks(field(&[(Base(Right), Right), (Base(Right), Right), (Base(Left), Right)]), Bound::D);
}

#[test]
fn bound_e_numbers_and_sequence() {
    let two = || field(&[(Base(Right), Right), (Base(Left), Left)]);
    holds(&two());
    let mut same = two();
    same.zone_mut(Base(Left))[0].number = 1;
    breaks(same, Bound::E);
    let mut zero = two();
    zero.zone_mut(Base(Left))[0].number = 0;
    zero.sequence[1] = 0;
    breaks(zero, Bound::E);
    let mut short = two();
    short.sequence.pop_back();
    breaks(short, Bound::E);
    let mut twice = two();
    twice.sequence[1] = 1;
    breaks(twice, Bound::E);
    let mut stranger = two();
    stranger.sequence[1] = 9;
    breaks(stranger, Bound::E);
    let mut runway = two();
    put(&mut runway, Runway, 2, Left);
    breaks(runway, Bound::E);
    let mut landed = two();
    put(&mut landed, Runway, 3, Left);
    holds(&landed);
    landed.sequence.push_back(3);
    breaks(landed, Bound::E);
}

#[test]
fn bound_e_head_of_final_leads() {
    holds(&field(&[(Final, Right), (Base(Left), Left)]));
    breaks(field(&[(Base(Left), Right), (Final, Left)]), Bound::E);
}

#[test]
fn bound_f_fixes_alternate() {
    breaks(field(&[(Base(Right), Right), (Base(Left), Right)]), Bound::F);
    let mut next = field(&[(Base(Right), Right), (Base(Left), Left)]);
    next.next_fix = Left;
    breaks(next, Bound::F);
    // An empty sequence has no last one.
    let mut none = empty();
    none.next_fix = Left;
    holds(&none);
    put(&mut none, Runway, 1, Left);
    holds(&none);
}

#[test]
fn bound_g_speeds_miles_and_legs() {
    let one = |zone| field(&[(zone, Right)]);
    for speed in [0, 513] {
        let mut field = one(Holding3(Right));
        field.zone_mut(Holding3(Right))[0].speed = speed;
        breaks(field, Bound::G);
    }
    for miles in [-0.5, 1.5, f64::NAN, f64::INFINITY] {
        let mut field = one(Base(Right));
        field.zone_mut(Base(Right))[0].progress = Progress::Flying(miles);
        breaks(field, Bound::G);
    }
    for miles in [-0.0, 0.0, 0.3, 1.0] {
        let mut field = one(Base(Right));
        field.zone_mut(Base(Right))[0].progress = Progress::Flying(miles);
        holds(&field);
    }
    for leg in [0.0, 1.0 / 65.0, 64.5, f64::NAN] {
        breaks(Field::empty(Legs { missed: leg, ..empty().legs }), Bound::G);
    }
    for zone in Zone::ALL {
        let mut field = empty();
        put(&mut field, zone, 1, Right);
        holds(&field);
        field.zone_mut(zone)[0].progress =
            if zone.is_flying() { Progress::Waiting } else { Progress::Flying(0.0) };
        breaks(field, Bound::G);
    }
}

/// One in a zone with its own leg, and with miles where it flies.
fn with_leg(zone: Zone, leg: f64, miles: f64) -> Field {
    let mut field = empty();
    put(&mut field, zone, 1, Right);
    let aircraft = &mut field.zone_mut(zone)[0];
    aircraft.leg = leg;
    if zone.is_flying() {
        aircraft.progress = Progress::Flying(miles);
    }
    field
}

#[test]
fn bound_g_own_legs() {
    for zone in Zone::ALL {
        let (kept, broken) = match zone {
            Missed(_) => ([1.0 / 64.0, 0.3, 1.0, 64.5, 128.0], [0.0, 0.015, 128.5, -1.0, f64::NAN]),
            Base(_) | Intermediate | Final => ([1.0; 5], [0.0, 0.5, 2.0, 128.0, f64::NAN]),
            _ => ([0.0, -0.0, 0.0, -0.0, 0.0], [1.0, 1.0 / 64.0, -1.0, f64::MIN_POSITIVE, f64::NAN]),
        };
        kept.into_iter().for_each(|leg| holds(&with_leg(zone, leg, 0.0)));
        broken.into_iter().for_each(|leg| breaks(with_leg(zone, leg, 0.0), Bound::G));
    }
}

/// In a missed zone the own leg counts, also where it is shorter or longer than the field's, which is a mile.
#[test]
fn bound_g_miles_against_the_own_leg() {
    for side in Side::BOTH {
        for (leg, miles) in [(0.5, 0.5), (2.0, 1.5), (2.0, 2.0), (128.0, 128.0), (1.0 / 64.0, 0.0)] {
            holds(&with_leg(Missed(side), leg, miles));
        }
        for (leg, miles) in [(0.5, 0.75), (2.0, 2.5), (2.0, -0.5), (2.0, f64::NAN), (128.0, 129.0)] {
            breaks(with_leg(Missed(side), leg, miles), Bound::G);
        }
    }
}

#[test]
fn bound_g_miles_waited() {
    for zone in Zone::ALL {
        let with = |waited| {
            let mut field = empty();
            put(&mut field, zone, 1, Right);
            field.zone_mut(zone)[0].waited = waited;
            field
        };
        for waited in [0.0, -0.0, 1.0 / 4096.0, 0.3, 4096.0] {
            holds(&with(waited));
        }
        for waited in [-1.0 / 4096.0, 4096.0 + 1.0 / 4096.0, f64::NAN, f64::INFINITY, f64::NEG_INFINITY] {
            breaks(with(waited), Bound::G);
        }
    }
}

/// These fields are within the bounds, but cannot be reached from an empty one.
#[test]
fn refused_25() {
    // Three in the right area after the miss.
    let mut crowded = field(&[(Final, Right), (Holding2(Right), Left), (Holding3(Right), Right)]);
    // A lateral zone beside an occupied missed zone.
    let mut beside = field(&[(Final, Right), (Lateral(Right), Left)]);
    for field in [&mut crowded, &mut beside] {
        holds(field);
        let before = field.clone();
        assert_eq!(line(field, 10, 0, 1, 0), refused(25));
        assert_eq!(*field, before);
    }
    // Final behind one on base who is first in sequence.
    let mut overtaken = field(&[(Base(Left), Right), (Intermediate, Left)]);
    overtaken.zone_mut(Intermediate)[0].progress = Progress::Flying(1.0);
    holds(&overtaken);
    assert_eq!(line(&mut overtaken, 6, 0, 2, 0), refused(25));
}

#[test]
fn ticks_off_the_64ths() {
    let mut field = Field::empty(Legs { base: 0.3, ..empty().legs });
    play(&mut field, &[(2, 1, 7, 3), (4, 0, 7, 0)]);
    let mut expected = 0.0;
    for amount in [1, 7, 64, 64, 64, 64, 64] {
        play(&mut field, &[(12, 0, 0, amount)]);
        expected = f64::min(expected + 3.0 / 64.0 * (f64::from(amount) / 64.0), 0.3);
        assert_eq!(miles(&field, 7), expected);
    }
    play(&mut field, &[(12, 0, 0, 64), (12, 0, 0, 64)]);
    assert_eq!(miles(&field, 7), 0.3);
    assert_eq!(line(&mut field, 5, 0, 7, 0), [0, 7, 11, 1, 0, 0]);
}
