//! Spacing along the path: ways to go, gaps, close and clear, and the report.

mod common;
use common::*;

use reference::spacing::{decimal, pairs, Gap, Pair};
use reference::{Field, Legs, Progress, Refusal, Side, Zone};
use Gap::{Clear, Close};
use Side::{Left, Right};
use Zone::*;

/// Base, intermediate, final: 4, 2 and 8 miles.
fn legs() -> Legs {
    Legs { base: 4.0, intermediate: 2.0, final_: 8.0, missed: 1.0 }
}

/// Aircraft numbered from 1, in sequence order, each with the miles flown on its leg.
fn flying(legs: Legs, aircraft: &[(Zone, f64)]) -> Field {
    let mut field = Field::empty(legs);
    for (number, &(zone, miles)) in (1..).zip(aircraft) {
        let fix = if number % 2 == 1 { Right } else { Left };
        put(&mut field, zone, number, fix);
        if zone.is_flying() {
            field.zone_mut(zone).back_mut().expect("put there").progress = Progress::Flying(miles);
        }
    }
    assert!(field.within_bounds());
    field
}

/// The gaps by a spacing of a mile, with the numbers of leader and follower.
fn gaps(field: &Field) -> Vec<(u16, u16, f64)> {
    let miles = |gap| match gap {
        Close(miles) | Clear(miles) => miles,
    };
    let pairs = pairs(field, 64).expect("within the bounds");
    pairs.into_iter().map(|Pair { leader, follower, gap }| (leader, follower, miles(gap))).collect()
}

/// To go: 7.5 on final, 9.5 on intermediate, 13 and 14 on base.
#[test]
fn what_is_left_and_the_legs_that_follow() {
    let four = [(Final, 0.5), (Intermediate, 0.5), (Base(Right), 1.0), (Base(Left), 0.0)];
    assert_eq!(gaps(&flying(legs(), &four)), [(1, 2, 2.0), (2, 3, 3.5), (3, 4, 1.0)]);
    // On one leg nothing counts but what is left.
    assert_eq!(gaps(&flying(legs(), &[(Base(Left), 3.0), (Base(Left), 0.5)])), [(1, 2, 2.5)]);
    assert_eq!(gaps(&flying(legs(), &[(Intermediate, 2.0), (Intermediate, 0.5)])), [(1, 2, 1.5)]);
    assert_eq!(gaps(&flying(legs(), &[(Final, 8.0), (Final, 0.5)])), [(1, 2, 7.5)]);
}

#[test]
fn negative_and_zero() {
    // Opposite bases, and a faster follower behind its leader on final.
    assert_eq!(gaps(&flying(legs(), &[(Base(Right), 0.0), (Base(Left), 4.0)])), [(1, 2, -4.0)]);
    assert_eq!(gaps(&flying(legs(), &[(Final, 0.5), (Final, 0.75)])), [(1, 2, -0.25)]);
    let same = gaps(&flying(legs(), &[(Final, 0.5), (Final, 0.5)]));
    assert_eq!(same[0].2.to_bits(), 0.0f64.to_bits());
    // The end of one leg and the start of the next.
    assert_eq!(gaps(&flying(legs(), &[(Intermediate, 0.0), (Base(Left), 4.0)])), [(1, 2, 0.0)]);
}

/// Only neighbours, and only where both are on the approach.
#[test]
fn wholly_on_the_approach() {
    for zone in [Holding3(Right), Holding2(Right), Lateral(Right), Missed(Right)] {
        assert_eq!(gaps(&flying(legs(), &[(Final, 0.0), (zone, 0.0)])), []);
        // Nor do its neighbours make a pair across it.
        assert_eq!(gaps(&flying(legs(), &[(Final, 0.0), (zone, 0.0), (Base(Left), 0.0)])), []);
        let four = [(Intermediate, 0.0), (Base(Left), 0.0), (zone, 0.0), (Base(Left), 0.0)];
        assert_eq!(gaps(&flying(legs(), &four)), [(1, 2, 4.0)]);
    }
    assert_eq!(gaps(&empty()), []);
    assert_eq!(gaps(&flying(legs(), &[(Final, 0.0)])), []);
    // The runway is in no pair.
    let mut landed = flying(legs(), &[(Final, 0.0)]);
    put(&mut landed, Runway, 9, Left);
    assert_eq!(gaps(&landed), []);
}

/// The sequence and not the zones gives the order and the pairs.
#[test]
fn in_sequence_order() {
    let four = [(Base(Left), 0.0), (Base(Right), 0.5), (Base(Left), 1.0), (Base(Right), 2.0)];
    assert_eq!(gaps(&flying(legs(), &four)), [(1, 2, -0.5), (2, 3, -0.5), (3, 4, -1.0)]);
}

/// Close is under the spacing; a gap that is equal to it is clear.
#[test]
fn close_and_clear() {
    let judged = |miles: f64, spacing: u16| {
        let field = flying(legs(), &[(Final, 8.0), (Final, 8.0 - miles)]);
        pairs(&field, spacing).expect("within the bounds")[0].gap
    };
    assert_eq!(judged(3.0, 192), Clear(3.0));
    assert_eq!(judged(3.0, 193), Close(3.0));
    assert_eq!(judged(3.0 - 1.0 / 4096.0, 192), Close(3.0 - 1.0 / 4096.0));
    assert_eq!(judged(3.0, 191), Clear(3.0));
    assert_eq!(judged(8.0, 512), Clear(8.0));
    assert_eq!(judged(1.0 / 64.0, 1), Clear(1.0 / 64.0));
    assert_eq!(judged(0.0, 1), Close(0.0));
    // A negative gap is close by any spacing.
    let behind = flying(legs(), &[(Base(Right), 0.0), (Base(Left), 4.0)]);
    assert_eq!(pairs(&behind, 1), Ok(vec![Pair { leader: 1, follower: 2, gap: Close(-4.0) }]));
}

/// 4 for the spacing, and then 10.
#[test]
fn refusals() {
    let mut broken = flying(legs(), &[(Final, 0.0), (Final, 0.0)]);
    broken.next_fix = Left;
    for spacing in [0, 513, 65_535] {
        assert_eq!(pairs(&empty(), spacing), Err(Refusal::Amount));
        assert_eq!(pairs(&broken, spacing), Err(Refusal::Amount));
    }
    for spacing in [1, 64, 512] {
        assert_eq!(pairs(&empty(), spacing), Ok(vec![]));
        assert_eq!(pairs(&broken, spacing), Err(Refusal::FieldBreaksBound));
    }
}

/// The legs are added in the order in which they are flown; in another order this sum would be another.
#[test]
fn the_order_of_the_sum() {
    let legs = Legs { base: 1.1, intermediate: 0.9, final_: 0.1, missed: 1.0 };
    let left = 1.1 - 0.3;
    assert_ne!(left + 0.9 + 0.1, left + (0.9 + 0.1));
    assert_ne!(left + 0.9 + 0.1, left + 0.1 + 0.9);
    let field = flying(legs, &[(Final, 0.1), (Base(Left), 0.3)]);
    assert_eq!(gaps(&field), [(1, 2, left + 0.9 + 0.1)]);
    // One rounding for the gap.
    let field = flying(legs, &[(Final, 0.03), (Base(Left), 0.3)]);
    assert_eq!(gaps(&field), [(1, 2, (left + 0.9 + 0.1) - (0.1 - 0.03))]);
}

/// What one on the approach has to go, in 4096ths, by legs in 64ths.
fn to_go(field: &Field, [base, intermediate, final_, _]: [u16; 4], number: u16) -> Option<i64> {
    let ahead = match field.find(number)?.0 {
        Base(_) => base + intermediate + final_,
        Intermediate => intermediate + final_,
        Final => final_,
        _ => return None,
    };
    Some(64 * i64::from(ahead) - (miles(field, number) * 4096.0) as i64)
}

/// After each request of many random lists the gaps are whole 4096ths, and close by whole numbers.
#[test]
fn exact_in_4096ths() {
    let mut dice = Dice(28);
    let (mut close, mut clear, mut negative) = (0, 0, 0);
    for _ in 0..100 {
        let longest = dice.pick(&[4, 64, 512, 4096]);
        let legs_64ths = [(); 4].map(|()| 1 + dice.below(longest) as u16);
        let speeds = [1, 512, 1 + dice.below(512) as u16, 1 + dice.below(512) as u16];
        let spacing = 1 + dice.below(512) as u16;
        let mut field = Field::empty(Legs::from_64ths(legs_64ths));
        for _ in 0..400 {
            let _ = field.step(&dice.request(&field, &speeds, 4));
            let neighbours = field.sequence.iter().zip(field.sequence.iter().skip(1));
            let gap = |(&leader, &follower): (&u16, &u16)| {
                Some((
                    leader,
                    follower,
                    to_go(&field, legs_64ths, follower)? - to_go(&field, legs_64ths, leader)?,
                ))
            };
            let expected = neighbours.filter_map(gap).map(|(leader, follower, gap)| {
                let miles = gap as f64 / 4096.0;
                let gap = if gap < 64 * i64::from(spacing) { Close(miles) } else { Clear(miles) };
                Pair { leader, follower, gap }
            });
            let expected: Vec<Pair> = expected.collect();
            for Pair { gap, .. } in &expected {
                close += usize::from(matches!(gap, Close(_)));
                clear += usize::from(matches!(gap, Clear(_)));
                negative += usize::from(matches!(gap, Close(miles) if *miles < 0.0));
            }
            assert_eq!(pairs(&field, spacing), Ok(expected));
        }
    }
    assert!(close > 1000 && clear > 1000 && negative > 100, "{close} {clear} {negative}");
}

#[test]
fn decimal_fractions() {
    for (in_4096ths, expected) in [
        (0, "0"),
        (1, "0.000244140625"),
        (-1, "-0.000244140625"),
        (4095, "0.999755859375"),
        (4096, "1"),
        (4097, "1.000244140625"),
        (-1024, "-0.25"),
        (-4096, "-1"),
        (2048, "0.5"),
        (12_288, "3"),
        (40_960, "10"),
        (-41_984, "-10.25"),
        (192 * 4096, "192"),
        (64, "0.015625"),
        (-786_431, "-191.999755859375"),
    ] {
        assert_eq!(decimal(f64::from(in_4096ths) / 4096.0), expected);
    }
    assert_eq!(decimal(-0.0), "0");
    // The same number is read back from every one of them.
    for in_4096ths in -8192..=8192 {
        let miles = f64::from(in_4096ths) / 4096.0;
        let text = decimal(miles);
        assert_eq!(text.parse::<f64>(), Ok(miles));
        assert!(!text.contains('.') || !text.ends_with('0'));
    }
}

fn report(file: &[u8], spacing: usize) -> String {
    String::from_utf8(reference::spacing(file, spacing)).expect("ASCII")
}

/// Four on the approach, at four speeds.
fn four() -> Vec<u8> {
    let minute = (12, 0, 0, 64);
    let entries = [(1, 1, 7, 64), (1, 2, 300, 32), (1, 1, 65_535, 33), (1, 2, 8, 1)];
    let moves = [(4, 0, 7, 0), (4, 0, 300, 0), (3, 0, 65_535, 0), (4, 0, 65_535, 0), minute, (5, 0, 7, 0)];
    let last = [(3, 0, 8, 0), (4, 0, 8, 0), (12, 0, 0, 1)];
    file([64, 128, 192, 64], &[&entries[..], &moves, &last].concat())
}

/// 7 has flown 64 of 4096ths on intermediate and has 5 miles less that to go. On base, of 6 miles, 300 has flown 32 × 65 of
/// 4096ths, 65,535 has flown 33 × 65, and 8 has flown 1.
#[test]
fn the_whole_output() {
    let expected = "7 300 close 0.5078125\n300 65535 close -0.015869140625\n65535 8 close 0.5234375\n";
    assert_eq!(report(&four(), 64), expected);
    let expected = "7 300 clear 0.5078125\n300 65535 close -0.015869140625\n65535 8 clear 0.5234375\n";
    assert_eq!(report(&four(), 32), expected);
    assert_eq!(report(&file([64; 4], &[]), 64), "");
}

/// The spacing is refused before the file.
#[test]
fn refused() {
    assert_eq!(report(b"SCAP", 64), "file 5\n");
    assert_eq!(report(&file([0; 4], &[]), 512), "file 7\n");
    for spacing in [0, 513] {
        assert_eq!(report(b"SCAP", spacing), "spacing 4\n");
        assert_eq!(report(&four(), spacing), "spacing 4\n");
    }
}
