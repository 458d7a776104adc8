//! Each refusal number that can be reached from an empty field, and the order.

mod common;
use common::*;

#[test]
fn refusal_1_kind() {
    for kind in [0, 13, 255] {
        assert_eq!(line(&mut empty(), kind, 3, 0, 999), refused(1));
    }
}

#[test]
fn refusal_2_side() {
    for side in [0, 3, 255] {
        assert_eq!(line(&mut empty(), 1, side, 0, 999), refused(2));
        assert_eq!(line(&mut empty(), 2, side, 7, 64), refused(2));
    }
    for kind in 3..=12 {
        for side in [1, 2, 255] {
            assert_eq!(line(&mut empty(), kind, side, 7, 999), refused(2));
        }
    }
}

#[test]
fn refusal_3_number() {
    for kind in 1..=2 {
        assert_eq!(line(&mut empty(), kind, 1, 0, 999), refused(3));
    }
    for kind in 3..=11 {
        assert_eq!(line(&mut empty(), kind, 0, 0, 999), refused(3));
    }
    assert_eq!(line(&mut empty(), 12, 0, 1, 999), refused(3));
}

#[test]
fn refusal_4_amount() {
    for kind in 1..=2 {
        for amount in [0, 513, 65535] {
            assert_eq!(line(&mut empty(), kind, 1, 7, amount), refused(4));
        }
    }
    for kind in 3..=11 {
        assert_eq!(line(&mut empty(), kind, 0, 7, 1), refused(4));
    }
    for amount in [0, 65, 65535] {
        assert_eq!(line(&mut empty(), 12, 0, 0, amount), refused(4));
    }
}

#[test]
fn refusal_11_present_also_on_the_runway() {
    let mut field = empty();
    play(&mut field, &[(2, 1, 7, 64)]);
    assert_eq!(line(&mut field, 2, 1, 7, 64), refused(11));
    to_final(&mut field, 7);
    play(&mut field, &[(12, 0, 0, 64), (7, 0, 7, 0)]);
    assert_eq!(line(&mut field, 1, 2, 7, 64), refused(11));
    play(&mut field, &[(8, 0, 7, 0), (1, 2, 7, 64)]);
}

#[test]
fn refusal_12_not_on_the_field() {
    for kind in 3..=11 {
        assert_eq!(line(&mut empty(), kind, 0, 7, 0), refused(12));
    }
}

#[test]
fn refusal_13_zone() {
    let mut field = empty();
    play(&mut field, &[(1, 1, 7, 64)]);
    for kind in 4..=11 {
        assert_eq!(line(&mut field, kind, 0, 7, 0), refused(13));
    }
    play(&mut field, &[(3, 0, 7, 0)]);
    for kind in [3, 5, 6, 7, 8, 9, 10, 11] {
        assert_eq!(line(&mut field, kind, 0, 7, 0), refused(13));
    }
}

/// 7 and 8 one after the other on base right, 9 at 2000 left.
fn three() -> reference::Field {
    let mut field = empty();
    play(&mut field, &[(1, 1, 7, 64), (3, 0, 7, 0), (1, 1, 8, 64), (1, 2, 9, 64), (3, 0, 9, 0)]);
    play(&mut field, &[(4, 0, 7, 0), (3, 0, 8, 0), (4, 0, 8, 0)]);
    field
}

#[test]
fn refusal_14_head() {
    let mut field = three();
    assert_eq!(line(&mut field, 5, 0, 8, 0), refused(14));
    play(&mut field, &[(12, 0, 0, 64), (5, 0, 7, 0), (5, 0, 8, 0), (12, 0, 0, 64)]);
    assert_eq!(line(&mut field, 6, 0, 8, 0), refused(14));
    assert_eq!(line(&mut field, 9, 0, 8, 0), refused(14));
    play(&mut field, &[(6, 0, 7, 0), (6, 0, 8, 0), (12, 0, 0, 64)]);
    assert_eq!(line(&mut field, 7, 0, 8, 0), refused(14));
    assert_eq!(line(&mut field, 10, 0, 8, 0), refused(14));
}

#[test]
fn refusal_15_leg() {
    let mut field = empty();
    play(&mut field, &[(2, 1, 7, 64), (4, 0, 7, 0), (12, 0, 0, 63)]);
    assert_eq!(line(&mut field, 5, 0, 7, 0), refused(15));
    play(&mut field, &[(12, 0, 0, 1), (5, 0, 7, 0)]);
    assert_eq!(line(&mut field, 6, 0, 7, 0), refused(15));
    assert_eq!(line(&mut field, 9, 0, 7, 0), refused(15));
    play(&mut field, &[(12, 0, 0, 64), (6, 0, 7, 0)]);
    assert_eq!(line(&mut field, 7, 0, 7, 0), refused(15));
    play(&mut field, &[(10, 0, 7, 0)]);
    assert_eq!(line(&mut field, 11, 0, 7, 0), refused(15));
}

#[test]
fn refusal_16_potential() {
    let mut field = empty();
    play(&mut field, &[(1, 1, 7, 64), (3, 0, 7, 0), (1, 1, 8, 64)]);
    assert_eq!(line(&mut field, 1, 1, 9, 64), refused(16));
    assert_eq!(line(&mut field, 2, 1, 9, 64), refused(16));
    assert_eq!(line(&mut field, 2, 2, 9, 64), refused(16));
    assert_eq!(line(&mut field, 1, 2, 9, 64), [0, 9, 2, 1, 8, 0]);
}

#[test]
fn refusal_17_approach_holds_fix() {
    let mut field = empty();
    play(&mut field, &[(2, 1, 7, 64), (4, 0, 7, 0)]);
    assert_eq!(line(&mut field, 1, 1, 8, 64), refused(17));
    assert_eq!(line(&mut field, 2, 1, 8, 64), refused(16));
}

#[test]
fn refusal_18_missed_occupied() {
    let mut field = empty();
    play(&mut field, &[(2, 1, 7, 64)]);
    to_final(&mut field, 7);
    play(&mut field, &[(10, 0, 7, 0)]);
    assert_eq!(line(&mut field, 1, 1, 8, 64), refused(18));
}

#[test]
fn refusal_19_lateral_occupied() {
    let mut field = empty();
    play(&mut field, &[(2, 2, 7, 64)]);
    assert_eq!(line(&mut field, 1, 2, 8, 64), refused(19));
}

#[test]
fn refusal_21_2000_occupied() {
    let mut field = empty();
    play(&mut field, &[(1, 2, 7, 64), (3, 0, 7, 0), (1, 2, 8, 64)]);
    assert_eq!(line(&mut field, 3, 0, 8, 0), refused(21));
}

#[test]
fn refusal_22_sequence_or_leader() {
    let mut field = empty();
    play(&mut field, &[(1, 1, 7, 64), (1, 2, 8, 64), (3, 0, 8, 0)]);
    assert_eq!(line(&mut field, 4, 0, 8, 0), refused(22));
    let mut field = three();
    play(&mut field, &[(12, 0, 0, 64), (5, 0, 7, 0), (4, 0, 9, 0), (12, 0, 0, 64)]);
    assert_eq!(line(&mut field, 5, 0, 9, 0), refused(22));
    play(&mut field, &[(5, 0, 8, 0), (6, 0, 7, 0), (12, 0, 0, 64)]);
    assert_eq!(line(&mut field, 9, 0, 8, 0), refused(22));
}

#[test]
fn lateral_approach_with_an_unmet_need() {
    let mut field = empty();
    play(&mut field, &[(1, 1, 7, 64), (2, 2, 8, 64)]);
    assert_eq!(line(&mut field, 4, 0, 8, 0), [0, 8, 4, 2, 7, 0]);
}

#[test]
fn refusal_23_opposite_base() {
    let mut field = three();
    assert_eq!(line(&mut field, 4, 0, 9, 0), refused(23));
    play(&mut field, &[(12, 0, 0, 64), (5, 0, 7, 0)]);
    assert_eq!(line(&mut field, 4, 0, 9, 0), [0, 9, 10, 1, 8, 0]);
}

#[test]
fn refusal_24_runway() {
    let mut field = three();
    play(&mut field, &[(12, 0, 0, 64), (5, 0, 7, 0), (5, 0, 8, 0), (12, 0, 0, 64)]);
    play(&mut field, &[(6, 0, 7, 0), (6, 0, 8, 0), (12, 0, 0, 64), (7, 0, 7, 0)]);
    assert_eq!(line(&mut field, 7, 0, 8, 0), refused(24));
    play(&mut field, &[(8, 0, 7, 0)]);
    assert_eq!(line(&mut field, 7, 0, 8, 0), [0, 8, 13, 2, 0, 0]);
}

#[test]
fn a_refusal_changes_nothing() {
    let mut field = three();
    let before = field.clone();
    for request in [(5, 0, 8, 0), (4, 0, 9, 0), (1, 1, 6, 64), (3, 0, 5, 0), (0, 0, 0, 0)] {
        let (kind, side, number, amount) = request;
        assert!(ask(&mut field, kind, side, number, amount).is_err());
        assert_eq!(field, before);
    }
}

#[test]
fn merge_behind_a_leader_on_intermediate_or_final() {
    let mut field = three();
    play(
        &mut field,
        &[(12, 0, 0, 64), (5, 0, 7, 0), (4, 0, 9, 0), (5, 0, 8, 0), (12, 0, 0, 64), (6, 0, 7, 0)],
    );
    assert_eq!(line(&mut field, 5, 0, 9, 0), [0, 9, 11, 1, 8, 0]);
}

#[test]
fn exit_needs_its_leg_flown_out() {
    let mut field = empty();
    play(&mut field, &[(2, 1, 7, 64), (4, 0, 7, 0), (12, 0, 0, 64), (5, 0, 7, 0)]);
    assert_eq!(miles(&field, 7), 0.0);
    assert_eq!(line(&mut field, 9, 0, 7, 0), refused(15));
    play(&mut field, &[(12, 0, 0, 63)]);
    assert_eq!(line(&mut field, 9, 0, 7, 0), refused(15));
    play(&mut field, &[(12, 0, 0, 1)]);
    assert_eq!(line(&mut field, 9, 0, 7, 0), [0, 7, 0, 0, 0, 0]);
    assert_eq!(field.present(), 0);
}

/// 14, then 15, then 22.
#[test]
fn exit_in_the_order_of_its_refusals() {
    let mut field = three();
    play(&mut field, &[(12, 0, 0, 64), (5, 0, 7, 0), (5, 0, 8, 0)]);
    // 8 is behind 7, at the start of its leg, and not first.
    assert_eq!(line(&mut field, 9, 0, 8, 0), refused(14));
    play(&mut field, &[(12, 0, 0, 64)]);
    assert_eq!(line(&mut field, 9, 0, 8, 0), refused(14));
    // The same with 7 on final: 8 is at the head.
    let mut field = three();
    play(&mut field, &[(12, 0, 0, 64), (5, 0, 7, 0), (12, 0, 0, 64), (6, 0, 7, 0), (5, 0, 8, 0)]);
    assert_eq!(line(&mut field, 9, 0, 8, 0), refused(15));
    play(&mut field, &[(12, 0, 0, 64)]);
    assert_eq!(line(&mut field, 9, 0, 8, 0), refused(22));
    play(&mut field, &[(7, 0, 7, 0)]);
    assert_eq!(line(&mut field, 9, 0, 8, 0), [0, 8, 0, 0, 0, 0]);
}
