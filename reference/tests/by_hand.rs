//! The worked session and every case of "Played by hand", as document 02 leaves them.

mod common;
use common::*;

use reference::Side;

#[test]
fn worked_session() {
    let requests =
        [(1, 1, 7, 64), (3, 0, 7, 0), (4, 0, 7, 0), (5, 0, 7, 0), (12, 0, 0, 64), (5, 0, 7, 0), (9, 0, 7, 0)];
    let expected = "1 0 7 1 1 0 0\n\
                    2 0 7 3 1 0 0\n\
                    3 0 7 9 1 0 0\n\
                    4 15 0 0 0 0 0\n\
                    5 0 0 0 0 0 0\n\
                    6 0 7 11 1 0 0\n\
                    7 15 0 0 0 0 0\n\
                    end 1 0 0 0 1\n";
    assert_eq!(report(&file([64; 4], &requests)), expected);
}

#[test]
fn vertical_right_on_empty() {
    let mut field = empty();
    assert_eq!(line(&mut field, 1, 1, 7, 64), [0, 7, 1, 1, 0, 0]);
    assert_eq!(field.next_fix, Side::Left);
}

#[test]
fn second_to_the_right() {
    let mut field = empty();
    play(&mut field, &[(1, 1, 7, 64)]);
    assert_eq!(line(&mut field, 1, 1, 8, 64), [0, 8, 1, 2, 7, 7]);
    assert_eq!(field.find(7).map(|(zone, _)| zone.number()), Some(3));
    assert_eq!(field.sequence, [7, 8]);
    assert_eq!(field.next_fix, Side::Right);
}

#[test]
fn second_to_the_left() {
    let mut field = empty();
    play(&mut field, &[(1, 1, 7, 64)]);
    assert_eq!(line(&mut field, 1, 2, 8, 64), [0, 8, 2, 2, 7, 0]);
}

#[test]
fn same_number_again() {
    let mut field = empty();
    play(&mut field, &[(1, 1, 7, 64)]);
    assert_eq!(line(&mut field, 1, 1, 7, 64), refused(11));
    assert_eq!(line(&mut field, 1, 2, 7, 64), refused(11));
}

#[test]
fn lateral_right_on_empty() {
    assert_eq!(line(&mut empty(), 2, 1, 7, 64), [0, 7, 5, 1, 0, 0]);
}

#[test]
fn entries_after_a_lateral_one() {
    let mut field = empty();
    play(&mut field, &[(2, 1, 7, 64)]);
    assert_eq!(line(&mut field, 1, 1, 8, 64), refused(19));
    assert_eq!(line(&mut field, 2, 1, 8, 64), refused(16));
}

#[test]
fn lateral_approach_when_alone() {
    let mut field = empty();
    play(&mut field, &[(2, 1, 7, 64)]);
    assert_eq!(line(&mut field, 4, 0, 7, 0), [0, 7, 9, 1, 0, 0]);
}

#[test]
fn miss_alone_keeps_the_fix() {
    let mut field = empty();
    play(&mut field, &[(2, 1, 7, 64)]);
    to_final(&mut field, 7);
    assert_eq!(line(&mut field, 10, 0, 7, 0), [0, 7, 7, 1, 0, 0]);
    assert_eq!(field.next_fix, Side::Left);
}

#[test]
fn first_of_two_misses() {
    let mut field = empty();
    play(&mut field, &[(1, 1, 7, 64), (1, 2, 8, 64), (3, 0, 7, 0)]);
    to_final(&mut field, 7);
    assert_eq!(line(&mut field, 10, 0, 7, 0), [0, 7, 7, 1, 8, 0]);
    assert_eq!(field.sequence, [8, 7]);
    assert_eq!(field.next_fix, Side::Left);
}

#[test]
fn hold_moves_two() {
    let mut field = empty();
    play(&mut field, &[(1, 1, 7, 64), (3, 0, 7, 0), (1, 1, 8, 64)]);
    to_final(&mut field, 7);
    // A mile of final and a mile of the missed leg.
    play(&mut field, &[(10, 0, 7, 0), (12, 0, 0, 64)]);
    assert_eq!(line(&mut field, 11, 0, 7, 0), refused(15));
    play(&mut field, &[(12, 0, 0, 64)]);
    assert_eq!(line(&mut field, 11, 0, 7, 0), [0, 7, 1, 1, 8, 8]);
    assert_eq!(field.find(8).map(|(zone, _)| zone.number()), Some(3));
}

#[test]
fn two_on_the_opposite_base() {
    let mut field = empty();
    play(&mut field, &[(1, 2, 7, 64), (3, 0, 7, 0), (1, 2, 8, 64), (1, 1, 9, 64), (3, 0, 9, 0)]);
    play(&mut field, &[(4, 0, 7, 0), (3, 0, 8, 0), (4, 0, 8, 0)]);
    assert_eq!(field.sequence, [7, 8, 9]);
    assert_eq!(line(&mut field, 4, 0, 9, 0), refused(23));
}

#[test]
fn eight_miles() {
    let mut field = reference::Field::empty(reference::Legs::from_64ths([4096; 4]));
    play(&mut field, &[(2, 1, 7, 512), (4, 0, 7, 0), (12, 0, 0, 64)]);
    assert_eq!(miles(&field, 7), 8.0);
}

#[test]
fn speed_512_and_513() {
    assert_eq!(line(&mut empty(), 1, 1, 7, 512), [0, 7, 1, 1, 0, 0]);
    assert_eq!(line(&mut empty(), 1, 1, 7, 513), refused(4));
}

#[test]
fn tick_64_and_65() {
    assert_eq!(line(&mut empty(), 12, 0, 0, 64), [0; 6]);
    assert_eq!(line(&mut empty(), 12, 0, 0, 65), refused(4));
}

#[test]
fn file_of_34_26_and_25_bytes() {
    let file = file([64; 4], &[]);
    assert_eq!(file.len(), 34);
    assert_eq!(report(&file), "end 0 0 0 0 0\n");
    assert_eq!(report(&file[..26]), "file 6\n");
    assert_eq!(report(&file[..25]), "file 5\n");
}

// Tempting and wrong.

#[test]
fn potential_counts_those_elsewhere() {
    let mut field = empty();
    play(&mut field, &[(1, 1, 7, 64), (3, 0, 7, 0), (1, 1, 8, 64)]);
    assert_eq!(field.potential(Side::Right), 2);
    assert_eq!(field.potential(Side::Left), 1);
    assert_eq!(line(&mut field, 2, 2, 9, 64), refused(16));
}

#[test]
fn missed_aircraft_goes_to_its_old_fix() {
    let mut field = empty();
    play(&mut field, &[(1, 1, 7, 64), (1, 2, 8, 64), (3, 0, 7, 0), (1, 1, 9, 64)]);
    to_final(&mut field, 7);
    assert_eq!(line(&mut field, 10, 0, 7, 0), [0, 7, 7, 2, 9, 0]);
}

#[test]
fn landed_aircraft_leaves_the_sequence() {
    let mut field = empty();
    play(&mut field, &[(2, 1, 7, 64)]);
    to_final(&mut field, 7);
    play(&mut field, &[(12, 0, 0, 64)]);
    assert_eq!(line(&mut field, 7, 0, 7, 0), [0, 7, 13, 1, 0, 0]);
    assert!(field.sequence.is_empty());
    assert_eq!(field.next_fix, Side::Left);
    assert_eq!(line(&mut field, 1, 1, 8, 64), [0, 8, 1, 1, 0, 0]);
}
