//! Lists that have no field (2.12): each refusal and their order; and the whole output of the program `classroom`.

mod common;
use common::classroom::*;
use common::*;

use reference::classroom::{field as built, LONGEST_INPUT};
use reference::{Indexed, Legs, Listed};

#[test]
fn five_and_six() {
    assert_eq!(number(LEGS, SPEED, &five()[..4]), 0);
    assert_eq!(number(LEGS, SPEED, &five()), 25);
    // Five with another fault have it first.
    for place in 0..5 {
        let mut list = five();
        list[place].location = 13;
        assert_eq!(number(LEGS, SPEED, &list), 29);
        let mut list = five();
        list[place].place = 0;
        assert_eq!(number(LEGS, SPEED, &list), 29);
    }
    let mut six = five();
    six.push(listed(6, 2, 6, 2));
    assert_eq!(number(LEGS, SPEED, &six), 29);
    let many: Vec<Listed> =
        (0..66_000).map(|at| listed(at as u16, 1, (at as u16).wrapping_add(1), 1)).collect();
    assert_eq!(number(LEGS, SPEED, &many), 29);
    // As many as none, one and five by 16 bits.
    for length in [65_536, 65_537, 65_541] {
        assert_eq!(number(LEGS, SPEED, &many[..length]), 29);
    }
}

/// Legs that are refused, each in every place.
fn bad_legs() -> Vec<[u16; 4]> {
    let each = |place: usize| {
        [0, 4097, 32_768, 65_535].map(|leg| {
            let mut legs = LEGS;
            legs[place] = leg;
            legs
        })
    };
    (0..4).flat_map(each).collect()
}

const BAD_SPEEDS: [u16; 4] = [0, 513, 32_768, 65_535];

/// Lists that are refused 29, and those that are refused 25.
fn bad_lists() -> [Vec<Vec<Listed>>; 2] {
    let (two, four) = (five()[..2].to_vec(), five()[..4].to_vec());
    let mut by_29 = vec![[five(), one()].concat()];
    for list in [&one(), &two, &four] {
        for at in 0..list.len() {
            for location in [0, 5, 6, 7, 8, 9, 10, 11, 12, 13, 14, 257, 65_535] {
                let mut list = list.clone();
                list[at].location = location;
                by_29.push(list);
            }
            for place in [0, at as u16, at as u16 + 2, 257 + at as u16, 65_535] {
                let mut list = list.clone();
                list[at].place = place;
                by_29.push(list);
            }
        }
    }
    let mut by_25 = vec![five()];
    for at in 0..4 {
        let with = |change: fn(&mut Listed)| {
            let mut list = four.clone();
            change(&mut list[at]);
            list
        };
        by_25.push(with(|listed| listed.number = 0));
        by_25.push(with(|listed| listed.fix = 0));
        by_25.push(with(|listed| listed.fix = 3));
        by_25.push(with(|listed| listed.fix += 256));
        by_25.push(with(|listed| listed.fix = 65_535));
        by_25.push(with(|listed| listed.fix = 3 - listed.fix));
        for other in (0..4).filter(|&other| other != at) {
            let mut list = four.clone();
            list[at].number = list[other].number;
            by_25.push(list.clone());
            let mut list = four.clone();
            list[at].location = list[other].location;
            by_25.push(list);
        }
    }
    by_25.push(vec![listed(0, 1, 1, 1)]);
    by_25.push(vec![listed(1, 1, 1, 0)]);
    [by_29, by_25]
}

#[test]
fn each_refusal_in_its_order() {
    let [by_29, by_25] = bad_lists();
    let good: Vec<Vec<Listed>> = patterns().into_iter().map(|(_, list)| list).collect();
    for list in &good {
        assert!(field_of(list).is_ok());
    }
    for list in &by_29 {
        assert_eq!(field_of(list), Err(29), "{list:?}");
    }
    for list in &by_25 {
        assert_eq!(field_of(list), Err(25), "{list:?}");
    }
    for list in good.iter().chain(&by_29).chain(&by_25) {
        for speed in BAD_SPEEDS {
            assert_eq!(number(LEGS, speed, list), 4);
        }
    }
    for legs in bad_legs() {
        for speed in BAD_SPEEDS.into_iter().chain([SPEED]) {
            for list in [&good[0], &good[1], &by_29[0], &by_29[1], &by_25[0], &by_25[1]] {
                assert_eq!(number(legs, speed, list), 7);
            }
        }
    }
    // What both 29 and 25 could be said of is refused 29, also where the fault is later in the list.
    for fault in [listed(0, 1, 1, 1), listed(1, 1, 1, 3)] {
        assert_eq!(field_of(&[fault]), Err(25));
        assert_eq!(field_of(&[fault, listed(2, 2, 1, 2)]), Err(29));
        assert_eq!(field_of(&[fault, listed(2, 5, 2, 2)]), Err(29));
    }
}

#[test]
fn edges_of_what_is_allowed() {
    for legs in [[1; 4], [4096; 4], [1, 4096, 1, 4096]] {
        for speed in [1, 512] {
            let Indexed { field, .. } = built(legs, speed, &one()).expect("a field");
            assert_eq!((field.legs, field.zones[0][0].speed), (Legs::from_64ths(legs), speed));
        }
    }
    for number in [1, 65_535] {
        assert!(field_of(&[listed(number, 4, 1, 1)]).is_ok());
    }
}

fn text(output: Vec<u8>) -> String {
    String::from_utf8(output).expect("ASCII")
}

#[test]
fn output_of_list() {
    let output = |requests: &[(u8, u8, u16, u16)]| text(reference::classroom_list(&file([64; 4], requests)));
    assert_eq!(output(&[]), "");
    assert_eq!(output(&[(1, 1, 40_000, 64)]), "40000 1 1 1\n");
    assert_eq!(output(&[(2, 1, 7, 64)]), "refused 29\n");
    let landed = [
        (1, 2, 9, 64),
        (3, 0, 9, 0),
        (4, 0, 9, 0),
        (12, 0, 0, 64),
        (5, 0, 9, 0),
        (12, 0, 0, 64),
        (6, 0, 9, 0),
        (1, 1, 7, 64),
        (1, 2, 8, 64),
        (12, 0, 0, 64),
    ];
    assert_eq!(output(&landed[..4]), "9 10 1 2\n");
    assert_eq!(output(&landed[..6]), "refused 29\n");
    assert_eq!(output(&landed), "9 12 1 2\n7 1 2 1\n");
    let landed = [&landed[..], &[(7, 0, 9, 0), (1, 2, 8, 64)]].concat();
    // The one on the runway is last, whatever came in after it.
    assert_eq!(output(&landed), "7 1 1 1\n8 2 2 2\n9 13 0 2\n");
    assert_eq!(text(reference::classroom_list(b"SCAP")), "file 5\n");
    assert_eq!(text(reference::classroom_list(&[b"SCAP".as_slice(), &[0; 30]].concat())), "file 6\n");
    assert_eq!(text(reference::classroom_list(&file([0; 4], &[]))), "file 7\n");
}

#[test]
fn output_of_field() {
    let output = |list: &[Listed]| text(reference::classroom_field(&input(LEGS, SPEED, list)));
    assert_eq!(output(&[]), "next 1\n");
    assert_eq!(output(&one()), "next 1\n7 1 1 2\n");
    assert_eq!(output(&five()[..3]), "next 2\n1 1 1 1\n2 2 2 2\n3 3 3 1\n");
    assert_eq!(output(&five()), "refused 25\n");
    assert_eq!(output(&[listed(7, 1, 2, 1)]), "refused 29\n");
    assert_eq!(text(reference::classroom_field(&input([0; 4], 0, &[]))), "refused 7\n");
    assert_eq!(text(reference::classroom_field(&input(LEGS, 513, &[]))), "refused 4\n");
}

/// Little-endian; and what is not wholly there.
#[test]
fn bytes_of_an_input() {
    let good = [&[64, 0, 128, 0, 192, 0, 0, 16], &[44, 1][..], &[0x34, 0x12, 4, 0, 1, 0, 2, 0]].concat();
    assert_eq!(good, input(LEGS, SPEED, &[listed(0x1234, 4, 1, 2)]));
    assert_eq!(text(reference::classroom_field(&good)), "next 1\n4660 4 1 2\n");
    let refused =
        |input: &[u8]| reference::classroom::from_bytes(input).map_or_else(|refusal| refusal.number(), |_| 0);
    let numbers: Vec<u8> = (0..=good.len()).map(|length| refused(&good[..length])).collect();
    assert_eq!(numbers, [7, 7, 7, 7, 7, 7, 7, 7, 4, 4, 0, 29, 29, 29, 29, 29, 29, 29, 0]);
    // A leg and a speed that are refused come before a list that is cut.
    assert_eq!(refused(&[0; 9]), 7);
    assert_eq!(refused(&[0; 11]), 7);
    assert_eq!(refused(&[&good[..8], &[1, 2]].concat()), 4);
    assert_eq!(refused(&[&good[..8], &[1, 2, 0]].concat()), 4);
    // A longer input goes on as one byte more than the longest.
    let long = [&input(LEGS, SPEED, &five())[..], &[0; 24]].concat();
    assert_eq!(input(LEGS, SPEED, &five()).len(), LONGEST_INPUT);
    assert_eq!(refused(&long[..LONGEST_INPUT]), 25);
    for length in LONGEST_INPUT + 1..=long.len() {
        assert_eq!(refused(&long[..length]), 29);
    }
}
