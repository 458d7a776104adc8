//! What one desk sees of the other (2.10): runs on fields within the bounds, reached or not, and runs in which the other desk's
//! numbers are renamed. Small examples show what is noticed where a part of that is left out.

mod common;
use common::desks::*;
use common::history::bits;
use common::Dice;

use reference::desks::{reply, Condition, Reply};
use reference::{Asked, Field, History, Index, Indexed, Legs, Renaming, Request};

/// How often each number came to the desk that must not notice, runs in which somebody on the field was renamed, in which the index was
/// in another order, and fields that two desks shared.
#[derive(Debug, Default)]
struct Came {
    numbers: [usize; 32],
    runs: usize,
    renamed: usize,
    reordered: usize,
    shared: usize,
}

fn asked(list: &[Request]) -> Vec<Asked> {
    list.iter().map(|&request| Asked::Request(request)).collect()
}

/// Plays a list, and the renamed list on the renamed field: this desk's replies are the same, the other's and each field are renamed.
fn not_noticed(dice: &mut Dice, start: &Indexed, desk: u8, list: &[Request], came: &mut Came) {
    let all = asked(list);
    let renaming = dice.renaming(desk, &own_numbers(desk, &all, &[start]), &all, &[start]);
    assert_eq!(renaming.broken(&History::new(start.clone()), &all), []);
    let (mut one, mut two) = (start.clone(), renaming.indexed(start));
    assert!(one.within_bounds() && two.within_bounds());
    came.runs += 1;
    came.renamed += usize::from(one != two);
    came.reordered += usize::from(renaming.index_as_it_stands(start) != two.index);
    came.shared += usize::from([1, 2].iter().all(|&d| one.field.everyone().any(|(_, a)| a.desk == d)));
    for request in list {
        let before = bits(&one);
        let (number, answer) = reply(&mut one, request);
        let other = reply(&mut two, &renaming.request(*request));
        assert_eq!(other, (number, renaming.answer(request.desk, answer)), "{request:?} {renaming:?}");
        if request.desk == desk {
            assert_eq!(other, (number, answer));
            came.numbers[usize::from(number)] += 1;
        }
        if number != 0 {
            assert_eq!(bits(&one), before);
        }
        assert_eq!(bits(&two), bits(&renaming.indexed(&one)));
    }
}

fn each_came(came: &Came, numbers: &[usize]) {
    assert!(numbers.iter().all(|&number| came.numbers[number] > 0), "{came:?}");
    assert!(came.renamed * 3 > came.runs && came.reordered * 8 > came.runs, "{came:?}");
    assert!(came.shared * 4 > came.runs, "{came:?}");
}

/// From fields that lists of two desks reach.
#[test]
fn on_reached_fields() {
    let (mut dice, mut came) = (Dice(210), Came::default());
    for _ in 0..150 {
        let longest = dice.pick(&[1, 4, 64]);
        let legs = Legs::from_64ths([(); 4].map(|()| 1 + dice.below(longest) as u16));
        let mut field = Indexed::empty(legs);
        for _ in 0..20 {
            let length = dice.pick(&[1, 10, 30]);
            let list = dice.list_of_two(&field, length);
            let desk = dice.desk();
            not_noticed(&mut dice, &field, desk, &list, &mut came);
            for request in list {
                reply(&mut field, &request);
            }
        }
    }
    assert_eq!([10, 20, 25].map(|number| came.numbers[number]), [0; 3]);
    each_came(&came, &[0, 1, 2, 3, 4, 11, 12, 13, 14, 15, 16, 17, 18, 19, 21, 22, 23, 26]);
}

/// From any field within the bounds.
#[test]
fn on_fields_within_the_bounds() {
    let (mut dice, mut came) = (Dice(2100), Came::default());
    for field in within_bounds(&mut dice, 8) {
        let start = dice.shared(&field);
        for desk in [1, 2] {
            let list = dice.list_of_two(&start, 12);
            not_noticed(&mut dice, &start, desk, &list, &mut came);
        }
    }
    assert_eq!([10, 20].map(|number| came.numbers[number]), [0; 2]);
    each_came(&came, &[0, 1, 2, 3, 4, 11, 12, 13, 14, 15, 16, 17, 18, 19, 21, 22, 23, 24, 25, 26]);
}

/// Desk 0 and others that are none: refused 31, whether they are renamed or not, and whoever is not to notice.
#[test]
fn requests_of_no_desk() {
    let mut field = started();
    accepted(&mut field, &[(2, 1, 1, 5, 64)]);
    for desk in [0, 3, 4, 128, 255] {
        for (kind, side, number, amount) in [(12, 0, 0, 64), (3, 0, 5, 0), (1, 2, 6, 64), (0, 9, 0, 999)] {
            let before = field.clone();
            assert_eq!(lines(&mut field, &[(desk, kind, side, number, amount)]), [[31, 0, 0, 0, 0, 0]]);
            assert_eq!(field, before);
        }
    }
}

/// What is left out of the claim.
#[derive(Clone, Copy, Debug, PartialEq, Eq)]
enum Without {
    /// Nothing; the claim holds.
    Nothing,
    /// A condition on the renaming.
    This(Condition),
    /// The other desk's refused requests are not renamed.
    Refused,
    /// The index is renamed and not put in order again.
    Order,
    /// The sequence is not renamed.
    Sequence,
    /// `leader` is shown, whoever's it is.
    LeaderHidden,
    /// `along` is shown.
    AlongHidden,
}

/// The field after the first list is the one from which both runs start; desk 1 is not to notice.
struct Example {
    without: Without,
    before: &'static [By],
    pairs: &'static [(u16, u16)],
    list: &'static [By],
    /// The last reply in both runs.
    replies: [[u16; 6]; 2],
}

const SWAPPED: &[(u16, u16)] = &[(5, 6), (6, 5)];
const MINUTE: By = (2, 12, 0, 0, 64);

const EXAMPLES: &[Example] = &[
    Example {
        without: Without::Nothing,
        before: &[(2, 1, 1, 5, 64)],
        pairs: SWAPPED,
        list: &[(2, 1, 2, 5, 64), (1, 1, 2, 7, 64)],
        replies: [[0, 7, 2, 2, 0, 0]; 2],
    },
    // Only the numbers of accepted requests stay: 5 is the other's, and then is nobody's.
    Example {
        without: Without::This(Condition::Named),
        before: &[(2, 1, 1, 5, 64)],
        pairs: SWAPPED,
        list: &[(1, 3, 0, 5, 0)],
        replies: [[26, 0, 0, 0, 0, 0], [12, 0, 0, 0, 0, 0]],
    },
    // The same of an entry.
    Example {
        without: Without::This(Condition::Named),
        before: &[(2, 1, 1, 5, 64)],
        pairs: SWAPPED,
        list: &[(1, 1, 1, 5, 64)],
        replies: [[11, 0, 0, 0, 0, 0], [0, 5, 1, 2, 0, 0]],
    },
    // The other's second entry is refused 11, and is accepted where the first one is renamed and this one is not.
    Example {
        without: Without::Refused,
        before: &[(2, 1, 1, 5, 64)],
        pairs: SWAPPED,
        list: &[(2, 1, 2, 5, 64), (1, 1, 2, 7, 64)],
        replies: [[0, 7, 2, 2, 0, 0], [0, 7, 2, 1, 0, 0]],
    },
    // 5 is renamed to 7, and 7 stays.
    Example {
        without: Without::This(Condition::OneForOne),
        before: &[],
        pairs: &[(5, 7)],
        list: &[(2, 1, 1, 5, 64), (1, 1, 1, 7, 64)],
        replies: [[0, 7, 1, 2, 0, 0], [11, 0, 0, 0, 0, 0]],
    },
    // 5 is renamed to 6, and 6 stays: the other's own second entry is refused.
    Example {
        without: Without::This(Condition::OneForOne),
        before: &[(2, 1, 1, 5, 64)],
        pairs: &[(5, 6)],
        list: &[(2, 1, 2, 6, 64), (1, 1, 2, 7, 64)],
        replies: [[0, 7, 2, 1, 0, 0], [0, 7, 2, 2, 0, 0]],
    },
    // Two on the field are renamed to one.
    Example {
        without: Without::This(Condition::OneForOne),
        before: &[(2, 1, 1, 5, 64), (2, 1, 2, 6, 64)],
        pairs: &[(5, 6)],
        list: &[(1, 12, 0, 0, 64)],
        replies: [[0, 0, 0, 0, 0, 0], [10, 0, 0, 0, 0, 0]],
    },
    // 5 stands before 7 in the index, and 9 does not.
    Example {
        without: Without::Order,
        before: &[(2, 1, 1, 5, 64), (1, 1, 2, 7, 64)],
        pairs: &[(5, 9), (9, 5)],
        list: &[(1, 12, 0, 0, 64)],
        replies: [[0, 0, 0, 0, 0, 0], [10, 0, 0, 0, 0, 0]],
    },
    Example {
        without: Without::Sequence,
        before: &[(2, 1, 1, 5, 64)],
        pairs: SWAPPED,
        list: &[(1, 12, 0, 0, 64)],
        replies: [[0, 0, 0, 0, 0, 0], [10, 0, 0, 0, 0, 0]],
    },
    // 5 is renamed to 0: no such entry.
    Example {
        without: Without::This(Condition::Zero),
        before: &[],
        pairs: &[(0, 5), (5, 0)],
        list: &[(2, 1, 1, 5, 64), (1, 1, 1, 7, 64)],
        replies: [[0, 7, 1, 2, 0, 0], [0, 7, 1, 1, 0, 0]],
    },
    // 0 is renamed to 5: no such tick.
    Example {
        without: Without::This(Condition::Zero),
        before: &[(1, 2, 1, 7, 64), (1, 4, 0, 7, 0)],
        pairs: &[(0, 5), (5, 0)],
        list: &[MINUTE, (1, 5, 0, 7, 0)],
        replies: [[0, 7, 11, 1, 0, 0], [15, 0, 0, 0, 0, 0]],
    },
    // The number of an own aircraft does not stay, though no request names it: the other's entry meets it.
    Example {
        without: Without::This(Condition::Carried),
        before: &[(1, 1, 1, 7, 64)],
        pairs: &[(5, 7), (7, 5)],
        list: &[(2, 1, 2, 5, 64), (1, 1, 2, 8, 64)],
        replies: [[0, 8, 2, 1, 0, 0], [0, 8, 2, 2, 7, 0]],
    },
    Example {
        without: Without::LeaderHidden,
        before: &[(2, 1, 1, 5, 64)],
        pairs: SWAPPED,
        list: &[(1, 1, 2, 7, 64)],
        replies: [[0, 7, 2, 2, 5, 0], [0, 7, 2, 2, 6, 0]],
    },
    Example {
        without: Without::AlongHidden,
        before: &[(2, 1, 1, 5, 64)],
        pairs: SWAPPED,
        list: &[(1, 1, 1, 7, 64)],
        replies: [[0, 7, 1, 2, 0, 5], [0, 7, 1, 2, 0, 6]],
    },
];

/// Who else changed the zone.
fn moved_along(before: &Field, after: &Field, number: u16) -> u16 {
    let zone = |field: &Field, number| field.find(number).map(|(zone, _)| zone);
    let moved = after.everyone().find(|(now, a)| a.number != number && zone(before, a.number) != Some(*now));
    moved.map_or(0, |(_, aircraft)| aircraft.number)
}

/// Plays one request; what is left out may show more of the answer.
fn shown(field: &mut Indexed, request: &Request, without: Without) -> Reply {
    let before = field.field.clone();
    let (number, mut answer) = reply(field, request);
    if number == 0 && request.kind != 12 {
        match without {
            Without::LeaderHidden => answer.leader = field.field.leader(answer.aircraft).unwrap_or(0),
            Without::AlongHidden => answer.along = moved_along(&before, &field.field, answer.aircraft),
            _ => {}
        }
    }
    (number, answer)
}

fn renamed_start(renaming: &Renaming, start: &Indexed, without: Without) -> Indexed {
    let mut renamed = renaming.indexed(start);
    match without {
        Without::Order => renamed.index = renaming.index_as_it_stands(start),
        Without::Sequence => renamed.field.sequence = start.field.sequence.clone(),
        _ => {}
    }
    renamed
}

/// Desk 1's replies in both runs, from the field after the first list.
fn both_runs(example: &Example, before: &[By], list: &[By], without: Without) -> [Vec<[u16; 6]>; 2] {
    let mut start = started();
    lines(&mut start, before);
    let renaming = Renaming { desk: 1, pairs: example.pairs.to_vec() };
    let mut other = renamed_start(&renaming, &start, without);
    let mut replies = [vec![], vec![]];
    for by in list.iter().map(|&by| request(by)) {
        let first = shown(&mut start, &by, without);
        let stays = without == Without::Refused && first.0 != 0;
        let second = shown(&mut other, &if stays { by } else { renaming.request(by) }, without);
        if by.desk == 1 {
            replies[0].push(six(first));
            replies[1].push(six(second));
        }
    }
    replies
}

/// What does not hold of the renaming.
fn broken(example: &Example) -> Vec<Condition> {
    let mut start = started();
    accepted(&mut start, example.before);
    let renaming = Renaming { desk: 1, pairs: example.pairs.to_vec() };
    let list: Vec<_> = example.list.iter().map(|&by| Asked::Request(request(by))).collect();
    renaming.broken(&History::new(start), &list)
}

/// With the part left out, desk 1 notices; with it, or with no number renamed, it does not.
#[test]
fn each_part_is_needed() {
    for example in EXAMPLES {
        let &Example { without, before, list, replies, .. } = example;
        match without {
            Without::This(condition) => assert_eq!(broken(example), [condition]),
            _ => assert_eq!(broken(example), []),
        }
        let [one, two] = both_runs(example, before, list, without);
        assert_eq!([one.last(), two.last()], [Some(&replies[0]), Some(&replies[1])]);
        assert_eq!(replies[0] != replies[1], without != Without::Nothing);
        if !matches!(without, Without::This(_)) {
            let [one, two] = both_runs(example, before, list, Without::Nothing);
            assert_eq!(one, two);
        }
        let [one, two] = both_runs(&Example { pairs: &[], ..*example }, before, list, without);
        assert_eq!(one, two);
    }
}

fn less(list: &[By], place: usize) -> Vec<By> {
    [&list[..place], &list[place + 1..]].concat()
}

/// With any one request less, before the runs or in them, nothing is noticed.
#[test]
fn no_example_is_longer_than_needed() {
    for example in EXAMPLES {
        let &Example { without, before, list, .. } = example;
        let fewer = (0..before.len()).map(|place| (less(before, place), list.to_vec()));
        let shorter = (0..list.len()).map(|place| (before.to_vec(), less(list, place)));
        for (before, list) in fewer.chain(shorter) {
            let [one, two] = both_runs(example, &before, &list, without);
            assert_eq!(one, two, "{without:?} {before:?} {list:?}");
        }
    }
}

/// The renamed index is the renamed field's own.
#[test]
fn the_index_put_in_order_again() {
    let mut field = started();
    accepted(&mut field, &[(2, 1, 1, 5, 64), (1, 1, 2, 7, 64)]);
    let renaming = Renaming { desk: 1, pairs: vec![(5, 9), (9, 5)] };
    assert_eq!(renaming.index_as_it_stands(&field).to_string(), "9 1 1, 7 2 1, 0 0 0, 0 0 0, 0 0 0");
    let renamed = renaming.indexed(&field);
    assert_eq!(renamed.index.to_string(), "7 2 1, 9 1 1, 0 0 0, 0 0 0, 0 0 0");
    assert_eq!(renamed.index, Index::of(&renamed.field));
    assert_eq!(renamed.field.sequence, [9, 7]);
}
