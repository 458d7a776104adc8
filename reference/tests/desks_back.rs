//! Two desks with steps back (2.10 and 2.13): how many are let in, and what one desk sees of the other, where the renaming reaches
//! counted kept fields and the numbers of this desk's aircraft there stay.

mod common;
use common::desks::{accepted, own_numbers, request, six, started, within_bounds, By};
use common::history::{bits, each_bits, kept_bits};
use common::Dice;

use reference::desks::{reply_kept, Condition};
use reference::history::KEPT;
use reference::{Asked, Counts, Field, History, Indexed, Legs, Renaming, Request};

/// How often each number came to this desk, and how often a field was taken back on which somebody was renamed.
#[derive(Debug, Default)]
struct Came {
    numbers: [usize; 32],
    renamed_back: usize,
}

fn any(dice: &mut Dice, history: &History) -> Asked {
    match dice.below(5) {
        0 => Asked::Back(dice.pick(&[1, 1, 1, 2, 2, 2, 0, 3])),
        _ => Asked::Request(dice.request_of_two(&history.field.field)),
    }
}

fn any_list(dice: &mut Dice, start: &History, length: usize) -> Vec<Asked> {
    let mut history = start.clone();
    let mut list = Vec::new();
    for _ in 0..length {
        let asked = any(dice, &history);
        reply_kept(&mut history, asked);
        list.push(asked);
    }
    list
}

/// This desk's replies are the same, the other's are renamed, and so are the field and the counted kept ones after each.
fn not_noticed(dice: &mut Dice, start: &History, desk: u8, list: &[Asked], came: &mut Came) {
    let fields: Vec<&Indexed> =
        start.counted().expect("at most eight").iter().chain([&start.field]).collect();
    let renaming = dice.renaming(desk, &own_numbers(desk, list, &fields), list, &fields);
    assert_eq!(renaming.broken(start, list), []);
    let (mut one, mut two) = (start.clone(), renaming.history(start));
    for &asked in list {
        let (number, answer) = reply_kept(&mut one, asked);
        let other = reply_kept(&mut two, renaming.asked(asked));
        assert_eq!(other, (number, renaming.answer(asked.desk(), answer)), "{asked:?} {renaming:?}");
        if asked.desk() == desk {
            assert_eq!(other, (number, answer));
            came.numbers[usize::from(number)] += 1;
        }
        came.renamed_back +=
            usize::from(number == 0 && matches!(asked, Asked::Back(_)) && one.field != two.field);
        let renamed = renaming.history(&one);
        assert_eq!(bits(&two.field), bits(&renamed.field));
        assert_eq!(kept_bits(&two), kept_bits(&renamed));
    }
}

/// From what lists with steps back reach.
#[test]
fn on_reached_fields() {
    let (mut dice, mut came) = (Dice(213), Came::default());
    for _ in 0..60 {
        let longest = dice.pick(&[1, 4, 64]);
        let mut history = History::empty(Legs::from_64ths([(); 4].map(|()| 1 + dice.below(longest) as u16)));
        for _ in 0..20 {
            let length = dice.pick(&[1, 10, 30]);
            let list = any_list(&mut dice, &history, length);
            let desk = dice.desk();
            not_noticed(&mut dice, &history, desk, &list, &mut came);
            for asked in list {
                reply_kept(&mut history, asked);
            }
        }
    }
    assert_eq!([10, 25].map(|number| came.numbers[number]), [0; 2]);
    assert!([0, 11, 12, 26, 27].into_iter().all(|number| came.numbers[number] > 10), "{came:?}");
    assert!(came.renamed_back > 200, "{came:?}");
}

/// Kept fields that need not belong together, any number of them; what is past the count stays, whatever it is.
#[test]
fn on_fields_within_the_bounds() {
    let (mut dice, mut came) = (Dice(2130), Came::default());
    let fields = within_bounds(&mut dice, 20);
    for field in &fields {
        let mut history = History::new(dice.shared(field));
        history.count = dice.below(KEPT + 1);
        for place in 0..KEPT {
            let kept: &Field = &fields[dice.below(fields.len())];
            history.kept[place] = dice.shared(kept);
            if place >= history.count && dice.below(2) == 0 {
                history.kept[place].field.next_fix = history.kept[place].field.next_fix.opposite();
            }
        }
        let list = any_list(&mut dice, &history, 16);
        let desk = dice.desk();
        not_noticed(&mut dice, &history, desk, &list, &mut came);
    }
    assert_eq!(came.numbers[10], 0);
    assert!([0, 11, 12, 26, 27].into_iter().all(|number| came.numbers[number] > 10), "{came:?}");
    assert!(came.renamed_back > 200, "{came:?}");
}

/// What is left out of the claim.
#[derive(Clone, Copy, Debug, PartialEq, Eq)]
enum Without {
    Nothing,
    This(Condition),
    /// Kept fields are not renamed.
    Kept,
    /// The indexes of kept fields are renamed and not put in order again.
    KeptOrder,
}

/// Desk 1 is not to notice; the runs start from the field after the first list, with what is kept of it.
struct Example {
    without: Without,
    before: &'static [By],
    pairs: &'static [(u16, u16)],
    list: &'static [By],
    replies: [[u16; 6]; 2],
}

/// A step back by desk 1, written as a request of kind 0.
const BACK: By = (1, 0, 0, 0, 0);
const MINUTE: By = (1, 12, 0, 0, 64);
/// In, through the base and out at the end of the intermediate leg: 7 is on kept fields alone.
const IN_AND_OUT: &[By] =
    &[(1, 2, 1, 7, 64), (1, 4, 0, 7, 0), MINUTE, (1, 5, 0, 7, 0), MINUTE, (1, 9, 0, 7, 0)];

const EXAMPLES: &[Example] = &[
    Example {
        without: Without::Nothing,
        before: &[(2, 1, 1, 5, 64), MINUTE],
        pairs: &[(5, 6), (6, 5)],
        list: &[BACK, (2, 1, 2, 5, 64), (1, 1, 2, 8, 64)],
        replies: [[0, 8, 2, 2, 0, 0]; 2],
    },
    // The field after the step back has 5 again, which the other desk's entry no longer meets.
    Example {
        without: Without::Kept,
        before: &[(2, 1, 1, 5, 64), MINUTE],
        pairs: &[(5, 6), (6, 5)],
        list: &[BACK, (2, 1, 2, 5, 64), (1, 1, 2, 8, 64)],
        replies: [[0, 8, 2, 2, 0, 0], [0, 8, 2, 1, 0, 0]],
    },
    Example {
        without: Without::KeptOrder,
        before: &[(2, 1, 1, 5, 64), (1, 1, 2, 7, 64), MINUTE],
        pairs: &[(5, 9), (9, 5)],
        list: &[BACK],
        replies: [[0; 6], [10, 0, 0, 0, 0, 0]],
    },
    // 7 is this desk's on the kept field, and no request of the list names it: the other desk's entry meets it after the step back.
    Example {
        without: Without::This(Condition::KeptCarried),
        before: IN_AND_OUT,
        pairs: &[(5, 7), (7, 5)],
        list: &[BACK, (2, 1, 2, 5, 64), (1, 1, 2, 8, 64)],
        replies: [[0, 8, 2, 1, 0, 0], [0, 8, 2, 2, 7, 0]],
    },
    // Both desks were there: renamed, the kept field has 7 twice.
    Example {
        without: Without::This(Condition::KeptCarried),
        before: &[
            (2, 1, 2, 5, 64),
            (1, 2, 1, 7, 64),
            (2, 3, 0, 5, 0),
            (2, 4, 0, 5, 0),
            (1, 4, 0, 7, 0),
            MINUTE,
            (2, 5, 0, 5, 0),
            (1, 5, 0, 7, 0),
            MINUTE,
            (2, 9, 0, 5, 0),
            (1, 9, 0, 7, 0),
        ],
        pairs: &[(5, 7), (7, 5)],
        list: &[MINUTE],
        replies: [[0; 6], [10, 0, 0, 0, 0, 0]],
    },
];

fn asked(by: By) -> Asked {
    match by {
        BACK => Asked::Back(1),
        _ => Asked::Request(request(by)),
    }
}

fn after(before: &[By]) -> History {
    let mut history = History::new(started());
    before.iter().for_each(|&by| assert_eq!(reply_kept(&mut history, asked(by)).0, 0, "{by:?}"));
    history
}

fn renamed_start(renaming: &Renaming, start: &History, without: Without) -> History {
    let mut renamed = renaming.history(start);
    for (kept, first) in renamed.kept.iter_mut().zip(&start.kept).take(start.count) {
        match without {
            Without::Kept => *kept = first.clone(),
            Without::KeptOrder => kept.index = renaming.index_as_it_stands(first),
            _ => {}
        }
    }
    renamed
}

/// Desk 1's replies in both runs.
fn both_runs(example: &Example, list: &[By], without: Without) -> [Vec<[u16; 6]>; 2] {
    let renaming = Renaming { desk: 1, pairs: example.pairs.to_vec() };
    let mut start = after(example.before);
    let mut other = renamed_start(&renaming, &start, without);
    let mut replies = [vec![], vec![]];
    for &by in list {
        let asked = asked(by);
        let both = [reply_kept(&mut start, asked), reply_kept(&mut other, renaming.asked(asked))];
        if by.0 == 1 {
            replies.iter_mut().zip(both).for_each(|(replies, reply)| replies.push(six(reply)));
        }
    }
    replies
}

/// With the part left out, desk 1 notices at its last call, and not with any one less; with the part it does not.
#[test]
fn each_part_is_needed() {
    for example in EXAMPLES {
        let &Example { without, before, list, replies, .. } = example;
        let renaming = Renaming { desk: 1, pairs: example.pairs.to_vec() };
        let all: Vec<_> = list.iter().map(|&by| asked(by)).collect();
        match without {
            Without::This(condition) => assert_eq!(renaming.broken(&after(before), &all), [condition]),
            _ => assert_eq!(renaming.broken(&after(before), &all), []),
        }
        let [one, two] = both_runs(example, list, without);
        assert_eq!([one.last(), two.last()], [Some(&replies[0]), Some(&replies[1])]);
        assert_eq!(replies[0] != replies[1], without != Without::Nothing);
        for place in 0..list.len() {
            let [one, two] = both_runs(example, &[&list[..place], &list[place + 1..]].concat(), without);
            assert_eq!(one, two, "{without:?} {place}");
        }
        if !matches!(without, Without::This(_)) {
            let [one, two] = both_runs(example, list, Without::Nothing);
            assert_eq!(one, two);
        }
    }
}

/// Where the field with 7 is past the count, its number need not stay.
#[test]
fn what_does_not_count_is_not_asked_about() {
    let mut start = after(IN_AND_OUT);
    let renaming = Renaming { desk: 1, pairs: vec![(5, 7), (7, 5)] };
    assert_eq!(renaming.broken(&start, &[]), [Condition::KeptCarried]);
    start.count = 0;
    let list = [BACK, (2, 1, 2, 5, 64), (1, 1, 2, 8, 64)].map(asked);
    assert_eq!(renaming.broken(&start, &list), []);
    let mut other = renaming.history(&start);
    assert_eq!(each_bits(&other.kept), each_bits(&start.kept));
    for asked in list {
        let (number, answer) = reply_kept(&mut start, asked);
        let renamed = (number, renaming.answer(asked.desk(), answer));
        assert_eq!(reply_kept(&mut other, renaming.asked(asked)), renamed);
    }
}

/// Either desk takes back what the other asked for, and then the aircraft has the desk that it had.
#[test]
fn desks_come_back() {
    let mut history = History::new(started());
    let mut alone = started();
    accepted(&mut alone, &[(2, 1, 1, 5, 64)]);
    for by in [(2, 1, 1, 5, 64), (1, 1, 1, 5, 64), (1, 1, 2, 7, 64)] {
        reply_kept(&mut history, asked(by));
    }
    assert_eq!(reply_kept(&mut history, Asked::Back(2)).0, 0);
    assert_eq!(bits(&history.field), bits(&alone));
    assert_eq!(reply_kept(&mut history, Asked::Back(1)).0, 0);
    assert_eq!(six(reply_kept(&mut history, asked((1, 1, 1, 5, 64)))), [0, 5, 1, 1, 0, 0]);
    assert_eq!(history.field.field.zones[0][0].desk, 1);
    assert_eq!(history.kept[0].field.present(), 0);
    assert_eq!([0, 3, 1].map(|desk| reply_kept(&mut history, Asked::Back(desk)).0), [31, 31, 0]);
    assert_eq!([0, 3, 1, 2].map(|desk| reply_kept(&mut history, Asked::Back(desk)).0), [31, 31, 27, 27]);
}

/// Over the accepted requests that no step back took back, let in are those that taxied off, exited or are present, for both desks together
/// and for each.
#[test]
fn counts_of_both_and_of_each() {
    let mut dice = Dice(27);
    for _ in 0..100 {
        let longest = dice.pick(&[1, 4, 64]);
        let mut history = History::empty(Legs::from_64ths([(); 4].map(|()| 1 + dice.below(longest) as u16)));
        let mut left: Vec<Request> = Vec::new();
        for _ in 0..200 {
            let asked = any(&mut dice, &history);
            let (number, _) = reply_kept(&mut history, asked);
            assert!(!matches!(number, 10 | 20 | 25));
            match (number, asked) {
                (0, Asked::Request(request)) => left.push(request),
                (0, Asked::Back(_)) => drop(left.pop().expect("one to take back")),
                _ => {}
            }
        }
        for desks in [&[1, 2][..], &[1], &[2]] {
            let mut counts = Counts::default();
            left.iter().filter(|request| desks.contains(&request.desk)).for_each(|r| counts.accepted(r));
            let everyone = history.field.field.everyone();
            let present = everyone.filter(|(_, aircraft)| desks.contains(&aircraft.desk)).count();
            assert_eq!(counts.entries, counts.taxis + counts.exits + present);
        }
    }
}

/// The stored output of the program `desks` is what this crate gives for its stored input.
#[test]
fn stored_output_of_desks() {
    let stored =
        |name| std::fs::read(format!("{}/../crates/desks/{name}", env!("CARGO_MANIFEST_DIR"))).expect(name);
    assert_eq!(stored("stdout"), reference::calls(&stored("stdin")));
}

/// Inputs of calls that are refused, and the shortest and the longest that are not.
#[test]
fn inputs_of_calls() {
    let with = |legs: [u16; 4], rest: usize| [legs.map(u16::to_le_bytes).concat(), vec![1; rest]].concat();
    for leg in 0..4 {
        for length in [0, 4097] {
            let mut legs = [1; 4];
            legs[leg] = length;
            assert_eq!(reference::calls(&with(legs, 7)), b"refused 7\n");
        }
    }
    assert_eq!(reference::calls(&with([1; 4], 0)[..7]), b"refused 7\n");
    assert_eq!(reference::calls(&with([4096; 4], 0)), b"end 0 0\n");
    for rest in [7, 9, 8 * 4097] {
        assert_eq!(reference::calls(&with([1; 4], rest)), b"refused 5\n");
    }
    let most = reference::calls(&with([1; 4], 8 * 4096));
    assert!(most.starts_with(b"0 27 0 0 0 0 0\n1 27 "));
    assert!(most.ends_with(b"4095 27 0 0 0 0 0\nend 0 0\n"));
}
