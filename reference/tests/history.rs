//! One step back (2.13): on every field that is reached, in random lists beside a history that is kept whole, and by example.

mod common;
use common::history::*;
use common::*;

use reference::explore::{requests, tick, Reached};
use reference::history::KEPT;
use reference::{classroom, Answer, Counts, Field, History, Indexed, Legs, Refusal, Request};

fn started() -> History {
    History::empty(Legs::from_64ths([64; 4]))
}

/// None is kept, and the eight places hold the empty field with those legs: at the start, and of a field built from a list.
#[test]
fn at_the_start() {
    let legs = [1, 64, 700, 4096];
    let empty = Indexed::new(Field::empty(Legs::from_64ths(legs)));
    let built = classroom::field(legs, 64, &common::classroom::one()).expect("a field");
    assert_eq!(built.field.present(), 1);
    let starts = [(History::empty(Legs::from_64ths(legs)), &empty), (History::new(built.clone()), &built)];
    for (mut start, field) in starts {
        assert_eq!(all_bits(&start), (bits(field), vec![bits(&empty); 8], 0));
        assert!(start.within_bounds());
        assert_eq!(back(&mut start, 1), 27);
    }
}

/// Plays a request that is accepted, and steps back: the field before it is kept last, and then is the field. Kept are those that were,
/// of eight without the oldest.
fn there_and_back(before: &History, request: &Request, desk: u8) {
    let oldest = usize::from(before.count == KEPT);
    let mut kept = kept_bits(before).split_off(oldest);
    let mut history = before.clone();
    let mut alone = before.field.clone();
    assert_eq!(history.step(request), alone.step(request));
    assert_eq!(bits(&history.field), bits(&alone));
    let after = all_bits(&history);
    kept.push(bits(&before.field));
    assert_eq!(kept_bits(&history), kept);
    assert_eq!(back(&mut history, desk), 0);
    // Only the field and the count are other ones.
    assert_eq!(all_bits(&history), (bits(&before.field), after.1, after.2 - 1));
    assert_eq!(kept_bits(&history), kept[..kept.len() - 1]);
    assert!(history.within_bounds());
}

/// With none kept, with some and with eight.
#[test]
fn on_every_reachable_field() {
    let fields = Reached::all().fields;
    let mut accepted = [0; 13];
    for (place, field) in fields.iter().enumerate() {
        let none = History::new(Indexed::new(field.clone()));
        let mut eight = none.clone();
        for (at, kept) in eight.kept.iter_mut().enumerate() {
            *kept = Indexed::new(fields[(place + 331 * at) % fields.len()].clone());
        }
        eight.count = KEPT;
        let some = History { count: 1 + place % 7, ..eight.clone() };
        for request in requests(field).into_iter().chain([tick()]).filter(|request| field.accepts(request)) {
            there_and_back(&none, &request, 1);
            there_and_back(&some, &request, 2);
            there_and_back(&eight, &request, 1 + (place % 2) as u8);
            accepted[usize::from(request.kind)] += 1;
        }
    }
    assert_eq!(accepted[12], fields.len());
    assert!(accepted[1..].iter().all(|&count| count > 0), "{accepted:?}");
}

/// The history kept whole, as a list: each accepted request that no step back took back, with the field before it.
struct Whole {
    accepted: Vec<(Request, Indexed)>,
    field: Indexed,
    /// How many of the first can no longer be taken back.
    dropped: usize,
    /// What each place had when it last counted.
    places: [Vec<u64>; KEPT],
}

impl Whole {
    fn new(legs: Legs) -> Whole {
        let field = Indexed::empty(legs);
        Whole { accepted: Vec::new(), dropped: 0, places: [(); KEPT].map(|()| bits(&field)), field }
    }

    /// Those that can be taken back: of the longest list that there was, the last eight.
    fn kept(&self) -> &[(Request, Indexed)] {
        &self.accepted[self.dropped..]
    }

    fn request(&mut self, request: &Request) -> Result<Answer, Refusal> {
        let before = self.field.clone();
        let answer = self.field.step(request)?;
        self.accepted.push((*request, before));
        self.dropped = self.dropped.max(self.accepted.len().saturating_sub(KEPT));
        let kept: Vec<_> = self.kept().iter().map(|(_, field)| bits(field)).collect();
        self.places[..kept.len()].clone_from_slice(&kept);
        Ok(answer)
    }

    fn step_back(&mut self, desk: u8) -> u8 {
        match (desk, self.kept().is_empty()) {
            (1 | 2, true) => 27,
            (1 | 2, false) => {
                self.field = self.accepted.pop().expect("kept").1;
                0
            }
            _ => 31,
        }
    }

    /// The field after the requests of the list, each accepted again, and nothing else.
    fn played_again(&self) -> Field {
        let mut field = Field::empty(self.field.field.legs);
        self.accepted.iter().for_each(|(request, _)| assert!(field.step(request).is_ok()));
        field
    }

    fn is(&self, history: &History) {
        let kept = self.kept().iter().map(|(_, field)| field);
        assert_eq!(kept_bits(history), each_bits(kept));
        assert_eq!(all_bits(history), (bits(&self.field), self.places.to_vec(), self.kept().len()));
        assert!(history.within_bounds());
    }
}

/// Let in are those that taxied off, exited or are present.
fn balance(counts: &Counts, field: &Field) -> bool {
    counts.entries == counts.taxis + counts.exits + field.present()
}

fn counted<'a>(requests: impl IntoIterator<Item = &'a Request>) -> Counts {
    let mut counts = Counts::default();
    requests.into_iter().for_each(|request| counts.accepted(request));
    counts
}

/// What came in the random lists.
#[derive(Debug, Default)]
struct Came {
    /// How often each number was answered, to requests and to steps back.
    requests: [usize; 32],
    back: [usize; 32],
    /// The most that were taken back in a row, lists in which some were dropped, and lists whose answers do not balance.
    in_a_row: usize,
    dropping: usize,
    unbalanced: usize,
}

fn random_list(dice: &mut Dice, came: &mut Came) {
    let longest = dice.pick(&[1, 4, 64]);
    let legs = Legs::from_64ths([(); 4].map(|()| 1 + dice.below(longest) as u16));
    let (mut history, mut whole) = (History::empty(legs), Whole::new(legs));
    let mut answered = Counts::default();
    let (mut to_take_back, mut in_a_row) = (0, 0);
    for _ in 0..400 {
        if dice.below(20) == 0 {
            to_take_back = 1 + dice.below(10);
        }
        if to_take_back > 0 {
            to_take_back -= 1;
            let desk = dice.pick(&[1, 1, 1, 1, 2, 2, 2, 2, 0, 3]);
            let number = back(&mut history, desk);
            assert_eq!(number, whole.step_back(desk));
            came.back[usize::from(number)] += 1;
            in_a_row = if number == 0 { in_a_row + 1 } else { in_a_row };
        } else {
            let unreadable = dice.pick(&UNREADABLE).0;
            let request = dice.request(&history.field.field, &[64, 512], 4);
            let request = if dice.below(32) == 0 { unreadable } else { request };
            let answer = history.step(&request);
            assert_eq!(answer, whole.request(&request));
            let number = answer.map_or_else(|refusal| refusal.number(), |_| 0);
            came.requests[usize::from(number)] += 1;
            if number == 0 {
                answered.accepted(&request);
                in_a_row = 0;
            }
        }
        came.in_a_row = came.in_a_row.max(in_a_row);
        whole.is(&history);
    }
    let again = Indexed::new(whole.played_again());
    assert_eq!(bits(&again), bits(&history.field));
    assert!(balance(&counted(whole.accepted.iter().map(|(request, _)| request)), &again.field));
    came.dropping += usize::from(whole.dropped > 0);
    came.unbalanced += usize::from(!balance(&answered, &again.field));
}

#[test]
fn random_lists() {
    let (mut dice, mut came) = (Dice(213), Came::default());
    (0..150).for_each(|_| random_list(&mut dice, &mut came));
    // From the start 10, 20 and 25 never come; a step back meets nothing but 27 and 31.
    assert!([10, 20, 25].into_iter().all(|number: usize| came.requests[number] + came.back[number] == 0));
    let others = came.back.iter().enumerate().filter(|(number, _)| ![0, 27, 31].contains(number));
    assert_eq!(others.map(|(_, count)| count).sum::<usize>(), 0);
    assert!([0, 27, 31].into_iter().all(|number: usize| came.back[number] > 500), "{came:?}");
    assert!([0, 1, 2, 3, 4, 13, 15, 22].into_iter().all(|number| came.requests[number] > 50), "{came:?}");
    assert_eq!(came.in_a_row, 8, "{came:?}");
    assert!(came.dropping > 100 && came.unbalanced > 100, "{came:?}");
}

/// Over the answers what is let in is not what left or is present: an entry that was taken back has its answer all the same.
#[test]
fn the_answers_do_not_balance() {
    let mut history = started();
    let [first, second] = [7, 8].map(|number| Request::new(1, 1, number, 64));
    assert!(history.step(&first).is_ok());
    assert_eq!(back(&mut history, 1), 0);
    assert!(history.step(&second).is_ok());
    assert_eq!(history.field.field.present(), 1);
    assert!(balance(&counted([&second]), &history.field.field));
    assert!(!balance(&counted([&first, &second]), &history.field.field));
}

/// In, through, down and off: ten accepted requests.
#[test]
fn more_than_eight() {
    let mut history = started();
    let mut before = Vec::new();
    for (kind, side, number, amount) in [
        (1, 1, 7, 64),
        (3, 0, 7, 0),
        (4, 0, 7, 0),
        (12, 0, 0, 64),
        (5, 0, 7, 0),
        (12, 0, 0, 64),
        (6, 0, 7, 0),
        (12, 0, 0, 64),
        (7, 0, 7, 0),
        (8, 0, 7, 0),
    ] {
        before.push(bits(&history.field));
        play_on(&mut history, &[(kind, side, number, amount)]);
        assert_eq!(kept_bits(&history), before[before.len().saturating_sub(8)..]);
    }
    for taken_back in 1..=8 {
        assert_eq!(back(&mut history, 1), 0);
        assert_eq!(bits(&history.field), before[10 - taken_back]);
    }
    // The two that were dropped do not return, not even after one more request and its step back.
    assert_eq!(back(&mut history, 1), 27);
    play_on(&mut history, &[(12, 0, 0, 64)]);
    assert_eq!([1, 2].map(|desk| back(&mut history, desk)), [0, 27]);
    assert_eq!(bits(&history.field), before[2]);
}

/// A step back takes back one request more each time, and is nothing that could be taken back.
#[test]
fn a_step_back_is_not_kept() {
    let mut history = started();
    let start = bits(&history.field);
    play_on(&mut history, &[(1, 1, 7, 64)]);
    let first = bits(&history.field);
    play_on(&mut history, &[(3, 0, 7, 0), (4, 0, 7, 0)]);
    assert_eq!((back(&mut history, 1), history.count), (0, 2));
    assert_eq!((back(&mut history, 2), history.count), (0, 1));
    assert_eq!(bits(&history.field), first);
    assert_eq!(kept_bits(&history), [start.clone()]);
    assert_eq!((back(&mut history, 1), history.count), (0, 0));
    assert_eq!(bits(&history.field), start);
    assert_eq!(back(&mut history, 1), 27);
}

/// Miles and miles waited are those of the ticks that are left.
#[test]
fn a_tick_is_kept() {
    let mut history = started();
    play_on(&mut history, &[(12, 0, 0, 64)]);
    assert_eq!(history.count, 1, "though nobody flies");
    assert_eq!((back(&mut history, 1), history.count), (0, 0));
    play_on(&mut history, &[(2, 1, 7, 100), (4, 0, 7, 0), (12, 0, 0, 10), (12, 0, 0, 20)]);
    assert_eq!((history.count, miles(&history.field.field, 7) * 4096.0), (4, 3000.0));
    assert_eq!(back(&mut history, 1), 0);
    assert_eq!(miles(&history.field.field, 7) * 4096.0, 1000.0);
    play_on(&mut history, &[(12, 0, 0, 5), (12, 0, 0, 64)]);
    assert_eq!(
        [miles(&history.field.field, 7), waited(&history.field.field, 7)].map(|m| m * 4096.0),
        [4096.0, 3804.0]
    );
    assert_eq!(back(&mut history, 2), 0);
    assert_eq!(
        [miles(&history.field.field, 7), waited(&history.field.field, 7)].map(|m| m * 4096.0),
        [1500.0, 0.0]
    );
}

/// 2.5: the one that moves another down keeps one field, and one step back has both where they were.
#[test]
fn an_entry_that_moves_another() {
    let mut history = started();
    play_on(&mut history, &[(1, 1, 7, 64)]);
    let before = bits(&history.field);
    let answer = history.step(&Request::new(1, 1, 8, 64)).expect("accepted");
    assert_eq!((answer.along, history.count), (7, 2));
    assert_eq!(kept_bits(&history)[1], before);
    // Apart from `along` and what is kept, it is the descend and the entry after it, which keep two.
    let mut two = started();
    play_on(&mut two, &[(1, 1, 7, 64), (3, 0, 7, 0), (1, 1, 8, 64)]);
    assert_eq!((bits(&two.field), two.count), (bits(&history.field), 3));
    assert_eq!(back(&mut history, 1), 0);
    assert_eq!(bits(&history.field), before);
}
