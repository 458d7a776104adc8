//! The index beside the field (2.9): what it says after every request, and indexes that disagree.

mod common;
use common::*;

use std::collections::BTreeSet;

use reference::explore::{requests, tick, Reached};
use reference::index::{Entry, PLACES};
use reference::{Field, Index, Indexed, Legs, Refusal, Request, Side, Zone};

/// Numbers out of order for those that the walk calls 1 to 5.
const OTHERS: [u16; 5] = [300, 7, 65_535, 1, 40_000];

/// Every field that is reached, with the numbers of the walk and with others.
fn reached() -> Vec<Field> {
    let reached = Reached::all();
    let renamed = reached.fields.iter().map(|field| renumbered(field, |n| OTHERS[usize::from(n) - 1]));
    renamed.chain(reached.fields.iter().cloned()).collect()
}

fn renumbered(field: &Field, other: impl Fn(u16) -> u16) -> Field {
    let mut field = field.clone();
    field.zones.iter_mut().flatten().for_each(|aircraft| aircraft.number = other(aircraft.number));
    field.sequence.iter_mut().for_each(|number| *number = other(*number));
    field
}

/// Each place of each queue, in a list.
fn places(field: &Field) -> Vec<Entry> {
    let mut all = Vec::new();
    for (zone, queue) in (1..).zip(&field.zones) {
        for (place, aircraft) in (1..).zip(queue) {
            all.push(Entry { number: aircraft.number, zone, place });
        }
    }
    all
}

/// The index lists the places of the queues, in order of number, and then zeros; and it says so of these numbers.
fn holds(indexed: &Indexed, numbers: impl IntoIterator<Item = u16>) {
    let Indexed { field, index } = indexed;
    let places = places(field);
    let (used, unused) = index.0.split_at(places.len());
    assert!(used.iter().all(|entry| places.contains(entry)));
    assert!(used.windows(2).all(|pair| pair[0].number < pair[1].number));
    assert!(unused.iter().all(|&Entry { number, zone, place }| (number, zone, place) == (0, 0, 0)));
    for number in numbers {
        let stands = places.iter().find(|entry| entry.number == number);
        assert_eq!(index.find(number), stands.map_or((0, 0), |entry| (entry.zone, entry.place)));
    }
    assert!(indexed.within_bounds());
}

/// Those present, their neighbours by number, and the ends.
fn telling(field: &Field) -> Vec<u16> {
    let near = |entry: &Entry| [entry.number - 1, entry.number, entry.number.saturating_add(1)];
    places(field).iter().flat_map(near).chain([0, 1, 65_535]).collect()
}

/// Plays a request beside a field without an index: the same answer and field; a refusal and a tick leave the index.
/// Says whether it was accepted.
fn plays(indexed: &mut Indexed, request: &Request) -> bool {
    let mut alone = indexed.field.clone();
    let before = indexed.clone();
    let answer = indexed.step(request);
    assert_eq!(answer, alone.step(request));
    assert_eq!(indexed.field, alone);
    if answer.is_err() || request.kind == 12 {
        assert_eq!(indexed.index, before.index);
    }
    if answer.is_err() {
        assert_eq!(*indexed, before);
    }
    holds(indexed, telling(&indexed.field));
    answer.is_ok()
}

/// Requests that break an input rule, each with its number.
const UNREADABLE: [(Request, Refusal); 4] = [
    (Request { kind: 13, side: 0, number: 1, amount: 0, desk: 1 }, Refusal::Kind),
    (Request { kind: 1, side: 3, number: 9, amount: 64, desk: 1 }, Refusal::Side),
    (Request { kind: 5, side: 0, number: 0, amount: 0, desk: 1 }, Refusal::Number),
    (Request { kind: 12, side: 0, number: 0, amount: 65, desk: 1 }, Refusal::Amount),
];

#[test]
fn after_every_request_on_every_reachable_field() {
    let fields = reached();
    assert!(fields.iter().any(|field| field.present() == PLACES));
    for field in fields {
        let indexed = Indexed::new(field);
        holds(&indexed, telling(&indexed.field));
        let strangers = [8, 9].map(|number| Request::new(4, 0, number, 0));
        let unreadable = UNREADABLE.map(|(request, _)| request);
        for request in requests(&indexed.field).into_iter().chain(strangers).chain(unreadable).chain([tick()])
        {
            plays(&mut indexed.clone(), &request);
        }
    }
}

/// From the empty field; entries with any numbers.
#[test]
fn after_every_request_of_random_lists() {
    let mut dice = Dice(29);
    let (mut accepted, mut refused, mut full) = (0, 0, 0);
    for _ in 0..100 {
        let longest = dice.pick(&[1, 4, 64]);
        let mut indexed = Indexed::empty(Legs::from_64ths([(); 4].map(|()| 1 + dice.below(longest) as u16)));
        for _ in 0..400 {
            let mut request = dice.request(&indexed.field, &[64, 512], 4);
            if request.kind <= 2 {
                let any = 1 + dice.below(65_535) as u16;
                request.number = dice.pick(&[any, any, 1, 65_535, 256]);
            }
            let is_accepted = plays(&mut indexed, &request);
            accepted += usize::from(is_accepted && request.kind != 12);
            refused += usize::from(!is_accepted);
            full += usize::from(indexed.field.present() == PLACES);
        }
        holds(&indexed, 0..=65_535);
    }
    assert!(accepted > 2000 && refused > 2000 && full > 40, "{accepted} {refused} {full}");
}

#[test]
fn nobody_has_the_number_0() {
    let unused = Entry { number: 0, zone: 3, place: 1 };
    assert_eq!(Index([unused; PLACES]).find(0), (0, 0));
    assert_eq!(Index::default().find(0), (0, 0));
}

/// The index without one of its places, the others moved up.
fn without(index: Index, place: usize) -> Index {
    let mut shorter = index;
    shorter.0[place..].rotate_left(1);
    shorter.0[PLACES - 1] = Entry::default();
    shorter
}

/// The index, which has an unused place, with one more, in order of number.
fn with(index: Index, entry: Entry) -> Index {
    let place = index.0.iter().position(|e| e.number == 0 || e.number > entry.number).expect("unused");
    let mut longer = index;
    longer.0[place..].rotate_right(1);
    longer.0[place] = entry;
    longer
}

fn changed(index: Index, place: usize, change: impl Fn(&mut Entry)) -> Index {
    let mut other = index;
    change(&mut other.0[place]);
    other
}

/// Each index that disagrees in one of the ways named, where the field has it.
fn damaged(field: &Field) -> Vec<(&'static str, Index)> {
    let index = Index::of(field);
    let present = field.present();
    let mut all = Vec::new();
    for place in 0..present {
        all.extend(
            [1, 300].map(|n| ("number", changed(index, place, |e| e.number = e.number.wrapping_add(n)))),
        );
        all.extend([1, 2, 13].map(|n| ("zone", changed(index, place, |e| e.zone = (e.zone + n) % 14))));
        all.extend([1, 255].map(|n| ("place", changed(index, place, |e| e.place = e.place.wrapping_add(n)))));
        // It says what the queues say of the number that it has, and nothing of the one that stands there.
        let stranger = Entry { number: index.0[place].number ^ 0x4000, zone: 0, place: 0 };
        all.push(("stranger", changed(index, place, |e| *e = stranger)));
        all.push(("missing", without(index, place)));
        all.push(("no number", changed(index, place, |e| e.number = 0)));
        all.push(("nothing", changed(index, place, |e| *e = Entry::default())));
        for other in place + 1..PLACES {
            let mut exchanged = index;
            exchanged.0.swap(place, other);
            all.push((if other < present { "exchanged" } else { "unused before" }, exchanged));
            all.push(("twice", changed(index, other, |e| *e = index.0[place])));
        }
    }
    if present < PLACES {
        let new = (2..).find(|&n| field.find(n).is_none()).expect("a number");
        all.extend([1, 0].map(|n| ("too many", with(index, Entry { number: new, zone: n, place: n }))));
        all.push(("too many", changed(index, present, |e| *e = Entry { number: 65_534, zone: 1, place: 1 })));
        let unused = [(0, 1), (1, 0), (1, 1)].map(|(zone, place)| Entry { number: 0, zone, place });
        all.extend(unused.map(|entry| ("not all zero", changed(index, PLACES - 1, |e| *e = entry))));
        if present > 0 {
            let mut first = index;
            first.0.rotate_right(1);
            all.push(("unused first", first));
        }
    }
    all
}

/// Whatever the request, 10 comes after the input rules, and nothing changes. The requests of a field take turns.
#[test]
fn an_index_that_disagrees_breaks_the_bounds() {
    let mut ways = BTreeSet::new();
    for field in reached() {
        let mut all = requests(&field).into_iter().cycle();
        for (way, index) in damaged(&field) {
            ways.insert(way);
            let before = Indexed { field: field.clone(), index };
            let mut indexed = before.clone();
            assert!(!indexed.within_bounds(), "{way}: {index}");
            for request in all.by_ref().take(3).chain([tick(), Request::new(4, 0, 9, 0)]) {
                assert_eq!(indexed.step(&request), Err(Refusal::FieldBreaksBound), "{way}: {index}");
            }
            for (request, refusal) in UNREADABLE {
                assert_eq!(indexed.step(&request), Err(refusal));
            }
            assert_eq!(indexed, before);
        }
    }
    assert_eq!(ways.len(), 13, "{ways:?}");
}

/// The index of another field disagrees, also of one with the same numbers.
#[test]
fn an_index_of_another_field() {
    let fields = Reached::all().fields;
    for pair in fields.windows(2) {
        let mut indexed = Indexed { field: pair[0].clone(), index: Index::of(&pair[1]) };
        let same = places(&pair[0]).iter().all(|entry| places(&pair[1]).contains(entry))
            && pair[0].present() == pair[1].present();
        assert_eq!(indexed.step(&tick()).is_ok(), same);
    }
}

/// An index mends no other bound.
#[test]
fn a_field_that_breaks_a_bound_by_itself() {
    let mut field = field(&[(Zone::Final, Side::Right)]);
    field.next_fix = Side::Right;
    let mut indexed = Indexed::new(field);
    let before = indexed.clone();
    assert!(indexed.index.agrees_with(&indexed.field));
    assert_eq!(indexed.step(&tick()), Err(Refusal::FieldBreaksBound));
    assert_eq!(indexed, before);
}
