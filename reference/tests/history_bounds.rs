//! One step back (2.13): the ways to break the bounds, the order of the refusals, and what a refusal leaves.

mod common;
use common::history::*;
use common::*;

use std::collections::VecDeque;

use reference::explore::{requests, tick};
use reference::history::KEPT;
use reference::index::{Entry, PLACES};
use reference::{Field, History, Index, Indexed, Legs, Request, Side, Zone};

const DESKS: [(u8, bool); 6] = [(0, false), (1, true), (2, true), (3, false), (128, false), (255, false)];

/// On base, one behind it, and one on the runway.
fn whole() -> Indexed {
    let right = (Zone::Base(Side::Right), Side::Right);
    Indexed::new(field(&[right, (Zone::Holding2(Side::Left), Side::Left), (Zone::Runway, Side::Left)]))
}

/// A field with its index that breaks a bound, in each of the ways named; the index is the field's own but where it is what disagrees.
fn broken() -> Vec<(&'static str, Indexed)> {
    let changed = |change: fn(&mut Field)| {
        let mut field = whole().field;
        change(&mut field);
        Indexed::new(field)
    };
    let index = |change: fn(&mut Index)| {
        let mut indexed = whole();
        change(&mut indexed.index);
        indexed
    };
    vec![
        ("a leg of 0", changed(|field| field.legs.missed = 0.0)),
        ("a leg that is no number", changed(|field| field.legs.base = f64::NAN)),
        ("two on the runway", changed(|field| put(field, Zone::Runway, 9, Side::Left))),
        ("two at 2000", changed(|field| put(field, Zone::Holding2(Side::Left), 9, Side::Right))),
        ("number 0", changed(|field| field.zones[12][0].number = 0)),
        ("a number twice", changed(|field| field.zones[12][0].number = 1)),
        ("a stranger in the sequence", changed(|field| field.sequence.push_back(9))),
        ("nobody in the sequence", changed(|field| field.sequence = VecDeque::new())),
        ("the next fix", changed(|field| field.next_fix = Side::Left)),
        ("speed 0", changed(|field| field.zones[8][0].speed = 0)),
        ("miles waited", changed(|field| field.zones[3][0].waited = -1.0)),
        ("its own leg", changed(|field| field.zones[8][0].leg = 2.0)),
        ("no desk", changed(|field| field.zones[8][0].desk = 0)),
        ("a third desk", changed(|field| field.zones[12][0].desk = 3)),
        ("no index", index(|index| *index = Index::default())),
        ("a zone in the index", index(|index| index.0[1].zone = 3)),
        ("a place in the index", index(|index| index.0[0].place = 2)),
        ("one too many in the index", index(|index| index.0[3] = Entry { number: 9, zone: 1, place: 1 })),
        ("the index's last", index(|index| index.0[PLACES - 1].place = 1)),
    ]
}

/// Fields within the bounds that do not belong together: other legs, other aircraft.
fn mixed(count: usize) -> History {
    let mut history = History { count, ..History::new(whole()) };
    for (kept, leg) in history.kept.iter_mut().zip(10..) {
        let mut field = Field::empty(Legs::from_64ths([leg; 4]));
        put(&mut field, Zone::Final, leg, Side::Left);
        *kept = Indexed::new(field);
    }
    history
}

/// Asks for everything of a history that breaks the bounds: 31 for the desk and the input rules come first, then 10; nothing changes.
fn is_refused_10(way: &str, broken: &History) {
    assert!(!broken.within_bounds(), "{way}");
    let before = all_bits(broken);
    let mut history = broken.clone();
    for (desk, is_one) in DESKS {
        assert_eq!(back(&mut history, desk), if is_one { 10 } else { 31 }, "{way}");
        assert_eq!(all_bits(&history), before, "{way}");
    }
    let readable = requests(&whole().field).into_iter().chain([tick()]).map(|request| (request, 10));
    for (request, number) in readable.chain(UNREADABLE) {
        assert_eq!(history.step(&request).map_err(|refusal| refusal.number()), Err(number), "{way}");
        assert_eq!(all_bits(&history), before, "{way}");
    }
}

/// Asks for everything of a history within the bounds: a step back gives the last kept, if there is one; a request plays as on the
/// field alone. The other places stay.
fn plays(way: &str, history: &History) {
    assert!(history.within_bounds(), "{way}");
    let (field, places, count) = all_bits(history);
    for (desk, is_one) in DESKS {
        let mut after = history.clone();
        let number = match (is_one, count) {
            (false, _) => 31,
            (true, 0) => 27,
            (true, _) => 0,
        };
        assert_eq!(back(&mut after, desk), number, "{way}");
        let expected = match number {
            0 => (places[count - 1].clone(), places.clone(), count - 1),
            _ => (field.clone(), places.clone(), count),
        };
        assert_eq!(all_bits(&after), expected, "{way}");
    }
    let unreadable = UNREADABLE.map(|(request, _)| request);
    for request in requests(&history.field.field).into_iter().chain([tick()]).chain(unreadable) {
        let (mut after, mut alone) = (history.clone(), history.field.clone());
        let answer = after.step(&request);
        assert_eq!(answer, alone.step(&request), "{way}");
        let mut kept = places.clone();
        let mut counted = count;
        if answer.is_ok() {
            if count == KEPT {
                kept.remove(0);
                kept.push(field.clone());
            } else {
                kept[count] = field.clone();
                counted += 1;
            }
        }
        assert_eq!(all_bits(&after), (bits(&alone), kept, counted), "{way}");
    }
}

/// Kept fields are not compared with the field or with each other.
#[test]
fn fields_that_do_not_belong_together() {
    (0..=KEPT).for_each(|count| plays("mixed", &mixed(count)));
    let mut history = mixed(3);
    assert_eq!(back(&mut history, 2), 0);
    assert_eq!(bits(&history.field), bits(&mixed(0).kept[2]));
    assert_ne!(history.field.field.legs, whole().field.legs);
}

#[test]
fn more_than_eight_counted() {
    for count in [9, 10, 16, 255, 256, usize::MAX] {
        is_refused_10("count", &mixed(count));
        is_refused_10("count", &History { count, ..History::new(whole()) });
    }
}

/// 10 comes before 27: with none kept, too.
#[test]
fn the_field_itself() {
    for (way, field) in broken() {
        for count in [0, 1, 7, 8] {
            is_refused_10(way, &History { field: field.clone(), ..mixed(count) });
        }
    }
}

/// In any place, where it counts.
#[test]
fn a_kept_field() {
    for (way, field) in broken() {
        for count in 0..=KEPT {
            for place in 0..KEPT {
                let mut history = mixed(count);
                history.kept[place] = field.clone();
                match place < count {
                    true => is_refused_10(way, &history),
                    false => plays(way, &history),
                }
            }
        }
    }
}

/// A place past the count keeps what it had, until a request is kept there; and does not come back.
#[test]
fn a_place_past_the_count() {
    let (_, bad) = broken().remove(1);
    let mut history = History::empty(Legs::from_64ths([64; 4]));
    history.kept = [(); KEPT].map(|()| bad.clone());
    let start = bits(&history.field);
    for count in 1..=KEPT {
        play_on(&mut history, &[(12, 0, 0, 1)]);
        assert_eq!(history.count, count);
        let places = each_bits(&history.kept);
        assert!(places[..count].iter().all(|place| *place == start));
        assert!(places[count..].iter().all(|place| *place == bits(&bad)));
    }
    for _ in 0..KEPT {
        assert_eq!(back(&mut history, 1), 0);
    }
    assert_eq!(all_bits(&history), (start.clone(), vec![start; KEPT], 0));
    assert_eq!(back(&mut history, 1), 27);
}

/// What is given back may hold a minus zero, bit by bit.
#[test]
fn a_zeros_sign() {
    let mut field = whole();
    field.field.zones[8][0].progress = reference::Progress::Flying(-0.0);
    field.field.zones[3][0].leg = -0.0;
    field.field.zones[12][0].waited = -0.0;
    let before = History::new(field);
    let mut history = before.clone();
    for request in [tick(), Request::new(8, 0, 3, 0)] {
        assert!(history.step(&request).is_ok());
    }
    assert_eq!([1, 2].map(|desk| back(&mut history, desk)), [0, 0]);
    assert_eq!(bits(&history.field), bits(&before.field));
    assert_ne!(bits(&history.field), bits(&whole()));
}
