//! Two desks, one airfield (2.10): who is refused what, what is hidden, who is moved, and how many are let in.

mod common;
use common::desks::*;
use common::history::bits;
use common::Dice;

use reference::button::{hold_down, press, proposed, MOST_PRESSES, TICK};
use reference::desks::reply;
use reference::explore::{requests, Reached};
use reference::{Answer, Counts, Ending, Field, Indexed, Legs, Progress, Refusal, Request, Side, Zone};

fn refused(number: u16) -> [u16; 6] {
    [number, 0, 0, 0, 0, 0]
}

/// Right and left at 3000, of desks 1 and 2.
fn two() -> Indexed {
    let mut field = started();
    accepted(&mut field, &[(1, 1, 1, 7, 64), (2, 1, 2, 5, 64)]);
    field
}

/// A request that could be refused by several numbers is refused by the first of 31, 1 to 4, 10, 11 or 12, 26, 13 and on.
#[test]
fn in_this_order() {
    let mut field = two();
    let before = bits(&field);
    let list = [
        ((3, 13, 9, 0, 999), 31),
        ((0, 3, 1, 0, 9), 31),
        ((2, 13, 9, 0, 999), 1),
        ((2, 3, 1, 0, 9), 2),
        ((2, 3, 0, 0, 9), 3),
        ((2, 3, 0, 7, 9), 4),
        ((2, 3, 0, 9, 0), 12),
        ((2, 8, 0, 7, 0), 26),
        ((2, 3, 0, 7, 0), 26),
        ((1, 8, 0, 7, 0), 13),
        ((2, 1, 1, 7, 64), 11),
        ((2, 2, 1, 7, 64), 11),
        ((1, 1, 1, 7, 64), 11),
        ((1, 2, 2, 5, 64), 11),
    ];
    for (by, number) in list {
        assert_eq!(lines(&mut field, &[by]), [refused(number)], "{by:?}");
        assert_eq!(bits(&field), before);
    }
}

/// Every kind of move, for everyone on every field that is reached, by the other desk: 26, whatever else would be said. By one that is
/// none: 31.
#[test]
fn by_the_other_desk() {
    let mut dice = Dice(26);
    for field in Reached::all().fields {
        let field = dice.shared(&field);
        for request in requests(&field.field).into_iter().filter(|request| request.kind > 2) {
            let mut after = field.clone();
            assert_eq!(after.step(&request.by(3 - request.desk)), Err(Refusal::OtherDesk));
            assert_eq!(after.step(&request.by(dice.pick(&[0, 3, 200]))), Err(Refusal::Desk));
            assert_eq!(after.step(&Request { number: 60_000, ..request }), Err(Refusal::NotOnField));
            assert_eq!(after, field);
        }
        for (_, aircraft) in field.field.everyone() {
            let entry = Request::new(1, 1, aircraft.number, 64);
            assert_eq!(
                [1, 2].map(|desk| field.clone().step(&entry.by(desk))),
                [Err(Refusal::AlreadyPresent); 2]
            );
        }
    }
}

/// What desks there are: a field with any other breaks the bounds, after the input rules and before all else.
#[test]
fn an_aircraft_of_no_desk() {
    for desk in [0, 3, 4, 128, 255] {
        for zone in [Zone::Holding3(Side::Right), Zone::Holding3(Side::Left)] {
            let mut field = two();
            field.field.zone_mut(zone)[0].desk = desk;
            assert_eq!(field.field.broken_bound(), Some(reference::field::Bound::G));
            let before = bits(&field);
            let list = [
                ((1, 12, 0, 0, 64), 10),
                ((2, 12, 0, 0, 64), 10),
                ((1, 3, 0, 7, 0), 10),
                ((1, 3, 0, 5, 0), 10),
                ((1, 3, 0, 9, 0), 10),
                ((1, 1, 1, 7, 64), 10),
                ((desk, 3, 0, 7, 0), if matches!(desk, 1 | 2) { 10 } else { 31 }),
                ((1, 0, 0, 7, 0), 1),
                ((2, 12, 0, 0, 65), 4),
            ];
            for (by, number) in list {
                assert_eq!(lines(&mut field, &[by]), [refused(number)], "{by:?}");
                assert_eq!(bits(&field), before);
            }
            assert_eq!(proposed(&field.field), Err(Refusal::FieldBreaksBound));
            let list = reference::classroom::list(&field);
            assert_eq!(list.map_err(|refusal| refusal.number()), Err(10));
        }
    }
}

/// The leader that is the own desk's is shown, and the other's is not; so is the one that an entry or a hold moves.
#[test]
fn leader_and_along() {
    let mut field = two();
    let list = [(1, 1, 1, 8, 64), (1, 3, 0, 8, 0), (2, 1, 2, 9, 64), (2, 1, 2, 9, 64)];
    assert_eq!(lines(&mut field, &list), [[0, 8, 1, 1, 0, 7], refused(21), [0, 9, 2, 2, 0, 5], refused(11)]);
    let mut field = two();
    // The other's go down, with nothing in along; 6 follows its own desk's 8.
    let list = [(2, 1, 1, 8, 64), (2, 3, 0, 7, 0), (2, 1, 2, 6, 64), (1, 3, 0, 5, 0)];
    assert_eq!(lines(&mut field, &list), [[0, 8, 1, 1, 5, 0], refused(26), [0, 6, 2, 2, 8, 5], refused(26)]);
    let owners: Vec<_> = field.field.everyone().map(|(zone, a)| (zone.number(), a.number, a.desk)).collect();
    assert_eq!(owners, [(1, 8, 2), (2, 6, 2), (3, 7, 1), (4, 5, 2)]);
}

/// One misses and holds above the one who came in behind, who goes down and stays with its desk.
#[test]
fn a_hold_moves_the_others() {
    for (upper, shown) in [(1, 8), (2, 0)] {
        let mut field = started();
        let minute = |desk| (desk, 12, 0, 0, 64);
        accepted(&mut field, &[(1, 1, 2, 7, 64), (upper, 1, 2, 8, 64), (1, 4, 0, 7, 0), minute(2)]);
        accepted(&mut field, &[(1, 5, 0, 7, 0), minute(1), (1, 6, 0, 7, 0), (1, 10, 0, 7, 0), minute(2)]);
        let list = [(2, 11, 0, 7, 0), (1, 11, 0, 7, 0), minute(2), (1, 11, 0, 7, 0)];
        assert_eq!(lines(&mut field, &list), [refused(26), refused(15), [0; 6], [0, 7, 2, 2, shown, shown]]);
        let left = [Zone::Holding3(Side::Left), Zone::Holding2(Side::Left)];
        let owners = left.map(|zone| (field.field.zone(zone)[0].number, field.field.zone(zone)[0].desk));
        assert_eq!(owners, [(7, 1), (8, upper)]);
    }
}

/// The outcome of an entry that moves another is that of a descend by the owner and the entry after it, apart from `along`; a hold has
/// everybody's desk as it was.
#[test]
fn as_if_its_owner_had_asked() {
    let mut dice = Dice(25);
    let (mut entries, mut holds, mut hidden) = (0, 0, 0);
    for mut field in within_bounds(&mut dice, 2) {
        for aircraft in field.zones.iter_mut().flatten().filter(|a| a.progress != Progress::Waiting) {
            aircraft.progress = Progress::Flying(aircraft.leg);
        }
        let start = dice.shared(&field);
        for request in requests(&start.field).into_iter().filter(|request| matches!(request.kind, 1 | 11)) {
            let request = if request.kind == 1 { request.by(dice.desk()) } else { request };
            let mut after = start.clone();
            let (0, answer) = reply(&mut after, &request) else { continue };
            for (_, aircraft) in start.field.everyone() {
                assert_eq!(after.field.find(aircraft.number).map(|(_, a)| a.desk), Some(aircraft.desk));
            }
            let side = Side::BOTH[usize::from(answer.zone + 1) % 2];
            let upper = start.field.zone(Zone::Holding3(side)).front();
            let Some(upper) = upper.filter(|_| matches!(answer.zone, 1 | 2)) else { continue };
            let own = upper.desk == request.desk;
            assert_eq!(answer.along, if own { upper.number } else { 0 });
            hidden += usize::from(!own);
            holds += usize::from(request.kind == 11);
            if request.kind == 1 {
                entries += 1;
                let mut both = start.clone();
                assert_eq!(reply(&mut both, &Request::new(3, 0, upper.number, 0).by(upper.desk)).0, 0);
                assert_eq!(reply(&mut both, &request), (0, Answer { along: 0, ..answer }));
                assert_eq!(bits(&both), bits(&after));
            }
        }
    }
    assert!(entries > 50 && holds > 50 && hidden > 50, "{entries} {holds} {hidden}");
}

/// Every accepted step but an entry leaves everybody's desk, and an entry has its own.
#[test]
fn everyone_stays_with_the_desk() {
    let mut dice = Dice(1);
    let mut field = started();
    for _ in 0..20_000 {
        let before: Vec<_> = field.field.everyone().map(|(_, a)| (a.number, a.desk)).collect();
        let request = dice.request_of_two(&field.field);
        let (number, _) = reply(&mut field, &request);
        for (_, aircraft) in field.field.everyone() {
            let was = before.iter().find(|(number, _)| *number == aircraft.number);
            match was {
                Some(&(_, desk)) => assert_eq!(aircraft.desk, desk),
                None => {
                    assert_eq!((number, aircraft.number, aircraft.desk), (0, request.number, request.desk))
                }
            }
        }
    }
}

fn present(field: &Field, desks: &[u8]) -> usize {
    field.everyone().filter(|(_, aircraft)| desks.contains(&aircraft.desk)).count()
}

/// Let in are those that taxied off, exited or are present, for both desks together and for each. From the empty field 10, 20 and 25 never
/// come, and a refusal leaves the field.
#[test]
fn counts_of_both_and_of_each() {
    let mut dice = Dice(210);
    let mut came = [0; 32];
    let mut let_in = [0; 2];
    for _ in 0..200 {
        let longest = dice.pick(&[1, 4, 64]);
        let mut field = Indexed::empty(Legs::from_64ths([(); 4].map(|()| 1 + dice.below(longest) as u16)));
        let mut counts = [Counts::default(); 3];
        for _ in 0..400 {
            let request = dice.request_of_two(&field.field);
            let before = field.clone();
            let (number, _) = reply(&mut field, &request);
            came[usize::from(number)] += 1;
            if number == 0 {
                counts[0].accepted(&request);
                counts[usize::from(request.desk)].accepted(&request);
            } else {
                assert_eq!(bits(&field), bits(&before));
            }
            for (count, desks) in counts.iter().zip([&[1, 2][..], &[1], &[2]]) {
                assert_eq!(count.entries, count.taxis + count.exits + present(&field.field, desks));
            }
            assert!(field.within_bounds());
        }
        let_in = [let_in[0] + counts[1].entries, let_in[1] + counts[2].entries];
    }
    assert_eq!([10, 20, 25].map(|number| came[number]), [0; 3]);
    let others = (0..32).filter(|n| matches!(n, 0..=4 | 11..=19 | 21..=24 | 26 | 31));
    assert!(others.clone().all(|number| number == 24 || came[number] > 0), "{came:?}");
    assert_eq!(others.map(|number| came[number]).sum::<usize>(), 80_000);
    assert!(let_in.iter().all(|&count| count > 500), "{let_in:?}");
}

/// By one desk alone every answer is as before there were two: nobody is hidden and 26 never comes.
#[test]
fn one_desk_alone() {
    let mut dice = Dice(11);
    for desk in [1, 2] {
        let (mut field, mut first) = (started(), started());
        for _ in 0..5000 {
            let request = dice.request(&field.field, &[64, 512], 4);
            let answer = field.step(&request.by(desk));
            assert_eq!(answer, first.step(&request.by(1)));
            assert_ne!(answer, Err(Refusal::OtherDesk));
            if let Ok(Answer { aircraft, leader, .. }) = answer {
                assert_eq!(leader, field.field.leader(aircraft).unwrap_or(0));
            }
            assert!(field.field.everyone().all(|(_, aircraft)| aircraft.desk == desk));
        }
    }
}

/// With everybody of one desk.
fn of_one(field: &Field, desk: u8) -> Field {
    let mut field = field.clone();
    field.zones.iter_mut().flatten().for_each(|aircraft| aircraft.desk = desk);
    field
}

/// By its own desk a request is played as if there were one desk, apart from what is hidden and whose the aircraft are: on every field that
/// is reached, and on some within the bounds.
#[test]
fn as_by_one_desk() {
    let mut dice = Dice(2);
    let (mut shown, mut hidden) = (0, 0);
    let fields = Reached::all().fields.into_iter().chain(within_bounds(&mut Dice(3), 20));
    for field in fields {
        let field = dice.shared(&field).field;
        let ticks = [1, 2].map(|desk| TICK.by(desk));
        for request in requests(&field).into_iter().chain(ticks) {
            let request = if request.kind <= 2 { request.by(dice.desk()) } else { request };
            let (mut two, mut one) = (field.clone(), of_one(&field, request.desk));
            let (answer, alone) = (two.step(&request), one.step(&request));
            assert_eq!(of_one(&two, request.desk), one);
            let of_own =
                |number| two.find(number).filter(|(_, a)| a.desk == request.desk).map_or(0, |_| number);
            let expected = alone.map(|a| Answer { leader: of_own(a.leader), along: of_own(a.along), ..a });
            assert_eq!(answer, expected);
            let same = answer == alone;
            shown += usize::from(same && answer.is_ok_and(|a| a.leader != 0 || a.along != 0));
            hidden += usize::from(!same);
        }
    }
    assert!(shown > 2000 && hidden > 2000, "{shown} {hidden}");
}

/// A press asks as the aircraft's own desk, and ticks as desk 1; it moves whoever it would move if all were of one desk.
#[test]
fn the_button() {
    let mut dice = Dice(6);
    for field in Reached::all().fields {
        let mut shared = dice.shared(&field).field;
        let alone = of_one(&shared, 2);
        let moved = proposed(&shared).expect("within the bounds");
        let by_one = proposed(&alone).expect("within the bounds");
        assert_eq!(moved.map(|request| request.by(0)), by_one.map(|request| request.by(0)));
        let Some(request) = moved else { continue };
        let owner = shared.find(request.number).map_or(1, |(_, aircraft)| aircraft.desk);
        assert_eq!((request.desk, request == TICK), (owner, request.kind == 12));
        assert_eq!(press(&mut shared).map(|pressed| pressed.is_some()), Ok(true));
        let held = hold_down(&mut shared, MOST_PRESSES, |_, _, _| ());
        assert_eq!(held.map(|(_, ending)| ending), Ok(Ending::None));
    }
}

/// In a field built from a list everyone is desk 1's, and going loses the desks.
#[test]
fn the_classroom_dialect() {
    for (_, list) in common::classroom::patterns() {
        let built = common::classroom::field_of(&list).unwrap_or_else(|_| started());
        assert!(built.field.everyone().all(|(_, aircraft)| aircraft.desk == 1));
        let mut other = built.clone();
        other.field.zones.iter_mut().flatten().for_each(|aircraft| aircraft.desk = 2);
        assert_eq!(reference::classroom::list(&built), reference::classroom::list(&other));
    }
}

/// Bytes of a file have no desk: they play as desk 1, and are written without.
#[test]
fn a_practice_file() {
    let request = Request::new(1, 2, 300, 64);
    assert_eq!((request.desk, Request::from_bytes(request.by(2).to_bytes())), (1, request));
}
