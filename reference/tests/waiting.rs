//! Distance spent waiting: the miles that an aircraft would have flown past the ends of its legs.

mod common;
use common::*;

use reference::{Field, Legs, Request};
use std::collections::HashMap;

/// 7 on base right, at a mile a minute, on a leg of one mile.
fn on_base() -> Field {
    let mut field = empty();
    play(&mut field, &[(2, 1, 7, 64), (4, 0, 7, 0)]);
    field
}

#[test]
fn what_is_past_the_leg() {
    let mut field = on_base();
    assert_eq!(waited(&field, 7), 0.0);
    play(&mut field, &[(12, 0, 0, 63)]);
    assert_eq!((miles(&field, 7), waited(&field, 7)), (63.0 / 64.0, 0.0));
    // Just at the end.
    play(&mut field, &[(12, 0, 0, 1)]);
    assert_eq!((miles(&field, 7), waited(&field, 7)), (1.0, 0.0));
    play(&mut field, &[(12, 0, 0, 64)]);
    assert_eq!((miles(&field, 7), waited(&field, 7)), (1.0, 1.0));
    play(&mut field, &[(12, 0, 0, 32)]);
    assert_eq!((miles(&field, 7), waited(&field, 7)), (1.0, 1.5));
}

#[test]
fn the_tick_that_passes_the_end() {
    let mut field = empty();
    play(&mut field, &[(2, 1, 7, 512), (4, 0, 7, 0), (12, 0, 0, 4)]);
    assert_eq!((miles(&field, 7), waited(&field, 7)), (0.5, 0.0));
    play(&mut field, &[(12, 0, 0, 64)]);
    assert_eq!((miles(&field, 7), waited(&field, 7)), (1.0, 7.5));
}

#[test]
fn from_entry_to_leaving() {
    let minute = (12, 0, 0, 64);
    let mut field = on_base();
    play(&mut field, &[minute, minute]);
    assert_eq!(waited(&field, 7), 1.0);
    // Over all legs: intermediate, final, missed.
    play(&mut field, &[(5, 0, 7, 0), minute, minute]);
    assert_eq!((miles(&field, 7), waited(&field, 7)), (1.0, 2.0));
    play(&mut field, &[(6, 0, 7, 0)]);
    assert_eq!((miles(&field, 7), waited(&field, 7)), (0.0, 2.0));
    play(&mut field, &[minute, minute, (10, 0, 7, 0)]);
    assert_eq!((miles(&field, 7), waited(&field, 7)), (0.0, 3.0));
    play(&mut field, &[minute, minute]);
    assert_eq!(waited(&field, 7), 4.0);
    // At 2000 nobody flies.
    play(&mut field, &[(11, 0, 7, 0), minute]);
    assert_eq!(waited(&field, 7), 4.0);
    play(
        &mut field,
        &[(4, 0, 7, 0), minute, minute, (5, 0, 7, 0), minute, (6, 0, 7, 0), minute, (7, 0, 7, 0)],
    );
    assert_eq!(waited(&field, 7), 5.0);
    // Nor on the runway.
    play(&mut field, &[minute]);
    assert_eq!(waited(&field, 7), 5.0);
    // The next one of that number starts anew.
    play(&mut field, &[(8, 0, 7, 0), (1, 1, 7, 64)]);
    assert_eq!(waited(&field, 7), 0.0);
}

#[test]
fn a_new_one_after_an_exit() {
    let mut field = on_base();
    play(&mut field, &[(12, 0, 0, 64); 3]);
    play(&mut field, &[(5, 0, 7, 0), (12, 0, 0, 64), (12, 0, 0, 64)]);
    assert_eq!(waited(&field, 7), 3.0);
    play(&mut field, &[(9, 0, 7, 0), (2, 2, 7, 64)]);
    assert_eq!(waited(&field, 7), 0.0);
}

#[test]
fn each_aircraft_has_its_own() {
    let mut field = empty();
    // 7's hold moves 8 down from 3000, and later 8 holds beside nobody.
    play(&mut field, &[(1, 1, 7, 64), (3, 0, 7, 0), (1, 1, 8, 128)]);
    to_final(&mut field, 7);
    play(&mut field, &[(10, 0, 7, 0), (12, 0, 0, 64), (12, 0, 0, 64), (12, 0, 0, 32), (11, 0, 7, 0)]);
    assert_eq!((waited(&field, 7), waited(&field, 8)), (0.5, 0.0));
    play(&mut field, &[(4, 0, 8, 0), (12, 0, 0, 64), (5, 0, 8, 0), (12, 0, 0, 64), (6, 0, 8, 0)]);
    assert_eq!((waited(&field, 7), waited(&field, 8)), (0.5, 2.0));
    play(&mut field, &[(3, 0, 7, 0), (10, 0, 8, 0), (4, 0, 7, 0), (12, 0, 0, 48)]);
    assert_eq!((miles(&field, 7), miles(&field, 8)), (0.75, 1.5));
    assert_eq!((waited(&field, 7), waited(&field, 8)), (0.5, 2.0));
    play(&mut field, &[(12, 0, 0, 16), (12, 0, 0, 16)]);
    assert_eq!((miles(&field, 7), miles(&field, 8)), (1.0, 2.0));
    assert_eq!((waited(&field, 7), waited(&field, 8)), (0.75, 2.5));
    play(&mut field, &[(11, 0, 8, 0)]);
    assert_eq!((waited(&field, 7), waited(&field, 8)), (0.75, 2.5));
}

#[test]
fn it_stops_at_4096() {
    let mut field = empty();
    play(&mut field, &[(2, 1, 7, 512), (4, 0, 7, 0)]);
    play(&mut field, &[(12, 0, 0, 64); 512]);
    assert_eq!(waited(&field, 7), 4095.0);
    play(&mut field, &[(12, 0, 0, 7)]);
    assert_eq!(waited(&field, 7), 4095.875);
    for _ in 0..3 {
        play(&mut field, &[(12, 0, 0, 64)]);
        assert_eq!((miles(&field, 7), waited(&field, 7)), (1.0, 4096.0));
    }
    play(&mut field, &[(5, 0, 7, 0), (12, 0, 0, 64)]);
    assert_eq!(waited(&field, 7), 4096.0);
}

/// The sum is rounded before the leg is taken from it.
#[test]
fn off_the_64ths() {
    let leg = 63.9;
    let mut field = Field::empty(Legs { base: leg, ..empty().legs });
    play(&mut field, &[(2, 1, 7, 64), (4, 0, 7, 0)]);
    play(&mut field, &[(12, 0, 0, 64); 64]);
    assert_eq!((miles(&field, 7), waited(&field, 7)), (leg, 64.0 - leg));
    play(&mut field, &[(12, 0, 0, 64)]);
    let past = (leg + 1.0) - leg;
    assert_ne!(past, 1.0);
    assert_eq!((miles(&field, 7), waited(&field, 7)), (leg, (64.0 - leg) + past));
}

#[test]
fn a_zero_is_added_like_any_other() {
    let zero = |flying: bool, ticks: &[(u8, u8, u16, u16)]| {
        let mut field = empty();
        play(&mut field, &[(2, 1, 7, 64)]);
        if flying {
            play(&mut field, &[(4, 0, 7, 0)]);
        }
        for queue in &mut field.zones {
            queue.iter_mut().for_each(|aircraft| aircraft.waited = -0.0);
        }
        play(&mut field, ticks);
        waited(&field, 7).to_bits()
    };
    assert_eq!(zero(true, &[]), (-0.0f64).to_bits());
    assert_eq!(zero(true, &[(12, 0, 0, 1)]), 0.0f64.to_bits());
    assert_eq!(zero(false, &[(12, 0, 0, 1)]), (-0.0f64).to_bits());
}

/// What an aircraft has flown, in 4096ths of a mile.
struct Flown {
    speed: u64,
    /// On the leg at hand, as if it had no end, and the leg.
    leg: Option<(u64, u64)>,
    /// What was past the ends of the legs before.
    past: u64,
    legs: usize,
}

impl Flown {
    fn past(&self) -> u64 {
        self.past + self.leg.map_or(0, |(flown, leg)| flown.saturating_sub(leg))
    }

    fn left(&self) -> u64 {
        self.leg.map_or(0, |(flown, leg)| leg.saturating_sub(flown))
    }
}

/// What a list of requests should do to everyone, by the answers alone.
struct Exact {
    legs_64ths: [u16; 4],
    all: HashMap<u16, Flown>,
}

impl Exact {
    fn leg(&self, zone: u16) -> Option<u64> {
        let place = match zone {
            7 | 8 => 3,
            9 | 10 => 0,
            11 => 1,
            12 => 2,
            _ => return None,
        };
        Some(64 * u64::from(self.legs_64ths[place]))
    }

    fn accepted(&mut self, request: &Request, [_, number, zone, ..]: [u16; 6]) {
        if request.kind == 12 {
            for one in self.all.values_mut() {
                if let Some((flown, _)) = &mut one.leg {
                    *flown += one.speed * u64::from(request.amount);
                }
            }
            return;
        }
        let speed = u64::from(request.amount);
        let leg = self.leg(zone);
        let one = self.all.entry(number).or_insert(Flown { speed, leg: None, past: 0, legs: 0 });
        // Who misses has what is left of final ahead, too.
        let left = if request.kind == 10 { one.left() } else { 0 };
        one.past = one.past();
        one.leg = leg.map(|leg| (0, left + leg));
        one.legs += usize::from(leg.is_some());
        if zone == 0 {
            self.all.remove(&number);
        }
    }

    fn check(&self, field: &Field) {
        assert_eq!(field.present(), self.all.len());
        for (number, one) in &self.all {
            if let Some((flown, of)) = one.leg {
                assert_eq!(miles(field, *number) * 4096.0, flown.min(of) as f64);
            }
            assert_eq!(leg(field, *number) * 4096.0, one.leg.map_or(0, |(_, of)| of) as f64);
            assert_eq!(waited(field, *number) * 4096.0, one.past().min(4096 * 4096) as f64);
        }
    }
}

/// Miles, own legs and miles waited, after each request of many random lists.
#[test]
fn exact_in_4096ths() {
    let mut dice = Dice(22);
    let (mut most, mut most_legs, mut some, mut longer) = (0, 0, 0, 0);
    for list in 0..300 {
        let longest = dice.pick(&[4, 64, 512, 4096]);
        let legs_64ths = [(); 4].map(|()| 1 + dice.below(longest) as u16);
        let speeds = [1, 512, 1 + dice.below(512) as u16, 1 + dice.below(512) as u16];
        let ticks_in_16 = dice.pick(&[2, 4, 8, 15]);
        let mut field = Field::empty(Legs::from_64ths(legs_64ths));
        let mut exact = Exact { legs_64ths, all: HashMap::new() };
        for _ in 0..if list % 10 == 0 { 4000 } else { 400 } {
            let request = dice.request(&field, &speeds, ticks_in_16);
            let answer = line(&mut field, request.kind, request.side, request.number, request.amount);
            if answer[0] == 0 {
                exact.accepted(&request, answer);
            }
            exact.check(&field);
            longer += usize::from(
                answer[0] == 0 && request.kind == 10 && leg(&field, answer[1]) > field.legs.missed,
            );
            for one in exact.all.values() {
                most = most.max(one.past());
                most_legs = most_legs.max(if one.past() > 0 { one.legs } else { 0 });
                some += usize::from((1..4096 * 4096).contains(&one.past()));
            }
        }
    }
    // Sums past 4,096 miles came, those of many legs, and many below; and misses before the end of final.
    assert!(most > 4096 * 4096 && most_legs > 8 && some > 10_000, "{most} {most_legs} {some}");
    assert!(longer > 50, "{longer}");
}
