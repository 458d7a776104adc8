//! Prints a session with as many moves as there can be between two entries or
//! misses, and on standard error how many fields were looked through.

use reference::explore::{describe, Reached};
use reference::{Field, Legs, Refusal, Request};

const LEGS: [u16; 4] = [64, 96, 80, 112];

fn main() {
    let reached = Reached::all();
    let most = reached.most_moves();
    let place = (0..most.len()).max_by_key(|&place| (most[place], std::cmp::Reverse(place))).unwrap_or(0);
    let mut refusals: Vec<_> = reached.refusals.iter().collect();
    refusals.sort();
    eprintln!("{} fields; refusals ((kind, number), times): {refusals:?}", most.len());
    eprintln!("{} moves from {}", most[place], describe(&reached.fields[place]));

    println!("{} {} {} {}", LEGS[0], LEGS[1], LEGS[2], LEGS[3]);
    let mut field = Field::empty(Legs::from_64ths(LEGS));
    println!("# To the field {}.", describe(&reached.fields[place]));
    for request in reached.way_to(place) {
        ask(&mut field, request);
    }
    println!("# From here {} moves without entry or miss, ticks not counted.", most[place]);
    for (index, request) in reached.longest_from(place, &most).into_iter().enumerate() {
        println!("# move {}", index + 1);
        ask(&mut field, request);
    }
}

/// Prints the request, and before it the ticks that it needs.
fn ask(field: &mut Field, request: Request) {
    while field.clone().step(&request) == Err(Refusal::LegNotFlownOut) {
        play(field, Request::new(12, 0, 0, 64));
    }
    play(field, request);
}

fn play(field: &mut Field, request: Request) {
    field.step(&request).expect("accepted");
    let Request { kind, side, number, amount, .. } = request;
    println!("{kind} {side} {number} {amount}");
}
