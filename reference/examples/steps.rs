//! Prints, for every field that can be reached with its legs flown out, each accepted request that is no tick, for `tests/nasa`: the field before it, its
//! kind and the zone of its aircraft (for an entry its side), and the field after it, with colons between. A field is its shape.

use reference::explore::{requests, shape, Reached};

fn main() {
    for field in &Reached::all().fields {
        println!("{}::{}", words(&shape(field)), words(&shape(field)));
        for request in requests(field) {
            let mut after = field.clone();
            if after.step(&request).is_ok() {
                let zone = field.everyone().find(|(_, aircraft)| aircraft.number == request.number);
                let from = zone.map_or(request.side, |(zone, _)| zone.number());
                println!("{}:{} {from}:{}", words(&shape(field)), request.kind, words(&shape(&after)));
            }
        }
    }
}

fn words(shape: &[u8]) -> String {
    shape.iter().map(u8::to_string).collect::<Vec<_>>().join(" ")
}
