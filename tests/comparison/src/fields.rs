//! Every field that can be reached, numbers and miles aside, and every
//! request there: for each field the shortest list of requests that leads to
//! it, and then what could be asked.

use reference::explore::{requests, tick, Reached};
use reference::{Field, Legs, PracticeFile, Request};

/// Legs so short that one tick flies each of them out.
const LEGS: [u16; 4] = [1; 4];

fn file(requests: Vec<Request>) -> Vec<u8> {
    PracticeFile { legs_64ths: LEGS, requests }.to_bytes()
}

fn played(requests: &[Request]) -> Field {
    let mut field = Field::empty(Legs::from_64ths(LEGS));
    for request in requests {
        field.step(request).expect("accepted");
    }
    field
}

/// Everyone there and one new, in every kind; then the field is left alone or flown on.
fn asked(field: &Field) -> Vec<Request> {
    let mut all = requests(field);
    for (_, aircraft) in field.everyone() {
        all.extend([1, 2].map(|kind| Request::new(kind, 1, aircraft.number, 64)));
    }
    all.extend((3..=11).map(|kind| Request::new(kind, 0, 60_000, 0)));
    all
}

/// What is accepted on a field, and what is refused.
fn parted(field: &Field) -> (Vec<Request>, Vec<Request>) {
    asked(field).into_iter().partition(|request| field.clone().step(request).is_ok())
}

/// Each request and a tick after it.
fn ticked(way: &[Request]) -> impl Iterator<Item = Request> + '_ {
    way.iter().flat_map(|&request| [request, tick()])
}

/// The files that lead to one field: one that asks for all that is refused
/// there, one for all that is refused before the last tick, where the last to
/// move is at the start of its leg, and one for each request that is accepted.
/// An accepted request is asked for twice, and then after a tick.
fn files_of(way: &[Request], field: &Field) -> Vec<Vec<u8>> {
    let (accepted, refused) = parted(field);
    let to_field = || ticked(way);
    let mut files = vec![file(to_field().chain(refused).collect())];
    let mut start: Vec<Request> = to_field().collect();
    start.pop();
    files.push(file(start.iter().copied().chain(parted(&played(&start)).1).collect()));
    for request in accepted {
        files.push(file(to_field().chain([request, request, tick(), request]).collect()));
    }
    files
}

/// How many fields there are, and all their files.
pub fn files() -> (usize, impl Iterator<Item = Vec<u8>>) {
    let reached = Reached::all();
    let count = reached.fields.len();
    let files = (0..count).flat_map(move |place| files_of(&reached.way_to(place), &reached.fields[place]));
    (count, files)
}

/// For each field two files that lead to it, with all legs flown out, and with the last to move at the start of its leg.
pub fn ways() -> impl Iterator<Item = Vec<u8>> {
    let reached = Reached::all();
    (0..reached.fields.len()).flat_map(move |place| {
        let mut way: Vec<Request> = ticked(&reached.way_to(place)).collect();
        let flown_out = file(way.clone());
        way.pop();
        [flown_out, file(way)]
    })
}
