//! What a practice file is written from: legs, requests and the length of a
//! buffer; those that are written, and those that are refused, or just about.

use crate::dice::Dice;
use crate::sessions::{session, session_of};
use crate::wide::wide;
use reference::file::{LONGEST, MOST_REQUESTS, REQUEST};
use reference::{PracticeFile, Refusal, Request};

/// Four legs, as wide as C may hand them over, requests in bytes, and how many bytes the buffer has.
#[derive(Clone)]
pub struct Lesson {
    pub legs_64ths: [usize; 4],
    pub requests: Vec<u8>,
    pub room: usize,
}

/// Letters, contents and legs.
const BODY: usize = LONGEST - REQUEST * MOST_REQUESTS;
const LEGS: [usize; 4] = [64, 128, 192, 4096];
const TICK: [u8; REQUEST] = [12, 0, 0, 0, 64, 0];
/// For each number from 1 to 4, requests that break that input rule and none before it.
const OFFENDERS: [&[[u8; REQUEST]]; 4] = [
    &[[0; REQUEST], [13, 1, 7, 0, 64, 0], [255; REQUEST]],
    &[[1, 0, 7, 0, 64, 0], [2, 3, 0, 0, 0, 0], [3, 1, 7, 0, 0, 0], [12, 2, 1, 0, 0, 0]],
    &[[1, 1, 0, 0, 64, 0], [8, 0, 0, 0, 1, 0], [12, 0, 0, 1, 64, 0], [12, 0, 1, 0, 0, 0]],
    &[[1, 1, 7, 0, 0, 0], [2, 2, 0, 1, 1, 2], [11, 0, 7, 0, 0, 1], [12, 0, 0, 0, 65, 0], [12, 0, 0, 0, 0, 1]],
];

fn of_length(length: usize) -> usize {
    BODY + length
}

/// The same in a buffer that is empty, a byte short, just long enough and longer.
fn in_buffers(legs_64ths: [usize; 4], requests: &[u8]) -> Vec<Lesson> {
    let file = of_length(requests.len());
    let rooms = [0, 1, BODY - 1, BODY, file - 1, file, file + 1, file + 100];
    rooms.map(|room| Lesson { legs_64ths, requests: requests.to_vec(), room }).to_vec()
}

/// Legs and requests of a session, without those that break an input rule.
fn kept(dice: &mut Dice, length: usize) -> ([usize; 4], Vec<u8>) {
    let mut practice = PracticeFile::read(&session_of(dice, length)).expect("a session");
    practice.requests.iter_mut().filter(|request| request.check().is_err()).for_each(|request| {
        *request = Request::from_bytes(TICK);
    });
    let requests = practice.requests.iter().flat_map(|request| request.to_bytes()).collect();
    (practice.legs_64ths.map(usize::from), requests)
}

/// Short lists in every buffer up to a few bytes more than the file.
pub fn every_room(dice: &mut Dice) -> Vec<Lesson> {
    let mut lessons = Vec::new();
    for length in [0, 1, 2, 12] {
        let (legs_64ths, requests) = kept(dice, length);
        lessons.extend((0..of_length(requests.len()) + 9).map(|room| Lesson {
            legs_64ths,
            requests: requests.clone(),
            room,
        }));
    }
    lessons
}

/// Legs at the edges of what is allowed, and those that are so by their low 16 bits, in every place, before lists that are written and before
/// those that are refused.
pub fn edge_legs(dice: &mut Dice) -> Vec<Lesson> {
    let good = kept(dice, 3).1;
    let lists = [&[][..], &good, &good[..17], &[0; REQUEST], &TICK.repeat(MOST_REQUESTS + 1)];
    let mut lessons = Vec::new();
    for place in 0..4 {
        let narrow = [0, 1, 4095, 4096, 4097, 8192, 32_768, 65_535];
        let wide = [65_536, 65_537, 65_600, 69_632, 1 << 32 | 64, 1 << 63 | 64, usize::MAX];
        for leg in narrow.into_iter().chain(wide) {
            let mut legs_64ths = LEGS;
            legs_64ths[place] = leg;
            lists.iter().for_each(|list| lessons.extend(in_buffers(legs_64ths, list)));
        }
    }
    lessons
}

/// Lists of any length about the shortest and the longest, also with the first or the last request an offender, and counts that
/// are right by 16 bits.
pub fn lengths(dice: &mut Dice) -> Vec<Lesson> {
    let longest = REQUEST * MOST_REQUESTS;
    let mut all = kept(dice, MOST_REQUESTS).1;
    all.extend(TICK.repeat(3));
    let mut lessons = Vec::new();
    for length in (0..=40).chain(longest - 13..=longest + 13) {
        let list = &all[..length];
        lessons.extend(in_buffers(LEGS, list));
        for at in [0, length.saturating_sub(1) / REQUEST * REQUEST] {
            let mut offending = list.to_vec();
            offending.iter_mut().skip(at).take(1).for_each(|kind| *kind = 13);
            lessons.extend(in_buffers(LEGS, &offending));
        }
    }
    for requests in [8192, 65_535, 65_536, 65_537, 65_536 + MOST_REQUESTS] {
        lessons.extend(in_buffers(LEGS, &TICK.repeat(requests)));
    }
    lessons
}

/// Each offender at each place of a list, by itself and with another one at each place after it.
pub fn offenders(dice: &mut Dice) -> Vec<Lesson> {
    for (number, offenders) in (1..).zip(OFFENDERS) {
        let found = |offender| Request::from_bytes(offender).check().map_err(Refusal::number).err();
        assert!(offenders.iter().all(|&offender| found(offender) == Some(number)));
    }
    let requests = kept(dice, 5).1;
    let with = |list: &[u8], place: usize, offender: &[u8; REQUEST]| {
        let mut list = list.to_vec();
        list[REQUEST * place..REQUEST * (place + 1)].copy_from_slice(offender);
        list
    };
    let mut lessons = Vec::new();
    for first in OFFENDERS.concat() {
        for place in 0..5 {
            let one = with(&requests, place, &first);
            lessons.extend(in_buffers(LEGS, &one));
            for later in place + 1..5 {
                let others = OFFENDERS.iter().map(|offenders| with(&one, later, &offenders[0]));
                others.for_each(|two| lessons.extend(in_buffers(LEGS, &two)));
            }
        }
    }
    lessons
}

/// Each byte of a list with each other value.
pub fn damaged(dice: &mut Dice) -> Vec<Lesson> {
    let requests = kept(dice, 4).1;
    let changed = |at: usize, value: u8| {
        let mut requests = requests.clone();
        requests[at] = value;
        Lesson { legs_64ths: LEGS, room: of_length(requests.len()), requests }
    };
    (0..requests.len()).flat_map(|at| (0..=255).map(move |value| changed(at, value))).collect()
}

/// The longest list, a byte more or less than its file for a buffer.
pub fn longest(dice: &mut Dice) -> Vec<Lesson> {
    let (legs_64ths, requests) = kept(dice, MOST_REQUESTS);
    let mut lessons = in_buffers(legs_64ths, &requests);
    for offender in OFFENDERS.concat() {
        for place in [0, MOST_REQUESTS / 2, MOST_REQUESTS - 1] {
            let mut requests = requests.clone();
            requests[REQUEST * place..REQUEST * (place + 1)].copy_from_slice(&offender);
            lessons.push(Lesson { legs_64ths, requests, room: LONGEST });
        }
    }
    lessons
}

/// A random one: a session as it is, with its offenders taken out, cut, or random bytes; one leg in 16 lists may be any; the buffer
/// is about as long as the file, or has any length.
pub fn random(dice: &mut Dice) -> Lesson {
    let session = PracticeFile::read(&session(dice)).expect("a session");
    let mut legs_64ths = session.legs_64ths.map(usize::from);
    if dice.once_in(16) {
        let leg = &mut legs_64ths[dice.below(4)];
        let any = usize::from(dice.bits() as u16);
        let wide = wide(dice, 16, *leg);
        *leg = dice.pick(&[any, wide]);
    }
    let all = dice.once_in(4);
    let list = session.requests.iter().filter(|request| all || request.check().is_ok());
    let mut requests: Vec<u8> = list.flat_map(|request| request.to_bytes()).collect();
    match dice.below(16) {
        0 => {
            let length = dice.between(0, requests.len());
            requests.truncate(length);
        }
        1 => requests.push(dice.byte()),
        2 if !requests.is_empty() => {
            let at = dice.below(requests.len());
            requests[at] = dice.byte();
        }
        3 => {
            let length = dice.between(0, 8) * REQUEST;
            requests = dice.bytes(length);
        }
        _ => {}
    }
    let file = of_length(requests.len());
    let near = (file + dice.between(0, 12)) - dice.between(0, 12);
    let any = dice.between(0, 2 * file);
    let room = dice.pick(&[file, file, near, any]);
    Lesson { legs_64ths, requests, room }
}
