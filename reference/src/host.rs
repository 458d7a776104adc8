//! The calls of a host program on the state that it lends (`include/baguymo.h`). Each takes numbers as wide as they come, and yields its
//! number and its outputs, which are zeros where it is refused. A refused call leaves the state; any other that may change it writes the
//! whole of it anew.

use crate::button::{proposed, MOST_PRESSES};
use crate::classroom;
use crate::field::{Answer, Legs};
use crate::history::History;
use crate::index::Indexed;
use crate::parts::{self, Parts};
use crate::refusal::{BackRefusal, ClassroomRefusal, Refusal};
use crate::request::{Request, DESKS};
use crate::spacing::{self, Gap, Pair};
use crate::state::{Bytes, State};

/// The number of a leg that is not 1 to 4096.
const LEG: u16 = 7;
/// The number of a speed that is not 1 to 512.
const SPEED: u16 = 4;

/// Number, aircraft, zone, fix, leader, along.
pub type Six = [usize; 6];

/// The empty field with four legs in 64ths of a mile: base, intermediate, final, missed.
pub fn start(legs_64ths: [usize; 4], bytes: &mut Bytes) -> u16 {
    let Some(legs_64ths) = parts::legs(legs_64ths) else { return LEG };
    *bytes = State::new(&History::empty(Legs::from_64ths(legs_64ths))).to_bytes();
    0
}

/// One request, before which the field is kept.
pub fn ask(bytes: &mut Bytes, parts: Parts) -> (u16, Six) {
    match parts.request().and_then(|request| asked(bytes, &request)) {
        Ok(answer) => (0, six(0, answer)),
        Err(refusal) => (refusal.number().into(), six(refusal.number(), Answer::ZEROS)),
    }
}

fn asked(bytes: &mut Bytes, request: &Request) -> Result<Answer, Refusal> {
    request.check()?;
    let (mut state, mut history) = read(bytes).ok_or(Refusal::FieldBreaksBound)?;
    let answer = history.step(request)?;
    state.accepted(&history.field);
    *bytes = state.to_bytes();
    Ok(answer)
}

/// One step back by a desk.
pub fn back(bytes: &mut Bytes, desk: usize) -> u16 {
    match taken_back(bytes, desk) {
        Ok(()) => 0,
        Err(refusal) => refusal.number().into(),
    }
}

fn taken_back(bytes: &mut Bytes, desk: usize) -> Result<(), BackRefusal> {
    let desk = DESKS.into_iter().find(|&each| usize::from(each) == desk).ok_or(BackRefusal::Desk)?;
    let (mut state, mut history) = read(bytes).ok_or(BackRefusal::FieldBreaksBound)?;
    history.step_back(desk)?;
    state.taken_back();
    *bytes = state.to_bytes();
    Ok(())
}

/// One press of the button: desk, kind, side, number and amount of what it played, and the answer; zeros where it played nothing.
pub fn press(bytes: &mut Bytes) -> (u16, [usize; 5], Six) {
    let Some((mut state, history)) = judged(bytes) else {
        return (10, [0; 5], six(10, Answer::ZEROS));
    };
    let mut field = history.field;
    let played = pressed(&mut state, &mut field);
    *bytes = state.to_bytes();
    played.map_or((0, [0; 5], [0; 6]), |(request, answer)| (0, five(request), six(0, answer)))
}

/// The button held down: how many requests it played, and 1 where somebody is still present.
pub fn hold_down(bytes: &mut Bytes) -> (u16, [usize; 2]) {
    let Some((mut state, history)) = judged(bytes) else { return (10, [0; 2]) };
    let mut field = history.field;
    let mut played = 0;
    while played < MOST_PRESSES && pressed(&mut state, &mut field).is_some() {
        played += 1;
    }
    *bytes = state.to_bytes();
    (0, [played, usize::from(field.field.present() > 0)])
}

/// The spacing of up to three pairs: how many, then leader, follower and 1 where it is close; and the gaps in miles.
pub fn spacing(bytes: &Bytes, spacing: usize) -> (u16, [usize; 10], [f64; 3]) {
    let mut numbers = [0; 10];
    let mut gaps = [0.0; 3];
    let pairs = match spaced(bytes, spacing) {
        Ok(pairs) => pairs,
        Err(refusal) => return (refusal.number().into(), numbers, gaps),
    };
    numbers[0] = pairs.len();
    for (at, Pair { leader, follower, gap }) in pairs.into_iter().enumerate() {
        let (close, miles) = match gap {
            Gap::Close(miles) => (1, miles),
            Gap::Clear(miles) => (0, miles),
        };
        numbers[1 + 3 * at..][..3].copy_from_slice(&[leader.into(), follower.into(), close]);
        gaps[at] = miles;
    }
    (0, numbers, gaps)
}

fn spaced(bytes: &Bytes, spacing: usize) -> Result<Vec<Pair>, Refusal> {
    let spacing = spacing::check(spacing)?;
    let (_, history) = judged(bytes).ok_or(Refusal::FieldBreaksBound)?;
    spacing::pairs(&history.field.field, spacing)
}

/// The list of the classroom dialect: how many, then number, location, place and fix of up to five.
pub fn list(bytes: &Bytes) -> (u16, [usize; 21]) {
    let mut numbers = [0; 21];
    let judged = judged(bytes).ok_or(ClassroomRefusal::FieldBreaksBound);
    let list = match judged.and_then(|(_, history)| classroom::list(&history.field)) {
        Ok(list) => list,
        Err(refusal) => return (refusal.number().into(), numbers),
    };
    numbers[0] = list.len();
    for (at, listed) in list.into_iter().enumerate() {
        let four = [listed.number, listed.location, listed.place, listed.fix].map(usize::from);
        numbers[1 + 4 * at..][..4].copy_from_slice(&four);
    }
    (0, numbers)
}

/// The field that a list of the classroom dialect builds.
pub fn field(legs_64ths: [usize; 4], speed: usize, list: &[u8], bytes: &mut Bytes) -> u16 {
    let Some(legs_64ths) = parts::legs(legs_64ths) else { return LEG };
    let Ok(speed) = u16::try_from(speed) else { return SPEED };
    let head = legs_64ths.into_iter().chain([speed]).flat_map(u16::to_le_bytes);
    let input: Vec<u8> = head.chain(list.iter().copied()).collect();
    match classroom::from_bytes(&input) {
        Ok(built) => {
            *bytes = State::new(&History::new(built)).to_bytes();
            0
        }
        Err(refusal) => refusal.number().into(),
    }
}

/// What the bytes hold, if a history can; its step and its step back judge it.
fn read(bytes: &Bytes) -> Option<(State, History)> {
    let state = State::read(bytes);
    let history = state.history()?;
    Some((state, history))
}

/// The same, if it is within the bounds.
fn judged(bytes: &Bytes) -> Option<(State, History)> {
    read(bytes).filter(|(_, history)| history.within_bounds())
}

/// Plays what the button proposes on a field within the bounds, which is the state's; none where nobody is on it.
fn pressed(state: &mut State, field: &mut Indexed) -> Option<(Request, Answer)> {
    let request = proposed(&field.field).expect("within the bounds")?;
    let answer = field.step(&request).expect("the button proposes what is accepted");
    state.accepted(field);
    Some((request, answer))
}

fn five(Request { kind, side, number, amount, desk }: Request) -> [usize; 5] {
    [desk.into(), kind.into(), side.into(), number.into(), amount.into()]
}

fn six(number: u8, answer: Answer) -> Six {
    let Answer { aircraft, zone, fix, leader, along } = answer;
    [number.into(), aircraft.into(), zone.into(), fix.into(), leader.into(), along.into()]
}
