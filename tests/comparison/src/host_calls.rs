//! Random calls of a host program, states to begin with, and damage to states.

use crate::dice::Dice;
use crate::host_library::Call;
use crate::lists;
use crate::sessions::{legs, Habits};
use crate::wide;
use reference::button::hold_down;
use reference::explore::each_within_bounds;
use reference::file::LEGS_LENGTH;
use reference::history::KEPT;
use reference::state::{Bytes, State, AIRCRAFT, FIELD, QUEUE, STATE};
use reference::{Aircraft, Field, History, Indexed, Legs, Progress, Request};

/// Where a field has its sequence, next fix, legs and index.
const SEQUENCE_AT: usize = 13 * QUEUE;
const NEXT_FIX_AT: usize = SEQUENCE_AT + 16;
const LEGS_AT: usize = NEXT_FIX_AT + 1;
const INDEX_AT: usize = LEGS_AT + 32;
/// Where the state has its count.
pub const COUNT_AT: usize = STATE - 8;

/// The field of a state; the empty one where its bytes are no field.
pub fn field_of(state: &Bytes) -> Field {
    match State::read(state).field.indexed() {
        Some(Indexed { field, .. }) => field,
        None => Field::empty(Legs::from_64ths([64; 4])),
    }
}

/// The button is held down where it empties the field within so many presses. Where it is spent, each press costs its time.
const FEW_PRESSES: usize = 4096;

/// A call on a state with this field.
pub fn call(dice: &mut Dice, habits: &Habits, field: &Field) -> Call {
    match dice.weighted(&[280, 36, 36, 4, 16, 16, 1, 10, 8]) {
        0 => Call::Ask(request(dice, habits, field).into()),
        1 => Call::Back(back(dice).into()),
        2 => Call::Press,
        3 if is_soon_empty(field) => Call::HoldDown,
        3 => Call::Press,
        4 => Call::Spacing(spacing(dice)),
        5 => Call::List,
        6 => start(dice),
        7 => of_list(dice),
        _ => {
            let request = request(dice, habits, field);
            wide::call(dice, request)
        }
    }
}

/// A field that breaks a bound is refused at once.
fn is_soon_empty(field: &Field) -> bool {
    let mut field = field.clone();
    hold_down(&mut field, FEW_PRESSES, |_, _, _| ()).is_err() || field.present() == 0
}

/// A request, mostly by the desk of the aircraft that it names.
pub fn request(dice: &mut Dice, habits: &Habits, field: &Field) -> Request {
    let request = habits.request(dice, field);
    let owner = field.find(request.number).map(|(_, aircraft)| aircraft.desk);
    let either = dice.pick(&[1, 2]);
    match dice.below(40) {
        0 => request.by(dice.pick(&[0, 3, 128, 255])),
        1..=3 => request.by(either),
        _ => request.by(owner.unwrap_or(either)),
    }
}

/// The desk that steps back.
pub fn back(dice: &mut Dice) -> u8 {
    dice.pick(&[1, 1, 1, 2, 2, 2, 0, 3, 255])
}

fn spacing(dice: &mut Dice) -> usize {
    let allowed = dice.between(1, 512);
    dice.pick(&[allowed, allowed, allowed, 1, 64, 512, 0, 513, 65_535])
}

/// A start, one in four with a leg that may be refused.
pub fn start(dice: &mut Dice) -> Call {
    let mut legs_64ths = legs(dice).map(usize::from);
    if dice.once_in(4) {
        legs_64ths[dice.below(4)] = dice.pick(&[0, 1, 4096, 4097, 32_768, 65_535]);
    }
    Call::Start(legs_64ths)
}

/// A list of the classroom dialect, legs and a speed.
fn of_list(dice: &mut Dice) -> Call {
    let input = lists::random(dice);
    match input.split_at_checked(LEGS_LENGTH + 2) {
        None => Call::Field([64; 4], 64, input),
        Some((head, list)) => {
            let number = |at: usize| usize::from(u16::from_le_bytes([head[at], head[at + 1]]));
            Call::Field([0, 2, 4, 6].map(number), number(8), list.to_vec())
        }
    }
}

/// Two who stand at 3000 above 2000 in the wrong order: nobody can move, and the button is spent.
pub fn stuck() -> Call {
    let list: [u16; 8] = [5, 1, 1, 1, 6, 3, 2, 2];
    Call::Field([64; 4], 64, list.into_iter().flat_map(u16::to_le_bytes).collect())
}

/// One in 16 of all fields within the bounds, reached or not.
pub fn some_within_bounds() -> Vec<Field> {
    let (mut fields, mut place) = (Vec::new(), 0);
    each_within_bounds(|field| {
        if place % 16 == 0 {
            fields.push(field.clone());
        }
        place += 1;
    });
    fields
}

/// A state of such fields, with up to eight kept. Numbers, desks and miles are drawn; the kept fields need not belong to the field.
pub fn within_bounds(dice: &mut Dice, fields: &[Field]) -> Bytes {
    let mut history = History::new(drawn(dice, fields));
    history.count = dice.between(0, KEPT);
    history.kept.iter_mut().for_each(|kept| *kept = drawn(dice, fields));
    State::new(&history).to_bytes()
}

fn drawn(dice: &mut Dice, fields: &[Field]) -> Indexed {
    let mut field = fields[dice.below(fields.len())].clone();
    let step = dice.pick(&[1, 256, 9999]);
    let renamed = |number: u16| step * (6 - number);
    field.sequence.iter_mut().for_each(|number| *number = renamed(*number));
    for Aircraft { number, desk, progress, leg, .. } in field.zones.iter_mut().flatten() {
        *number = renamed(*number);
        *desk = dice.pick(&[1, 2]);
        if let Progress::Flying(miles) = progress {
            *miles = dice.pick(&[*leg, *leg, *miles, 0.0]);
        }
    }
    Indexed::new(field)
}

/// Any bytes: all drawn, or of few values.
pub fn any_bytes(dice: &mut Dice) -> Bytes {
    let few = [0, 0, 1, 2, 0xff, dice.byte()];
    let any = dice.once_in(2);
    std::array::from_fn(|_| if any { dice.byte() } else { dice.pick(&few) })
}

/// A state with nobody on it or some, and any bytes in the places past its count.
pub fn past_the_count(dice: &mut Dice, fields: &[Field]) -> Bytes {
    let mut history = match dice.once_in(2) {
        true => History::empty(Legs::from_64ths([64; 4])),
        false => History::new(drawn(dice, fields)),
    };
    history.count = dice.between(0, KEPT - 1);
    let mut state = State::new(&history).to_bytes();
    let past = FIELD * (1 + history.count);
    state[past..COUNT_AT].copy_from_slice(&any_bytes(dice)[past..COUNT_AT]);
    state
}

/// One number of a state changed.
pub fn damage(dice: &mut Dice, state: &mut Bytes) {
    let field = dice.pick(&[0, 0, 0, 1, 2, 3, 4, 5, 6, 7, 8]) * FIELD;
    let zone = field + dice.below(13) * QUEUE;
    let place = zone + dice.pick(&[0, 0, 1, 2, 3]) * AIRCRAFT;
    let (at, size) = match dice.below(14) {
        0 => (place, 2),
        1 => (place + 2, 1),
        2 => (place + 3, 1),
        3 => (place + 4, 2),
        4 => (place + 6, 8),
        5 => (place + 14, 8),
        6 => (place + 22, 8),
        7 => (zone + QUEUE - 8, 8),
        8 => (field + SEQUENCE_AT + 2 * dice.below(4), 2),
        9 => (field + SEQUENCE_AT + 8, 8),
        10 => (field + NEXT_FIX_AT, 1),
        11 => (field + LEGS_AT + 8 * dice.below(4), 8),
        12 => (field + INDEX_AT + dice.below(20), 1),
        _ => (COUNT_AT, 8),
    };
    let small = dice.between(0, 9) as u64;
    let any = dice.bits();
    let large = dice.pick(&[1 << 8, 1 << 32, 1 << 63, u64::MAX, u64::MAX - 1, any]);
    let miles = dice.pick(&[0.0, -0.0, 0.5, 1.0, 4096.0, 4096.5, -1.0, f64::INFINITY, f64::NAN, -f64::NAN]);
    let bits = dice.pick(&[small, small, large, miles.to_bits()]);
    state[at..at + size].copy_from_slice(&bits.to_le_bytes()[..size]);
}

/// One bit of a state changed, by its place among all.
pub fn flip(state: &mut Bytes, bit: usize) {
    state[bit / 8] ^= 1 << (bit % 8);
}
