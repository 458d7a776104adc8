//! The calls of a host program on the bytes of its state: the layout by hand, the calls beside a history, and what is refused.

mod common;
use common::history::UNREADABLE;
use common::Dice;

use reference::button::{proposed, MOST_PRESSES};
use reference::desks::reply_kept;
use reference::explore::requests;
use reference::host::{self, back, field, hold_down, list, press, spacing, start};
use reference::state::{Bytes, State, FIELD, NAN, STATE};
use reference::{Asked, History, Indexed, Legs, Listed, Request};

const LEGS: [usize; 4] = [64, 128, 192, 256];

fn started() -> Bytes {
    let mut state = [0xa5; STATE];
    assert_eq!(start(LEGS, &mut state), 0);
    state
}

fn request(desk: u8, kind: u8, side: u8, number: u16, amount: u16) -> Request {
    Request::new(kind, side, number, amount).by(desk)
}

fn ask(state: &mut Bytes, request: &Request) -> (u16, [usize; 6]) {
    host::ask(state, (*request).into())
}

fn accepted(state: &mut Bytes, list: &[(u8, u8, u8, u16, u16)]) {
    for &(desk, kind, side, number, amount) in list {
        assert_eq!(ask(state, &request(desk, kind, side, number, amount)).0, 0, "{kind} {number}");
    }
}

fn put(state: &mut Bytes, at: usize, bytes: &[u8]) {
    state[at..at + bytes.len()].copy_from_slice(bytes);
}

fn history(state: &Bytes) -> History {
    let history = State::read(state).history().expect("a history");
    assert!(history.within_bounds());
    history
}

/// A field of the start by the offsets of the header alone.
fn empty_field() -> [u8; FIELD] {
    let mut bytes = [0; FIELD];
    for zone in 0..13 {
        for place in 0..4 {
            bytes[128 * zone + 30 * place + 6..][..8].fill(0xff);
        }
    }
    bytes[1680] = 1;
    for (at, miles) in [(1681, 4.0), (1689, 1.0), (1697, 2.0), (1705, 3.0f64)] {
        bytes[at..at + 8].copy_from_slice(&miles.to_bits().to_le_bytes());
    }
    bytes
}

#[test]
fn the_start_by_hand() {
    assert_eq!((FIELD, STATE), (1733, 15_605));
    let mut expected = [empty_field(); 9].concat();
    expected.extend([0; 8]);
    assert_eq!(started().to_vec(), expected);
}

/// 0x0102 comes in at 3000 right by desk 2 at speed 0x0103; then a lateral one left by desk 1, whose leader is the other desk's, and who is
/// let to its base and flies a quarter of a mile.
#[test]
fn two_by_hand() {
    let mut state = started();
    assert_eq!(ask(&mut state, &request(2, 1, 1, 0x0102, 0x0103)), (0, [0, 0x0102, 1, 1, 0, 0]));
    let mut one = empty_field();
    one[..6].copy_from_slice(&[2, 1, 1, 2, 3, 1]);
    one[120] = 1;
    one[1664..1666].copy_from_slice(&[2, 1]);
    one[1672] = 1;
    one[1680] = 2;
    one[1713..1717].copy_from_slice(&[2, 1, 1, 1]);
    let expected = [&one[..], &empty_field().repeat(8), &[1, 0, 0, 0, 0, 0, 0, 0]].concat();
    assert_eq!(state.to_vec(), expected);

    assert_eq!(ask(&mut state, &request(1, 2, 1, 7, 64)), (16, [16, 0, 0, 0, 0, 0]));
    assert_eq!(state.to_vec(), expected);
    accepted(&mut state, &[(2, 3, 0, 0x0102, 0), (2, 4, 0, 0x0102, 0)]);
    assert_eq!(ask(&mut state, &request(1, 2, 2, 7, 64)), (0, [0, 7, 6, 2, 0, 0]));
    accepted(&mut state, &[(1, 4, 0, 7, 0), (1, 12, 0, 0, 16)]);
    let mut two = empty_field();
    // Zone 9: a tick of 16 at 259 is 4144/4096 of a mile, and the base leg has 1.
    let place = 128 * 8;
    two[place..place + 6].copy_from_slice(&[2, 1, 1, 2, 3, 1]);
    two[place + 6..place + 14].copy_from_slice(&1.0f64.to_le_bytes());
    two[place + 14..place + 22].copy_from_slice(&(48.0f64 / 4096.0).to_le_bytes());
    two[place + 22..place + 30].copy_from_slice(&1.0f64.to_le_bytes());
    two[place + 120] = 1;
    // Zone 10.
    let place = 128 * 9;
    two[place..place + 6].copy_from_slice(&[7, 0, 2, 1, 64, 0]);
    two[place + 6..place + 14].copy_from_slice(&0.25f64.to_le_bytes());
    two[place + 22..place + 30].copy_from_slice(&1.0f64.to_le_bytes());
    two[place + 120] = 1;
    two[1664..1668].copy_from_slice(&[2, 1, 7, 0]);
    two[1672] = 2;
    two[1680] = 1;
    two[1713..1721].copy_from_slice(&[7, 0, 10, 1, 2, 1, 9, 1]);
    assert_eq!(&state[..FIELD], &two);
    assert_eq!(&state[FIELD..3 * FIELD], &[empty_field(), one].concat());
    assert_eq!(state[STATE - 8..], [6, 0, 0, 0, 0, 0, 0, 0]);

    assert_eq!(spacing(&state, 48), (0, [1, 0x0102, 7, 0, 0, 0, 0, 0, 0, 0], [0.75, 0.0, 0.0]));
    assert_eq!(spacing(&state, 49).1[3], 1);
    let mut entries = [0; 21];
    entries[..9].copy_from_slice(&[2, 0x0102, 9, 1, 1, 7, 10, 2, 2]);
    assert_eq!(list(&state), (0, entries));
}

/// A list of random calls leads to the bytes of the history that the same calls lead to.
#[test]
fn beside_a_history() {
    let mut dice = Dice(5);
    for _ in 0..60 {
        let mut state = started();
        let mut beside = History::empty(Legs::from_64ths(LEGS.map(|leg| leg as u16)));
        for _ in 0..120 {
            let asked = match dice.below(8) {
                0 => Asked::Back(dice.pick(&[1, 2, 2, 3])),
                1 => Asked::Request(dice.pick(&UNREADABLE).0),
                _ => {
                    let field = &history(&state).field.field;
                    Asked::Request(dice.request(field, &[64, 512], 5).by(dice.pick(&[1, 2, 2])))
                }
            };
            let (number, answer) = reply_kept(&mut beside, asked);
            let given = match asked {
                Asked::Back(desk) => (back(&mut state, desk.into()), [0; 6]),
                Asked::Request(request) => ask(&mut state, &request),
            };
            let told = [answer.aircraft, answer.zone.into(), answer.fix.into(), answer.leader, answer.along];
            assert_eq!(given.0, u16::from(number));
            assert_eq!(given.1[1..], told.map(usize::from));
            assert_eq!(state, State::new(&beside).to_bytes());
        }
    }
}

/// Three who come and go, with eight kept.
fn busy() -> Bytes {
    let mut state = started();
    let tick = (1, 12, 0, 0, 64);
    let list =
        [(1, 1, 1, 9, 512), (2, 1, 2, 8, 64), (1, 3, 0, 9, 0), (1, 4, 0, 9, 0), (1, 1, 2, 300, 1), tick];
    accepted(&mut state, &list);
    accepted(&mut state, &[(1, 5, 0, 9, 0), tick, (1, 6, 0, 9, 0), (2, 4, 0, 8, 0)]);
    assert_eq!(history(&state).count, 8);
    state
}

/// Everything that is asked of a state that breaks the bounds, in the order of the refusals; it stays.
fn refused(state: &Bytes) {
    let mut after = *state;
    for (request, number) in UNREADABLE {
        assert_eq!(ask(&mut after, &request), (number.into(), [number.into(), 0, 0, 0, 0, 0]));
        assert_eq!(ask(&mut after, &request.by(3)).0, 31);
    }
    assert_eq!(ask(&mut after, &request(1, 12, 0, 0, 64)), (10, [10, 0, 0, 0, 0, 0]));
    assert_eq!([back(&mut after, 0), back(&mut after, 1)], [31, 10]);
    assert_eq!(press(&mut after), (10, [0; 5], [10, 0, 0, 0, 0, 0]));
    assert_eq!(hold_down(&mut after), (10, [0; 2]));
    assert_eq!(spacing(&after, 0), (4, [0; 10], [0.0; 3]));
    assert_eq!(spacing(&after, 512), (10, [0; 10], [0.0; 3]));
    assert_eq!(list(&after), (10, [0; 21]));
    assert_eq!(after, *state);
}

/// Damage to a field at an offset in it: what breaks the bounds wherever it counts.
fn damage() -> Vec<(usize, Vec<u8>)> {
    let (aircraft, free, queue) = (128 * 3, 128 * 3 + 30, 128 * 3 + 120);
    let float = |bits: u64| bits.to_le_bytes().to_vec();
    let mut damage = vec![];
    damage.extend([5, 1 << 32, 1 << 63, u64::MAX].map(|length| (queue, float(length))));
    damage.extend([5, 1 << 40, u64::MAX].map(|length| (1672, float(length))));
    // A number that is 0, or other than the sequence has; no fix, no desk, no speed; flying at 2000.
    damage.extend([(aircraft, vec![0, 0]), (aircraft, vec![7, 0]), (aircraft + 2, vec![3])]);
    damage.extend([(aircraft + 3, vec![0]), (aircraft + 3, vec![3]), (aircraft + 4, vec![0, 0])]);
    damage.extend([
        (aircraft + 4, vec![1, 2]),
        (aircraft + 6, float(0)),
        (aircraft + 6, float(u64::MAX - 1)),
    ]);
    damage
        .extend([NAN, u64::MAX, (-1.0f64).to_bits(), 4097.0f64.to_bits()].map(|m| (aircraft + 14, float(m))));
    damage.extend([NAN, 1.0f64.to_bits()].map(|leg| (aircraft + 22, float(leg))));
    // Past the length.
    damage.extend((0..6).map(|at| (free + at, vec![1])));
    damage.extend([
        (free + 6, float(0)),
        (free + 6, float(NAN)),
        (free + 14, float(1)),
        (free + 22, float(NAN)),
    ]);
    damage.extend([(1670, vec![1]), (1671, vec![1]), (1664, vec![1, 0]), (1666, vec![1, 0])]);
    damage.extend([(1680, vec![0]), (1680, vec![2]), (1680, vec![3])]);
    for leg in [1681, 1689, 1697, 1705] {
        damage.extend([NAN, 0, (-1.0f64).to_bits(), 64.5f64.to_bits()].map(|bits| (leg, float(bits))));
    }
    damage.extend((1713..FIELD).map(|at| (at, vec![77])));
    damage
}

#[test]
fn damaged_states_are_refused() {
    let mut state = started();
    accepted(&mut state, &[(1, 1, 2, 8, 64), (1, 3, 0, 8, 0), (2, 12, 0, 0, 1), (2, 12, 0, 0, 1)]);
    // The field, the last kept one that counts, and one past the count.
    for (at, bytes) in damage() {
        for (field, counts) in [(0, true), (4, true), (5, false)] {
            let mut damaged = state;
            put(&mut damaged, field * FIELD + at, &bytes);
            if counts {
                assert_ne!(damaged, state, "{at} {bytes:?}");
                refused(&damaged);
            } else {
                assert_eq!(ask(&mut damaged, &request(1, 12, 0, 0, 1)).0, 0);
            }
        }
    }
    for count in [9u64, 1 << 32, u64::MAX] {
        let mut damaged = state;
        put(&mut damaged, STATE - 8, &count.to_le_bytes());
        refused(&damaged);
    }
    refused(&[0; STATE]);
    refused(&[0xff; STATE]);
}

/// Without a desk 10 comes before 27, and 27 leaves the state.
#[test]
fn nothing_to_take_back() {
    let mut state = started();
    assert_eq!([back(&mut state, 0), back(&mut state, 1), back(&mut state, 2)], [31, 27, 27]);
    assert_eq!(state, started());
    state[1680] = 0;
    assert_eq!([back(&mut state, 3), back(&mut state, 1)], [31, 10]);
}

/// Past the count a NaN is written as the one NaN, and every other byte stays; past a length a zero keeps its sign, and moves up with
/// its place.
#[test]
fn what_stays() {
    let mut state = started();
    accepted(&mut state, &[(1, 1, 1, 9, 64)]);
    let past = 5 * FIELD;
    let mut drawn = Dice(3);
    (past..past + FIELD).for_each(|at| state[at] = drawn.below(256) as u8);
    put(&mut state, past + 14, &(NAN | 77 | 1 << 63).to_le_bytes());
    put(&mut state, past + 6, &u64::MAX.to_le_bytes());
    put(&mut state, past + 36, &(u64::MAX - 1).to_le_bytes());
    let minus = (-0.0f64).to_bits().to_le_bytes();
    put(&mut state, 60 + 14, &minus);
    put(&mut state, 30 + 22, &minus);
    let before = state;
    accepted(&mut state, &[(1, 3, 0, 9, 0)]);
    let mut expected = before[past..past + FIELD].to_vec();
    expected[14..22].copy_from_slice(&NAN.to_le_bytes());
    expected[36..44].copy_from_slice(&NAN.to_le_bytes());
    assert_eq!(state[past..past + FIELD], expected);
    assert_eq!(state[2 * FIELD..][..FIELD], before[..FIELD]);
    assert_eq!([&state[30 + 14..][..8], &state[22..][..8]], [&minus; 2]);
    assert_eq!(state[60 + 14..][..8], [0; 8]);
    accepted(&mut state, &[(1, 4, 0, 9, 0), (2, 1, 2, 5, 64)]);
    let once = state;
    assert_eq!(State::read(&state).to_bytes(), once);
}

/// A press is the ask of what it proposes; held down it is as many presses, and keeps the last eight.
#[test]
fn the_button() {
    let mut state = busy();
    let (mut pressed, mut held) = (state, state);
    let mut presses = 0;
    while let Some(request) = proposed(&history(&state).field.field).expect("within the bounds") {
        let Request { kind, side, number, amount, desk } = request;
        let five = [desk.into(), kind.into(), side.into(), number.into(), amount.into()];
        let (number, answer) = ask(&mut state, &request);
        assert_eq!(press(&mut pressed), (number, five, answer));
        assert_eq!(pressed, state);
        presses += 1;
    }
    assert_eq!(hold_down(&mut held), (0, [presses, 0]));
    assert_eq!(held, state);
    assert_eq!(press(&mut held), (0, [0; 5], [0; 6]));
    assert_eq!(hold_down(&mut held), (0, [0, 0]));
    assert_eq!(held, state);
    assert!(presses > 20 && history(&held).count == 8);
}

fn bytes_of(listed: &[[u16; 4]]) -> Vec<u8> {
    let each =
        |&[number, location, place, fix]: &[u16; 4]| Listed { number, location, place, fix }.to_bytes();
    listed.iter().flat_map(each).collect()
}

/// Both stand at 3000 above 2000 in the wrong order, and nobody can move.
#[test]
fn spent() {
    let mut state = started();
    let stuck = bytes_of(&[[5, 1, 1, 1], [6, 3, 2, 2]]);
    assert_eq!(field(LEGS, 64, &stuck, &mut state), 0);
    let before = state;
    assert_eq!(hold_down(&mut state), (0, [MOST_PRESSES, 1]));
    assert_eq!(state[..FIELD], before[..FIELD]);
    assert_eq!(state[..8 * FIELD], state[FIELD..9 * FIELD]);
    assert_eq!(state[STATE - 8], 8);
}

/// 7, 4, 29 and 25, each leaving the state; then the field, with nothing kept and the empty field in every place.
#[test]
fn a_list_comes_back() {
    let mut state = busy();
    let before = state;
    let two = bytes_of(&[[5, 2, 1, 1], [0, 3, 2, 2]]);
    for leg in 0..4 {
        for wrong in [0, 4097] {
            let mut legs = LEGS;
            legs[leg] = wrong;
            assert_eq!(field(legs, 0, &two[1..], &mut state), 7);
            assert_eq!(start(legs, &mut state), 7);
        }
    }
    assert_eq!(field(LEGS, 513, &two[1..], &mut state), 4);
    assert_eq!(field(LEGS, 512, &two[1..], &mut state), 29);
    assert_eq!(field(LEGS, 512, &two, &mut state), 25);
    assert_eq!(state, before);
    assert_eq!(field(LEGS, 512, &two[..8], &mut state), 0);
    let mut entries = [0; 21];
    entries[..5].copy_from_slice(&[1, 5, 2, 1, 1]);
    assert_eq!(list(&state), (0, entries));
    assert_eq!(state[FIELD..], started()[FIELD..]);
    assert_eq!(field(LEGS, 1, &[], &mut state), 0);
    assert_eq!(state, started());
    assert_eq!(start(LEGS, &mut state), 0);
    assert_eq!(state, started());
    accepted(&mut state, &[(1, 2, 1, 5, 64)]);
    assert_eq!(list(&state), (29, [0; 21]));
}

/// Any bytes are read as some state, and are written as one: what is read again is the same.
#[test]
fn any_bytes() {
    let mut dice = Dice(11);
    for _ in 0..200 {
        let bytes: Bytes = std::array::from_fn(|_| dice.pick(&[0, 0xff, dice.0 as u8]));
        let read = State::read(&bytes);
        let written = read.to_bytes();
        assert_eq!(State::read(&written), read);
        assert_eq!(State::read(&written).to_bytes(), written);
        refused(&bytes);
    }
}

/// On each field that is kept by a busy state, the requests of everybody are answered as on that field alone.
#[test]
fn kept_fields_are_fields() {
    let mut state = busy();
    while history(&state).count > 0 {
        let Indexed { field, .. } = history(&state).field;
        for request in requests(&field) {
            let (mut alone, mut asked) = (field.clone(), state);
            let number = alone.step(&request).map_or_else(|refusal| refusal.number(), |_| 0);
            assert_eq!(ask(&mut asked, &request).0, number.into());
            assert_eq!(history(&asked).field.field, alone);
        }
        assert_eq!(back(&mut state, 2), 0);
    }
    assert_eq!(back(&mut state, 2), 27);
}
