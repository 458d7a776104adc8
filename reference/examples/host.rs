//! Prints what `examples/host.c` prints, by the reference.

use reference::host;
use reference::state::{Bytes, FIELD, STATE};
use reference::Parts;

/// A call, its number, and what it put out.
fn print(call: &str, number: u16, values: &[usize]) {
    let values: String = values.iter().map(|value| format!(" {value}")).collect();
    println!("{call}: {number}{values}");
}

/// Desk, kind, side, number, amount.
fn ask(state: &mut Bytes, list: &[(usize, usize, usize, usize, usize)]) {
    for &(desk, kind, side, aircraft, amount) in list {
        let (number, answer) = host::ask(state, Parts { desk, kind, side, number: aircraft, amount });
        print(&format!("ask {desk} {kind} {side} {aircraft} {amount}"), number, &answer[1..]);
    }
}

fn compare(what: &str, same: bool) {
    println!("{what} as saved: {}", if same { "yes" } else { "no" });
}

fn press(state: &mut Bytes) -> (u16, [usize; 6]) {
    let (number, request, answer) = host::press(state);
    print("press", number, &request);
    (number, answer)
}

fn list(state: &Bytes) {
    let (number, entries) = host::list(state);
    print("list", number, &entries);
}

fn main() {
    let legs = [64, 64, 64, 128];
    let mut state = [0; STATE];
    print("start", host::start(legs, &mut state), &[]);
    ask(&mut state, &[(1, 1, 1, 7, 64), (2, 1, 2, 9, 96), (2, 3, 0, 7, 0), (1, 3, 0, 7, 0), (1, 4, 0, 7, 0)]);
    ask(&mut state, &[(2, 3, 0, 9, 0), (2, 4, 0, 9, 0)]);

    let saved = state;
    ask(&mut state, &[(1, 1, 1, 9, 64), (3, 12, 0, 0, 64), (1, 1, 1, 65_546, 64), (257, 12, 0, 0, 64)]);
    ask(&mut state, &[(1, 12, 0, 0, 65_600)]);
    compare("every byte", state == saved);
    ask(&mut state, &[(2, 12, 0, 0, 64)]);
    compare("the field", state[..FIELD] == saved[..FIELD]);
    print("back 1", host::back(&mut state, 1), &[]);
    compare("the field", state[..FIELD] == saved[..FIELD]);

    ask(&mut state, &[(1, 12, 0, 0, 32)]);
    let (number, pairs, gaps) = host::spacing(&state, 64);
    print("spacing 64", number, &pairs);
    println!("gaps in miles: {:.6} {:.6} {:.6}", gaps[0], gaps[1], gaps[2]);
    ask(
        &mut state,
        &[(1, 5, 0, 7, 0), (2, 12, 0, 0, 32), (1, 5, 0, 7, 0), (2, 5, 0, 9, 0), (1, 12, 0, 0, 64)],
    );
    ask(&mut state, &[(1, 6, 0, 7, 0), (2, 6, 0, 9, 0), (1, 12, 0, 0, 64), (1, 7, 0, 7, 0), (2, 7, 0, 9, 0)]);
    list(&state);

    let (number, answer) = press(&mut state);
    print("answered", number, &answer[1..]);
    let (number, report) = host::hold_down(&mut state);
    print("hold_down", number, &report);
    press(&mut state);

    print("field", host::field(legs, 64, &[5, 0, 2, 0, 1, 0, 2, 0], &mut state), &[]);
    list(&state);
    state[0] ^= 1;
    list(&state);
}
