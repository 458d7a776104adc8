//! Calls of a host program on a state of the library and on one of the
//! reference: after each the number, the outputs and every byte are compared.

use crate::dice::Dice;
use crate::difference::fewer;
use crate::host_calls::{
    any_bytes, call, damage, field_of, flip, past_the_count, request, some_within_bounds, start, stuck,
    within_bounds, COUNT_AT,
};
use crate::host_library::{by_reference, Call, Lender, Reply};
use crate::host_table::HostTable;
use crate::sessions::Habits;
use crate::wide::{self, narrowed};
use reference::state::{Bytes, FIELD, STATE};
use reference::{Field, Request};

/// Calls of one list.
const LIST: usize = 60;
/// Calls on each state that is not reached.
const A_FIELD: usize = 4;
/// Lists of calls for each four states on which each number is too wide.
const A_WIDE: usize = 20;
/// Fields that are kept in the state of which bits are flipped.
const COUNTED: u8 = 5;

pub struct Hosted {
    lender: Lender,
    beside: Box<Bytes>,
    pub table: HostTable,
    pub calls: usize,
}

impl Default for Hosted {
    fn default() -> Hosted {
        Hosted {
            lender: Lender::default(),
            beside: Box::new([0; STATE]),
            table: HostTable::default(),
            calls: 0,
        }
    }
}

impl Hosted {
    /// Both are lent these bytes.
    fn lend(&mut self, state: &Bytes) {
        *self.beside = *state;
        *self.lender.state() = *state;
    }

    /// The reply of both to a call, after which both states are the same, or how they differ. A refusal and a question leave the state.
    fn call(&mut self, call: &Call) -> Result<Reply, String> {
        let before = *self.beside;
        let expected = by_reference(&mut self.beside, call);
        let reply = self.lender.call(call);
        if reply != expected {
            return Err(format!("{call:?}: the reference replies {expected:?}, the library {reply:?}"));
        }
        let state = self.lender.state();
        if let Some(at) = first_other(state, &self.beside) {
            let (wanted, got) = (self.beside[at], state[at]);
            return Err(format!("{call:?}: byte {at} is {wanted} by the reference, {got} by the library"));
        }
        let stays = reply.number != 0 || matches!(call, Call::Spacing(_) | Call::List);
        if stays && *self.beside != before {
            return Err(format!("{call:?}: {reply:?}, and the state is another"));
        }
        if !self.lender.margins_stay() {
            return Err(format!("{call:?}: the library wrote outside the state"));
        }
        self.calls += 1;
        self.table.count(call, &reply, &self.beside);
        let narrow = narrowed(call);
        if narrow != *call {
            let accepted = by_reference(&mut { before }, &narrow).number == 0;
            self.table.count_wide(call, &reply, accepted);
        }
        Ok(reply)
    }

    /// A list of calls from zeros, which are no state within the bounds.
    fn calls(&mut self, list: &[Call]) -> Result<(), String> {
        self.lend(&[0; STATE]);
        list.iter().try_for_each(|each| self.call(each).map(|_| ()))
    }

    /// A list of random calls after a start. Where both differ, those of it are left out that do not matter.
    fn list(&mut self, dice: &mut Dice) -> Result<(), String> {
        let habits = Habits::drawn(dice);
        let mut list = vec![start(dice)];
        self.calls(&list)?;
        for _ in 0..LIST {
            list.push(call(dice, &habits, &field_of(&self.beside)));
            if self.call(&list[list.len() - 1]).is_err() {
                let list = fewer(list, |list| Hosted::default().calls(list).is_err());
                let how = Hosted::default().calls(&list).err().unwrap_or_default();
                let lines: Vec<String> = list.iter().map(|call| format!("  {call:?}\n")).collect();
                return Err(format!("{how}\nafter these calls from zeros:\n{}", lines.concat()));
            }
        }
        Ok(())
    }

    /// One call on a state that is damaged.
    fn damaged(&mut self, state: &Bytes, call: &Call) -> Result<(), String> {
        self.lend(state);
        match self.call(call)?.number {
            0 => self.table.damaged_accepted += 1,
            10 => self.table.damaged_refused += 1,
            _ => {}
        }
        Ok(())
    }
}

fn first_other(one: &Bytes, other: &Bytes) -> Option<usize> {
    match one == other {
        true => None,
        false => (0..STATE).find(|&at| one[at] != other[at]),
    }
}

/// A state that random calls lead to, with this many kept.
fn reached(hosted: &mut Hosted, dice: &mut Dice, kept: u8) -> Result<Bytes, String> {
    loop {
        hosted.list(dice)?;
        let busy = field_of(&hosted.beside).present() > 2;
        if busy && hosted.beside[COUNT_AT] == kept {
            return Ok(*hosted.beside);
        }
    }
}

/// Everything that is compared, with this many lists of calls; each part has its line.
pub fn all(hosted: &mut Hosted, dice: &mut Dice, lists: usize) -> Result<(), String> {
    part(hosted, "lists of calls", |hosted| (0..lists).try_for_each(|_| hosted.list(dice)))?;
    part(hosted, "the button where nobody can move", |hosted| hosted.calls(&[stuck(), Call::HoldDown]))?;
    let fields = some_within_bounds();
    part(hosted, "fields within the bounds, reached or not", |hosted| {
        (0..4 * lists).try_for_each(|_| some_calls(hosted, dice, within_bounds, &fields))
    })?;
    part(hosted, "any bytes past the count", |hosted| {
        (0..lists).try_for_each(|_| some_calls(hosted, dice, past_the_count, &fields))
    })?;
    part(hosted, "any bytes as a state", |hosted| {
        (0..lists).try_for_each(|_| {
            let (state, habits) = (any_bytes(dice), Habits::drawn(dice));
            let call = call(dice, &habits, &field_of(&state));
            hosted.damaged(&state, &call)
        })
    })?;
    part(hosted, "states with one number changed", |hosted| {
        (0..2 * lists).try_for_each(|_| changed(hosted, dice, &fields))
    })?;
    part(hosted, "numbers wider than their part", |hosted| {
        (0..lists.div_ceil(A_WIDE)).try_for_each(|_| all_wide(hosted, dice, &fields))
    })?;
    part(
        hosted,
        "one bit flipped of a state's field, a kept one, one past the count, or the count",
        |hosted| flipped(hosted, dice),
    )
}

/// Each call with a number that is too wide, on a state that random calls lead to, on one with any fields within the bounds, on such a one
/// with a number changed, and on any bytes; where one of eight requests is accepted, it is the one that is altered.
fn all_wide(hosted: &mut Hosted, dice: &mut Dice, fields: &[Field]) -> Result<(), String> {
    hosted.list(dice)?;
    let within = within_bounds(dice, fields);
    let mut other = within;
    damage(dice, &mut other);
    for state in [*hosted.beside, within, other, any_bytes(dice)] {
        let (habits, field) = (Habits::drawn(dice), field_of(&state));
        let drawn = [(); 8].map(|()| request(dice, &habits, &field));
        let accepted = |&each: &Request| by_reference(&mut { state }, &Call::Ask(each.into())).number == 0;
        let request = drawn.into_iter().find(accepted).unwrap_or(drawn[0]);
        hosted.lend(&state);
        wide::calls(dice, request).iter().try_for_each(|call| hosted.call(call).map(|_| ()))?;
    }
    Ok(())
}

/// A few calls on a state; more of them are presses and steps back than elsewhere.
fn some_calls(
    hosted: &mut Hosted,
    dice: &mut Dice,
    state: impl Fn(&mut Dice, &[Field]) -> Bytes,
    fields: &[Field],
) -> Result<(), String> {
    hosted.lend(&state(dice, fields));
    let habits = Habits::drawn(dice);
    (0..A_FIELD).try_for_each(|_| {
        let drawn = call(dice, &habits, &field_of(&hosted.beside));
        let call = dice.pick(&[&drawn, &drawn, &drawn, &drawn, &Call::Press, &Call::Back(1)]).clone();
        hosted.call(&call).map(|_| ())
    })
}

/// A state, damaged eight times by itself.
fn changed(hosted: &mut Hosted, dice: &mut Dice, fields: &[Field]) -> Result<(), String> {
    let state = within_bounds(dice, fields);
    let (habits, field) = (Habits::drawn(dice), field_of(&state));
    (0..8).try_for_each(|_| {
        let mut other = state;
        damage(dice, &mut other);
        let call = call(dice, &habits, &field);
        hosted.damaged(&other, &call)
    })
}

/// Each bit of a state's field, of a kept one that counts, of the first past the count, and of the count; with calls that come to the state: no
/// start or field, which build another, and none that is refused by its own numbers. The button is pressed and not held down, since on a
/// field that no calls reach that may be as often as its bound allows.
fn flipped(hosted: &mut Hosted, dice: &mut Dice) -> Result<(), String> {
    let state = reached(hosted, dice, COUNTED)?;
    let (habits, field) = (Habits::drawn(dice), field_of(&state));
    let counted = usize::from(COUNTED);
    let fields = [0, dice.between(1, counted), counted + 1];
    let bits = fields.into_iter().flat_map(|at| 8 * FIELD * at..8 * FIELD * (at + 1));
    bits.chain(8 * COUNT_AT..8 * STATE).try_for_each(|bit| {
        let mut other = state;
        flip(&mut other, bit);
        let call = loop {
            match call(dice, &habits, &field) {
                Call::HoldDown | Call::Start(_) | Call::Field(..) => {}
                call if matches!(by_reference(&mut { other }, &call).number, 1..=4 | 31) => {}
                call => break call,
            }
        };
        hosted.damaged(&other, &call)
    })
}

fn part(
    hosted: &mut Hosted,
    what: &str,
    compare: impl FnOnce(&mut Hosted) -> Result<(), String>,
) -> Result<(), String> {
    let before = hosted.calls;
    compare(hosted).map_err(|how| format!("a call of a host differs, {what}: {how}\n"))?;
    println!("{what}: {} calls", hosted.calls - before);
    Ok(())
}
