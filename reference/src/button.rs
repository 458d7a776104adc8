//! One button that empties the field (document 02, 2.6): each press proposes one request and plays it.

use crate::field::{Answer, Field, Zone};
use crate::refusal::Refusal;
use crate::request::{Request, FIRST_DESK, LONGEST_TICK};

/// The most moves from a field that was reached from the empty one, before the next entry or miss (2.14), and the most
/// ticks before each of them.
pub const MOST_MOVES: usize = 27;
pub const MOST_TICKS: usize = 8192;
/// How often the button is pressed at the most while it is held down.
pub const MOST_PRESSES: usize = MOST_MOVES * (MOST_TICKS + 1);

/// The kinds in the order in which they are tried: taxi, land, final, merge, hold, approach, descend.
const KINDS: [u8; 7] = [8, 7, 6, 5, 11, 4, 3];

/// What is played where nobody can move.
pub const TICK: Request = Request { kind: 12, side: 0, number: 0, amount: LONGEST_TICK, desk: FIRST_DESK };

/// How holding the button down ended.
#[derive(Clone, Copy, Debug, PartialEq, Eq)]
pub enum Ending {
    /// Nobody is on the field.
    None,
    /// Every press that is allowed was used up, and somebody is.
    Spent,
}

/// The request that a press would play; none where nobody is on the field.
pub fn proposed(field: &Field) -> Result<Option<Request>, Refusal> {
    if !field.within_bounds() {
        return Err(Refusal::FieldBreaksBound);
    }
    if field.present() == 0 {
        return Ok(None);
    }
    Ok(Some(candidates(field).find(|request| field.accepts(request)).unwrap_or(TICK)))
}

/// Each kind for the head of each zone, by its own desk, in the kinds' order and then by the zones' numbers.
fn candidates(field: &Field) -> impl Iterator<Item = Request> + '_ {
    KINDS.into_iter().flat_map(move |kind| {
        let heads = Zone::ALL.into_iter().filter_map(move |zone| field.zone(zone).front());
        heads.map(move |head| Request::new(kind, 0, head.number, 0).by(head.desk))
    })
}

/// Plays what is proposed, and yields it with its answer; none where nothing is played.
pub fn press(field: &mut Field) -> Result<Option<(Request, Answer)>, Refusal> {
    match proposed(field)? {
        Some(request) => Ok(Some((request, field.step(&request)?))),
        None => Ok(None),
    }
}

/// Presses until nobody is on the field, or until `most` presses have each played a request, and hands on each press with
/// its index from 1. Yields how many requests were played, and the ending.
pub fn hold_down(
    field: &mut Field,
    most: usize,
    mut each: impl FnMut(usize, Request, Answer),
) -> Result<(usize, Ending), Refusal> {
    let mut played = 0;
    while played < most {
        let Some((request, answer)) = press(field)? else { break };
        played += 1;
        each(played, request, answer);
    }
    let ending = if field.present() == 0 { Ending::None } else { Ending::Spent };
    Ok((played, ending))
}
