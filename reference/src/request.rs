//! Requests with the desk that asks, and the input rules (31, then 1 to 4).

use crate::field::Side;
use crate::refusal::Refusal;

/// The two desks that share the field (document 02, 2.10).
pub const DESKS: [u8; 2] = [1, 2];

/// The desk of every request of a practice file, and of the button's ticks.
pub const FIRST_DESK: u8 = 1;

/// A request as given: any bytes.
#[derive(Clone, Copy, Debug, PartialEq, Eq)]
pub struct Request {
    pub kind: u8,
    pub side: u8,
    pub number: u16,
    pub amount: u16,
    pub desk: u8,
}

/// Who asks to be let in, and the desk that asks for it.
#[derive(Clone, Copy, Debug, PartialEq, Eq)]
pub struct Newcomer {
    pub side: Side,
    pub number: u16,
    pub speed: u16,
    pub desk: u8,
}

/// A request that has passed the input rules.
#[derive(Clone, Copy, Debug, PartialEq, Eq)]
pub enum Call {
    VerticalEntry(Newcomer),
    LateralEntry(Newcomer),
    Descend(u16),
    Approach(u16),
    Merge(u16),
    Final(u16),
    Land(u16),
    Taxi(u16),
    Exit(u16),
    Miss(u16),
    Hold(u16),
    Tick(u16),
}

pub const FASTEST: u16 = 512;
pub const LONGEST_TICK: u16 = 64;

impl Request {
    /// By desk 1, as in a practice file.
    pub fn new(kind: u8, side: u8, number: u16, amount: u16) -> Request {
        Request { kind, side, number, amount, desk: FIRST_DESK }
    }

    /// The same, by this desk.
    pub fn by(self, desk: u8) -> Request {
        Request { desk, ..self }
    }

    /// Six bytes of a practice file, which plays as desk 1.
    pub fn from_bytes(bytes: [u8; 6]) -> Request {
        let [kind, side, n0, n1, a0, a1] = bytes;
        Request::new(kind, side, u16::from_le_bytes([n0, n1]), u16::from_le_bytes([a0, a1]))
    }

    /// Without the desk.
    pub fn to_bytes(self) -> [u8; 6] {
        let [n0, n1] = self.number.to_le_bytes();
        let [a0, a1] = self.amount.to_le_bytes();
        [self.kind, self.side, n0, n1, a0, a1]
    }

    /// The input rules, in their order: desk, kind, side, number, amount.
    pub fn check(&self) -> Result<Call, Refusal> {
        let &Request { kind, side, number, amount, desk } = self;
        let is_entry = matches!(kind, 1 | 2);
        let is_tick = kind == 12;
        if !DESKS.contains(&desk) {
            return Err(Refusal::Desk);
        }
        if !(1..=12).contains(&kind) {
            return Err(Refusal::Kind);
        }
        let entry_side = Side::from_number(side);
        if is_entry && entry_side.is_none() || !is_entry && side != 0 {
            return Err(Refusal::Side);
        }
        if is_tick != (number == 0) {
            return Err(Refusal::Number);
        }
        let amount_allowed = match kind {
            1 | 2 => (1..=FASTEST).contains(&amount),
            12 => (1..=LONGEST_TICK).contains(&amount),
            _ => amount == 0,
        };
        if !amount_allowed {
            return Err(Refusal::Amount);
        }
        Ok(match (kind, entry_side) {
            (1, Some(side)) => Call::VerticalEntry(Newcomer { side, number, speed: amount, desk }),
            (2, Some(side)) => Call::LateralEntry(Newcomer { side, number, speed: amount, desk }),
            (3, _) => Call::Descend(number),
            (4, _) => Call::Approach(number),
            (5, _) => Call::Merge(number),
            (6, _) => Call::Final(number),
            (7, _) => Call::Land(number),
            (8, _) => Call::Taxi(number),
            (9, _) => Call::Exit(number),
            (10, _) => Call::Miss(number),
            (11, _) => Call::Hold(number),
            _ => Call::Tick(amount),
        })
    }
}

impl Call {
    /// The aircraft that a move is asked of; none for an entry or a tick.
    pub fn moves(self) -> Option<u16> {
        match self {
            Call::VerticalEntry(_) | Call::LateralEntry(_) | Call::Tick(_) => None,
            Call::Descend(number)
            | Call::Approach(number)
            | Call::Merge(number)
            | Call::Final(number)
            | Call::Land(number)
            | Call::Taxi(number)
            | Call::Exit(number)
            | Call::Miss(number)
            | Call::Hold(number) => Some(number),
        }
    }
}
