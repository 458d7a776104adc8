//! What a program in C hands over (`include/baguymo.h`): each number is a `size_t`, and has the width of no part of the rules.

use crate::file::leg_allowed;
use crate::refusal::Refusal;
use crate::request::Request;

/// The five parts of a request, each as wide as it comes.
#[derive(Clone, Copy, Debug, PartialEq, Eq)]
pub struct Parts {
    pub desk: usize,
    pub kind: usize,
    pub side: usize,
    pub number: usize,
    pub amount: usize,
}

/// What refuses each part, in the order of the input rules.
const IN_ORDER: [Refusal; 5] =
    [Refusal::Desk, Refusal::Kind, Refusal::Side, Refusal::Number, Refusal::Amount];

impl Parts {
    /// The request that they are, whether or not it keeps the input rules; where a part is too wide, the first part that is so or that
    /// breaks its rule. For this the others are judged with zeros where a part is too wide: a rule asks nothing of the parts after its own,
    /// so what is broken before the first wide one is broken whatever that is.
    pub fn request(self) -> Result<Request, Refusal> {
        let byte = |part: usize| u8::try_from(part).ok();
        let word = |part: usize| u16::try_from(part).ok();
        let (desk, kind, side) = (byte(self.desk), byte(self.kind), byte(self.side));
        let (number, amount) = (word(self.number), word(self.amount));
        let fit = [desk.is_some(), kind.is_some(), side.is_some(), number.is_some(), amount.is_some()];
        let request = Request {
            kind: kind.unwrap_or(0),
            side: side.unwrap_or(0),
            number: number.unwrap_or(0),
            amount: amount.unwrap_or(0),
            desk: desk.unwrap_or(0),
        };
        let Some(wide) = fit.iter().position(|fits| !fits) else { return Ok(request) };
        let broken = request.check().err();
        let before = IN_ORDER[..wide].iter().find(|&&part| broken == Some(part));
        Err(*before.unwrap_or(&IN_ORDER[wide]))
    }
}

impl From<Request> for Parts {
    fn from(Request { kind, side, number, amount, desk }: Request) -> Parts {
        Parts {
            desk: desk.into(),
            kind: kind.into(),
            side: side.into(),
            number: number.into(),
            amount: amount.into(),
        }
    }
}

/// Four legs in 64ths of a mile, if each of them is allowed.
pub(crate) fn legs(legs_64ths: [usize; 4]) -> Option<[u16; 4]> {
    let allowed = |leg: usize| u16::try_from(leg).ok().filter(|&leg| leg_allowed(leg));
    let [base, intermediate, last, missed] = legs_64ths.map(allowed);
    Some([base?, intermediate?, last?, missed?])
}
