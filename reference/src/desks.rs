//! Two desks on one field (document 02, 2.10 and 2.13): numbers renamed, which a desk does not notice where they are the other's.

use crate::field::{Aircraft, Answer, Field};
use crate::history::History;
use crate::index::{Entry, Index, Indexed};
use crate::request::Request;

/// What is asked of a field with kept ones: a request, or a step back by a desk.
#[derive(Clone, Copy, Debug, PartialEq, Eq)]
pub enum Asked {
    Request(Request),
    Back(u8),
}

impl Asked {
    pub fn desk(self) -> u8 {
        match self {
            Asked::Request(request) => request.desk,
            Asked::Back(desk) => desk,
        }
    }

    /// The number that is named; none by a step back.
    pub fn names(self) -> Option<u16> {
        match self {
            Asked::Request(request) => Some(request.number),
            Asked::Back(_) => None,
        }
    }
}

/// The number of a refusal, or 0, and what is answered.
pub type Reply = (u8, Answer);

/// Plays one request on a field with its index.
pub fn reply(field: &mut Indexed, request: &Request) -> Reply {
    match field.step(request) {
        Ok(answer) => (0, answer),
        Err(refusal) => (refusal.number(), Answer::ZEROS),
    }
}

/// Plays a request or takes one back, with kept fields.
pub fn reply_kept(history: &mut History, asked: Asked) -> Reply {
    let (answer, refusal) = match asked {
        Asked::Request(request) => match history.step(&request) {
            Ok(answer) => (answer, 0),
            Err(refusal) => (Answer::ZEROS, refusal.number()),
        },
        Asked::Back(desk) => match history.step_back(desk) {
            Ok(answer) => (answer, 0),
            Err(refusal) => (Answer::ZEROS, refusal.number()),
        },
    };
    (refusal, answer)
}

/// Numbers renamed for a desk that is not to notice it: each first number is renamed to its second, all others stay. What is renamed is
/// the other desk's.
#[derive(Clone, Debug, PartialEq, Eq)]
pub struct Renaming {
    pub desk: u8,
    pub pairs: Vec<(u16, u16)>,
}

/// What must hold of a renaming that a desk does not notice.
#[derive(Clone, Copy, Debug, PartialEq, Eq)]
pub enum Condition {
    /// No two numbers are renamed to the same.
    OneForOne,
    /// 0 stays 0.
    Zero,
    /// Each number that the desk's requests name stays, in refused ones too.
    Named,
    /// Each number that the desk's aircraft carry on the field stays.
    Carried,
    /// Each number that its aircraft carry on a counted kept field stays.
    KeptCarried,
}

impl Renaming {
    pub fn of(&self, number: u16) -> u16 {
        self.pairs.iter().find(|&&(from, _)| from == number).map_or(number, |&(_, to)| to)
    }

    fn stays(&self, number: u16) -> bool {
        self.of(number) == number
    }

    /// On finitely many numbers: those that are renamed are those that others are renamed to.
    fn is_one_for_one(&self) -> bool {
        let (mut from, mut to): (Vec<u16>, Vec<u16>) = self.pairs.iter().copied().unzip();
        from.sort_unstable();
        to.sort_unstable();
        from.windows(2).all(|pair| pair[0] != pair[1]) && from == to
    }

    fn is_own(&self, aircraft: &Aircraft) -> bool {
        aircraft.desk == self.desk
    }

    fn carried_stay(&self, field: &Field) -> bool {
        field.everyone().all(|(_, aircraft)| !self.is_own(aircraft) || self.stays(aircraft.number))
    }

    /// The conditions that do not hold from a field with kept ones, for a list.
    pub fn broken(&self, start: &History, list: &[Asked]) -> Vec<Condition> {
        let mut own = list.iter().filter(|asked| asked.desk() == self.desk).filter_map(|asked| asked.names());
        let mut kept = start.counted().unwrap_or_default().iter();
        [
            (Condition::OneForOne, self.is_one_for_one()),
            (Condition::Zero, self.stays(0)),
            (Condition::Named, own.all(|number| self.stays(number))),
            (Condition::Carried, self.carried_stay(&start.field.field)),
            (Condition::KeptCarried, kept.all(|kept| self.carried_stay(&kept.field))),
        ]
        .into_iter()
        .filter_map(|(condition, holds)| (!holds).then_some(condition))
        .collect()
    }

    /// The request, renamed if it is the other desk's.
    pub fn request(&self, request: Request) -> Request {
        match request.desk == self.desk {
            true => request,
            false => Request { number: self.of(request.number), ..request },
        }
    }

    pub fn asked(&self, asked: Asked) -> Asked {
        match asked {
            Asked::Request(request) => Asked::Request(self.request(request)),
            Asked::Back(_) => asked,
        }
    }

    /// A number that a field names: renamed, unless the desk's own aircraft has it there.
    fn on(&self, field: &Field, number: u16) -> u16 {
        match field.find(number) {
            Some((_, aircraft)) if self.is_own(aircraft) => number,
            _ => self.of(number),
        }
    }

    /// The other desk's aircraft renamed, and the sequence with them.
    pub fn field(&self, field: &Field) -> Field {
        let mut renamed = field.clone();
        renamed
            .zones
            .iter_mut()
            .flatten()
            .filter(|aircraft| !self.is_own(aircraft))
            .for_each(|aircraft| aircraft.number = self.of(aircraft.number));
        renamed.sequence.iter_mut().for_each(|number| *number = self.on(field, *number));
        renamed
    }

    /// The index renamed as it stands, each number in its place; unused places stay.
    pub fn index_as_it_stands(&self, indexed: &Indexed) -> Index {
        Index(indexed.index.0.map(|entry| match entry.number {
            0 => entry,
            number => Entry { number: self.on(&indexed.field, number), ..entry },
        }))
    }

    /// The field renamed and its index, put in order again.
    pub fn indexed(&self, indexed: &Indexed) -> Indexed {
        let mut index = self.index_as_it_stands(indexed);
        index.0.sort_by_key(|entry| (entry.number == 0, entry.number));
        Indexed { field: self.field(&indexed.field), index }
    }

    /// The field and the counted kept ones; a place past the count stays.
    pub fn history(&self, history: &History) -> History {
        let mut renamed = History { field: self.indexed(&history.field), ..history.clone() };
        renamed.kept.iter_mut().take(history.count).for_each(|kept| *kept = self.indexed(kept));
        renamed
    }

    /// What the renamed request is answered: the desk's own answers stay, the other's are renamed.
    pub fn answer(&self, desk: u8, answer: Answer) -> Answer {
        match desk == self.desk {
            true => answer,
            false => Answer {
                aircraft: self.of(answer.aircraft),
                leader: self.of(answer.leader),
                along: self.of(answer.along),
                ..answer
            },
        }
    }
}
