//! Fields and lists of two desks for the tests.

use super::Dice;
use reference::desks::{reply, Reply};
use reference::explore::{each_within_bounds, requests};
use reference::{Asked, Field, Indexed, Legs, Renaming, Request};

/// A request by kind, side, number and amount, and its desk.
pub type By = (u8, u8, u8, u16, u16);

/// The desk stands first.
pub fn request((desk, kind, side, number, amount): By) -> Request {
    Request::new(kind, side, number, amount).by(desk)
}

/// A reply as the six numbers of a report line.
pub fn six((number, answer): Reply) -> [u16; 6] {
    let a = answer;
    [number.into(), a.aircraft, a.zone.into(), a.fix.into(), a.leader, a.along]
}

pub fn started() -> Indexed {
    Indexed::empty(Legs::from_64ths([64; 4]))
}

/// Plays requests that must all be accepted.
pub fn accepted(field: &mut Indexed, list: &[By]) {
    for &by in list {
        assert_eq!(reply(field, &request(by)).0, 0, "{by:?}");
    }
}

/// Plays and yields the lines.
pub fn lines(field: &mut Indexed, list: &[By]) -> Vec<[u16; 6]> {
    list.iter().map(|&by| six(reply(field, &request(by)))).collect()
}

/// As every eighth, one that breaks the input rules in some way.
const DAMAGED: [By; 10] = [
    (0, 12, 0, 0, 64),
    (3, 1, 1, 5, 64),
    (255, 0, 9, 0, 0),
    (1, 0, 0, 4, 0),
    (2, 13, 0, 6, 0),
    (1, 1, 3, 5, 64),
    (2, 4, 1, 2, 0),
    (1, 7, 0, 0, 0),
    (2, 12, 0, 3, 64),
    (2, 2, 2, 8, 513),
];

/// Numbers that are drawn most often, so that both desks name the same.
const FEW: u16 = 9;

impl Dice {
    pub fn desk(&mut self) -> u8 {
        self.pick(&[1, 2])
    }

    fn number(&mut self) -> u16 {
        let any = 1 + self.below(65_535) as u16;
        let few = 1 + self.below(FEW.into()) as u16;
        self.pick(&[few, few, few, any])
    }

    /// A request by either desk: accepted ones, the other desk's aircraft, strangers, and what breaks an input rule.
    pub fn request_of_two(&mut self, field: &Field) -> Request {
        let desk = self.desk();
        match self.below(32) {
            0..4 => request(self.pick(&DAMAGED)),
            4..9 => Request::new(12, 0, 0, self.pick(&[1, 20, 64, 64])).by(desk),
            9..12 => Request::new(3 + self.below(9) as u8, 0, self.number(), 0).by(desk),
            12..18 => {
                let side = self.pick(&[1, 2]);
                Request::new(self.pick(&[1, 1, 2]), side, self.number(), self.pick(&[64, 512])).by(desk)
            }
            chosen => {
                let all = requests(field);
                let moves: Vec<_> = all.into_iter().filter(|request| request.kind > 2).collect();
                let open: Vec<_> = moves.iter().copied().filter(|request| field.accepts(request)).collect();
                match (open.is_empty(), moves.is_empty()) {
                    (false, _) if chosen < 28 => self.pick(&open),
                    (_, false) => self.pick(&moves).by(desk),
                    _ => Request::new(1, self.pick(&[1, 2]), self.number(), 64).by(desk),
                }
            }
        }
    }

    /// A list of requests that goes on from a field.
    pub fn list_of_two(&mut self, start: &Indexed, length: usize) -> Vec<Request> {
        let mut field = start.clone();
        let mut list = Vec::new();
        for _ in 0..length {
            let request = self.request_of_two(&field.field);
            reply(&mut field, &request);
            list.push(request);
        }
        list
    }

    /// The same field with other numbers and with desks.
    pub fn shared(&mut self, field: &Field) -> Indexed {
        let mut numbers: Vec<u16> = Vec::new();
        while numbers.len() < 5 {
            let number = self.number();
            if !numbers.contains(&number) {
                numbers.push(number);
            }
        }
        let mut field = field.clone();
        for aircraft in field.zones.iter_mut().flatten() {
            aircraft.number = numbers[usize::from(aircraft.number) - 1];
            aircraft.desk = self.desk();
        }
        field.sequence.iter_mut().for_each(|number| *number = numbers[usize::from(*number) - 1]);
        Indexed::new(field)
    }

    /// A renaming that this desk does not notice, of many numbers that are not its own: first those drawn most often, and those
    /// of the list, then any.
    pub fn renaming(&mut self, desk: u8, own: &[u16], list: &[Asked], fields: &[&Indexed]) -> Renaming {
        let named = list.iter().filter_map(|asked| asked.names());
        let present = fields.iter().flat_map(|field| field.field.everyone()).map(|(_, a)| a.number);
        let mut moved: Vec<u16> = (1..=FEW + 4).chain(named).chain(present).collect();
        (0..8).for_each(|_| moved.push(1 + self.below(65_535) as u16));
        moved.sort_unstable();
        moved.dedup();
        moved.retain(|number| *number != 0 && !own.contains(number));
        let mut others = moved.clone();
        for place in (1..others.len()).rev() {
            others.swap(place, self.below(place + 1));
        }
        Renaming { desk, pairs: moved.into_iter().zip(others).collect() }
    }
}

/// The numbers that a desk names in a list, and those that its aircraft carry on fields.
pub fn own_numbers(desk: u8, list: &[Asked], fields: &[&Indexed]) -> Vec<u16> {
    let named = list.iter().filter(|asked| asked.desk() == desk).filter_map(|asked| asked.names());
    let everyone = fields.iter().flat_map(|field| field.field.everyone());
    let carried = everyone.filter(|(_, a)| a.desk == desk).map(|(_, a)| a.number);
    named.chain(carried).collect()
}

/// One in so many of the fields within the bounds, reached or not, numbered from 1 and all of desk 1.
pub fn within_bounds(dice: &mut Dice, one_in: usize) -> Vec<Field> {
    let mut some = Vec::new();
    each_within_bounds(|field| {
        if dice.below(one_in) == 0 {
            some.push(field.clone());
        }
    });
    some
}
