//! The bounds a to g of a field (document 01, "The bounds").

use super::*;

/// The bounds.
impl Field {
    /// The first bound that this field breaks.
    pub fn broken_bound(&self) -> Option<Bound> {
        let held = [
            (Bound::A, self.bound_a()),
            (Bound::B, self.bound_b()),
            (Bound::C, self.bound_c()),
            (Bound::D, self.bound_d()),
            (Bound::E, self.bound_e()),
            (Bound::F, self.bound_f()),
            (Bound::G, self.bound_g()),
        ];
        held.into_iter().find(|(_, holds)| !holds).map(|(bound, _)| bound)
    }

    pub fn within_bounds(&self) -> bool {
        self.broken_bound().is_none()
    }

    fn bound_a(&self) -> bool {
        self.in_operation().count() <= 4 && self.zone(Runway).len() <= 1
    }

    fn bound_b(&self) -> bool {
        Side::BOTH
            .into_iter()
            .all(|side| self.in_operation().filter(|(zone, _)| zone.area() == Some(side)).count() <= 2)
    }

    fn bound_c(&self) -> bool {
        Side::BOTH.into_iter().all(|side| {
            let single = [Holding3(side), Holding2(side), Lateral(side)];
            let beside_lateral = [Holding3(side), Holding2(side), Missed(side)];
            single.into_iter().all(|zone| self.zone(zone).len() <= 1)
                && (self.is_empty(Lateral(side))
                    || beside_lateral.into_iter().all(|zone| self.is_empty(zone)))
        })
    }

    fn bound_d(&self) -> bool {
        Side::BOTH
            .into_iter()
            .all(|side| self.in_operation().filter(|(_, aircraft)| aircraft.fix == side).count() <= 2)
    }

    fn bound_e(&self) -> bool {
        let lengths_fit =
            self.sequence.len() <= PLACES && self.zones.iter().all(|queue| queue.len() <= PLACES);
        let numbers_differ = self.everyone().enumerate().all(|(place, (_, aircraft))| {
            let number = aircraft.number;
            number != 0 && self.everyone().take(place).all(|(_, earlier)| earlier.number != number)
        });
        let times_listed = |number| self.sequence.iter().filter(|&&listed| listed == number).count();
        let sequence_names_operation = self.sequence.len() == self.in_operation().count()
            && self.in_operation().all(|(_, aircraft)| times_listed(aircraft.number) == 1);
        let final_leads = self.zone(Final).front().is_none_or(|head| self.is_first(head.number));
        lengths_fit && numbers_differ && sequence_names_operation && final_leads
    }

    fn bound_f(&self) -> bool {
        let fix = |&number| self.find(number).map(|(_, aircraft)| aircraft.fix);
        let mut neighbours = self.sequence.iter().zip(self.sequence.iter().skip(1));
        let alternate = neighbours.all(|(ahead, behind)| fix(ahead) != fix(behind));
        alternate && self.sequence.back().is_none_or(|last| fix(last) == Some(self.next_fix.opposite()))
    }

    fn bound_g(&self) -> bool {
        let Legs { base, intermediate, final_, missed } = self.legs;
        let legs_allowed =
            [base, intermediate, final_, missed].into_iter().all(|leg| (1.0 / 64.0..=64.0).contains(&leg));
        legs_allowed
            && self.everyone().all(|(zone, aircraft)| {
                let waited_fits = (0.0..=MOST_WAITED).contains(&aircraft.waited);
                (1..=FASTEST).contains(&aircraft.speed)
                    && self.leg_fits(zone, aircraft)
                    && waited_fits
                    && DESKS.contains(&aircraft.desk)
            })
    }

    /// Bound g of an aircraft's own leg, and of its miles against that.
    fn leg_fits(&self, zone: Zone, aircraft: &Aircraft) -> bool {
        let leg = aircraft.leg;
        match (aircraft.progress, self.legs.of(zone)) {
            (Progress::Waiting, None) => leg == 0.0,
            (Progress::Flying(miles), Some(of_field)) => {
                let leg_allowed = match zone {
                    Missed(_) => (1.0 / 64.0..=LONGEST_MISSED).contains(&leg),
                    _ => leg == of_field,
                };
                leg_allowed && (0.0..=leg).contains(&miles)
            }
            _ => false,
        }
    }
}
