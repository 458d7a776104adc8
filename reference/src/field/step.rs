//! The step: what each of the twelve kinds of request needs and does.

use super::*;

/// One step.
impl Field {
    /// Plays one request. A refusal leaves the field as it was.
    pub fn step(&mut self, request: &Request) -> Result<Answer, Refusal> {
        let call = request.check()?;
        if !self.within_bounds() {
            return Err(Refusal::FieldBreaksBound);
        }
        let (after, answer) = self.judged_after(call, request.desk)?;
        *self = after;
        Ok(answer)
    }

    /// Whether a field within the bounds accepts a request.
    pub fn accepts(&self, request: &Request) -> bool {
        request.check().and_then(|call| self.judged_after(call, request.desk)).is_ok()
    }

    /// The field after a call, if that is within the bounds, and the answer; whether this one is, is the caller's.
    fn judged_after(&self, call: Call, desk: u8) -> Result<(Field, Answer), Refusal> {
        let (after, answer) = self.played(call, desk)?;
        if !after.within_bounds() {
            return Err(Refusal::StepBreaksBound);
        }
        Ok((after, answer))
    }

    /// The same, of a field that keeps the bounds and whose step keeps them: they are not checked.
    pub fn step_unjudged(&mut self, request: &Request) -> Result<Answer, Refusal> {
        let (after, answer) = self.played(request.check()?, request.desk)?;
        *self = after;
        Ok(answer)
    }

    /// The field after a desk's call, and the answer; the bounds are the caller's.
    fn played(&self, call: Call, desk: u8) -> Result<(Field, Answer), Refusal> {
        if let Some(number) = call.moves() {
            self.check_owner(number, desk)?;
        }
        let (after, answer) = self.unhidden(call)?;
        let answer = after.shown_to(desk, answer);
        Ok((after, answer))
    }

    /// The same for a call by the aircraft's own desk, with everybody's leader and along in the answer.
    fn unhidden(&self, call: Call) -> Result<(Field, Answer), Refusal> {
        match call {
            Call::VerticalEntry(newcomer) => self.vertical_entry(newcomer),
            Call::LateralEntry(newcomer) => self.lateral_entry(newcomer),
            Call::Descend(number) => self.descend(number),
            Call::Approach(number) => self.approach(number),
            Call::Merge(number) => self.merge(number),
            Call::Final(number) => self.to_final(number),
            Call::Land(number) => self.land(number),
            Call::Taxi(number) => self.taxi(number),
            Call::Exit(number) => self.exit(number),
            Call::Miss(number) => self.miss(number),
            Call::Hold(number) => self.hold(number),
            Call::Tick(amount) => Ok((self.ticked(amount), Answer::ZEROS)),
        }
    }

    /// Where 3000 is taken and 2000 is not, the one at 3000 descends and makes room, in the same step.
    fn vertical_entry(&self, newcomer: Newcomer) -> Result<(Field, Answer), Refusal> {
        let side = newcomer.side;
        self.check_absent(newcomer.number)?;
        if self.potential(side) >= 2 {
            return Err(Refusal::Potential);
        }
        if self.approach_holds(side) {
            return Err(Refusal::ApproachHoldsFix);
        }
        if !self.is_empty(Missed(side)) {
            return Err(Refusal::MissedOccupied);
        }
        if !self.is_empty(Lateral(side)) {
            return Err(Refusal::LateralOccupied);
        }
        if self.is_empty(Holding3(side)) {
            return Ok(self.entered(Holding3(side), newcomer));
        }
        if !self.is_empty(Holding2(side)) {
            return Err(Refusal::Holding3Occupied);
        }
        let mut below = self.clone();
        let along = below.transfer(Holding3(side), Holding2(side));
        let (after, answer) = below.entered(Holding3(side), newcomer);
        Ok((after, Answer { along, ..answer }))
    }

    fn lateral_entry(&self, newcomer: Newcomer) -> Result<(Field, Answer), Refusal> {
        self.check_absent(newcomer.number)?;
        if self.potential(newcomer.side) != 0 {
            return Err(Refusal::Potential);
        }
        Ok(self.entered(Lateral(newcomer.side), newcomer))
    }

    fn descend(&self, number: u16) -> Result<(Field, Answer), Refusal> {
        let (from, side) = self.at_head(number, |zone| match zone {
            Holding3(side) => Some(side),
            _ => None,
        })?;
        if !self.is_empty(Holding2(side)) {
            return Err(Refusal::Holding2Occupied);
        }
        Ok(self.moved(number, from, Holding2(side)))
    }

    fn approach(&self, number: u16) -> Result<(Field, Answer), Refusal> {
        let (from, side) = self.at_head(number, |zone| match zone {
            Holding2(side) | Lateral(side) => Some(side),
            _ => None,
        })?;
        let needs = if !self.is_first_or_follows(number, Zone::is_approach) {
            Err(Refusal::SequenceOrLeader)
        } else if self.zone(Base(side.opposite())).len() > 1 {
            Err(Refusal::OppositeBase)
        } else {
            Ok(())
        };
        match (needs, from) {
            (Ok(()), _) => Ok(self.moved(number, from, Base(side))),
            (Err(_), Lateral(_)) => Ok(self.moved(number, from, Holding2(side))),
            (Err(refusal), _) => Err(refusal),
        }
    }

    fn merge(&self, number: u16) -> Result<(Field, Answer), Refusal> {
        let from = self.flown_out(number, |zone| matches!(zone, Base(_)))?;
        if !self.is_first_or_follows(number, |zone| matches!(zone, Intermediate | Final)) {
            return Err(Refusal::SequenceOrLeader);
        }
        Ok(self.moved(number, from, Intermediate))
    }

    fn to_final(&self, number: u16) -> Result<(Field, Answer), Refusal> {
        let from = self.flown_out(number, |zone| zone == Intermediate)?;
        Ok(self.moved(number, from, Final))
    }

    fn land(&self, number: u16) -> Result<(Field, Answer), Refusal> {
        let from = self.flown_out(number, |zone| zone == Final)?;
        if !self.is_empty(Runway) {
            return Err(Refusal::RunwayOccupied);
        }
        let mut after = self.clone();
        after.transfer(from, Runway);
        after.leave_sequence(number);
        let answer = after.answer(number);
        Ok((after, answer))
    }

    fn taxi(&self, number: u16) -> Result<(Field, Answer), Refusal> {
        self.at_head(number, |zone| (zone == Runway).then_some(()))?;
        let mut after = self.clone();
        after.zone_mut(Runway).pop_front();
        let answer = after.answer(number);
        Ok((after, answer))
    }

    fn exit(&self, number: u16) -> Result<(Field, Answer), Refusal> {
        let from = self.flown_out(number, |zone| zone == Intermediate)?;
        if !self.is_first(number) {
            return Err(Refusal::SequenceOrLeader);
        }
        let mut after = self.clone();
        after.zone_mut(from).pop_front();
        after.leave_sequence(number);
        let answer = after.answer(number);
        Ok((after, answer))
    }

    /// The leg ahead is the missed leg, and before it what is left of final.
    fn miss(&self, number: u16) -> Result<(Field, Answer), Refusal> {
        self.at_head(number, |zone| (zone == Final).then_some(()))?;
        let mut after = self.clone();
        if let Some(mut aircraft) = after.zone_mut(Final).pop_front() {
            let to = Missed(aircraft.fix);
            let leg = self.legs.missed + (aircraft.leg - aircraft.progress.miles());
            after.leave_sequence(number);
            if !after.sequence.is_empty() {
                aircraft.fix = after.next_fix;
            }
            after.next_fix = aircraft.fix.opposite();
            after.sequence.push_back(number);
            after.put(Aircraft { leg, progress: Progress::Flying(0.0), ..aircraft }, to);
        }
        let answer = after.answer(number);
        Ok((after, answer))
    }

    fn hold(&self, number: u16) -> Result<(Field, Answer), Refusal> {
        let (from, side) = self.at_head(number, |zone| match zone {
            Missed(side) => Some(side),
            _ => None,
        })?;
        self.check_flown_out(number)?;
        if !self.is_empty(Holding3(side)) {
            let mut after = self.clone();
            let along = after.transfer(Holding3(side), Holding2(side));
            after.transfer(from, Holding3(side));
            let answer = Answer { along, ..after.answer(number) };
            return Ok((after, answer));
        }
        let to = if self.is_empty(Holding2(side)) { Holding2(side) } else { Holding3(side) };
        Ok(self.moved(number, from, to))
    }

    /// Everyone flying advances and stops at the end of the own leg. What is past it is added to the miles waited.
    fn ticked(&self, amount: u16) -> Field {
        let mut after = self.clone();
        for aircraft in after.zones.iter_mut().flatten() {
            let leg = aircraft.leg;
            if let Progress::Flying(miles) = &mut aircraft.progress {
                let advance = (f64::from(aircraft.speed) / 64.0) * (f64::from(amount) / 64.0);
                let sum = *miles + advance;
                *miles = if sum < leg { sum } else { leg };
                let past = if sum > leg { sum - leg } else { 0.0 };
                let waited = aircraft.waited + past;
                aircraft.waited = if waited < MOST_WAITED { waited } else { MOST_WAITED };
            }
        }
        after
    }

    fn check_absent(&self, number: u16) -> Result<(), Refusal> {
        match self.find(number) {
            Some(_) => Err(Refusal::AlreadyPresent),
            None => Ok(()),
        }
    }

    /// Whether the aircraft is on the field, and then whether it is this desk's.
    fn check_owner(&self, number: u16, desk: u8) -> Result<(), Refusal> {
        let (_, aircraft) = self.find(number).ok_or(Refusal::NotOnField)?;
        match aircraft.desk == desk {
            true => Ok(()),
            false => Err(Refusal::OtherDesk),
        }
    }

    /// Where the aircraft is, if the kind starts there and it is at the head.
    fn at_head<T>(&self, number: u16, starts_from: impl Fn(Zone) -> Option<T>) -> Result<(Zone, T), Refusal> {
        let (zone, _) = self.find(number).ok_or(Refusal::NotOnField)?;
        let start = starts_from(zone).ok_or(Refusal::WrongZone)?;
        match self.zone(zone).front() {
            Some(head) if head.number == number => Ok((zone, start)),
            _ => Err(Refusal::NotAtHead),
        }
    }

    fn check_flown_out(&self, number: u16) -> Result<(), Refusal> {
        let (_, aircraft) = self.find(number).ok_or(Refusal::NotOnField)?;
        match aircraft.progress {
            Progress::Flying(miles) if miles == aircraft.leg => Ok(()),
            _ => Err(Refusal::LegNotFlownOut),
        }
    }

    /// As `at_head`, and its leg is flown out.
    fn flown_out(&self, number: u16, starts_from: impl Fn(Zone) -> bool) -> Result<Zone, Refusal> {
        let (zone, ()) = self.at_head(number, |zone| starts_from(zone).then_some(()))?;
        self.check_flown_out(number)?;
        Ok(zone)
    }

    fn entered(&self, to: Zone, newcomer: Newcomer) -> (Field, Answer) {
        let Newcomer { side, number, speed, desk } = newcomer;
        let mut after = self.clone();
        let fix = if after.sequence.is_empty() { side } else { after.next_fix };
        after.next_fix = fix.opposite();
        after.sequence.push_back(number);
        let progress = Progress::Waiting;
        after.put(Aircraft { number, fix, speed, progress, waited: 0.0, leg: 0.0, desk }, to);
        let answer = after.answer(number);
        (after, answer)
    }

    /// The head of one zone goes to another; nothing else changes.
    fn moved(&self, number: u16, from: Zone, to: Zone) -> (Field, Answer) {
        let mut after = self.clone();
        after.transfer(from, to);
        let answer = after.answer(number);
        (after, answer)
    }

    /// Takes the head of one zone to the end of another; says who it was.
    fn transfer(&mut self, from: Zone, to: Zone) -> u16 {
        match self.zone_mut(from).pop_front() {
            Some(aircraft) => {
                self.arrive(aircraft, to);
                aircraft.number
            }
            None => 0,
        }
    }

    /// To the end of a zone, at the start of the field's leg there, or waiting.
    fn arrive(&mut self, aircraft: Aircraft, to: Zone) {
        let (progress, leg) = match self.legs.of(to) {
            Some(leg) => (Progress::Flying(0.0), leg),
            None => (Progress::Waiting, 0.0),
        };
        self.put(Aircraft { progress, leg, ..aircraft }, to);
    }

    fn put(&mut self, aircraft: Aircraft, to: Zone) {
        self.zone_mut(to).push_back(aircraft);
    }

    fn leave_sequence(&mut self, number: u16) {
        self.sequence.retain(|&listed| listed != number);
    }

    /// Number, zone, fix and leader as they are now; zeros for one who is gone.
    fn answer(&self, number: u16) -> Answer {
        let (zone, fix) = match self.find(number) {
            Some((zone, aircraft)) => (zone.number(), aircraft.fix.number()),
            None => (0, 0),
        };
        Answer { aircraft: number, zone, fix, leader: self.leader(number).unwrap_or(0), along: 0 }
    }

    /// What a desk is told of an answer on this field: no leader and no along that is the other desk's.
    fn shown_to(&self, desk: u8, answer: Answer) -> Answer {
        let shown = |number| match self.find(number) {
            Some((_, aircraft)) if aircraft.desk == desk => number,
            _ => 0,
        };
        Answer { leader: shown(answer.leader), along: shown(answer.along), ..answer }
    }
}
