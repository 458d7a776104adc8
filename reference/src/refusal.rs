//! The numbers by which a binder, a file or a request is turned away, what is to be written as a file, a field or a list of the
//! classroom dialect, and a step back.

/// A binder whose count, size or placing is not as said.
#[derive(Clone, Copy, Debug, PartialEq, Eq)]
pub struct BinderRefusal;

impl BinderRefusal {
    pub fn number(self) -> u8 {
        30
    }
}

/// Why a practice file is not played.
#[derive(Clone, Copy, Debug, PartialEq, Eq)]
pub enum FileRefusal {
    SizeOrLetters,
    Contents,
    Leg,
}

impl FileRefusal {
    pub fn number(self) -> u8 {
        match self {
            FileRefusal::SizeOrLetters => 5,
            FileRefusal::Contents => 6,
            FileRefusal::Leg => 7,
        }
    }
}

/// Why legs and requests are not written as a practice file.
#[derive(Clone, Copy, Debug, PartialEq, Eq)]
pub enum WriteRefusal {
    Leg,
    Count,
    Request(Refusal),
    Buffer,
}

impl WriteRefusal {
    pub fn number(self) -> u8 {
        match self {
            WriteRefusal::Leg => 7,
            WriteRefusal::Count => 5,
            WriteRefusal::Request(refusal) => refusal.number(),
            WriteRefusal::Buffer => 28,
        }
    }
}

/// Why a field has no list of the classroom dialect, or a list has no field.
#[derive(Clone, Copy, Debug, PartialEq, Eq)]
pub enum ClassroomRefusal {
    FieldBreaksBound,
    Leg,
    Speed,
    /// The dialect has no such list, or none that is converted.
    List,
    BuiltBreaksBound,
}

impl ClassroomRefusal {
    pub fn number(self) -> u8 {
        match self {
            ClassroomRefusal::FieldBreaksBound => 10,
            ClassroomRefusal::Leg => 7,
            ClassroomRefusal::Speed => 4,
            ClassroomRefusal::List => 29,
            ClassroomRefusal::BuiltBreaksBound => 25,
        }
    }
}

/// Why a step back is not taken.
#[derive(Clone, Copy, Debug, PartialEq, Eq)]
pub enum BackRefusal {
    Desk,
    FieldBreaksBound,
    NoneKept,
}

impl BackRefusal {
    pub fn number(self) -> u8 {
        match self {
            BackRefusal::Desk => 31,
            BackRefusal::FieldBreaksBound => 10,
            BackRefusal::NoneKept => 27,
        }
    }
}

/// Why a request is not accepted.
#[derive(Clone, Copy, Debug, PartialEq, Eq)]
pub enum Refusal {
    Desk,
    Kind,
    Side,
    Number,
    Amount,
    FieldBreaksBound,
    AlreadyPresent,
    NotOnField,
    OtherDesk,
    WrongZone,
    NotAtHead,
    LegNotFlownOut,
    Potential,
    ApproachHoldsFix,
    MissedOccupied,
    LateralOccupied,
    Holding3Occupied,
    Holding2Occupied,
    SequenceOrLeader,
    OppositeBase,
    RunwayOccupied,
    StepBreaksBound,
}

impl Refusal {
    pub fn number(self) -> u8 {
        match self {
            Refusal::Desk => 31,
            Refusal::Kind => 1,
            Refusal::Side => 2,
            Refusal::Number => 3,
            Refusal::Amount => 4,
            Refusal::FieldBreaksBound => 10,
            Refusal::AlreadyPresent => 11,
            Refusal::NotOnField => 12,
            Refusal::OtherDesk => 26,
            Refusal::WrongZone => 13,
            Refusal::NotAtHead => 14,
            Refusal::LegNotFlownOut => 15,
            Refusal::Potential => 16,
            Refusal::ApproachHoldsFix => 17,
            Refusal::MissedOccupied => 18,
            Refusal::LateralOccupied => 19,
            Refusal::Holding3Occupied => 20,
            Refusal::Holding2Occupied => 21,
            Refusal::SequenceOrLeader => 22,
            Refusal::OppositeBase => 23,
            Refusal::RunwayOccupied => 24,
            Refusal::StepBreaksBound => 25,
        }
    }
}
