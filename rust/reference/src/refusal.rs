//! The numbers that the box gives back.

/// Why a call was refused; the discriminant is the number of the paper's table.
#[derive(Clone, Copy, Debug, PartialEq, Eq)]
#[repr(u8)]
pub enum Refusal {
    NotAllThere = 1,
    ValueTooLong = 2,
    BadAddress = 3,
    BadRange = 4,
    RangesOutOfOrder = 5,
    BadRequestId = 6,
    ListTooLong = 7,
    BrokenState = 9,
    BadForm = 10,
    HopCountSpent = 11,
    NotGranted = 12,
    UnknownContext = 13,
    DatagramCut = 14,
    PacketTooLong = 15,
    NoRoom = 16,
    PlanMark = 20,
    PlanVersion = 21,
    PlanCut = 22,
    PlanRule = 23,
    PlanNumber = 24,
    PlanContext = 25,
}

impl Refusal {
    pub fn number(self) -> u8 {
        self as u8
    }
}
