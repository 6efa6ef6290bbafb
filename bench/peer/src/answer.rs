//! What a call answers: its kind, the number of a refusal, the state's number and the bytes written.

#[derive(Clone, Copy, PartialEq, Eq, Debug)]
#[repr(u64)]
pub enum Kind {
    Refused = 0,
    Started = 1,
    Applied = 2,
    Stale = 3,
    Outside = 4,
    Synced = 5,
    Live = 6,
    Heard = 7,
    Wrote = 8,
    Nothing = 9,
    Found = 10,
    Absent = 11,
    Present = 12,
    Gone = 13,
}

/// Why a call was refused. The checks are made in another order than that of the numbers:
/// 16, 1, 2, 15, 3, then 4 or 5, then 6, 7, 8, 9, 10, 13, 11, 12, 14.
#[derive(Clone, Copy, PartialEq, Eq, Debug)]
#[repr(u64)]
pub enum Refusal {
    Framing = 1,
    FrameCount = 2,
    Word = 3,
    Key = 4,
    Subtree = 5,
    Sequence = 6,
    Uuid = 7,
    Properties = 8,
    Value = 9,
    Tick = 10,
    Full = 11,
    Exhausted = 12,
    Phase = 13,
    Output = 14,
    Identity = 15,
    State = 16,
}

#[derive(Clone, Copy, PartialEq, Eq, Debug)]
pub struct Answer {
    pub kind: Kind,
    /// None where the call was accepted.
    pub refusal: Option<Refusal>,
    /// The number of the state after the call.
    pub number: u64,
    /// Bytes written to the lent output.
    pub written: usize,
}

impl Answer {
    pub fn accepted(kind: Kind, number: u64, written: usize) -> Answer {
        Answer { kind, refusal: None, number, written }
    }

    pub fn refused(refusal: Refusal, number: u64) -> Answer {
        Answer { kind: Kind::Refused, refusal: Some(refusal), number, written: 0 }
    }
}

/// The refusal as an error unless the rule holds.
pub fn require(holds: bool, refusal: Refusal) -> Result<(), Refusal> {
    if holds { Ok(()) } else { Err(refusal) }
}
