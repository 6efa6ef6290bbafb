//! What comes of a call.

use std::fmt;

/// What came of a call. The number is that of the state after it.
#[derive(Clone, Copy, Debug, PartialEq, Eq)]
pub enum Answer {
    /// Nothing has changed, and nothing is written.
    Refused { refusal: Refusal, number: u64 },
    /// A server or a client begins.
    Started { number: u64 },
    /// A KVPUB set or removed its row.
    Applied { number: u64 },
    /// A KVPUB is not newer than the client, and changed nothing.
    Stale { number: u64 },
    /// A KVPUB outside the subtree: its number is taken.
    Outside { number: u64 },
    /// A KVSYNC set its row.
    Synced { number: u64 },
    /// KTHXBAI: the snapshot is complete.
    Live { number: u64 },
    /// HUGZ: the silence clock restarts.
    Heard { number: u64 },
    /// The output has a message, or several, of so many bytes.
    Wrote { number: u64, written: usize },
    /// Tick had nothing to do.
    Nothing { number: u64 },
    /// The output has the value, of so many bytes.
    Found { number: u64, written: usize },
    /// The client has no such key.
    Absent { number: u64 },
    /// At most 5000 ms since the last HUGZ, or since the start.
    Present { number: u64 },
    /// More than 5000 ms since then.
    Gone { number: u64 },
}

/// Why a call was refused. The first check that applies decides; the header has their order for each call.
#[derive(Clone, Copy, Debug, PartialEq, Eq)]
#[repr(u64)]
pub enum Refusal {
    Framing = 1,
    FrameCount = 2,
    Word = 3,
    BadKey = 4,
    BadSubtree = 5,
    BadSequence = 6,
    BadUuid = 7,
    BadProperties = 8,
    BadValue = 9,
    BadTick = 10,
    Full = 11,
    Exhausted = 12,
    Phase = 13,
    ShortOutput = 14,
    BadIdentity = 15,
    IllFormed = 16,
}

const REFUSALS: [(Refusal, &str); 16] = [
    (Refusal::Framing, "the framing is broken"),
    (Refusal::FrameCount, "wrong number of frames"),
    (Refusal::Word, "not an ICANHAZ? request"),
    (Refusal::BadKey, "malformed key"),
    (Refusal::BadSubtree, "malformed subtree, or not the client's"),
    (Refusal::BadSequence, "sequence is not 8 bytes, or out of range"),
    (Refusal::BadUuid, "UUID of a wrong length"),
    (Refusal::BadProperties, "malformed properties"),
    (Refusal::BadValue, "value too long, missing, or not allowed here"),
    (Refusal::BadTick, "tick out of range, or before the last one"),
    (Refusal::Full, "the table is full"),
    (Refusal::Exhausted, "no number is left for another update"),
    (Refusal::Phase, "wrong phase: the client still waits, or is already live"),
    (Refusal::ShortOutput, "the output is too short for the answer"),
    (Refusal::BadIdentity, "identity of a wrong length"),
    (Refusal::IllFormed, "the state is ill-formed"),
];

impl Refusal {
    /// The refusal of a number from 1 to 16.
    pub fn of(number: u64) -> Option<Refusal> {
        let place = usize::try_from(number).ok()?.checked_sub(1)?;
        REFUSALS.get(place).map(|(refusal, _)| *refusal)
    }

    /// The cause in words.
    pub fn text(self) -> &'static str {
        REFUSALS[self as usize - 1].1
    }
}

impl fmt::Display for Refusal {
    fn fmt(&self, f: &mut fmt::Formatter) -> fmt::Result {
        f.write_str(self.text())
    }
}

impl Answer {
    /// The answer that the archive wrote: kind, refusal, number, bytes written.
    ///
    /// # Panics
    /// On numbers that no archive of this version writes.
    pub(crate) fn of(words: [u64; 4]) -> Answer {
        let [kind, refusal, number, written] = words;
        let written = written as usize;
        match (kind, Refusal::of(refusal)) {
            (0, Some(refusal)) => Answer::Refused { refusal, number },
            (1, None) => Answer::Started { number },
            (2, None) => Answer::Applied { number },
            (3, None) => Answer::Stale { number },
            (4, None) => Answer::Outside { number },
            (5, None) => Answer::Synced { number },
            (6, None) => Answer::Live { number },
            (7, None) => Answer::Heard { number },
            (8, None) => Answer::Wrote { number, written },
            (9, None) => Answer::Nothing { number },
            (10, None) => Answer::Found { number, written },
            (11, None) => Answer::Absent { number },
            (12, None) => Answer::Present { number },
            (13, None) => Answer::Gone { number },
            _ => panic!("libchp.a is not of version {}: it answers {words:?}", crate::VERSION),
        }
    }

    /// The name of the kind.
    pub fn text(&self) -> &'static str {
        match self {
            Answer::Refused { .. } => "refused",
            Answer::Started { .. } => "started",
            Answer::Applied { .. } => "applied",
            Answer::Stale { .. } => "stale",
            Answer::Outside { .. } => "outside",
            Answer::Synced { .. } => "synced",
            Answer::Live { .. } => "live",
            Answer::Heard { .. } => "heard",
            Answer::Wrote { .. } => "wrote",
            Answer::Nothing { .. } => "nothing",
            Answer::Found { .. } => "found",
            Answer::Absent { .. } => "absent",
            Answer::Present { .. } => "present",
            Answer::Gone { .. } => "gone",
        }
    }

    /// The number of the state after the call.
    pub fn number(&self) -> u64 {
        match *self {
            Answer::Refused { number, .. }
            | Answer::Started { number }
            | Answer::Applied { number }
            | Answer::Stale { number }
            | Answer::Outside { number }
            | Answer::Synced { number }
            | Answer::Live { number }
            | Answer::Heard { number }
            | Answer::Wrote { number, .. }
            | Answer::Nothing { number }
            | Answer::Found { number, .. }
            | Answer::Absent { number }
            | Answer::Present { number }
            | Answer::Gone { number } => number,
        }
    }

    /// Bytes written to the output.
    pub fn written(&self) -> usize {
        match *self {
            Answer::Wrote { written, .. } | Answer::Found { written, .. } => written,
            _ => 0,
        }
    }

    /// Why the call was refused, if it was.
    pub fn refusal(&self) -> Option<Refusal> {
        match *self {
            Answer::Refused { refusal, .. } => Some(refusal),
            _ => None,
        }
    }
}

impl fmt::Display for Answer {
    fn fmt(&self, f: &mut fmt::Formatter) -> fmt::Result {
        match self.refusal() {
            Some(refusal) => write!(f, "refused: {refusal}"),
            None => f.write_str(self.text()),
        }
    }
}
