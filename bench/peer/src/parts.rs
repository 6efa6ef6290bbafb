//! A message built from the parts that a socket delivers, and the walk over the frames of messages.

use crate::frames::{frame_at, frame_length, message_length, put_frame};
use crate::messages::ICANHAZ;
use crate::{KEY_ROOM, PROPERTIES_ROOM, VALUE_ROOM};

/// Bytes of the longest message that the entry for KVSET accepts, as it is built here.
pub const KVSET_ROOM: usize = frame_length(KEY_ROOM)
    + frame_length(8)
    + frame_length(16)
    + frame_length(PROPERTIES_ROOM)
    + frame_length(VALUE_ROOM);
/// The same for ICANHAZ, with an identity of 255 bytes in front.
pub const ICANHAZ_ROOM: usize = frame_length(255) + frame_length(ICANHAZ.len()) + frame_length(KEY_ROOM);
/// The same for the snapshot entry: a KVSYNC, since KTHXBAI is shorter.
pub const SNAPSHOT_ROOM: usize =
    frame_length(KEY_ROOM) + frame_length(8) + 2 * frame_length(0) + frame_length(VALUE_ROOM);
/// The same for the subscriber entry: a KVPUB has the frames of a KVSET.
pub const SUBSCRIBER_ROOM: usize = KVSET_ROOM;

/// The stage of a message that waits for another part.
pub const OPEN: u64 = 0;
/// The stage of a message whose last part has come.
pub const WHOLE: u64 = 1;
/// The stage of a message that can no longer become whole. Greater numbers mean the same.
pub const VOID: u64 = 2;

/// How far a message is built: its bytes so far, and its stage. A host may hand in any two numbers.
#[derive(Clone, Copy, PartialEq, Eq, Debug)]
pub struct Built {
    pub length: u64,
    pub stage: u64,
}

impl Built {
    pub const NOTHING: Built = Built { length: 0, stage: OPEN };
    const LOST: Built = Built { length: 0, stage: VOID };
}

/// A part of this length, as a socket tells it; none where the length is negative.
pub fn received(bytes: &[u8], length: i64) -> Option<&[u8]> {
    bytes.get(..usize::try_from(length).ok()?)
}

/// Adds a part to the message in the buffer and gives the message after it. Without a part, which was
/// then not received, and with a part that does not fit or comes too late, the message is void.
pub fn add(buffer: &mut [u8], built: Built, part: Option<&[u8]>, more: bool) -> Built {
    try_add(buffer, built, part, more).unwrap_or(Built::LOST)
}

fn try_add(buffer: &mut [u8], built: Built, part: Option<&[u8]>, more: bool) -> Option<Built> {
    if built.stage != OPEN {
        return None;
    }
    let at = usize::try_from(built.length).ok()?;
    let end = put_frame(buffer, at, more, part?);
    // A frame takes two bytes at least, so one was written if the place has moved.
    (end > at).then_some(Built { length: end as u64, stage: if more { OPEN } else { WHOLE } })
}

/// A frame as a walk gives it: where its body starts, how long it is, and 1 where another frame of the
/// message follows. A host may hand in any three numbers; a walk begins with three zeros.
#[derive(Clone, Copy, PartialEq, Eq, Debug, Default)]
pub struct Step {
    pub start: u64,
    pub length: u64,
    pub more: u64,
}

/// The frame after the last one in bytes that hold messages one after another. Between two messages
/// the next one must be whole.
pub fn next_frame(bytes: &[u8], last: Step) -> Option<Step> {
    let at = usize::try_from(last.start.checked_add(last.length)?).ok()?;
    if last.more == 0 {
        message_length(bytes.get(at..)?)?;
    }
    let frame = frame_at(bytes, at)?;
    Some(Step { start: frame.start as u64, length: frame.length as u64, more: u64::from(frame.more) })
}
