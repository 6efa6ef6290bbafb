//! Finds the inputs at an edge among the arguments of a call.

use crate::c::{self, Table};
use crate::compare::counts::{Counts, Topic};
use crate::form::Part;
use peer::frames::{frame_at, frame_length, message_length};
use peer::names::{is_key, is_subtree};
use peer::parts::{Built, OPEN, Step, VOID, WHOLE};
use peer::{KEY_ROOM, MAX_ROWS, TICK_MAX, VALUE_ROOM};

/// The bodies of a message's frames, as far as they are frames, and whether one has a long size
/// without need.
fn bodies(message: &[u8]) -> (Vec<&[u8]>, bool) {
    let mut bodies = Vec::new();
    let (mut at, mut long) = (0, false);
    while let Some(frame) = frame_at(message, at) {
        long |= frame.start - at == 9 && frame.length <= 255;
        at = frame.end();
        bodies.push(&message[frame.start..at]);
        if !frame.more {
            break;
        }
    }
    (bodies, long)
}

fn note(counts: &mut Counts, length: usize, names: &[(usize, &'static str)]) {
    if let Some((_, name)) = names.iter().find(|(edge, _)| *edge == length) {
        counts.input(name);
    }
}

/// A message for an entry that takes five frames.
pub fn note_five(counts: &mut Counts, message: &[u8]) {
    let (bodies, long) = bodies(message);
    if long {
        counts.input("long size for a short body");
    }
    if bodies.len() > 5 {
        counts.input("six or more frames");
    }
    if let [key, _, uuid, properties, value] = bodies[..] {
        note_fields(counts, [key, uuid, properties, value]);
    }
}

/// Key, UUID, properties and value.
pub fn note_fields(counts: &mut Counts, fields: [&[u8]; 4]) {
    let [key, uuid, properties, value] = fields;
    note(counts, key.len(), &[(96, "key of 96 bytes"), (97, "key of 97 bytes")]);
    let uuids = [(0, "UUID of 0 bytes"), (15, "UUID of 15 bytes"), (16, "UUID of 16 bytes"), (17, "UUID of 17 bytes")];
    note(counts, uuid.len(), &uuids);
    note(counts, properties.len(), &[(128, "properties of 128 bytes"), (129, "properties of 129 bytes")]);
    let values = [
        (0, "value of 0 bytes"),
        (1, "value of 1 byte"),
        (255, "value of 255 bytes"),
        (256, "value of 256 bytes"),
        (257, "value of 257 bytes"),
    ];
    note(counts, value.len(), &values);
    note_ttl(counts, properties);
}

fn note_ttl(counts: &mut Counts, properties: &[u8]) {
    let ttls = properties.split(|byte| *byte == b'\n').filter_map(|line| line.strip_prefix(b"ttl="));
    for digits in ttls.clone() {
        match digits {
            b"" => counts.input("ttl without digits"),
            b"0" => counts.input("ttl=0"),
            b"86400" => counts.input("ttl=86400"),
            b"86401" => counts.input("ttl=86401"),
            [_, _, _, _, _, _] => counts.input("ttl of six digits"),
            _ => {}
        }
    }
    if ttls.count() > 1 {
        counts.input("two ttl lines");
    }
}

/// A snapshot request.
pub fn note_request(counts: &mut Counts, message: &[u8]) {
    let (bodies, _) = bodies(message);
    if let [identity, _, _] = bodies[..] {
        let edges = [
            (0, "identity of 0 bytes"),
            (1, "identity of 1 byte"),
            (255, "identity of 255 bytes"),
            (256, "identity of 256 bytes"),
        ];
        note(counts, identity.len(), &edges);
    }
}

/// A tick, and the one that it may not be before.
pub fn note_tick(counts: &mut Counts, tick: u64, last: u64) {
    if tick < last {
        counts.input("tick going back");
    }
    match tick {
        0 => counts.input("tick 0"),
        TICK_MAX => counts.input("tick 2^62"),
        edge if edge == TICK_MAX + 1 => counts.input("tick 2^62 + 1"),
        _ => {}
    }
}

/// A state's number and rows.
pub fn note_state(counts: &mut Counts, number: u64, rows: u64) {
    if number == peer::NUMBER_MAX {
        counts.input("number 2^63 - 1");
    }
    if rows == MAX_ROWS as u64 {
        counts.input("64 rows");
    }
}

/// The longest answers.
pub fn note_written(counts: &mut Counts, written: u64) {
    let longest = [(521, "wrote 521 bytes"), (108, "wrote 108 bytes"), (40_953, "wrote 40953 bytes")];
    note(counts, written as usize, &longest);
}

/// A part that is added to a message.
pub fn note_part(counts: &mut Counts, room: usize, built: Built, part: &Part) {
    let any_numbers = counts.any_numbers;
    let mut met = |name| counts.met(Topic::Part, name);
    match room {
        0 => met("room of 0 bytes"),
        1 => met("room of 1 byte"),
        521 => met("room of 521 bytes"),
        365 => met("room of 365 bytes"),
        377 => met("room of 377 bytes"),
        _ => {}
    }
    match (part.length, built.stage) {
        (-1, _) if !any_numbers => met("part that was lost"),
        (-1, _) => met("part of length -1"),
        (i64::MIN, _) => met("part of length -2^63"),
        (_, OPEN) => {}
        (_, WHOLE) => met("part after the last one"),
        (_, VOID) => met("part added to a void message"),
        _ => met("stage above 2"),
    }
    if let Some(body) = part.body()
        && built.stage == OPEN
    {
        note_body(counts, room, built.length, body.len(), part.more);
    }
}

/// A part that was received, for a message that is open.
fn note_body(counts: &mut Counts, room: usize, built: u64, body: usize, more: i32) {
    let mut met = |name| counts.met(Topic::Part, name);
    let Some(left) = usize::try_from(built).ok().and_then(|built| room.checked_sub(built)) else {
        met("length above the room");
        if built > u64::MAX - 64 {
            met("length near 2^64");
        }
        return;
    };
    let needed = frame_length(body);
    let short = body <= 255;
    if needed == left {
        met(if short { "short part, fits exactly" } else { "long part, fits exactly" });
    } else if needed == left + 1 {
        met(if short { "short part, one byte too long" } else { "long part, one byte too long" });
    }
    if needed <= left {
        note_fitting(counts, body, more);
        return;
    }
    if body == room {
        met("part as long as the room");
    } else if body > room {
        met("part longer than the room");
    }
    if body >= 10_000 {
        met("part of 10,000 bytes or more, too long");
    }
    if body > 0xFF && frame_length(body & 0xFF) <= left {
        met("too long, but its last size octet fits");
    }
    if body > 0xFFFF && frame_length(body & 0xFFFF) <= left {
        met("too long, but its last two size octets fit");
    }
}

fn note_fitting(counts: &mut Counts, body: usize, more: i32) {
    let mut met = |name| counts.met(Topic::Part, name);
    match body {
        0 => met("part of 0 bytes, fits"),
        1 => met("part of 1 byte, fits"),
        254 => met("part of 254 bytes, fits"),
        255 => met("part of 255 bytes, fits"),
        256 => met("part of 256 bytes, fits"),
        257 => met("part of 257 bytes, fits"),
        65_536.. => met("part of 65,536 bytes or more, fits"),
        10_000.. => met("part of 10,000 bytes or more, fits"),
        _ => {}
    }
    if !matches!(more, 0 | 1) {
        met("more neither 0 nor 1, fits");
    }
}

/// One call of a walk: the frame before, and the one that there is after it.
pub fn note_step(counts: &mut Counts, bytes: &[u8], last: Step, next: Option<Step>) {
    let mut met = |name| counts.met(Topic::Walk, name);
    if last.more > 1 {
        met(if next.is_some() { "more above 1, frame" } else { "more above 1, none" });
    }
    let Some(at) = last.start.checked_add(last.length) else {
        return met("start + length of 2^64 or more");
    };
    let rest = match usize::try_from(at).ok().and_then(|at| bytes.get(at..)) {
        None => return met("past the end"),
        Some([]) => return met(if bytes.is_empty() { "no bytes" } else { "end of the bytes" }),
        Some(rest) => rest,
    };
    let frame = frame_at(rest, 0);
    match (last.more, frame) {
        (0, Some(_)) if next.is_none() => met("whole frame of a message that is not whole"),
        (0, Some(_)) => met(if at == 0 { "first frame" } else { "first frame of a later message" }),
        (0, None) => met("broken frame between messages"),
        (_, None) => met("broken frame inside a message"),
        (_, Some(_)) if message_length(rest).is_none() => met("frame inside a message that is not whole"),
        (_, Some(_)) => met("frame inside a message"),
    }
    if frame.is_some_and(|frame| frame.start == 9 && frame.length <= 255) && next.is_some() {
        met("frame with a long size for a short body");
    }
    if matches!(rest, [2 | 3, 0x80..=0xFF, ..]) && rest.len() >= 9 {
        met("size that nothing can hold");
    }
}

/// A whole walk, and the frames that it gave.
pub fn note_walk(counts: &mut Counts, bytes: &[u8], frames: &[c::Frame]) {
    let mut met = |name| counts.met(Topic::Walk, name);
    let end = frames.last().map_or(0, |frame| (frame.start + frame.length) as usize);
    if !bytes.is_empty() && frames.len() == bytes.len() / 2 {
        met("walk of one empty frame after another");
    }
    if frames.is_empty() {
        met("walk without a frame");
    } else if end == bytes.len() {
        met("walk to the end of the bytes");
    } else if frame_at(bytes, end).is_some() {
        met("walk to a message with a broken last frame");
    } else {
        met("walk to a broken tail");
    }
}

/// A row that is asked for.
pub fn note_row(counts: &mut Counts, table: &impl Table, i: usize, well_formed: bool) {
    let count = table.count() as usize;
    let mut met = |name| counts.met(Topic::Row, name);
    if i == count {
        met("row at the count");
    }
    if i == usize::MAX {
        met("row 2^64 - 1");
    }
    if i == MAX_ROWS && i < count {
        met("row 64 of more");
    }
    if i >= count.min(MAX_ROWS) {
        return;
    }
    let c::RowLengths { key, value } = table.lengths()[i];
    if key > KEY_ROOM as u64 {
        met("row with a key of more than 96 bytes");
    } else if value > VALUE_ROOM as u64 {
        met("row with a value of more than 256 bytes");
    } else if !well_formed {
        met("row of an ill-formed state");
    } else if i + 1 == count {
        met(if i == 63 { "row 63" } else { "the last row" });
    }
}

/// Bytes that may be a key.
pub fn note_key(counts: &mut Counts, bytes: &[u8]) {
    let mut met = |name| counts.met(Topic::Name, name);
    match bytes {
        [] => met("no bytes"),
        _ if bytes.len() == 96 && is_key(bytes) => met("key of 96 bytes"),
        [key @ .., last] if key.len() == 96 && is_key(key) && !b"/\0".contains(last) => met("no key, for its 97 bytes"),
        _ => {}
    }
}

/// Bytes that may be a subtree.
pub fn note_subtree(counts: &mut Counts, bytes: &[u8]) {
    let mut met = |name| counts.met(Topic::Name, name);
    match bytes {
        _ if bytes.len() == 96 && is_subtree(bytes) => met("subtree of 96 bytes"),
        [key @ .., b'/'] if key.len() == 96 && is_key(key) => met("no subtree, for its 97 bytes"),
        _ => {}
    }
}

pub fn note_under(counts: &mut Counts, subtree: &[u8], key: &[u8]) {
    let mut met = |name| counts.met(Topic::Name, name);
    if subtree.is_empty() {
        met("under the empty subtree");
    } else if subtree == key {
        met("under itself");
    } else if key.starts_with(subtree) && !is_subtree(subtree) {
        met("under what is no subtree");
    } else if subtree.len() > key.len() && subtree.starts_with(key) {
        met("not under what is longer");
    } else if subtree.len() <= key.len() && key.starts_with(&subtree[..subtree.len() - 1]) && !key.starts_with(subtree)
    {
        met("not under by its last byte");
    }
}
