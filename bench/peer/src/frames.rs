//! ZMTP frames in lent bytes: reading, cutting and writing.

use crate::answer::{Refusal, require};

/// A frame of a message: where its body lies, and whether another frame follows.
#[derive(Clone, Copy, PartialEq, Eq, Debug)]
pub struct Frame {
    pub start: usize,
    pub length: usize,
    pub more: bool,
}

impl Frame {
    pub fn end(self) -> usize {
        self.start + self.length
    }
}

/// The whole frame that begins at the place, if there is one.
pub fn frame_at(message: &[u8], at: usize) -> Option<Frame> {
    let rest = message.get(at..)?;
    let (head, size) = match *rest.first()? {
        0x00 | 0x01 => (2, u64::from(*rest.get(1)?)),
        0x02 | 0x03 => (9, u64::from_be_bytes(*rest.get(1..)?.first_chunk()?)),
        _ => return None,
    };
    // Compared with what is left: a size near 2^64 added to a place would overflow.
    if size > (rest.len() - head) as u64 {
        return None;
    }
    Some(Frame { start: at + head, length: size as usize, more: rest[0] & 1 == 1 })
}

/// Walks the frames of a message one by one.
struct Reader<'a> {
    message: &'a [u8],
    place: usize,
}

impl<'a> Reader<'a> {
    /// The next frame's body, and whether another follows.
    fn next(&mut self) -> Option<(&'a [u8], bool)> {
        let frame = frame_at(self.message, self.place)?;
        self.place = frame.end();
        Some((&self.message[frame.start..frame.end()], frame.more))
    }
}

/// The bodies of a message of exactly N frames. Framing is judged over the whole message before
/// its frames are counted.
pub fn split<const N: usize>(message: &[u8]) -> Result<[&[u8]; N], Refusal> {
    let mut reader = Reader { message, place: 0 };
    let mut bodies = [&message[..0]; N];
    let mut count = 0;
    loop {
        let (body, more) = reader.next().ok_or(Refusal::Framing)?;
        if count < N {
            bodies[count] = body;
        }
        count += 1;
        if !more {
            break;
        }
    }
    require(reader.place == message.len(), Refusal::Framing)?;
    require(count == N, Refusal::FrameCount)?;
    Ok(bodies)
}

/// The length of the whole message that the bytes begin with, if they begin with one.
pub fn message_length(bytes: &[u8]) -> Option<usize> {
    let mut reader = Reader { message: bytes, place: 0 };
    while reader.next()?.1 {}
    Some(reader.place)
}

/// The value frame of any message of five frames, as a part of the message. Its contents are not
/// looked at.
pub fn value(message: &[u8]) -> Result<&[u8], Refusal> {
    split::<5>(message).map(|bodies| bodies[4])
}

/// Bytes that a frame with a body of this length takes when written.
pub const fn frame_length(body: usize) -> usize {
    if body <= 255 { 2 + body } else { 9 + body }
}

/// Bytes that these bodies take as one message.
pub fn message_size(bodies: &[&[u8]]) -> usize {
    bodies.iter().map(|body| frame_length(body.len())).sum()
}

/// Writes a frame from a place on and gives the place after it. Where it does not fit, nothing is
/// written and the place itself comes back.
pub fn put_frame(out: &mut [u8], at: usize, more: bool, body: &[u8]) -> usize {
    let Some(room) = out.get_mut(at..) else {
        return at;
    };
    if frame_length(body.len()) > room.len() {
        return at;
    }
    let head = if body.len() <= 255 {
        room[0] = u8::from(more);
        room[1] = body.len() as u8;
        2
    } else {
        room[0] = 2 | u8::from(more);
        room[1..9].copy_from_slice(&(body.len() as u64).to_be_bytes());
        9
    };
    room[head..head + body.len()].copy_from_slice(body);
    at + head + body.len()
}

/// Writes the bodies as one message at the beginning of the output, which has room for it, and
/// gives the bytes written.
pub fn write_message(out: &mut [u8], bodies: &[&[u8]]) -> usize {
    let mut at = 0;
    for (i, body) in bodies.iter().enumerate() {
        at = put_frame(out, at, i + 1 < bodies.len(), body);
    }
    at
}
