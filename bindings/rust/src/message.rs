//! Messages from and to sockets, which carry them part by part.

use crate::Refusal;
use crate::exports as c;

/// Where a message that is built stands.
#[derive(Clone, Copy, Debug, PartialEq, Eq)]
pub enum Stage {
    /// Another part is to come.
    Open,
    /// The last part has come.
    Whole,
    /// A part did not fit, or came after the last one. Every entry refuses the message.
    Void,
}

/// A message that is built from parts, in a buffer.
#[derive(Debug)]
pub struct Message<'a> {
    buffer: &'a mut [u8],
    built: [u64; 2],
}

impl<'a> Message<'a> {
    /// Begins a message; a buffer of [`crate::KVSET_ROOM`] bytes and the like is long enough.
    pub fn new(buffer: &'a mut [u8]) -> Message<'a> {
        Message { buffer, built: [0, 0] }
    }

    /// Adds a part; `more` says whether another one follows. If the part does not fit, or comes after the last one, the
    /// message is void, and stays void.
    pub fn add(&mut self, part: &[u8], more: bool) -> Stage {
        let (buffer, room) = (self.buffer.as_mut_ptr(), self.buffer.len());
        // SAFETY: each pointer has the length beside it; the buffer is borrowed for writing, so the part is not in it.
        unsafe { c::chp_bytes_put_part(buffer, room, &mut self.built, u64::from(more), part.as_ptr(), part.len()) };
        self.stage()
    }

    /// A part was not received: the message is void.
    pub fn lose(&mut self) {
        self.built = [0, 2];
    }

    pub fn stage(&self) -> Stage {
        match self.built[1] {
            0 => Stage::Open,
            1 => Stage::Whole,
            _ => Stage::Void,
        }
    }

    /// The bytes of the message so far; none if it is void.
    pub fn bytes(&self) -> &[u8] {
        &self.buffer[..self.built[0] as usize]
    }
}

/// A frame of a message: its body, and whether another frame of the same message follows.
#[derive(Clone, Copy, Debug, PartialEq, Eq)]
pub struct Frame<'a> {
    pub body: &'a [u8],
    pub more: bool,
}

/// The frames of some bytes that hold messages one after another.
#[derive(Clone, Debug)]
pub struct Frames<'a> {
    bytes: &'a [u8],
    place: [u64; 3],
}

/// The frames of some bytes that hold messages one after another, as [`crate::Server::icanhaz`] writes them. Of a message
/// that is not whole no frame is given.
pub fn frames(bytes: &[u8]) -> Frames<'_> {
    Frames { bytes, place: [0; 3] }
}

impl<'a> Iterator for Frames<'a> {
    type Item = Frame<'a>;

    fn next(&mut self) -> Option<Frame<'a>> {
        // SAFETY: the pointer has the length beside it.
        let found = unsafe { c::chp_bytes_next_frame(self.bytes.as_ptr(), self.bytes.len(), &mut self.place) };
        if found == 0 {
            return None;
        }
        let [start, length, more] = self.place;
        Some(Frame { body: &self.bytes[start as usize..][..length as usize], more: more != 0 })
    }
}

/// The length of the whole message that some bytes begin with; 0 if they begin with none.
pub fn message_length(bytes: &[u8]) -> usize {
    // SAFETY: the pointer has the length beside it.
    unsafe { c::chp_bytes_message_length(bytes.as_ptr(), bytes.len()) }
}

/// The value frame of a message of five frames, whatever they hold.
pub fn value(msg: &[u8]) -> Result<&[u8], Refusal> {
    // SAFETY: the pointer has the length beside it.
    let (refusal, length) = unsafe {
        let refusal = c::chp_bytes_value_refusal(msg.as_ptr(), msg.len());
        (refusal, c::chp_bytes_value_length(msg.as_ptr(), msg.len()))
    };
    match Refusal::of(refusal) {
        Some(refusal) => Err(refusal),
        None => Ok(&msg[msg.len() - length..]),
    }
}
