//! The library's calls in one of two forms: through the header, or through the Rust module. Both give the same
//! numbers, so that one comparison serves both.

use crate::c::{Answer, Client, Frame, Message, Part as Place, Row, Server};
use peer::parts::received;

/// A part as a socket delivers it: its bytes, or a negative length where none was received.
#[derive(Clone)]
pub struct Part {
    pub bytes: Vec<u8>,
    pub length: i64,
    pub more: i32,
}

impl Part {
    pub fn of(bytes: Vec<u8>, more: i32) -> Part {
        let length = bytes.len() as i64;
        Part { bytes, length, more }
    }

    pub fn not_received(length: i64, more: i32) -> Part {
        Part { bytes: Vec::new(), length, more }
    }

    pub fn body(&self) -> Option<&[u8]> {
        received(&self.bytes, self.length)
    }

    /// The nearest part that says no more than whether it was received and whether another follows.
    pub fn plain(&self) -> Part {
        Part { bytes: self.bytes.clone(), length: self.length.max(-1), more: i32::from(self.more != 0) }
    }
}

/// A message before a part is added to it: its length and its stage, what the buffer held at first, and the
/// parts so far. The header needs the first two, and the module the others.
pub struct Before<'a> {
    pub length: u64,
    pub stage: u64,
    pub noise: &'a [u8],
    pub parts: &'a [Part],
}

/// Sets a frame to the one after it and gives 1, or leaves it and gives 0.
pub type Walk<'a> = Box<dyn FnMut(&mut Frame) -> i32 + 'a>;

pub trait Form: Sync {
    fn name(&self) -> &'static str;

    /// Whether any numbers can be handed in: negative lengths, any `more`, any length and stage of a message,
    /// and any frame to go on from.
    fn takes_any_numbers(&self) -> bool;

    fn server_start(&self, s: &mut Server, number: u64, tick: u64) -> Answer;
    fn server_kvset(&self, s: &mut Server, msg: &[u8], tick: u64, out: &mut [u8]) -> Answer;
    fn server_tick(&self, s: &mut Server, tick: u64, out: &mut [u8]) -> Answer;
    fn server_icanhaz(&self, s: &Server, msg: &[u8], out: &mut [u8]) -> Answer;

    fn client_start(&self, c: &mut Client, subtree: &[u8], tick: u64) -> Answer;
    fn client_snapshot(&self, c: &mut Client, msg: &[u8]) -> Answer;
    fn client_subscriber(&self, c: &mut Client, msg: &[u8], tick: u64) -> Answer;
    fn client_write_icanhaz(&self, c: &Client, out: &mut [u8]) -> Answer;
    /// The fields are key, UUID, properties and value.
    fn client_write_kvset(&self, c: &Client, fields: [&[u8]; 4], out: &mut [u8]) -> Answer;
    fn client_ask(&self, c: &Client, tick: u64) -> Answer;
    fn client_lookup(&self, c: &Client, key: &[u8], out: &mut [u8]) -> Answer;

    /// Whether there is such a row; it is then set.
    fn server_row(&self, s: &Server, i: usize, row: &mut Row) -> i32;
    fn client_row(&self, c: &Client, i: usize, row: &mut Row) -> i32;

    /// A message without parts in the buffer.
    fn message_in(&self, buffer: &mut [u8]) -> Message;
    /// Adds a part to the message in the buffer, and gives the message.
    fn message_add(&self, buffer: &mut [u8], before: &Before, part: &Part) -> Message;

    /// A walk over the frames. Unless any numbers are taken, it starts at three zeros and goes on from what it gave.
    fn walk<'a>(&self, bytes: &'a [u8]) -> Walk<'a>;
    fn message_length(&self, bytes: &[u8]) -> usize;
    /// Where the value is, and the refusal.
    fn value(&self, msg: &[u8]) -> (Place, u64);

    fn is_key(&self, bytes: &[u8]) -> i32;
    fn is_subtree(&self, bytes: &[u8]) -> i32;
    fn is_under(&self, subtree: &[u8], key: &[u8]) -> i32;
}
