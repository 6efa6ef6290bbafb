//! The functions of the Rust module, with what they give turned back into the numbers of the C interface.

use crate::c::{Answer, Client, Frame, Message, Part as Place, Row, Server};
use crate::form::{Before, Form, Part, Walk};
use chp::Stage;

/// The calls as a Rust host makes them.
pub struct Module;

/// The four numbers of an answer.
pub fn numbers(answer: chp::Answer) -> Answer {
    use chp::Answer as A;
    let (kind, refusal, number, written) = match answer {
        A::Refused { refusal, number } => (0, refusal as u64, number, 0),
        A::Started { number } => (1, 0, number, 0),
        A::Applied { number } => (2, 0, number, 0),
        A::Stale { number } => (3, 0, number, 0),
        A::Outside { number } => (4, 0, number, 0),
        A::Synced { number } => (5, 0, number, 0),
        A::Live { number } => (6, 0, number, 0),
        A::Heard { number } => (7, 0, number, 0),
        A::Wrote { number, written } => (8, 0, number, written as u64),
        A::Nothing { number } => (9, 0, number, 0),
        A::Found { number, written } => (10, 0, number, written as u64),
        A::Absent { number } => (11, 0, number, 0),
        A::Present { number } => (12, 0, number, 0),
        A::Gone { number } => (13, 0, number, 0),
    };
    Answer { kind, refusal, number, written }
}

/// Sets row i if there is one, as the header does. All rows one by one must come to the same, up to the first
/// place without a row; otherwise it gives -1.
fn give_row<'a>(
    at: impl Fn(usize) -> Option<chp::Row<'a>>,
    mut all: impl Iterator<Item = chp::Row<'a>>,
    i: usize,
    row: &mut Row,
) -> i32 {
    let found = at(i);
    if all.nth(i) != found.filter(|_| (0..i).all(|earlier| at(earlier).is_some())) {
        return -1;
    }
    let Some(chp::Row { key, value, number, expiry }) = found else {
        return 0;
    };
    let (key, key_length, value, value_length) = (key.as_ptr(), key.len(), value.as_ptr(), value.len());
    *row = Row { key, key_length, value, value_length, number, expiry };
    1
}

/// Where a part of some bytes begins in them.
fn offset(bytes: &[u8], part: &[u8]) -> u64 {
    (part.as_ptr() as u64).wrapping_sub(bytes.as_ptr() as u64)
}

/// Adds the part, or loses it where its length is negative; gives the stage that the module told.
fn add(message: &mut chp::Message, part: &Part) -> Stage {
    if part.length < 0 {
        message.lose();
        return message.stage();
    }
    message.add(&part.bytes, part.more != 0)
}

/// The message as the header has it, if the stage is the one that was told.
fn as_in_header(message: &chp::Message, room: usize, told: Stage) -> Message {
    let stage = match message.stage() {
        stage if stage != told => u64::MAX,
        Stage::Open => 0,
        Stage::Whole => 1,
        Stage::Void => 2,
    };
    let built = message.bytes();
    Message { bytes: built.as_ptr().cast_mut(), room, length: built.len() as u64, stage }
}

impl Form for Module {
    fn name(&self) -> &'static str {
        "through the Rust module"
    }

    fn takes_any_numbers(&self) -> bool {
        false
    }

    fn server_start(&self, s: &mut Server, number: u64, tick: u64) -> Answer {
        numbers(s.start(number, tick))
    }

    fn server_kvset(&self, s: &mut Server, msg: &[u8], tick: u64, out: &mut [u8]) -> Answer {
        numbers(s.kvset(msg, tick, out))
    }

    fn server_tick(&self, s: &mut Server, tick: u64, out: &mut [u8]) -> Answer {
        numbers(s.tick(tick, out))
    }

    fn server_icanhaz(&self, s: &Server, msg: &[u8], out: &mut [u8]) -> Answer {
        numbers(s.icanhaz(msg, out))
    }

    fn client_start(&self, c: &mut Client, subtree: &[u8], tick: u64) -> Answer {
        numbers(c.start(subtree, tick))
    }

    fn client_snapshot(&self, c: &mut Client, msg: &[u8]) -> Answer {
        numbers(c.snapshot(msg))
    }

    fn client_subscriber(&self, c: &mut Client, msg: &[u8], tick: u64) -> Answer {
        numbers(c.subscriber(msg, tick))
    }

    fn client_write_icanhaz(&self, c: &Client, out: &mut [u8]) -> Answer {
        numbers(c.write_icanhaz(out))
    }

    fn client_write_kvset(&self, c: &Client, fields: [&[u8]; 4], out: &mut [u8]) -> Answer {
        let [key, uuid, properties, value] = fields;
        numbers(c.write_kvset(key, uuid, properties, value, out))
    }

    fn client_ask(&self, c: &Client, tick: u64) -> Answer {
        numbers(c.ask(tick))
    }

    fn client_lookup(&self, c: &Client, key: &[u8], out: &mut [u8]) -> Answer {
        numbers(c.lookup(key, out))
    }

    fn server_row(&self, s: &Server, i: usize, row: &mut Row) -> i32 {
        give_row(|i| s.row(i), s.rows(), i, row)
    }

    fn client_row(&self, c: &Client, i: usize, row: &mut Row) -> i32 {
        give_row(|i| c.row(i), c.rows(), i, row)
    }

    fn message_in(&self, buffer: &mut [u8]) -> Message {
        let room = buffer.len();
        as_in_header(&chp::Message::new(buffer), room, Stage::Open)
    }

    /// The module's message borrows its buffer as long as it is built. So it is built anew from its first part,
    /// and all bytes of the buffer can be looked at after each part.
    fn message_add(&self, buffer: &mut [u8], before: &Before, part: &Part) -> Message {
        buffer.copy_from_slice(before.noise);
        let room = buffer.len();
        let mut message = chp::Message::new(buffer);
        for earlier in before.parts {
            add(&mut message, earlier);
        }
        let told = add(&mut message, part);
        as_in_header(&message, room, told)
    }

    fn walk<'a>(&self, bytes: &'a [u8]) -> Walk<'a> {
        let mut rest = chp::frames(bytes);
        Box::new(move |frame| {
            let Some(chp::Frame { body, more }) = rest.next() else {
                return 0;
            };
            *frame = Frame { start: offset(bytes, body), length: body.len() as u64, more: u64::from(more) };
            1
        })
    }

    fn message_length(&self, bytes: &[u8]) -> usize {
        chp::message_length(bytes)
    }

    fn value(&self, msg: &[u8]) -> (Place, u64) {
        match chp::value(msg) {
            Ok(value) => (Place { start: offset(msg, value), length: value.len() as u64 }, 0),
            Err(refusal) => (Place { start: 0, length: 0 }, refusal as u64),
        }
    }

    fn is_key(&self, bytes: &[u8]) -> i32 {
        i32::from(chp::is_key(bytes))
    }

    fn is_subtree(&self, bytes: &[u8]) -> i32 {
        i32::from(chp::is_subtree(bytes))
    }

    fn is_under(&self, subtree: &[u8], key: &[u8]) -> i32 {
        i32::from(chp::is_under(subtree, key))
    }
}
