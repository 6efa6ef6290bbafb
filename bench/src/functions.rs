//! The functions of the C interface, reached through the shim.

use crate::c::{
    Answer, Client, ClientHeader, Frame, KEY_MOST, Message, Part as Place, Row, RowBytes, RowLengths, RowStamps,
    Server, ServerHeader,
};
use crate::form::{Before, Form, Part, Walk};
use std::ffi::{CStr, c_char, c_int};
use std::sync::atomic::{AtomicU32, Ordering};

type In = *const u8;
type Out = *mut u8;

#[repr(C)]
struct Named {
    name: *const c_char,
    number: u64,
}

unsafe extern "C" {
    fn shim_server_start(s: *mut Server, number: u64, tick: u64) -> Answer;
    fn shim_server_kvset(s: *mut Server, msg: In, msg_len: usize, tick: u64, out: Out, out_len: usize) -> Answer;
    fn shim_server_tick(s: *mut Server, tick: u64, out: Out, out_len: usize) -> Answer;
    fn shim_server_icanhaz(s: *const Server, msg: In, msg_len: usize, out: Out, out_len: usize) -> Answer;
    fn shim_client_start(c: *mut Client, subtree: In, subtree_len: usize, tick: u64) -> Answer;
    fn shim_client_snapshot(c: *mut Client, msg: In, msg_len: usize) -> Answer;
    fn shim_client_subscriber(c: *mut Client, msg: In, msg_len: usize, tick: u64) -> Answer;
    fn shim_client_write_icanhaz(c: *const Client, out: Out, out_len: usize) -> Answer;
    fn shim_client_write_kvset(
        c: *const Client,
        key: In,
        key_len: usize,
        uuid: In,
        uuid_len: usize,
        properties: In,
        properties_len: usize,
        value: In,
        value_len: usize,
        out: Out,
        out_len: usize,
    ) -> Answer;
    fn shim_client_ask(c: *const Client, tick: u64) -> Answer;
    fn shim_client_lookup(c: *const Client, key: In, key_len: usize, out: Out, out_len: usize) -> Answer;
    fn shim_server_row(s: *const Server, i: usize, row: *mut Row) -> c_int;
    fn shim_client_row(c: *const Client, i: usize, row: *mut Row) -> c_int;
    fn shim_message_in(buffer: Out, room: usize) -> Message;
    fn shim_message_add(m: *mut Message, part: In, length: i64, more: c_int);
    fn shim_next_frame(bytes: In, len: usize, frame: *mut Frame) -> c_int;
    fn shim_message_length(bytes: In, len: usize) -> usize;
    fn shim_value(msg: In, msg_len: usize) -> Place;
    fn shim_value_refusal(msg: In, msg_len: usize) -> u64;
    fn shim_is_key(bytes: In, len: usize) -> c_int;
    fn shim_is_subtree(bytes: In, len: usize) -> c_int;
    fn shim_is_under(subtree: In, subtree_len: usize, key: In, key_len: usize) -> c_int;
    fn shim_archive_version() -> u64;
    fn shim_layout_agrees() -> c_int;
    fn shim_layout_marks(
        row: *mut RowBytes,
        lengths: *mut RowLengths,
        stamps: *mut RowStamps,
        subtree: Out,
        server: *mut ServerHeader,
        client: *mut ClientHeader,
        answer: *mut Answer,
    ) -> u64;
    fn shim_kind_text(kind: u64) -> *const c_char;
    fn shim_refusal_text(refusal: u64) -> *const c_char;
    static shim_version: [u64; 4];
    static shim_layout: [Named; 0];
    static shim_layout_length: usize;
}

/// Where a length is 0 the header takes a null pointer too: it gets one every other time.
fn null_turn() -> bool {
    static TURN: AtomicU32 = AtomicU32::new(0);
    TURN.fetch_add(1, Ordering::Relaxed) % 2 == 1
}

fn start_of(bytes: &[u8]) -> In {
    if bytes.is_empty() && null_turn() { std::ptr::null() } else { bytes.as_ptr() }
}

fn start_of_out(out: &mut [u8]) -> Out {
    if out.is_empty() && null_turn() { std::ptr::null_mut() } else { out.as_mut_ptr() }
}

/// The calls as a C host makes them.
pub struct Header;

// SAFETY of every call below: the state is whole and borrowed, each pointer has the length beside
// it, and an output overlaps nothing else that is borrowed.

impl Form for Header {
    fn name(&self) -> &'static str {
        "through the header"
    }

    fn takes_any_numbers(&self) -> bool {
        true
    }

    fn server_start(&self, s: &mut Server, number: u64, tick: u64) -> Answer {
        unsafe { shim_server_start(s, number, tick) }
    }

    fn server_kvset(&self, s: &mut Server, msg: &[u8], tick: u64, out: &mut [u8]) -> Answer {
        unsafe { shim_server_kvset(s, start_of(msg), msg.len(), tick, start_of_out(out), out.len()) }
    }

    fn server_tick(&self, s: &mut Server, tick: u64, out: &mut [u8]) -> Answer {
        unsafe { shim_server_tick(s, tick, start_of_out(out), out.len()) }
    }

    fn server_icanhaz(&self, s: &Server, msg: &[u8], out: &mut [u8]) -> Answer {
        unsafe { shim_server_icanhaz(s, start_of(msg), msg.len(), start_of_out(out), out.len()) }
    }

    fn client_start(&self, c: &mut Client, subtree: &[u8], tick: u64) -> Answer {
        unsafe { shim_client_start(c, start_of(subtree), subtree.len(), tick) }
    }

    fn client_snapshot(&self, c: &mut Client, msg: &[u8]) -> Answer {
        unsafe { shim_client_snapshot(c, start_of(msg), msg.len()) }
    }

    fn client_subscriber(&self, c: &mut Client, msg: &[u8], tick: u64) -> Answer {
        unsafe { shim_client_subscriber(c, start_of(msg), msg.len(), tick) }
    }

    fn client_write_icanhaz(&self, c: &Client, out: &mut [u8]) -> Answer {
        unsafe { shim_client_write_icanhaz(c, start_of_out(out), out.len()) }
    }

    fn client_write_kvset(&self, c: &Client, fields: [&[u8]; 4], out: &mut [u8]) -> Answer {
        let [k, u, p, v] = fields.map(start_of);
        let [kn, un, pn, vn] = fields.map(<[u8]>::len);
        unsafe { shim_client_write_kvset(c, k, kn, u, un, p, pn, v, vn, start_of_out(out), out.len()) }
    }

    fn client_ask(&self, c: &Client, tick: u64) -> Answer {
        unsafe { shim_client_ask(c, tick) }
    }

    fn client_lookup(&self, c: &Client, key: &[u8], out: &mut [u8]) -> Answer {
        unsafe { shim_client_lookup(c, start_of(key), key.len(), start_of_out(out), out.len()) }
    }

    fn server_row(&self, s: &Server, i: usize, row: &mut Row) -> i32 {
        unsafe { shim_server_row(s, i, row) }
    }

    fn client_row(&self, c: &Client, i: usize, row: &mut Row) -> i32 {
        unsafe { shim_client_row(c, i, row) }
    }

    fn message_in(&self, buffer: &mut [u8]) -> Message {
        unsafe { shim_message_in(start_of_out(buffer), buffer.len()) }
    }

    fn message_add(&self, buffer: &mut [u8], before: &Before, part: &Part) -> Message {
        assert!(part.length < 0 || part.length as usize == part.bytes.len());
        let (bytes, room) = (start_of_out(buffer), buffer.len());
        let mut message = Message { bytes, room, length: before.length, stage: before.stage };
        unsafe { shim_message_add(&mut message, start_of(&part.bytes), part.length, part.more) };
        message
    }

    fn walk<'a>(&self, bytes: &'a [u8]) -> Walk<'a> {
        Box::new(|frame| unsafe { shim_next_frame(start_of(bytes), bytes.len(), frame) })
    }

    fn message_length(&self, bytes: &[u8]) -> usize {
        unsafe { shim_message_length(start_of(bytes), bytes.len()) }
    }

    fn value(&self, msg: &[u8]) -> (Place, u64) {
        unsafe { (shim_value(start_of(msg), msg.len()), shim_value_refusal(start_of(msg), msg.len())) }
    }

    fn is_key(&self, bytes: &[u8]) -> i32 {
        unsafe { shim_is_key(start_of(bytes), bytes.len()) }
    }

    fn is_subtree(&self, bytes: &[u8]) -> i32 {
        unsafe { shim_is_subtree(start_of(bytes), bytes.len()) }
    }

    fn is_under(&self, subtree: &[u8], key: &[u8]) -> i32 {
        unsafe { shim_is_under(start_of(subtree), subtree.len(), start_of(key), key.len()) }
    }
}

/// The header's version: major, minor, patch, and the number made of them.
pub fn version() -> [u64; 4] {
    // SAFETY: constant.
    unsafe { shim_version }
}

pub fn archive_version() -> u64 {
    unsafe { shim_archive_version() }
}

/// Whether the header finds the archive's marks where it has its fields.
pub fn layout_agrees() -> bool {
    unsafe { shim_layout_agrees() == 1 }
}

/// A field of each kind, for the archive to mark.
#[derive(Clone, Copy, PartialEq, Eq)]
pub struct Marks {
    pub row: RowBytes,
    pub lengths: RowLengths,
    pub stamps: RowStamps,
    pub subtree: [u8; KEY_MOST],
    pub server: ServerHeader,
    pub client: ClientHeader,
    pub answer: Answer,
}

/// Lets the archive mark each field, and gives how many rows it says that a state has.
pub fn layout_marks(m: &mut Marks) -> u64 {
    let subtree = m.subtree.as_mut_ptr();
    unsafe {
        shim_layout_marks(
            &mut m.row,
            &mut m.lengths,
            &mut m.stamps,
            subtree,
            &mut m.server,
            &mut m.client,
            &mut m.answer,
        )
    }
}

pub fn kind_text(kind: u64) -> String {
    // SAFETY: the header gives constant C strings.
    unsafe { CStr::from_ptr(shim_kind_text(kind)) }.to_string_lossy().into_owned()
}

pub fn refusal_text(refusal: u64) -> String {
    // SAFETY: as above.
    unsafe { CStr::from_ptr(shim_refusal_text(refusal)) }.to_string_lossy().into_owned()
}

/// The sizes, offsets and constants that the C compiler sees, with their names.
pub fn layout() -> Vec<(String, u64)> {
    // SAFETY: the shim's table is constant, as long as it says, and its names are C strings.
    unsafe {
        let places = std::slice::from_raw_parts(shim_layout.as_ptr(), shim_layout_length);
        let name = |place: &Named| CStr::from_ptr(place.name).to_string_lossy().into_owned();
        places.iter().map(|place| (name(place), place.number)).collect()
    }
}
