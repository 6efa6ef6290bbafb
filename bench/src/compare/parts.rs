//! Messages built from parts, and walks over frames, on both sides.

use crate::c;
use crate::compare::counts::Entry;
use crate::compare::lockstep::{GUARD, Lockstep, exact, hex};
use crate::compare::{inputs, wire};
use crate::form::{Before, Part, Walk};
use peer::frames::{frame_at, message_length};
use peer::parts::{self, Built, Step};

/// The message that was sent, if the parts are one, however long: each part was received, and says
/// rightly whether another follows.
pub fn sent(parts: &[Part]) -> Option<Vec<u8>> {
    let (last, others) = parts.split_last()?;
    let bodies: Option<Vec<&[u8]>> = parts.iter().map(Part::body).collect();
    let flags = last.more == 0 && others.iter().all(|part| part.more != 0);
    flags.then_some(wire::encode(&bodies?))
}

/// A message that is being built on both sides, each in a buffer with noise before and after it.
pub struct Building {
    lib: Box<[u8]>,
    peer: Box<[u8]>,
    /// What both buffers held at first, and the parts since then.
    noise: Box<[u8]>,
    parts: Vec<Part>,
    pub room: usize,
    /// The same on both sides, since each call is compared.
    pub built: Built,
}

impl Building {
    /// The message's bytes, if they are not more than the room.
    pub fn bytes(&self) -> &[u8] {
        &self.lib[GUARD..GUARD + self.room][..self.built.length as usize]
    }
}

/// What the library made of a message, but for its bytes: the buffer and its length may not change.
fn message_problem(lib: c::Message, buffer: *const u8, room: usize, peer: Built) -> Option<String> {
    let lent = lib.bytes.cast_const() == buffer || (room == 0 && lib.bytes.is_null());
    let same = lent && lib.room == room && (lib.length, lib.stage) == (peer.length, peer.stage);
    (!same).then(|| format!("library {lib:?}, peer {peer:?}, buffer {buffer:?}, room {room}"))
}

/// The frames of the whole messages that the bytes begin with, found message by message.
fn frames_of_whole_messages(bytes: &[u8]) -> Vec<c::Frame> {
    let mut frames = Vec::new();
    let mut at = 0;
    while let Some(length) = message_length(&bytes[at..]) {
        let end = at + length;
        while at < end {
            let frame = frame_at(bytes, at).expect("a frame of a whole message");
            let more = u64::from(frame.end() < end);
            frames.push(c::Frame { start: frame.start as u64, length: frame.length as u64, more });
            at = frame.end();
        }
    }
    frames
}

impl Lockstep {
    pub fn message_in(&mut self, room: usize) -> Building {
        let noise = self.some_noise(room + 2 * GUARD);
        let (lib, peer) = (noise.clone(), noise.clone());
        let mut message = Building { lib, peer, noise, parts: Vec::new(), room, built: Built::NOTHING };
        let buffer = &mut message.lib[GUARD..GUARD + room];
        let lib = self.form.message_in(buffer);
        let problem = message_problem(lib, buffer.as_ptr(), room, message.built)
            .or_else(|| (message.lib != message.peer).then(|| "bytes changed".to_string()));
        self.record_given(Entry::MessageIn, None, problem, || format!("room {room}"));
        message
    }

    pub fn add(&mut self, message: &mut Building, part: &Part) {
        let part = if self.form.takes_any_numbers() { part.clone() } else { part.plain() };
        let (room, before) = (message.room, message.built);
        inputs::note_part(&mut self.counts, room, before, &part);
        let bytes_before = message.lib.clone();
        let buffer = &mut message.lib[GUARD..GUARD + room];
        let Built { length, stage } = before;
        let start = Before { length, stage, noise: &message.noise[GUARD..GUARD + room], parts: &message.parts };
        let lib = self.form.message_add(buffer, &start, &part);
        let peer = parts::add(&mut message.peer[GUARD..GUARD + room], before, part.body(), part.more != 0);
        let written = if peer.length == 0 { 0..0 } else { before.length as usize..peer.length as usize };
        let mut others = (0..room).filter(|at| !written.contains(at)).map(|at| GUARD + at);
        let changed = others.any(|at| message.lib[at] != bytes_before[at]);
        let problem = message_problem(lib, message.lib[GUARD..].as_ptr(), room, peer)
            .or_else(|| (message.lib != message.peer).then(|| format!("bytes {}", hex(&message.lib))))
            .or_else(|| changed.then(|| "bytes changed elsewhere than in the frame".to_string()));
        let Part { bytes, length, more } = &part;
        let call = || format!("room {room} {before:?} length {length} more {more} part {}", hex(bytes));
        if !self.record_given(Entry::AddPart, (peer.stage == parts::VOID).then_some(0), problem, call) {
            message.peer.copy_from_slice(&message.lib);
        }
        message.built = peer;
        message.parts.push(part);
    }

    pub fn build(&mut self, room: usize, parts: &[Part]) -> Building {
        let mut message = self.message_in(room);
        parts.iter().for_each(|part| self.add(&mut message, part));
        message
    }

    /// Sets the frame to the next one if there is one, on both sides. The walk is the library's, over these bytes.
    fn next_frame(&mut self, walk: &mut Walk, bytes: &[u8], frame: &mut c::Frame) -> bool {
        let last = *frame;
        let said = walk(frame);
        let step = Step { start: last.start, length: last.length, more: last.more };
        let next = parts::next_frame(bytes, step);
        inputs::note_step(&mut self.counts, bytes, step, next);
        let expected = next.map_or(last, |step| c::Frame { start: step.start, length: step.length, more: step.more });
        let same = said == i32::from(next.is_some()) && *frame == expected;
        let problem = (!same).then(|| format!("library {said} and {frame:?}, peer {next:?}"));
        let call = || format!("after {last:?} in {}", hex(bytes));
        self.record_given(Entry::NextFrame, next.is_none().then_some(0), problem, call);
        *frame = expected;
        next.is_some()
    }

    /// Walks over all frames. The walk ends in time and gives all frames of the whole messages, and no
    /// others.
    pub fn walk(&mut self, bytes: &[u8]) -> Vec<c::Frame> {
        let bytes = &*exact(bytes);
        let mut walk = self.form.walk(bytes);
        let mut frames = Vec::new();
        let mut frame = c::Frame { start: 0, length: 0, more: 0 };
        let mut calls = 1;
        while self.next_frame(&mut walk, bytes, &mut frame) {
            frames.push(frame);
            calls += 1;
            if calls > bytes.len() / 2 + 1 {
                self.report(Entry::NextFrame, "a walk does not end", &hex(bytes));
                break;
            }
        }
        if frames != frames_of_whole_messages(bytes) {
            self.report(Entry::NextFrame, "a walk gave other frames than those of the whole messages", &hex(bytes));
        }
        inputs::note_walk(&mut self.counts, bytes, &frames);
        frames
    }

    /// One step after any frame.
    pub fn step(&mut self, bytes: &[u8], mut frame: c::Frame) {
        let bytes = &*exact(bytes);
        let mut walk = self.form.walk(bytes);
        self.next_frame(&mut walk, bytes, &mut frame);
    }

    /// The parts that a host sends of these bytes, message by message.
    pub fn messages_in(&mut self, bytes: &[u8]) -> Vec<Vec<Part>> {
        let mut messages = vec![Vec::new()];
        for frame in self.walk(bytes) {
            let body = &bytes[frame.start as usize..][..frame.length as usize];
            messages.last_mut().expect("one at least").push(Part::of(body.to_vec(), frame.more as i32));
            if frame.more == 0 {
                messages.push(Vec::new());
            }
        }
        messages.pop();
        messages
    }

    /// What arrives of one message that the library wrote: it is split into parts and built again.
    pub fn carry(&mut self, message: &[u8], room: usize) -> Vec<u8> {
        let parts = self.messages_in(message).concat();
        let arrived = self.build(room, &parts).bytes().to_vec();
        if arrived != message {
            self.report(Entry::AddPart, "a message was split and built again, and is another", &hex(message));
        }
        arrived
    }
}
