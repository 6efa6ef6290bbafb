//! Makes each call twice, at the library and at the peer, and compares what comes back:
//! the answer, every byte of the output and the state.

use crate::c::{self, Plain};
use crate::compare::counts::{Counts, Entry};
use crate::compare::{inputs, meaning};
use crate::form::Form;
use crate::random::Random;
use peer::answer::{Answer, Kind};
use peer::client::Client;
use peer::server::Server;

/// A server on both sides.
pub struct ServerPair {
    pub lib: Box<c::Server>,
    pub peer: Box<Server>,
}

/// A client on both sides.
pub struct ClientPair {
    pub lib: Box<c::Client>,
    pub peer: Box<Client>,
}

impl ServerPair {
    pub fn of(lib: Box<c::Server>) -> ServerPair {
        let peer = meaning::server_view(&lib);
        ServerPair { lib, peer }
    }
}

impl ClientPair {
    pub fn of(lib: Box<c::Client>) -> ClientPair {
        let peer = meaning::client_view(&lib);
        ClientPair { lib, peer }
    }
}

/// Bytes after each output, and around each buffer, that no call may touch.
pub(super) const GUARD: usize = 64;
/// The longest output or buffer.
pub(super) const MOST_ROOM: usize = 70_000;
const SALTS: usize = 4096;
/// Differences after which a run stops.
const ENOUGH: u64 = 20;

/// An output lent for one call: its length, and where in the noise its contents begin.
#[derive(Clone, Copy)]
struct Lent {
    length: usize,
    salt: usize,
}

pub struct Lockstep {
    pub(super) form: &'static dyn Form,
    pub random: Random,
    pub counts: Counts,
    /// All calls; those that take a state and give an answer are counted again.
    pub calls: u64,
    pub calls_on_states: u64,
    pub differences: u64,
    /// Outputs are long enough, always.
    pub roomy: bool,
    /// Clients that had exactly the server's rows at the end of an undisturbed session.
    pub followers: u64,
    noise: Vec<u8>,
    lib_out: Vec<u8>,
    peer_out: Vec<u8>,
    server_before: Box<c::Server>,
    client_before: Box<c::Client>,
}

pub(super) fn as_c(answer: Answer) -> c::Answer {
    let refusal = answer.refusal.map_or(0, |refusal| refusal as u64);
    c::Answer { kind: answer.kind as u64, refusal, number: answer.number, written: answer.written as u64 }
}

fn answer_problem(lib: c::Answer, peer: Answer) -> Option<String> {
    let peer = as_c(peer);
    (lib != peer).then(|| format!("library {lib:?}, peer {peer:?}"))
}

/// A copy with nothing after it, so that valgrind sees a read past the end.
pub(super) fn exact(bytes: &[u8]) -> Box<[u8]> {
    bytes.into()
}

pub(super) fn hex(bytes: &[u8]) -> String {
    bytes.iter().map(|byte| format!("{byte:02X}")).collect()
}

impl Lockstep {
    pub fn new(form: &'static dyn Form, seed: u64) -> Lockstep {
        let mut random = Random::new(seed);
        let room = MOST_ROOM + GUARD;
        let noise = random.bytes(GUARD + room + SALTS);
        Lockstep {
            form,
            random,
            counts: Counts::new(form.takes_any_numbers()),
            calls: 0,
            calls_on_states: 0,
            differences: 0,
            roomy: false,
            followers: 0,
            noise,
            lib_out: vec![0; room],
            peer_out: vec![0; room],
            server_before: c::Server::zeroed(),
            client_before: c::Client::zeroed(),
        }
    }

    pub fn is_spoiled(&self) -> bool {
        self.differences >= ENOUGH
    }

    /// What the library wrote in the last call.
    pub fn written(&self, answer: c::Answer) -> Vec<u8> {
        self.lib_out[..answer.written as usize].to_vec()
    }

    /// Chooses the length of an output: what is always enough, exactly what is needed, one less,
    /// nothing, or more. What is needed is asked of the peer.
    pub(super) fn choose_length(&mut self, most: usize, ask: impl FnOnce(&mut [u8]) -> Answer) -> usize {
        let choice = self.random.below(100);
        if choice < 60 || self.roomy {
            return most;
        }
        if choice < 64 {
            self.counts.input("output empty");
            return 0;
        }
        let answer = ask(&mut self.peer_out[..most]);
        let needed = answer.written;
        if answer.kind == Kind::Refused {
            self.random.below(most)
        } else if choice < 80 {
            self.counts.input("output exact");
            needed
        } else if choice < 90 && needed > 0 {
            self.counts.input("output one byte short");
            needed - 1
        } else {
            self.counts.input("output longer");
            needed + self.random.between(1, 300)
        }
    }

    /// So many bytes of noise.
    pub(super) fn some_noise(&mut self, length: usize) -> Box<[u8]> {
        let salt = self.random.below(SALTS);
        self.noise[salt..salt + length].into()
    }

    /// Fills the outputs of both sides with the same noise.
    fn lend(&mut self, length: usize) -> Lent {
        let salt = self.random.below(SALTS);
        let noise = &self.noise[salt..salt + length + GUARD];
        self.lib_out[..noise.len()].copy_from_slice(noise);
        self.peer_out[..noise.len()].copy_from_slice(noise);
        Lent { length, salt }
    }

    /// The outputs are the same, and as they were after the bytes written; a refused call wrote
    /// none.
    fn output_problem(&self, lent: Lent, answer: c::Answer) -> Option<String> {
        let all = lent.length + GUARD;
        let written = answer.written as usize;
        let noise = &self.noise[lent.salt..];
        if written > lent.length {
            return Some("more bytes written than lent".to_string());
        }
        if self.lib_out[written..all] != noise[written..all] {
            return Some("output changed after the bytes written".to_string());
        }
        let (lib, peer) = (&self.lib_out[..all], &self.peer_out[..all]);
        (lib != peer).then(|| format!("outputs {} and {}", hex(&lib[..written]), hex(&peer[..written])))
    }

    pub(super) fn record(
        &mut self,
        entry: Entry,
        answer: c::Answer,
        problem: Option<String>,
        call: impl FnOnce() -> String,
    ) -> bool {
        self.calls += 1;
        self.calls_on_states += u64::from(entry.is_call_on_state());
        inputs::note_written(&mut self.counts, answer.written);
        if answer.kind == 0 {
            self.counts.refusal(entry, answer.refusal);
        } else {
            self.counts.kind(entry, answer.kind);
        }
        let Some(problem) = problem else {
            return true;
        };
        self.report(entry, &problem, &call());
        false
    }

    /// Takes down whether a client that read everything has the server's number and rows.
    pub fn judge_follower(&mut self, follows: bool) {
        if follows {
            self.followers += 1;
        } else {
            self.report(Entry::Subscriber, "a client that read everything does not have the server's rows", "");
        }
    }

    pub fn report(&mut self, entry: Entry, problem: &str, call: &str) {
        self.differences += 1;
        println!("DIFFERENCE in call {} ({entry:?}): {problem}\n  {call}", self.calls);
    }

    pub(super) fn server_call(
        &mut self,
        entry: Entry,
        pair: &mut ServerPair,
        length: usize,
        lib_call: impl FnOnce(&mut c::Server, &mut [u8]) -> c::Answer,
        peer_call: impl FnOnce(Server, &mut [u8]) -> (Server, Answer),
        call: impl FnOnce() -> String,
    ) -> c::Answer {
        inputs::note_state(&mut self.counts, pair.lib.header.number, pair.lib.header.count);
        let lent = self.lend(length);
        self.server_before.bytes_mut().copy_from_slice(pair.lib.bytes());
        let lib = lib_call(&mut pair.lib, &mut self.lib_out[..length]);
        let (state, answer) = peer_call(*pair.peer, &mut self.peer_out[..length]);
        *pair.peer = state;
        let kept = || pair.lib.bytes() == self.server_before.bytes();
        let may_change = match entry {
            Entry::ServerStart => true,
            Entry::Icanhaz => false,
            _ => lib.kind != 0,
        };
        let changed = !may_change && !kept();
        let problem = answer_problem(lib, answer)
            .or_else(|| self.output_problem(lent, lib))
            .or_else(|| changed.then(|| "bits of the state changed".to_string()))
            .or_else(|| meaning::server_difference(&pair.lib, &pair.peer));
        if !self.record(entry, lib, problem, call) {
            pair.peer = meaning::server_view(&pair.lib);
        }
        lib
    }

    pub(super) fn client_call(
        &mut self,
        entry: Entry,
        pair: &mut ClientPair,
        length: usize,
        lib_call: impl FnOnce(&mut c::Client, &mut [u8]) -> c::Answer,
        peer_call: impl FnOnce(&mut Client, &mut [u8]) -> Answer,
        call: impl FnOnce() -> String,
    ) -> c::Answer {
        inputs::note_state(&mut self.counts, pair.lib.header.number, pair.lib.header.count);
        let lent = self.lend(length);
        self.client_before.bytes_mut().copy_from_slice(pair.lib.bytes());
        let lib = lib_call(&mut pair.lib, &mut self.lib_out[..length]);
        let answer = peer_call(&mut pair.peer, &mut self.peer_out[..length]);
        let kept = || pair.lib.bytes() == self.client_before.bytes();
        let may_change = match entry {
            Entry::ClientStart => true,
            Entry::Snapshot | Entry::Subscriber => lib.kind != 0,
            _ => false,
        };
        let changed = !may_change && !kept();
        let problem = answer_problem(lib, answer)
            .or_else(|| self.output_problem(lent, lib))
            .or_else(|| changed.then(|| "bits of the state changed".to_string()))
            .or_else(|| meaning::client_difference(&pair.lib, &pair.peer));
        if !self.record(entry, lib, problem, call) {
            pair.peer = meaning::client_view(&pair.lib);
        }
        lib
    }
}
