//! The calls that are measured, on either side, with the same inputs.

use crate::c::{self, Plain};
use crate::form::Form;
use peer::client::{self, Client};
use peer::frames::{message_size, write_message};
use peer::server::{self, Server};

#[derive(Clone, Copy, PartialEq, Eq)]
pub enum Case {
    Replace,
    InsertFront,
    RemoveFront,
    TickNothing,
    Icanhaz,
    Kvpub,
    Lookup,
}

/// Each case, its name on the command line and in the tables.
pub const CASES: [(Case, &str, &str); 7] = [
    (Case::Replace, "replace", "KVSET, value replaced"),
    (Case::InsertFront, "insert", "KVSET, row 1 of 64 added"),
    (Case::RemoveFront, "remove", "KVSET, row 1 of 64 removed"),
    (Case::TickNothing, "tick", "Tick, nothing due"),
    (Case::Icanhaz, "icanhaz", "ICANHAZ, 64 rows"),
    (Case::Kvpub, "kvpub", "KVPUB at the subscriber, value replaced"),
    (Case::Lookup, "lookup", "lookup, found"),
];

/// Keys of one length, by their name on the command line. Work on rows in key order can depend on how
/// much neighbours have in common, so that long keys differ either in their last bytes or in their
/// first ones.
#[derive(Clone, Copy)]
pub struct Keys {
    pub name: &'static str,
    pub title: &'static str,
    length: usize,
    differ_first: bool,
}

pub const KEYS: [Keys; 3] = [
    Keys { name: "16", title: "16", length: 16, differ_first: false },
    Keys { name: "96", title: "96", length: 96, differ_first: false },
    Keys { name: "96-first", title: "96, differ at once", length: 96, differ_first: true },
];

impl Keys {
    /// The keys of all rows, in order.
    fn list(self) -> Vec<Vec<u8>> {
        let filler = "k".repeat(self.length - 8);
        let key = |i| if self.differ_first { format!("/{i:05}/{filler}k") } else { format!("/{filler}/k{i:05}") };
        (0..ROWS).map(|i| key(i).into()).collect()
    }
}
pub const VALUE_LENGTH: usize = 32;
const ROWS: usize = 64;
const WROTE: u64 = 8;

/// The calls of one side. Each gives the answer's kind.
pub trait Side {
    fn kvset(&mut self, message: &[u8]) -> u64;
    fn tick(&mut self) -> u64;
    fn icanhaz(&mut self, request: &[u8]) -> u64;
    fn snapshot(&mut self, message: &[u8]) -> u64;
    fn subscriber(&mut self, message: &[u8]) -> u64;
    fn lookup(&mut self, key: &[u8]) -> u64;
}

pub struct Library<F> {
    form: F,
    server: Box<c::Server>,
    client: Box<c::Client>,
    out: Vec<u8>,
}

pub struct Peer {
    server: Box<Server>,
    client: Box<Client>,
    out: Vec<u8>,
}

const OUTPUT: usize = 41_000;

impl<F: Form> Library<F> {
    pub fn new(form: F) -> Library<F> {
        let (mut server, mut client) = (c::Server::zeroed(), c::Client::zeroed());
        form.server_start(&mut server, 0, 0);
        form.client_start(&mut client, b"", 0);
        Library { form, server, client, out: vec![0; OUTPUT] }
    }
}

impl Peer {
    pub fn new() -> Peer {
        let (server, client) = (Box::new(server::start(0, 0).0), Box::new(client::start(b"", 0).0));
        Peer { server, client, out: vec![0; OUTPUT] }
    }
}

impl<F: Form> Side for Library<F> {
    fn kvset(&mut self, message: &[u8]) -> u64 {
        self.form.server_kvset(&mut self.server, message, 0, &mut self.out).kind
    }

    fn tick(&mut self) -> u64 {
        self.form.server_tick(&mut self.server, 0, &mut self.out).kind
    }

    fn icanhaz(&mut self, request: &[u8]) -> u64 {
        self.form.server_icanhaz(&self.server, request, &mut self.out).kind
    }

    fn snapshot(&mut self, message: &[u8]) -> u64 {
        self.form.client_snapshot(&mut self.client, message).kind
    }

    fn subscriber(&mut self, message: &[u8]) -> u64 {
        self.form.client_subscriber(&mut self.client, message, 0).kind
    }

    fn lookup(&mut self, key: &[u8]) -> u64 {
        self.form.client_lookup(&self.client, key, &mut self.out).kind
    }
}

impl Side for Peer {
    fn kvset(&mut self, message: &[u8]) -> u64 {
        server::kvset_in_place(&mut self.server, message, 0, &mut self.out).kind as u64
    }

    fn tick(&mut self) -> u64 {
        server::tick_in_place(&mut self.server, 0, &mut self.out).kind as u64
    }

    fn icanhaz(&mut self, request: &[u8]) -> u64 {
        server::icanhaz(&self.server, request, &mut self.out).kind as u64
    }

    fn snapshot(&mut self, message: &[u8]) -> u64 {
        client::snapshot_in_place(&mut self.client, message).kind as u64
    }

    fn subscriber(&mut self, message: &[u8]) -> u64 {
        client::subscriber_in_place(&mut self.client, message, 0).kind as u64
    }

    fn lookup(&mut self, key: &[u8]) -> u64 {
        client::lookup(&self.client, key, &mut self.out).kind as u64
    }
}

fn message(bodies: &[&[u8]]) -> Vec<u8> {
    let mut bytes = vec![0; message_size(bodies)];
    write_message(&mut bytes, bodies);
    bytes
}

/// One side with its tables filled, and the inputs of one case.
pub struct Bench<S> {
    side: S,
    case: Case,
    keys: Vec<Vec<u8>>,
    sets: Vec<Vec<u8>>,
    remove_front: Vec<u8>,
    request: Vec<u8>,
    calls: u64,
}

impl<S: Side> Bench<S> {
    pub fn new(side: S, case: Case, keys: Keys) -> Bench<S> {
        let keys = keys.list();
        let set = |key: &Vec<u8>| message(&[key, &[0; 8], b"", b"", &[7; VALUE_LENGTH]]);
        let sets = keys.iter().map(set).collect();
        let remove_front = message(&[&keys[0], &[0; 8], b"", b"", b""]);
        let request = message(&[b"12345", b"ICANHAZ?", b""]);
        let mut bench = Bench { side, case, keys, sets, remove_front, request, calls: 0 };
        bench.fill();
        bench
    }

    fn fill(&mut self) {
        for set in &self.sets {
            assert_eq!(self.side.kvset(set), WROTE);
            assert_eq!(self.side.snapshot(set), 5);
        }
        let kthxbai = message(&[b"KTHXBAI", &[0; 8], b"", b"", b""]);
        assert_eq!(self.side.snapshot(&kthxbai), 6);
        if self.case == Case::InsertFront {
            self.side.kvset(&self.remove_front);
        }
    }

    /// The call that is measured. Keys take turns.
    pub fn call(&mut self) {
        self.calls += 1;
        let turn = (self.calls * 37) as usize % ROWS;
        let (kind, expected) = match self.case {
            Case::Replace => (self.side.kvset(&self.sets[turn]), WROTE),
            Case::InsertFront => (self.side.kvset(&self.sets[0]), WROTE),
            Case::RemoveFront => (self.side.kvset(&self.remove_front), WROTE),
            Case::TickNothing => (self.side.tick(), 9),
            Case::Icanhaz => (self.side.icanhaz(&self.request), WROTE),
            Case::Kvpub => {
                let place = self.keys[turn].len() + 4;
                self.sets[turn][place..place + 8].copy_from_slice(&self.calls.to_be_bytes());
                (self.side.subscriber(&self.sets[turn]), 2)
            }
            Case::Lookup => (self.side.lookup(&self.keys[turn]), 10),
        };
        assert_eq!(kind, expected);
    }

    /// Whether `undo` has to follow each call.
    pub fn has_undo(&self) -> bool {
        matches!(self.case, Case::InsertFront | Case::RemoveFront)
    }

    /// Makes the next call find what this one found; not measured.
    pub fn undo(&mut self) {
        match self.case {
            Case::InsertFront => assert_eq!(self.side.kvset(&self.remove_front), WROTE),
            Case::RemoveFront => assert_eq!(self.side.kvset(&self.sets[0]), WROTE),
            _ => {}
        }
    }
}
