//! Each entry that takes a state, on both sides.

use crate::c::{self, ICANHAZ_MOST, KVPUB_MOST, SNAPSHOT_MOST, VALUE_MOST};
use crate::compare::counts::Entry;
use crate::compare::inputs;
use crate::compare::lockstep::{ClientPair, Lockstep, ServerPair, exact, hex};
use peer::client::Client;
use peer::server::Server;
use peer::{client, server};

impl Lockstep {
    pub fn server_start(&mut self, pair: &mut ServerPair, number: u64, tick: u64) -> c::Answer {
        inputs::note_tick(&mut self.counts, tick, 0);
        let form = self.form;
        let lib = |s: &mut c::Server, _: &mut [u8]| form.server_start(s, number, tick);
        let peer = |_: Server, _: &mut [u8]| server::start(number, tick);
        self.server_call(Entry::ServerStart, pair, 0, lib, peer, || format!("number {number} tick {tick}"))
    }

    pub fn kvset(&mut self, pair: &mut ServerPair, message: &[u8], tick: u64) -> c::Answer {
        let message = &*exact(message);
        inputs::note_five(&mut self.counts, message);
        inputs::note_tick(&mut self.counts, tick, pair.lib.header.last_tick);
        let length = self.choose_length(KVPUB_MOST, |out| server::kvset(*pair.peer, message, tick, out).1);
        let form = self.form;
        let lib = |s: &mut c::Server, out: &mut [u8]| form.server_kvset(s, message, tick, out);
        let peer = |s: Server, out: &mut [u8]| server::kvset(s, message, tick, out);
        let call = || format!("message {} tick {tick} output {length}", hex(message));
        self.server_call(Entry::Kvset, pair, length, lib, peer, call)
    }

    pub fn tick(&mut self, pair: &mut ServerPair, tick: u64) -> c::Answer {
        inputs::note_tick(&mut self.counts, tick, pair.lib.header.last_tick);
        let length = self.choose_length(KVPUB_MOST, |out| server::tick(*pair.peer, tick, out).1);
        let form = self.form;
        let lib = |s: &mut c::Server, out: &mut [u8]| form.server_tick(s, tick, out);
        let peer = |s: Server, out: &mut [u8]| server::tick(s, tick, out);
        self.server_call(Entry::Tick, pair, length, lib, peer, || format!("tick {tick} output {length}"))
    }

    pub fn icanhaz(&mut self, pair: &mut ServerPair, message: &[u8]) -> c::Answer {
        let message = &*exact(message);
        inputs::note_request(&mut self.counts, message);
        let length = self.choose_length(SNAPSHOT_MOST, |out| server::icanhaz(&pair.peer, message, out));
        let form = self.form;
        let lib = |s: &mut c::Server, out: &mut [u8]| form.server_icanhaz(s, message, out);
        let peer = |s: Server, out: &mut [u8]| {
            let answer = server::icanhaz(&s, message, out);
            (s, answer)
        };
        let call = || format!("message {} output {length}", hex(message));
        self.server_call(Entry::Icanhaz, pair, length, lib, peer, call)
    }

    pub fn client_start(&mut self, pair: &mut ClientPair, subtree: &[u8], tick: u64) -> c::Answer {
        let subtree = &*exact(subtree);
        inputs::note_tick(&mut self.counts, tick, 0);
        let form = self.form;
        let lib = |c: &mut c::Client, _: &mut [u8]| form.client_start(c, subtree, tick);
        let peer = |c: &mut Client, _: &mut [u8]| {
            let (state, answer) = client::start(subtree, tick);
            *c = state;
            answer
        };
        let call = || format!("subtree {} tick {tick}", hex(subtree));
        self.client_call(Entry::ClientStart, pair, 0, lib, peer, call)
    }

    pub fn snapshot(&mut self, pair: &mut ClientPair, message: &[u8]) -> c::Answer {
        let message = &*exact(message);
        inputs::note_five(&mut self.counts, message);
        let form = self.form;
        let lib = |c: &mut c::Client, _: &mut [u8]| form.client_snapshot(c, message);
        let peer = |c: &mut Client, _: &mut [u8]| {
            let (state, answer) = client::snapshot(*c, message);
            *c = state;
            answer
        };
        self.client_call(Entry::Snapshot, pair, 0, lib, peer, || format!("message {}", hex(message)))
    }

    pub fn subscriber(&mut self, pair: &mut ClientPair, message: &[u8], tick: u64) -> c::Answer {
        let message = &*exact(message);
        inputs::note_five(&mut self.counts, message);
        inputs::note_tick(&mut self.counts, tick, pair.lib.header.clock);
        let form = self.form;
        let lib = |c: &mut c::Client, _: &mut [u8]| form.client_subscriber(c, message, tick);
        let peer = |c: &mut Client, _: &mut [u8]| {
            let (state, answer) = client::subscriber(*c, message, tick);
            *c = state;
            answer
        };
        let call = || format!("message {} tick {tick}", hex(message));
        self.client_call(Entry::Subscriber, pair, 0, lib, peer, call)
    }

    pub fn write_icanhaz(&mut self, pair: &mut ClientPair) -> c::Answer {
        let length = self.choose_length(ICANHAZ_MOST, |out| client::write_icanhaz(&pair.peer, out));
        let form = self.form;
        let lib = |c: &mut c::Client, out: &mut [u8]| form.client_write_icanhaz(c, out);
        let peer = |c: &mut Client, out: &mut [u8]| client::write_icanhaz(c, out);
        self.client_call(Entry::WriteIcanhaz, pair, length, lib, peer, || format!("output {length}"))
    }

    /// The fields are key, UUID, properties and value.
    pub fn write_kvset(&mut self, pair: &mut ClientPair, fields: [&[u8]; 4]) -> c::Answer {
        let copies = fields.map(exact);
        let fields = copies.each_ref().map(|field| &**field);
        inputs::note_fields(&mut self.counts, fields);
        let [key, uuid, properties, value] = fields;
        let write = |c: &Client, out: &mut [u8]| client::write_kvset(c, key, uuid, properties, value, out);
        let length = self.choose_length(KVPUB_MOST, |out| write(&pair.peer, out));
        let form = self.form;
        let lib = |c: &mut c::Client, out: &mut [u8]| form.client_write_kvset(c, fields, out);
        let peer = |c: &mut Client, out: &mut [u8]| write(c, out);
        let call = || format!("fields {:?} output {length}", fields.map(hex));
        self.client_call(Entry::WriteKvset, pair, length, lib, peer, call)
    }

    pub fn ask(&mut self, pair: &mut ClientPair, tick: u64) -> c::Answer {
        inputs::note_tick(&mut self.counts, tick, pair.lib.header.clock);
        let form = self.form;
        let lib = |c: &mut c::Client, _: &mut [u8]| form.client_ask(c, tick);
        let peer = |c: &mut Client, _: &mut [u8]| client::ask(c, tick);
        self.client_call(Entry::Ask, pair, 0, lib, peer, || format!("tick {tick}"))
    }

    pub fn lookup(&mut self, pair: &mut ClientPair, key: &[u8]) -> c::Answer {
        let key = &*exact(key);
        let length = self.choose_length(VALUE_MOST, |out| client::lookup(&pair.peer, key, out));
        let form = self.form;
        let lib = |c: &mut c::Client, out: &mut [u8]| form.client_lookup(c, key, out);
        let peer = |c: &mut Client, out: &mut [u8]| client::lookup(c, key, out);
        let call = || format!("key {} output {length}", hex(key));
        self.client_call(Entry::Lookup, pair, length, lib, peer, call)
    }
}
