//! Calls made one after another over all lengths and places, not at random: keys, subtrees and their
//! order with one byte changed at each place. A check that looks at several bytes at once must not
//! miss any of them, nor look at what comes after the key.

use crate::c;
use crate::compare::caller::Caller;
use crate::compare::fields;
use crate::compare::lockstep::{ClientPair, ServerPair};
use crate::compare::{plant, wire};

/// A slash and as many letters as make this length.
fn plain_key(length: usize) -> Vec<u8> {
    let mut key = vec![b'k'; length];
    key[0] = b'/';
    key
}

fn with_byte(key: &[u8], at: usize, byte: u8) -> Vec<u8> {
    let mut key = key.to_vec();
    key[at] = byte;
    key
}

/// A server, a waiting and a live client, for the calls that take a key or a subtree.
struct Listeners {
    server: ServerPair,
    started: ClientPair,
    live: ClientPair,
}

impl Caller {
    pub fn sweep(&mut self) {
        let mut listeners = self.listeners();
        for length in 1..=98 {
            let key = plain_key(length);
            self.key_everywhere(&mut listeners, &key);
            for at in 0..length {
                self.key_everywhere(&mut listeners, &with_byte(&key, at, 0));
                self.key_everywhere(&mut listeners, &with_byte(&key, at, b'/'));
                self.key_everywhere(&mut listeners, &with_byte(&with_byte(&key, at, b'/'), at.max(1) - 1, b'/'));
            }
        }
        self.sweep_order();
        self.sweep_under();
    }

    fn listeners(&mut self) -> Listeners {
        let random = &mut self.random;
        let server = ServerPair::of(plant::server(random, 1));
        let started = ClientPair::of(plant::client(random, 0, b""));
        let mut live = plant::client(random, 20, b"");
        (live.header.phase, live.header.number) = (1, 0);
        Listeners { server, started, live: ClientPair::of(live) }
    }

    /// A key, or what is none, wherever one is taken: in a message, as an argument, with a slash as
    /// a subtree, and in a state. Also asks whether it is one.
    fn key_everywhere(&mut self, listeners: &mut Listeners, key: &[u8]) {
        let removal = wire::encode(&[key, &[0; 8], b"", b"", b""]);
        let tick = listeners.server.lib.header.last_tick;
        self.run.kvset(&mut listeners.server, &removal, tick);
        self.run.lookup(&mut listeners.live, key);
        let subtree = [key, b"/"].concat();
        self.run.is_key(key);
        self.run.is_subtree(key);
        self.run.is_subtree(&subtree);
        self.run.client_start(&mut listeners.started, &subtree, 0);
        if key.len() <= c::KEY_MOST {
            self.rows_in_states(&[key]);
        }
        if subtree.len() <= c::KEY_MOST {
            self.ask_client(&[], &subtree);
        }
    }

    /// Both ends with rows of these keys.
    fn rows_in_states(&mut self, keys: &[&[u8]]) {
        let mut s = plant::server(&mut self.random, keys.len());
        for (i, key) in keys.iter().enumerate() {
            plant::put_key(&mut *s, i, key);
        }
        let tick = s.header.last_tick;
        self.run.tick(&mut ServerPair::of(s), tick);
        self.ask_client(keys, b"");
    }

    /// A client of this subtree with rows of these keys.
    fn ask_client(&mut self, keys: &[&[u8]], subtree: &[u8]) {
        let mut client = plant::client(&mut self.random, keys.len(), b"");
        for (i, key) in keys.iter().enumerate() {
            plant::put_key(&mut *client, i, key);
        }
        plant::put_subtree(&mut client, subtree);
        let clock = client.header.clock;
        self.run.ask(&mut ClientPair::of(client), clock);
    }

    /// Two rows whose keys differ from each place on, and two of which one is the other's beginning,
    /// rising and falling.
    fn sweep_order(&mut self) {
        for at in 1..c::KEY_MOST {
            for length in [at + 1, (at + 9).min(c::KEY_MOST), c::KEY_MOST] {
                let (short, long) = (plain_key(at + 1), plain_key(length));
                for (low, high) in [(1, 255), (b'j', b'k'), (b'k', b'l'), (127, 128)] {
                    let (low, high) = (with_byte(&short, at, low), with_byte(&long, at, high));
                    self.both_orders(&low, &high);
                }
                let (low, high) = (with_byte(&long, at, b'j'), with_byte(&short, at, b'l'));
                self.both_orders(&low, &high);
                self.both_orders(&short, &long);
            }
        }
    }

    fn both_orders(&mut self, first: &[u8], second: &[u8]) {
        self.rows_in_states(&[first, second]);
        self.rows_in_states(&[second, first]);
    }

    /// Subtrees of each length, and a key that leaves them at each place.
    fn sweep_under(&mut self) {
        for length in 3..c::KEY_MOST {
            let mut subtree = plain_key(length);
            subtree[length - 1] = b'/';
            let under = [&subtree[..], b"x"].concat();
            let mut waiting = plant::client(&mut self.random, 0, &subtree);
            (waiting.header.phase, waiting.header.number) = (0, 0);
            let mut live = waiting.clone();
            live.header.phase = 1;
            let (mut waiting, mut live) = (ClientPair::of(waiting), ClientPair::of(live));
            for at in 1..=length {
                let key = with_byte(&under, at, b'j');
                self.run.is_under(&subtree, &key);
                self.ask_client(&[&key], &subtree);
                let kvsync = fields::kvsync(&mut self.random, key.clone()).encode(&mut self.random);
                self.run.snapshot(&mut waiting, &kvsync);
                let kvpub = wire::encode(&[&key, &(at as u64).to_be_bytes(), b"", b"", b"v"]);
                self.run.subscriber(&mut live, &kvpub, 0);
            }
        }
    }
}
