//! Chooses the arguments of calls, good and bad, for any pair of states.

use crate::c;
use crate::compare::fields::{self, FAR, Five, Mix};
use crate::compare::lockstep::{ClientPair, Lockstep, ServerPair};
use crate::compare::{names, wire};
use crate::random::Random;
use peer::{NUMBER_MAX, TICK_MAX};

/// The client's subtree, as far as there is room for one.
fn held_subtree(pair: &ClientPair) -> &[u8] {
    &pair.lib.subtree[..pair.lib.header.subtree_length.min(96) as usize]
}

pub struct Caller {
    pub run: Lockstep,
    pub random: Random,
    /// The keys that most updates are about.
    pub pool: Vec<Vec<u8>>,
    pub mix: Mix,
    /// Whose turn it is among the ways to make a server or a client ill-formed or odd.
    pub turns: [usize; 4],
}

impl Caller {
    fn pool_key(&mut self) -> Vec<u8> {
        let at = self.random.below(self.pool.len());
        self.pool[at].clone()
    }

    pub(super) fn some_key(&mut self) -> Vec<u8> {
        if self.random.percent(95) { self.pool_key() } else { names::key(&mut self.random) }
    }

    /// A tick that is not accepted after this one, or would not have been.
    fn bad_tick(&mut self, last: u64) -> u64 {
        self.random.pick(&[last.saturating_sub(1), 0, last / 2, TICK_MAX + 1, TICK_MAX + 1, u64::MAX])
    }

    /// A KVSET that is accepted unless the table, the number, the tick or the output forbids.
    pub fn good_kvset(&mut self, pair: &mut ServerPair, tick: u64) -> c::Answer {
        let key = self.some_key();
        let sequence = fields::any_sequence(&mut self.random);
        let message = fields::update(&mut self.random, self.mix, key, sequence).encode(&mut self.random);
        self.run.kvset(pair, &message, tick)
    }

    /// A KVSET with bad fields, damage or a bad tick.
    pub fn bad_kvset(&mut self, pair: &mut ServerPair, tick: u64) -> c::Answer {
        let key = self.some_key();
        let sequence = fields::any_sequence(&mut self.random);
        let mut five = fields::update(&mut self.random, self.mix, key, sequence);
        let kind = self.random.below(10);
        if kind < 5 {
            fields::spoil_update(&mut self.random, &mut five);
        }
        let mut message = five.encode(&mut self.random);
        if (5..8).contains(&kind) {
            wire::damage(&mut self.random, &mut message);
        }
        let tick = if kind >= 8 { self.bad_tick(pair.lib.header.last_tick) } else { tick };
        self.run.kvset(pair, &message, tick)
    }

    pub fn bad_server_tick(&mut self, pair: &mut ServerPair) -> c::Answer {
        let tick = self.bad_tick(pair.lib.header.last_tick);
        self.run.tick(pair, tick)
    }

    /// A snapshot request, good or bad.
    pub fn request(&mut self, pair: &mut ServerPair) -> c::Answer {
        let mut subtree = names::subtree(&mut self.random);
        let mut word = b"ICANHAZ?".to_vec();
        let length = self.random.pick(&[1, 1, 5, 5, 254, 255]);
        let mut identity = self.random.bytes(length);
        for _ in 0..self.random.pick(&[0, 0, 0, 1, 1, 2]) {
            match self.random.below(3) {
                0 => identity = self.random.pick(&[&[][..], &[7; 256], &[7; 256], &[7; 300], &[7; FAR + 5]]).to_vec(),
                1 => word = self.random.pick(&["ICANHAZ", "ICANHAZ!", "icanhaz?", "ICANHAZ?\0", "", "HUGZ"]).into(),
                _ => subtree = names::bad_subtree(&mut self.random),
            }
        }
        let mut message = if self.random.percent(10) {
            wire::encode_with_long_sizes(&mut self.random, &[&identity, &word, &subtree])
        } else if self.random.percent(5) {
            wire::encode(&[&word, &subtree])
        } else {
            wire::encode(&[&identity, &word, &subtree])
        };
        if self.random.percent(10) {
            wire::damage(&mut self.random, &mut message);
        }
        self.run.icanhaz(pair, &message)
    }

    /// A number for a KVPUB or KTHXBAI, mostly near the client's.
    pub(super) fn number_near(&mut self, number: u64) -> u64 {
        let any = self.random.next() >> 1;
        let far = if self.random.percent(3) { self.random.pick(&[NUMBER_MAX, NUMBER_MAX - 1, any]) } else { number };
        let (next, second) = (number.saturating_add(1), number.saturating_add(2));
        self.random.pick(&[0, number.saturating_sub(1), number, next, next, next, second, far])
    }

    pub(super) fn client_key(&mut self, pair: &ClientPair) -> Vec<u8> {
        if self.random.percent(50) {
            return self.some_key();
        }
        let held = pair.peer.table.count.min(c::ROWS);
        if held > 0 && pair.peer.is_well_formed() && self.random.percent(60) {
            return pair.peer.table.rows[self.random.below(held)].key().to_vec();
        }
        if self.random.percent(15) {
            return names::key_near(&mut self.random, held_subtree(pair));
        }
        names::key_under(&mut self.random, held_subtree(pair))
    }

    /// Mostly the client's subtree; else another, or one that differs in a single byte.
    fn subtree_near(&mut self, pair: &ClientPair) -> Vec<u8> {
        let mut subtree = held_subtree(pair).to_vec();
        match self.random.below(10) {
            0 => return names::subtree(&mut self.random),
            1 if !subtree.is_empty() => {
                let at = self.random.below(subtree.len());
                subtree[at] ^= 1;
            }
            _ => {}
        }
        subtree
    }

    /// A message as it is, with bad fields, or damaged.
    fn perhaps_bad(&mut self, mut five: Five, spoil: fn(&mut Random, &mut Five)) -> Vec<u8> {
        let kind = self.random.below(10);
        if kind < 3 {
            spoil(&mut self.random, &mut five);
        }
        let mut message = five.encode(&mut self.random);
        if kind == 3 {
            wire::damage(&mut self.random, &mut message);
        }
        message
    }

    /// A KVPUB or HUGZ that no server wrote.
    pub fn forged_publication(&mut self, pair: &mut ClientPair, tick: u64) -> c::Answer {
        let tick = if self.random.percent(20) { self.bad_tick(pair.lib.header.clock) } else { tick };
        let message = if self.random.percent(25) {
            self.perhaps_bad(fields::hugz(), fields::spoil_empty_middle)
        } else {
            let sequence = self.number_near(pair.lib.header.number).to_be_bytes().to_vec();
            let key = self.client_key(pair);
            let kvpub = fields::update(&mut self.random, self.mix, key, sequence);
            self.perhaps_bad(kvpub, fields::spoil_update)
        };
        self.run.subscriber(pair, &message, tick)
    }

    /// A KVSYNC or KTHXBAI that no server wrote.
    pub fn forged_snapshot(&mut self, pair: &mut ClientPair) -> c::Answer {
        let five = if self.random.percent(15) {
            let number = self.number_near(pair.lib.header.number);
            fields::kthxbai(number, &self.subtree_near(pair))
        } else {
            let key = self.client_key(pair);
            fields::kvsync(&mut self.random, key)
        };
        let message = self.perhaps_bad(five, fields::spoil_empty_middle);
        self.run.snapshot(pair, &message)
    }

    /// A KVSET from a client, good or bad; gives the bytes where it wrote some.
    pub fn write_kvset(&mut self, pair: &mut ClientPair) -> Option<Vec<u8>> {
        let key = self.some_key();
        let mut five = fields::update(&mut self.random, self.mix, key, Vec::new());
        if self.random.percent(40) {
            fields::spoil_update(&mut self.random, &mut five);
        }
        let answer = self.run.write_kvset(pair, [&five.first, &five.uuid, &five.properties, &five.last]);
        (answer.kind != 0).then(|| self.run.written(answer))
    }

    /// Asks at, just before and just after the end of the silence, and elsewhere.
    pub fn ask(&mut self, pair: &mut ClientPair, tick: u64) -> c::Answer {
        let clock = pair.lib.header.clock;
        let bad = self.bad_tick(clock);
        let end = clock.saturating_add(5000);
        let tick = self.random.pick(&[tick, tick, end, end.saturating_add(1), end - 1, clock, TICK_MAX, bad, bad]);
        self.run.ask(pair, tick)
    }

    pub fn lookup(&mut self, pair: &mut ClientPair) -> c::Answer {
        let key = if self.random.percent(10) { names::bad_key(&mut self.random) } else { self.client_key(pair) };
        self.run.lookup(pair, &key)
    }

    /// The entries that look at frames alone, for a message of any kind.
    pub fn frames(&mut self) {
        let last = match self.random.below(4) {
            0 => fields::bad_value(&mut self.random),
            1 => Vec::new(),
            _ => fields::value(&mut self.random),
        };
        let mut five = fields::kvsync(&mut self.random, Vec::new());
        five.first = if self.random.percent(50) { self.some_key() } else { names::bad_key(&mut self.random) };
        five.last = last;
        let mut message = five.encode(&mut self.random);
        if self.random.percent(50) {
            wire::damage(&mut self.random, &mut message);
        }
        self.run.value(&message);
        self.run.message_length(&message);
        self.run.walk(&message);
    }

    /// Asks about names, good and bad, and whether one is under another.
    pub fn names(&mut self) {
        for _ in 0..4 {
            let name = self.some_name();
            self.run.is_key(&name);
            self.run.is_subtree(&name);
            let other = match self.random.below(8) {
                0 => self.some_name(),
                1 => Vec::new(),
                2 => name.clone(),
                3 => [&name[..], b"x"].concat(),
                _ => self.beginning(&name),
            };
            self.run.is_under(&other, &name);
        }
    }

    fn some_name(&mut self) -> Vec<u8> {
        let random = &mut self.random;
        match random.below(8) {
            0 | 1 => names::key(random),
            2 => names::bad_key(random),
            3 => names::subtree(random),
            4 => names::bad_subtree(random),
            5 => {
                let subtree = names::subtree(random);
                names::key_near(random, &subtree)
            }
            6 => [names::key(random), b"/".to_vec()].concat(),
            _ => {
                let length = random.between(0, 200);
                random.bytes(length)
            }
        }
    }

    /// A beginning of a name, mostly as it is, or else with one bit changed, in its last byte or anywhere.
    fn beginning(&mut self, name: &[u8]) -> Vec<u8> {
        let random = &mut self.random;
        let mut part = name[..random.below(name.len() + 1)].to_vec();
        if !part.is_empty() && random.percent(50) {
            let (last, any) = (part.len() - 1, random.below(part.len()));
            let at = random.pick(&[last, last, any]);
            part[at] ^= 1 << random.below(8);
        }
        part
    }
}
