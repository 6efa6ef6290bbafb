//! Calls at every entry on states that are ill-formed in one way, or odd and well-formed.

use crate::c::{self, Plain, Table};
use crate::compare::caller::Caller;
use crate::compare::counts::{Entry, Sort};
use crate::compare::lockstep::{ClientPair, ServerPair};
use crate::compare::ways::{CLIENT_WAYS, ODD_CLIENTS, ODD_SERVERS, SERVER_WAYS, TABLE_WAYS};
use crate::compare::{names, plant};
use peer::TICK_MAX;

const ILL_FORMED: u64 = 16;

impl Caller {
    /// Makes such a state, calls every entry on it and looks at its rows.
    pub fn odd_state(&mut self) {
        match self.random.below(9) {
            0..3 => self.ill_formed_server(),
            3..6 => self.ill_formed_client(),
            6 => self.odd_server(),
            7 => self.odd_client(),
            _ => self.rows_of_noise(),
        }
    }

    /// The next of so many ways; all have their turn, so that a short run meets each of them.
    fn turn(&mut self, sort: usize, ways: usize) -> usize {
        self.turns[sort] += 1;
        self.turns[sort] % ways
    }

    fn rows(&mut self) -> usize {
        let any = self.random.between(2, c::ROWS);
        self.random.pick(&[2, any, c::ROWS, c::ROWS])
    }

    fn ill_formed_server(&mut self) {
        let rows = self.rows();
        let mut lib = plant::server(&mut self.random, rows);
        let at = self.turn(0, TABLE_WAYS.len() + SERVER_WAYS.len());
        let name = if let Some(way) = TABLE_WAYS.get(at) {
            (way.apply)(&mut self.random, &mut *lib);
            way.name
        } else {
            let way = &SERVER_WAYS[at - TABLE_WAYS.len()];
            (way.apply)(&mut self.random, &mut lib);
            way.name
        };
        self.call_server(&mut ServerPair::of(lib), name, true);
    }

    fn ill_formed_client(&mut self) {
        let rows = self.rows();
        // With the empty subtree a bad key cannot be refused for not being under it.
        let mut lib = plant::client(&mut self.random, rows, b"");
        let at = self.turn(1, TABLE_WAYS.len() + CLIENT_WAYS.len());
        let name = if let Some(way) = TABLE_WAYS.get(at) {
            (way.apply)(&mut self.random, &mut *lib);
            way.name
        } else {
            let way = &CLIENT_WAYS[at - TABLE_WAYS.len()];
            (way.apply)(&mut self.random, &mut lib);
            way.name
        };
        self.call_client(&mut ClientPair::of(lib), name, true);
    }

    fn odd_server(&mut self) {
        let rows = self.rows();
        let way = &ODD_SERVERS[self.turn(2, ODD_SERVERS.len())];
        let mut lib = plant::server(&mut self.random, rows);
        (way.apply)(&mut self.random, &mut lib);
        self.call_server(&mut ServerPair::of(lib), way.name, false);
    }

    fn odd_client(&mut self) {
        let rows = self.rows();
        let way = &ODD_CLIENTS[self.turn(3, ODD_CLIENTS.len())];
        let mut subtree = names::subtree(&mut self.random);
        if subtree.len() > 90 {
            // Too few keys fit under it.
            subtree.clear();
        }
        let mut lib = plant::client(&mut self.random, rows, &subtree);
        (way.apply)(&mut self.random, &mut lib);
        self.call_client(&mut ClientPair::of(lib), way.name, false);
    }

    /// Counts a call on such a state, and reports it if the state was not judged as it should be.
    fn judged(&mut self, entry: Entry, answer: c::Answer, name: &str, ill_formed: bool) {
        if (answer.refusal == ILL_FORMED) == ill_formed {
            self.run.counts.sort(if ill_formed { Sort::IllFormed } else { Sort::Odd }, name, entry);
        } else {
            self.run.report(entry, "a state was not judged as it should be", name);
        }
    }

    fn call_server(&mut self, pair: &mut ServerPair, name: &str, ill_formed: bool) {
        let tick = pair.lib.header.last_tick.saturating_add(self.random.pick(&[0, 1, 2000])).min(TICK_MAX);
        let good = self.random.percent(50);
        let answer = if good { self.good_kvset(pair, tick) } else { self.bad_kvset(pair, tick) };
        self.judged(Entry::Kvset, answer, name, ill_formed);
        let answer = if good { self.run.tick(pair, tick) } else { self.bad_server_tick(pair) };
        self.judged(Entry::Tick, answer, name, ill_formed);
        let answer = self.request(pair);
        self.judged(Entry::Icanhaz, answer, name, ill_formed);
        self.run.server_rows(pair);
    }

    fn call_client(&mut self, pair: &mut ClientPair, name: &str, ill_formed: bool) {
        let tick = pair.lib.header.clock.saturating_add(self.random.pick(&[0, 1, 6000])).min(TICK_MAX);
        let answer = self.forged_snapshot(pair);
        self.judged(Entry::Snapshot, answer, name, ill_formed);
        let answer = self.forged_publication(pair, tick);
        self.judged(Entry::Subscriber, answer, name, ill_formed);
        let answer = self.run.write_icanhaz(pair);
        self.judged(Entry::WriteIcanhaz, answer, name, ill_formed);
        let key = self.pool[0].clone();
        let answer = self.run.write_kvset(pair, [&key, b"", b"", b"v"]);
        self.judged(Entry::WriteKvset, answer, name, ill_formed);
        let answer = self.ask(pair, tick);
        self.judged(Entry::Ask, answer, name, ill_formed);
        let answer = self.lookup(pair);
        self.judged(Entry::Lookup, answer, name, ill_formed);
        self.run.client_rows(pair);
    }

    /// The rows of states that are noise all over, but for the count and some lengths.
    fn rows_of_noise(&mut self) {
        let random = &mut self.random;
        let (mut s, mut c) = (c::Server::zeroed(), c::Client::zeroed());
        random.fill(s.bytes_mut());
        random.fill(c.bytes_mut());
        for table in [&mut *s as &mut dyn Table, &mut *c] {
            table.set_count(random.pick(&[table.count(), 1, 63, 64, 65, 66, u64::MAX]));
            for lengths in table.lengths_mut() {
                lengths.key = random.pick(&[lengths.key, 0, 1, 95, 96, 97, 1 << 32, 1 << 63 | 5]);
                lengths.value = random.pick(&[lengths.value, 0, 1, 255, 256, 257, 1 << 32, 1 << 63 | 5]);
            }
        }
        self.run.server_rows(&ServerPair::of(s));
        self.run.client_rows(&ClientPair::of(c));
    }
}
