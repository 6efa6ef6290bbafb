//! A run of calls on one server and several clients that listen to it.

use crate::c::{self, Plain};
use crate::compare::caller::Caller;
use crate::compare::counts::Topic;
use crate::compare::fields::Mix;
use crate::compare::lockstep::{ClientPair, ServerPair};
use crate::compare::{meaning, names, plant, wire};
use crate::form::Part;
use peer::TICK_MAX;
use peer::client::Phase;
use peer::parts::{ICANHAZ_ROOM, KVSET_ROOM, SNAPSHOT_ROOM, SUBSCRIBER_ROOM};
use std::collections::VecDeque;

/// A client, what it has yet to read of a snapshot, and how far it has read what was published.
struct Desk {
    pair: ClientPair,
    snapshot: VecDeque<Vec<u8>>,
    next: usize,
}

pub struct Session<'a> {
    caller: &'a mut Caller,
    server: ServerPair,
    desks: Vec<Desk>,
    published: Vec<Vec<u8>>,
    tick: u64,
    /// Nothing is lost, forged or damaged on the way to the clients, so that their maps can be
    /// held against the server's in the end. All that is sent is split into parts and built again.
    clean: bool,
}

impl<'a> Session<'a> {
    pub fn new(caller: &'a mut Caller) -> Session<'a> {
        let clean = caller.random.percent(25);
        let removals = caller.random.pick(&[2, 10, 40]);
        caller.mix = Mix { removals, ttls: caller.random.pick(&[0, 10, 40]) };
        let size = caller.random.pick(&[8, 40, 90]);
        caller.pool = names::different_keys(&mut caller.random, size, b"");
        let server = start_server(caller);
        let tick = server.lib.header.last_tick;
        let mut session = Session { caller, server, desks: Vec::new(), published: Vec::new(), tick, clean };
        for _ in 0..3 {
            let pair = session.start_client();
            session.desks.push(Desk { pair, snapshot: VecDeque::new(), next: 0 });
        }
        session
    }

    fn start_client(&mut self) -> ClientPair {
        let random = &mut self.caller.random;
        let mut lib = c::Client::zeroed();
        random.fill(lib.bytes_mut());
        let bad = !self.clean && random.percent(20);
        let subtree = if bad { names::bad_subtree(random) } else { names::subtree(random) };
        let tick = if self.clean || random.percent(80) {
            self.tick
        } else {
            random.pick(&[0, TICK_MAX, TICK_MAX + 1, u64::MAX])
        };
        let mut pair = ClientPair::of(lib);
        self.caller.run.client_start(&mut pair, &subtree, tick);
        pair
    }

    /// Moves time on, mostly by little.
    fn later(&mut self) -> u64 {
        let random = &mut self.caller.random;
        let step = random.pick(&[0, 0, 0, 0, 1, 10, 499, 500, 999, 1000, 1001, 2000]);
        self.tick = (self.tick + step).min(TICK_MAX);
        if !self.clean && random.below(2000) == 0 {
            self.tick = TICK_MAX;
        }
        self.tick
    }

    /// One action: one call or a few.
    pub fn step(&mut self) {
        let desk = self.caller.random.below(self.desks.len());
        match self.caller.random.below(110) {
            0..24 => self.kvset(true),
            24..33 => self.kvset(false),
            33..42 => self.server_tick(),
            42..44 => _ = self.caller.request(&mut self.server),
            44..60 => self.deliver(desk),
            60..67 => self.forge_publication(desk),
            67..76 => self.snapshot(desk),
            76..81 => self.forge_snapshot(desk),
            81..83 => _ = self.caller.run.write_icanhaz(&mut self.desks[desk].pair),
            83..86 => self.client_kvset(desk),
            86..88 => _ = self.caller.ask(&mut self.desks[desk].pair, self.tick),
            88..92 => _ = self.caller.lookup(&mut self.desks[desk].pair),
            92 => self.scramble(desk),
            93 => self.restart_client(desk),
            94..96 => self.caller.frames(),
            96 => self.full_client(),
            97 if self.caller.random.percent(10) => self.longest_snapshot(),
            97 => self.full_server(),
            98..100 => self.caller.odd_state(),
            100..102 => self.caller.built_messages(),
            102..104 => self.caller.any_parts(),
            104 => self.caller.odd_messages(),
            105..107 => self.caller.walks(),
            107..109 => self.rows(desk),
            _ => self.caller.names(),
        }
    }

    fn publish(&mut self, answer: c::Answer) {
        if answer.kind != 0 && answer.written > 0 {
            self.published.push(self.caller.run.written(answer));
        }
    }

    fn kvset(&mut self, good: bool) {
        let tick = self.later();
        let answer = if good {
            self.caller.good_kvset(&mut self.server, tick)
        } else {
            self.caller.bad_kvset(&mut self.server, tick)
        };
        self.publish(answer);
    }

    fn server_tick(&mut self) {
        let answer = if self.caller.random.percent(5) {
            self.caller.bad_server_tick(&mut self.server)
        } else {
            let tick = self.later();
            self.caller.run.tick(&mut self.server, tick)
        };
        self.publish(answer);
    }

    /// Hands a client what was published: the next message, or in a session that is not clean also
    /// an old one, a later one, a damaged one, or none at all. A refused message stays the next.
    fn deliver(&mut self, desk: usize) {
        let desk = &mut self.desks[desk];
        let caller = &mut *self.caller;
        if self.published.is_empty() {
            return;
        }
        let choice = if self.clean { caller.random.below(90) } else { caller.random.below(100) };
        let any = caller.random.below(self.published.len());
        let mut at = if choice < 85 { desk.next } else { any };
        if choice < 90 {
            at = at.min(desk.next);
        } else if choice < 93 {
            desk.next += 1;
        }
        let Some(message) = self.published.get(at) else {
            return;
        };
        let mut message = message.clone();
        if self.clean {
            message = caller.run.carry(&message, SUBSCRIBER_ROOM);
        } else if choice >= 97 {
            wire::damage(&mut caller.random, &mut message);
        }
        let answer = caller.run.subscriber(&mut desk.pair, &message, self.tick);
        if answer.kind != 0 && at == desk.next {
            desk.next += 1;
        }
    }

    fn forge_publication(&mut self, desk: usize) {
        if !self.clean {
            let tick = self.tick;
            self.caller.forged_publication(&mut self.desks[desk].pair, tick);
        }
    }

    fn forge_snapshot(&mut self, desk: usize) {
        if !self.clean {
            self.caller.forged_snapshot(&mut self.desks[desk].pair);
        }
    }

    /// Hands a client some messages of its snapshot, or asks for a snapshot where there is none.
    fn snapshot(&mut self, desk: usize) {
        if self.desks[desk].snapshot.is_empty() {
            let desk = &mut self.desks[desk];
            desk.snapshot = ask_for_snapshot(self.caller, &mut self.server, &mut desk.pair);
            return;
        }
        for _ in 0..self.caller.random.pick(&[1, 5, 20]) {
            self.deliver_snapshot(desk);
        }
    }

    /// Hands a client the next message of its snapshot. In a session that is not clean, it may get
    /// lost, damaged, late or twice.
    fn deliver_snapshot(&mut self, desk: usize) {
        let desk = &mut self.desks[desk];
        let caller = &mut *self.caller;
        let Some(mut message) = desk.snapshot.pop_front() else {
            return;
        };
        if !self.clean {
            match caller.random.below(100) {
                0..2 => return,
                2..4 => wire::damage(&mut caller.random, &mut message),
                4..7 => return desk.snapshot.push_back(message),
                7..10 => desk.snapshot.push_front(message.clone()),
                _ => {}
            }
        }
        caller.run.snapshot(&mut desk.pair, &message);
    }

    /// A client writes a KVSET, which may go to the server as it is.
    fn client_kvset(&mut self, desk: usize) {
        let Some(message) = self.caller.write_kvset(&mut self.desks[desk].pair) else {
            return;
        };
        if self.caller.random.percent(50) {
            let tick = self.later();
            let message = self.caller.run.carry(&message, KVSET_ROOM);
            let answer = self.caller.run.kvset(&mut self.server, &message, tick);
            self.publish(answer);
        }
    }

    /// Looks at all rows.
    fn rows(&mut self, desk: usize) {
        self.caller.run.server_rows(&self.server);
        self.caller.run.client_rows(&self.desks[desk].pair);
    }

    /// Noise where bytes mean nothing, on the library's side alone.
    fn scramble(&mut self, desk: usize) {
        let random = &mut self.caller.random;
        let server = &mut self.server.lib;
        plant::scramble(random, &mut **server);
        for stamps in &mut server.stamps[server.header.count as usize..] {
            *stamps = c::RowStamps { number: random.next(), expiry: random.next() };
        }
        let client = &mut self.desks[desk].pair.lib;
        plant::scramble(random, &mut **client);
        let length = client.header.subtree_length as usize;
        random.fill(&mut client.subtree[length..]);
    }

    fn restart_client(&mut self, desk: usize) {
        let pair = self.start_client();
        self.desks[desk] = Desk { pair, snapshot: VecDeque::new(), next: 0 };
    }

    /// Messages to a client with as many rows as it can hold.
    fn full_client(&mut self) {
        let random = &mut self.caller.random;
        let subtree = names::subtree(random);
        let mut pair = ClientPair::of(plant::client(random, c::ROWS, &subtree));
        for _ in 0..4 {
            self.caller.forged_publication(&mut pair, TICK_MAX);
            self.caller.forged_snapshot(&mut pair);
            self.caller.lookup(&mut pair);
        }
        self.caller.run.client_rows(&pair);
    }

    /// Calls on a server with as many rows as it can hold, or nearly.
    fn full_server(&mut self) {
        let random = &mut self.caller.random;
        let rows = random.pick(&[62, 63, 64, 64, 64]);
        let mut pair = ServerPair::of(plant::server(random, rows));
        let mut tick = pair.lib.header.last_tick;
        for _ in 0..4 {
            tick = (tick + self.caller.random.pick(&[0, 1, 1000, 3000])).min(TICK_MAX);
            self.caller.good_kvset(&mut pair, tick);
            self.caller.run.tick(&mut pair, tick);
            self.caller.request(&mut pair);
        }
        self.caller.run.server_rows(&pair);
    }

    /// A snapshot as long as can be.
    fn longest_snapshot(&mut self) {
        let mut pair = ServerPair::of(plant::longest_server(&mut self.caller.random));
        let request = wire::encode(&[&[7; 255], b"ICANHAZ?", &names::subtree_of_95()]);
        self.caller.run.icanhaz(&mut pair, &request);
    }

    /// Lets every client of a clean session read all that it has to, and holds its map against the
    /// server's.
    pub fn finish(mut self) {
        if !self.clean {
            return;
        }
        for desk in 0..self.desks.len() {
            self.drain(desk);
            let client = &self.desks[desk].pair.peer;
            if client.phase == Phase::Live {
                let exact = client.number == self.server.peer.number;
                let follows = exact && meaning::client_follows(&self.server.peer, client);
                self.caller.run.judge_follower(follows);
            }
        }
    }

    fn drain(&mut self, desk: usize) {
        let desk = &mut self.desks[desk];
        while let Some(message) = desk.snapshot.pop_front() {
            self.caller.run.snapshot(&mut desk.pair, &message);
        }
        for message in &self.published[desk.next..] {
            let message = self.caller.run.carry(message, SUBSCRIBER_ROOM);
            self.caller.run.subscriber(&mut desk.pair, &message, self.tick);
        }
    }
}

/// A server from a start, good or bad, or made directly with rows.
fn start_server(caller: &mut Caller) -> ServerPair {
    let random = &mut caller.random;
    if random.percent(20) {
        let rows = random.pick(&[0, 10, 63, 64]);
        let pair = ServerPair::of(plant::server(random, rows));
        caller.pool.extend(pair.peer.table.held().iter().map(|row| row.key().to_vec()));
        return pair;
    }
    let mut lib = c::Server::zeroed();
    random.fill(lib.bytes_mut());
    let mut pair = ServerPair::of(lib);
    let (mut number, mut tick) = (plant::number(random), plant::tick(random));
    if random.percent(15) {
        number = random.pick(&[1 << 63, u64::MAX]);
    }
    if random.percent(15) {
        tick = random.pick(&[TICK_MAX + 1, u64::MAX]);
    }
    caller.run.server_start(&mut pair, number, tick);
    pair
}

/// Lets the client write its request and the server answer it. The router puts the identity in front
/// of the request, and takes it off each message of the answer.
fn ask_for_snapshot(caller: &mut Caller, server: &mut ServerPair, client: &mut ClientPair) -> VecDeque<Vec<u8>> {
    let answer = caller.run.write_icanhaz(client);
    if answer.kind == 0 {
        return VecDeque::new();
    }
    let length = caller.random.pick(&[1, 5, 255]);
    let mut parts = vec![Part::of(caller.random.bytes(length), 1)];
    let written = caller.run.written(answer);
    parts.extend(caller.run.messages_in(&written).concat());
    let request = caller.run.build(ICANHAZ_ROOM, &parts).bytes().to_vec();
    let answer = caller.run.icanhaz(server, &request);
    let bytes = caller.run.written(answer);
    let messages = caller.run.messages_in(&bytes);
    if messages.len() > 1 {
        caller.run.counts.met(Topic::Walk, "walk over a snapshot");
    }
    messages.iter().map(|parts| caller.run.build(SNAPSHOT_ROOM, &parts[1..]).bytes().to_vec()).collect()
}
