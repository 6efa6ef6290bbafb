//! Messages that are built from parts, good and bad, as a socket delivers them, and then handed in at
//! every entry that takes a message.

use crate::c::{self, KVPUB_MOST, SNAPSHOT_MOST};
use crate::compare::caller::Caller;
use crate::compare::counts::{Entry, GIVEN, Sort};
use crate::compare::fields::{self, FAR};
use crate::compare::lockstep::{ClientPair, GUARD, MOST_ROOM, ServerPair, as_c, hex};
use crate::compare::parts::{Building, sent};
use crate::compare::{names, plant};
use crate::form::Part;
use peer::answer::{Answer, Refusal};
use peer::frames::{self, frame_length};
use peer::parts::{Built, ICANHAZ_ROOM, KVSET_ROOM, OPEN, SNAPSHOT_ROOM, SUBSCRIBER_ROOM, VOID, WHOLE};
use peer::{client, server};

/// The entries that the header names a room for, with that room.
const AIMS: [(Entry, usize); 4] = [
    (Entry::Kvset, KVSET_ROOM),
    (Entry::Icanhaz, ICANHAZ_ROOM),
    (Entry::Snapshot, SNAPSHOT_ROOM),
    (Entry::Subscriber, SUBSCRIBER_ROOM),
];

const MORES: [i32; 7] = [1, 1, 1, 2, -1, 256, i32::MIN];

/// One state for each kind of entry.
struct Ends {
    server: ServerPair,
    waiting: ClientPair,
    live: ClientPair,
}

/// The body of a frame that takes exactly this many bytes, or else the longest one that takes fewer.
fn body_for(frame: usize) -> usize {
    if frame >= frame_length(256) { frame - 9 } else { frame.saturating_sub(2).min(255) }
}

/// Bytes that the parts take as frames.
fn needed(parts: &[Part]) -> usize {
    parts.iter().filter_map(Part::body).map(|body| frame_length(body.len())).sum()
}

/// A message on its way: its parts as they came, what they are without a limit, and what was built of
/// them.
struct Arrival<'a> {
    parts: &'a [Part],
    sent: Option<Vec<u8>>,
    message: &'a Building,
}

impl Arrival<'_> {
    /// What the peer answers to the message that was sent; without one, the framing is broken.
    fn expect(&self, number: u64, call: impl FnOnce(&[u8]) -> Answer) -> c::Answer {
        as_c(self.sent.as_ref().map_or(Answer::refused(Refusal::Framing, number), |sent| call(sent)))
    }

    fn fits(&self) -> bool {
        self.sent.as_ref().is_some_and(|sent| sent.len() <= self.message.room)
    }

    /// Whether the message is what its parts make of it: the one that was sent, byte by byte, if that
    /// fits; open, with all frames so far, if each part says that another follows; or else void.
    fn is_built_right(&self) -> bool {
        let Building { room, built, .. } = *self.message;
        if self.fits() {
            return built.stage == WHOLE && self.sent.as_deref() == Some(self.message.bytes());
        }
        let length = needed(self.parts);
        let open = self.parts.iter().all(|part| part.more != 0 && part.body().is_some()) && length <= room;
        built == if open { Built { length: length as u64, stage: OPEN } } else { Built { length: 0, stage: VOID } }
    }

    /// The parts in words.
    fn told(&self) -> String {
        let part = |part: &Part| format!("length {} more {} bytes {}", part.length, part.more, hex(&part.bytes));
        let parts: Vec<String> = self.parts.iter().map(part).collect();
        format!("room {} parts {parts:?}", self.message.room)
    }
}

impl Caller {
    /// A server and two clients with some rows, such that most good messages are accepted.
    fn ends(&mut self) -> Ends {
        let random = &mut self.random;
        let server = plant::server(random, 20);
        let mut clients = [(); 2].map(|()| {
            let subtree = if random.percent(50) { Vec::new() } else { names::subtree(random) };
            plant::client(random, 10, &subtree)
        });
        (clients[0].header.phase, clients[0].header.number) = (0, 0);
        clients[1].header.phase = 1;
        let [waiting, live] = clients.map(ClientPair::of);
        Ends { server: ServerPair::of(server), waiting, live }
    }

    /// Builds some messages and hands them in.
    pub fn built_messages(&mut self) {
        let mut ends = self.ends();
        self.run.roomy = true;
        for _ in 0..4 {
            let (aim, room) = self.random.pick(&AIMS);
            let bodies = self.bodies_for(aim, &ends);
            let last = bodies.len() - 1;
            let mut parts = Vec::new();
            for (i, body) in bodies.into_iter().enumerate() {
                let more = if i < last { self.random.pick(&MORES) } else { 0 };
                parts.push(Part::of(body, more));
            }
            if self.random.percent(40) {
                self.disturb(&mut parts);
            }
            let room = self.room_for(room, &parts);
            let message = self.run.build(room, &parts);
            let arrival = Arrival { sent: sent(&parts), parts: &parts, message: &message };
            self.hand_in(&mut ends, &arrival);
        }
        self.run.roomy = false;
    }

    /// The bodies of a message for the entry: good, bad, or as long as can be.
    fn bodies_for(&mut self, aim: Entry, ends: &Ends) -> Vec<Vec<u8>> {
        let longest = self.random.percent(25);
        let spoilt = self.random.percent(15);
        if aim == Entry::Icanhaz {
            return self.request_bodies(longest, spoilt);
        }
        let mut five = match aim {
            Entry::Kvset => {
                let (key, sequence) = (self.some_key(), fields::any_sequence(&mut self.random));
                fields::update(&mut self.random, self.mix, key, sequence)
            }
            Entry::Snapshot if !longest && self.random.percent(15) => {
                let subtree = ends.waiting.peer.subtree().to_vec();
                fields::kthxbai(self.random.below(1000) as u64, &subtree)
            }
            Entry::Snapshot => {
                let key = self.client_key(&ends.waiting);
                fields::kvsync(&mut self.random, key)
            }
            _ if !longest && self.random.percent(15) => fields::hugz(),
            _ => {
                let number = self.number_near(ends.live.lib.header.number);
                let key = self.client_key(&ends.live);
                fields::update(&mut self.random, self.mix, key, number.to_be_bytes().to_vec())
            }
        };
        if longest {
            five.first = [names::subtree_of_95(), b"k".to_vec()].concat();
            five.last = self.random.bytes(256);
            if aim != Entry::Snapshot {
                five.uuid = self.random.bytes(16);
                five.properties = fields::of_length(&mut self.random, 128);
            }
        }
        if spoilt {
            fields::spoil_update(&mut self.random, &mut five);
        }
        five.bodies().map(<[u8]>::to_vec).to_vec()
    }

    fn request_bodies(&mut self, longest: bool, spoilt: bool) -> Vec<Vec<u8>> {
        let length = if longest { 255 } else { self.random.pick(&[1, 5, 255]) };
        let mut identity = self.random.bytes(length);
        let mut subtree = if longest { names::subtree_of_96() } else { names::subtree(&mut self.random) };
        let mut word = b"ICANHAZ?".to_vec();
        if spoilt {
            match self.random.below(3) {
                0 => identity = vec![7; self.random.pick(&[0, 256])],
                1 => word = b"ICANHAZ".to_vec(),
                _ => subtree = names::bad_subtree(&mut self.random),
            }
        }
        vec![identity, word, subtree]
    }

    /// Lets something go wrong with the parts.
    fn disturb(&mut self, parts: &mut Vec<Part>) {
        let at = self.random.below(parts.len());
        let last = parts.len() - 1;
        let more = self.random.pick(&MORES);
        match self.random.below(12) {
            0 => parts[last].more = more,
            1 => parts[at].more = 0,
            2 => _ = parts.remove(at),
            3 => parts.insert(at, parts[at].clone()),
            4 => parts[at] = Part::not_received(self.random.pick(&[-1, -1, i64::MIN]), parts[at].more),
            5 => parts.insert(at, Part::not_received(-1, self.random.pick(&[0, 1]))),
            6 => parts.clear(),
            7 => parts.truncate(at),
            8 => self.more_parts(parts),
            9 => {
                self.more_parts(parts);
                self.lengthen(parts);
            }
            _ => self.lengthen(parts),
        }
    }

    /// Lets parts follow the last one until there are six, or some more; now and then the last one
    /// still says that it is the last.
    fn more_parts(&mut self, parts: &mut Vec<Part>) {
        let told = !self.random.percent(20);
        let count = if self.random.percent(70) { 6 } else { self.random.between(parts.len() + 1, 12) };
        while parts.len() < count {
            if told && let Some(last) = parts.last_mut() {
                last.more = 1;
            }
            let length = self.random.pick(&[0, 0, 1, 8, 40]);
            parts.push(Part::of(self.random.bytes(length), 0));
        }
    }

    /// Makes a part longer: just too long for its field, for the entry, or by far.
    fn lengthen(&mut self, parts: &mut [Part]) {
        let at = self.random.below(parts.len());
        let any = self.random.between(257, 700);
        let length = self.random.pick(&[257, any, any, 521, 522, 10_000, 12_345, FAR + 8]);
        parts[at] = Part::of(self.random.bytes(length), parts[at].more);
    }

    /// The length of a buffer for these parts: the entry's room, just enough for the parts or not quite,
    /// or any.
    fn room_for(&mut self, room: usize, parts: &[Part]) -> usize {
        let needed = needed(parts);
        let chosen = match self.random.below(12) {
            0..5 => room,
            5 => room - 1,
            6 => needed,
            7 => needed.saturating_sub(1),
            8 => needed + self.random.between(1, 50),
            9 => self.random.pick(&AIMS).1,
            _ => self.random.between(0, 700),
        };
        chosen.min(MOST_ROOM)
    }

    /// Hands a message in at each entry.
    fn hand_in(&mut self, ends: &mut Ends, arrival: &Arrival) {
        let bytes = arrival.message.bytes();
        let Ends { server, waiting, live } = ends;
        let tick = server.lib.header.last_tick;
        let number = server.peer.number;
        let expected = arrival.expect(number, |sent| server::kvset(*server.peer, sent, tick, &mut [0; KVPUB_MOST]).1);
        let answer = self.run.kvset(server, bytes, tick);
        self.judge(Entry::Kvset, Some(KVSET_ROOM), arrival, expected, answer);

        let number = server.peer.number;
        let expected = arrival.expect(number, |sent| server::icanhaz(&server.peer, sent, &mut vec![0; SNAPSHOT_MOST]));
        let answer = self.run.icanhaz(server, bytes);
        self.judge(Entry::Icanhaz, Some(ICANHAZ_ROOM), arrival, expected, answer);

        let expected = arrival.expect(waiting.peer.number, |sent| client::snapshot(*waiting.peer, sent).1);
        let answer = self.run.snapshot(waiting, bytes);
        self.judge(Entry::Snapshot, Some(SNAPSHOT_ROOM), arrival, expected, answer);

        let tick = live.lib.header.clock;
        let expected = arrival.expect(live.peer.number, |sent| client::subscriber(*live.peer, sent, tick).1);
        let answer = self.run.subscriber(live, bytes, tick);
        self.judge(Entry::Subscriber, Some(SUBSCRIBER_ROOM), arrival, expected, answer);

        self.hand_in_value(arrival);
    }

    /// The value entry, which needs no state. The message itself is looked at too.
    fn hand_in_value(&mut self, arrival: &Arrival) {
        if !arrival.is_built_right() {
            self.run.report(Entry::AddPart, "another message than was sent", &arrival.told());
        }
        let expected = match arrival.sent.as_ref().map_or(Err(Refusal::Framing), |sent| frames::value(sent)) {
            Ok(value) => c::Answer { kind: GIVEN, refusal: 0, number: 0, written: value.len() as u64 },
            Err(refusal) => c::Answer { kind: 0, refusal: refusal as u64, number: 0, written: 0 },
        };
        let answer = self.run.value(arrival.message.bytes());
        self.judge(Entry::Value, None, arrival, expected, answer);
    }

    /// Holds the library's answer to the bytes that were built against the peer's answer to the message
    /// that was sent. They are the same if that message fits into the buffer, and otherwise the framing
    /// is broken. A buffer of the entry's room refuses nothing that the entry would accept.
    fn judge(&mut self, entry: Entry, room: Option<usize>, arrival: &Arrival, expected: c::Answer, answer: c::Answer) {
        let framing = c::Answer { kind: 0, refusal: 1, number: answer.number, written: 0 };
        let right = if arrival.fits() { expected } else { framing };
        let (good, accepted) = (expected.kind != 0, answer.kind != 0);
        let enough = room.is_some_and(|room| arrival.message.room >= room);
        let problem = if accepted && !good {
            Some("accepted, and what was sent is not acceptable")
        } else if enough && good != accepted {
            Some("a message that fits into the entry's room was lost")
        } else {
            (answer != right).then_some("another answer than to what was sent")
        };
        if let Some(problem) = problem {
            self.run.report(entry, problem, &format!("{}\n  {answer:?} for {expected:?}", arrival.told()));
        }
        self.note_arrival(entry, room, arrival, good, accepted);
    }

    fn note_arrival(&mut self, entry: Entry, room: Option<usize>, arrival: &Arrival, good: bool, accepted: bool) {
        let mut met = |name| self.run.counts.sort(Sort::Built, name, entry);
        let Building { room: buffer, built, .. } = *arrival.message;
        match built.stage {
            _ if arrival.parts.is_empty() => met("no part"),
            OPEN => met("unfinished"),
            WHOLE => met(if accepted { "whole, accepted" } else { "whole, refused" }),
            _ => met("void"),
        }
        let Some(length) = arrival.sent.as_ref().map(Vec::len) else {
            return;
        };
        let fits = length <= buffer;
        if arrival.parts.len() == 6 {
            met(if fits { "six parts" } else { "six parts, and too long for the buffer" });
        }
        if good && !fits {
            met("good, and too long for its buffer");
        }
        if length >= buffer + 9000 {
            met("longer than its buffer by 9,000 or more");
        }
        let Some(room) = room else {
            return;
        };
        if good && length == room && buffer == room {
            met("as long as the room, accepted");
        } else if good && length == room && buffer == room - 1 {
            met("as long as the room, one byte less room");
        } else if length > room && buffer == room {
            met("longer than the room");
        }
    }

    /// A part of any length, often one that just fits into what is left or just does not.
    fn any_part(&mut self, room: usize, left: usize) -> Part {
        let more = self.random.pick(&[0, 1, 1, 1, 1, 2, -1, 256, i32::MIN]);
        let near = self.random.between(254, 258);
        let length = match self.random.below(20) {
            0 => 0,
            1 => 1,
            2..5 => near,
            5..9 => body_for(left),
            9..12 => body_for(left + 1),
            12 => room,
            13 => room + self.random.between(1, 3),
            14 => self.random.between(0, 300),
            15 => body_for(left) + self.random.pick(&[256, 512, FAR, FAR]),
            16 => self.random.pick(&[10_000, 11_000, FAR + 5]),
            17 => return Part::not_received(self.random.pick(&[-1, -1, -2, i64::MIN, -(1 << 32)]), more),
            _ => self.random.between(0, 30),
        };
        Part::of(self.random.bytes(length), more)
    }

    fn any_room(&mut self) -> usize {
        match self.random.below(10) {
            0 => self.random.pick(&[0, 0, 1, 2, 3]),
            1..4 => self.random.pick(&AIMS).1,
            4 => self.random.between(255, 270),
            5 if self.random.percent(30) => self.random.pick(&[10_009, 12_000, FAR + 20, MOST_ROOM]),
            _ => self.random.between(0, 700),
        }
    }

    /// Messages of parts of any length.
    pub fn any_parts(&mut self) {
        for _ in 0..4 {
            let mut message = self.any_message();
            let mut parts = Vec::new();
            for _ in 0..self.random.between(0, 7) {
                let part = self.any_part(message.room, message.room - message.built.length as usize);
                self.run.add(&mut message, &part);
                parts.push(part);
            }
            self.run.message_length(message.bytes());
            self.hand_in_value(&Arrival { sent: sent(&parts), parts: &parts, message: &message });
        }
    }

    fn any_message(&mut self) -> Building {
        let room = self.any_room();
        self.run.message_in(room)
    }

    /// Parts added to a message of any length and any stage, where one can be handed in.
    pub fn odd_messages(&mut self) {
        if !self.run.form.takes_any_numbers() {
            return;
        }
        for _ in 0..4 {
            let mut message = self.any_message();
            let room = message.room as u64;
            let near = u64::MAX - self.random.below(GUARD) as u64;
            let low = self.random.next() % (room + 1);
            let any = self.random.next();
            let length = self.random.pick(&[0, low, low, room, room + 1, near, near, room | 1 << 32, 1 << 63, any]);
            let stage = self.random.pick(&[0, 0, 0, 0, 0, 1, 2, 3, 256, 1 << 32, u64::MAX, any]);
            message.built = Built { length, stage };
            for _ in 0..self.random.between(1, 3) {
                let left = room.saturating_sub(message.built.length) as usize;
                let part = self.any_part(room as usize, left);
                self.run.add(&mut message, &part);
            }
        }
    }
}
