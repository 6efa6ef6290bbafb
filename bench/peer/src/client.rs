//! The client: snapshot and subscriber entries, both writers, asking and lookup.

use crate::answer::{Answer, Kind, Refusal, require};
use crate::frames::{message_size, split, write_message};
use crate::messages::{
    HUGZ, ICANHAZ, KTHXBAI, Update, check_hugz, check_key, check_kvsync_rest, check_uuid, check_value, read_kthxbai,
    read_update,
};
use crate::names::{is_subtree, is_under};
use crate::properties::read_ttl;
use crate::rows::Table;
use crate::{KEY_ROOM, NUMBER_MAX, SILENCE_MS, TICK_MAX};

#[derive(Clone, Copy, PartialEq, Eq, Debug)]
pub enum Phase {
    Waiting,
    Live,
}

#[derive(Clone, Copy)]
pub struct Client {
    pub table: Table<()>,
    pub subtree: [u8; KEY_ROOM],
    pub subtree_length: usize,
    pub phase: Phase,
    pub number: u64,
    /// The tick at which HUGZ was last heard, at first the start's.
    pub clock: u64,
}

impl Client {
    fn empty(subtree: &[u8], tick: u64) -> Client {
        let mut c = Client {
            table: Table::empty(()),
            subtree: [0; KEY_ROOM],
            subtree_length: subtree.len(),
            phase: Phase::Waiting,
            number: 0,
            clock: tick,
        };
        c.subtree[..subtree.len()].copy_from_slice(subtree);
        c
    }

    pub fn subtree(&self) -> &[u8] {
        &self.subtree[..self.subtree_length]
    }

    pub fn is_well_formed(&self) -> bool {
        self.number <= NUMBER_MAX
            && self.clock <= TICK_MAX
            && (self.phase == Phase::Live || self.number == 0)
            && self.subtree_length <= KEY_ROOM
            && is_subtree(self.subtree())
            && self.table.is_well_formed()
            && self.table.held().iter().all(|row| is_under(self.subtree(), row.key()))
    }

    fn check_state(&self) -> Result<(), Refusal> {
        require(self.is_well_formed(), Refusal::State)
    }

    fn check_tick(&self, tick: u64) -> Result<(), Refusal> {
        require(tick <= TICK_MAX && tick >= self.clock, Refusal::Tick)
    }

    fn check_phase(&self, phase: Phase) -> Result<(), Refusal> {
        require(self.phase == phase, Refusal::Phase)
    }

    fn accepted(&self, kind: Kind, written: usize) -> Answer {
        Answer::accepted(kind, self.number, written)
    }

    fn answer(&self, result: Result<Answer, Refusal>) -> Answer {
        result.unwrap_or_else(|refusal| Answer::refused(refusal, self.number))
    }
}

pub fn start(subtree: &[u8], tick: u64) -> (Client, Answer) {
    let refusal = if !is_subtree(subtree) {
        Refusal::Subtree
    } else if tick > TICK_MAX {
        Refusal::Tick
    } else {
        return (Client::empty(subtree, tick), Answer::accepted(Kind::Started, 0, 0));
    };
    (Client::empty(b"", 0), Answer::refused(refusal, 0))
}

/// Reads a message of the snapshot: KTHXBAI, or else KVSYNC.
pub fn snapshot(mut c: Client, message: &[u8]) -> (Client, Answer) {
    let answer = snapshot_in_place(&mut c, message);
    (c, answer)
}

/// The same on a lent state.
pub fn snapshot_in_place(c: &mut Client, message: &[u8]) -> Answer {
    let result = try_snapshot(c, message);
    c.answer(result)
}

fn try_snapshot(c: &mut Client, message: &[u8]) -> Result<Answer, Refusal> {
    c.check_state()?;
    let bodies = split(message)?;
    if bodies[0] == KTHXBAI {
        let number = read_kthxbai(bodies, c.subtree())?;
        c.check_phase(Phase::Waiting)?;
        c.number = number;
        c.phase = Phase::Live;
        return Ok(c.accepted(Kind::Live, 0));
    }
    let [key, .., value] = bodies;
    check_key(key)?;
    require(is_under(c.subtree(), key), Refusal::Subtree)?;
    check_kvsync_rest(bodies)?;
    c.check_phase(Phase::Waiting)?;
    require(c.table.has_room_for(key), Refusal::Full)?;
    c.table.set(key, value, ());
    Ok(c.accepted(Kind::Synced, 0))
}

/// Reads a published message: HUGZ, or else KVPUB. Only HUGZ uses the tick.
pub fn subscriber(mut c: Client, message: &[u8], tick: u64) -> (Client, Answer) {
    let answer = subscriber_in_place(&mut c, message, tick);
    (c, answer)
}

/// The same on a lent state.
pub fn subscriber_in_place(c: &mut Client, message: &[u8], tick: u64) -> Answer {
    let result = try_subscriber(c, message, tick);
    c.answer(result)
}

fn try_subscriber(c: &mut Client, message: &[u8], tick: u64) -> Result<Answer, Refusal> {
    c.check_state()?;
    let bodies = split(message)?;
    if bodies[0] == HUGZ {
        check_hugz(bodies)?;
        c.check_tick(tick)?;
        c.check_phase(Phase::Live)?;
        c.clock = tick;
        return Ok(c.accepted(Kind::Heard, 0));
    }
    let update = read_update(bodies, NUMBER_MAX)?;
    c.check_phase(Phase::Live)?;
    follow(c, &update)
}

/// Takes a well-formed KVPUB. A stale one and one outside the subtree need no room in the table.
fn follow(c: &mut Client, update: &Update) -> Result<Answer, Refusal> {
    if update.number <= c.number {
        return Ok(c.accepted(Kind::Stale, 0));
    }
    if !is_under(c.subtree(), update.key) {
        c.number = update.number;
        return Ok(c.accepted(Kind::Outside, 0));
    }
    if update.value.is_empty() {
        c.table.remove(update.key);
    } else {
        require(c.table.has_room_for(update.key), Refusal::Full)?;
        c.table.set(update.key, update.value, ());
    }
    c.number = update.number;
    Ok(c.accepted(Kind::Applied, 0))
}

/// Writes the request for a snapshot, without an identity.
pub fn write_icanhaz(c: &Client, out: &mut [u8]) -> Answer {
    c.answer(try_write_icanhaz(c, out))
}

fn try_write_icanhaz(c: &Client, out: &mut [u8]) -> Result<Answer, Refusal> {
    c.check_state()?;
    c.check_phase(Phase::Waiting)?;
    let request = [ICANHAZ, c.subtree()];
    require(message_size(&request) <= out.len(), Refusal::Output)?;
    Ok(c.accepted(Kind::Wrote, write_message(out, &request)))
}

/// Writes a KVSET. Its key need not be under the client's subtree, and the client may wait or be
/// live.
pub fn write_kvset(c: &Client, key: &[u8], uuid: &[u8], properties: &[u8], value: &[u8], out: &mut [u8]) -> Answer {
    c.answer(try_write_kvset(c, [key, &[0; 8], uuid, properties, value], out))
}

fn try_write_kvset(c: &Client, kvset: [&[u8]; 5], out: &mut [u8]) -> Result<Answer, Refusal> {
    c.check_state()?;
    let [key, _, uuid, properties, value] = kvset;
    check_key(key)?;
    check_uuid(uuid)?;
    read_ttl(properties)?;
    check_value(value)?;
    require(message_size(&kvset) <= out.len(), Refusal::Output)?;
    Ok(c.accepted(Kind::Wrote, write_message(out, &kvset)))
}

/// Whether the server is presumed gone, in either phase.
pub fn ask(c: &Client, tick: u64) -> Answer {
    c.answer(try_ask(c, tick))
}

fn try_ask(c: &Client, tick: u64) -> Result<Answer, Refusal> {
    c.check_state()?;
    c.check_tick(tick)?;
    let kind = if tick - c.clock > SILENCE_MS { Kind::Gone } else { Kind::Present };
    Ok(c.accepted(kind, 0))
}

/// Copies the value of a held key. A key outside the subtree is absent like any other.
pub fn lookup(c: &Client, key: &[u8], out: &mut [u8]) -> Answer {
    c.answer(try_lookup(c, key, out))
}

fn try_lookup(c: &Client, key: &[u8], out: &mut [u8]) -> Result<Answer, Refusal> {
    c.check_state()?;
    check_key(key)?;
    c.check_phase(Phase::Live)?;
    let Ok(at) = c.table.find(key) else {
        return Ok(c.accepted(Kind::Absent, 0));
    };
    let value = c.table.rows[at].value();
    let room = out.get_mut(..value.len()).ok_or(Refusal::Output)?;
    room.copy_from_slice(value);
    Ok(c.accepted(Kind::Found, value.len()))
}
