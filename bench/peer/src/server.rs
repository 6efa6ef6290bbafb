//! The server: KVSET, Tick and ICANHAZ.

use crate::answer::{Answer, Kind, Refusal, require};
use crate::frames::{message_size, split, write_message};
use crate::messages::{ANY_NUMBER, HUGZ_BODIES, ICANHAZ, KTHXBAI, Update, read_update};
use crate::names::{is_subtree, is_under};
use crate::rows::{Row, Table};
use crate::{EXPIRY_MAX, HEARTBEAT_MS, NUMBER_MAX, TICK_MAX};

/// What a server's row has beside key and value.
#[derive(Clone, Copy, PartialEq, Eq, Debug)]
pub struct LastSet {
    /// The number of the row's last set.
    pub number: u64,
    /// The tick after which the row is due; None where it has no ttl.
    pub expiry: Option<u64>,
}

#[derive(Clone, Copy)]
pub struct Server {
    pub table: Table<LastSet>,
    pub number: u64,
    pub last_tick: u64,
    pub last_published: u64,
}

impl Server {
    fn empty(number: u64, tick: u64) -> Server {
        let table = Table::empty(LastSet { number: 0, expiry: None });
        Server { table, number, last_tick: tick, last_published: tick }
    }

    pub fn is_well_formed(&self) -> bool {
        self.number <= NUMBER_MAX
            && self.last_tick <= TICK_MAX
            && self.last_published <= self.last_tick
            && self.table.is_well_formed()
            && self.table.held().iter().all(|row| {
                row.extra.number <= self.number && row.extra.expiry.is_none_or(|expiry| expiry <= EXPIRY_MAX)
            })
    }

    fn check_state(&self) -> Result<(), Refusal> {
        require(self.is_well_formed(), Refusal::State)
    }

    fn check_tick(&self, tick: u64) -> Result<(), Refusal> {
        require(tick <= TICK_MAX && tick >= self.last_tick, Refusal::Tick)
    }

    fn check_number_left(&self) -> Result<(), Refusal> {
        require(self.number < NUMBER_MAX, Refusal::Exhausted)
    }

    fn answer(&self, result: Result<Answer, Refusal>) -> Answer {
        result.unwrap_or_else(|refusal| Answer::refused(refusal, self.number))
    }

    /// Records that a KVPUB or HUGZ of these bytes was written.
    fn published(&mut self, tick: u64, written: usize) -> Answer {
        self.last_tick = tick;
        self.last_published = tick;
        Answer::accepted(Kind::Wrote, self.number, written)
    }
}

pub fn start(number: u64, tick: u64) -> (Server, Answer) {
    let refusal = if number > NUMBER_MAX {
        Refusal::Sequence
    } else if tick > TICK_MAX {
        Refusal::Tick
    } else {
        return (Server::empty(number, tick), Answer::accepted(Kind::Started, number, 0));
    };
    (Server::empty(0, 0), Answer::refused(refusal, 0))
}

pub fn kvset(mut s: Server, message: &[u8], tick: u64, out: &mut [u8]) -> (Server, Answer) {
    let answer = kvset_in_place(&mut s, message, tick, out);
    (s, answer)
}

/// The same on a lent state.
pub fn kvset_in_place(s: &mut Server, message: &[u8], tick: u64, out: &mut [u8]) -> Answer {
    let result = try_kvset(s, message, tick, out);
    s.answer(result)
}

fn try_kvset(s: &mut Server, message: &[u8], tick: u64, out: &mut [u8]) -> Result<Answer, Refusal> {
    s.check_state()?;
    let update = read_update(split(message)?, ANY_NUMBER)?;
    s.check_tick(tick)?;
    require(update.value.is_empty() || s.table.has_room_for(update.key), Refusal::Full)?;
    s.check_number_left()?;
    let sequence = (s.number + 1).to_be_bytes();
    let kvpub = [update.key, &sequence, update.uuid, update.properties, update.value];
    require(message_size(&kvpub) <= out.len(), Refusal::Output)?;
    // Nothing is refused from here on.
    let written = write_message(out, &kvpub);
    s.number += 1;
    apply(s, &update, tick);
    Ok(s.published(tick, written))
}

/// Sets or removes the row of an accepted KVSET, whose number the state has already.
fn apply(s: &mut Server, update: &Update, tick: u64) {
    if update.value.is_empty() {
        s.table.remove(update.key);
    } else {
        let expiry = update.ttl.map(|seconds| tick + 1000 * seconds);
        s.table.set(update.key, update.value, LastSet { number: s.number, expiry });
    }
}

pub fn tick(mut s: Server, tick: u64, out: &mut [u8]) -> (Server, Answer) {
    let answer = tick_in_place(&mut s, tick, out);
    (s, answer)
}

/// The same on a lent state.
pub fn tick_in_place(s: &mut Server, tick: u64, out: &mut [u8]) -> Answer {
    let result = try_tick(s, tick, out);
    s.answer(result)
}

fn try_tick(s: &mut Server, tick: u64, out: &mut [u8]) -> Result<Answer, Refusal> {
    s.check_state()?;
    s.check_tick(tick)?;
    if let Some(row) = first_due(s, tick) {
        return expire(s, row, tick, out);
    }
    if tick - s.last_published >= HEARTBEAT_MS {
        require(message_size(&HUGZ_BODIES) <= out.len(), Refusal::Output)?;
        let written = write_message(out, &HUGZ_BODIES);
        return Ok(s.published(tick, written));
    }
    s.last_tick = tick;
    Ok(Answer::accepted(Kind::Nothing, s.number, 0))
}

/// The due row with the least expiry, the least key among equals. Rows are in key order, so a
/// later row takes the place of an earlier one with a strictly lesser expiry alone.
fn first_due(s: &Server, tick: u64) -> Option<Row<LastSet>> {
    let mut found: Option<(u64, &Row<LastSet>)> = None;
    for row in s.table.held() {
        if let Some(expiry) = row.extra.expiry
            && expiry < tick
            && found.is_none_or(|(least, _)| expiry < least)
        {
            found = Some((expiry, row));
        }
    }
    found.map(|(_, row)| *row)
}

/// Removes a due row and publishes that.
fn expire(s: &mut Server, row: Row<LastSet>, tick: u64, out: &mut [u8]) -> Result<Answer, Refusal> {
    s.check_number_left()?;
    let sequence = (s.number + 1).to_be_bytes();
    let kvpub: [&[u8]; 5] = [row.key(), &sequence, b"", b"", b""];
    require(message_size(&kvpub) <= out.len(), Refusal::Output)?;
    let written = write_message(out, &kvpub);
    s.number += 1;
    s.table.remove(row.key());
    Ok(s.published(tick, written))
}

/// Changes nothing in the state.
pub fn icanhaz(s: &Server, message: &[u8], out: &mut [u8]) -> Answer {
    s.answer(try_icanhaz(s, message, out))
}

fn try_icanhaz(s: &Server, message: &[u8], out: &mut [u8]) -> Result<Answer, Refusal> {
    s.check_state()?;
    let [identity, word, subtree] = split(message)?;
    require((1..=255).contains(&identity.len()), Refusal::Identity)?;
    require(word == ICANHAZ, Refusal::Word)?;
    require(is_subtree(subtree), Refusal::Subtree)?;
    let rows = || s.table.held().iter().filter(|row| is_under(subtree, row.key()));
    let number = s.number.to_be_bytes();
    let kthxbai: [&[u8]; 6] = [identity, KTHXBAI, &number, b"", b"", subtree];
    let sizes = rows().map(|row| with_kvsync(identity, row, message_size));
    let needed = sizes.sum::<usize>() + message_size(&kthxbai);
    require(needed <= out.len(), Refusal::Output)?;
    let mut at = 0;
    for row in rows() {
        at += with_kvsync(identity, row, |kvsync| write_message(&mut out[at..], kvsync));
    }
    at += write_message(&mut out[at..], &kthxbai);
    Ok(Answer::accepted(Kind::Wrote, s.number, at))
}

/// Hands on the row's KVSYNC, with the identity in front, as its bodies.
fn with_kvsync<T>(identity: &[u8], row: &Row<LastSet>, then: impl FnOnce(&[&[u8]]) -> T) -> T {
    let number = row.extra.number.to_be_bytes();
    then(&[identity, row.key(), &number, b"", b"", row.value()])
}
