//! Well-formed states made directly, with noise wherever bytes mean nothing.

use crate::c::{self, NEVER, Plain, RowStamps, Table, VALUE_MOST};
use crate::compare::{fields, names};
use crate::random::Random;
use peer::{EXPIRY_MAX, NUMBER_MAX, TICK_MAX};

pub fn put_key(table: &mut (impl Table + ?Sized), row: usize, key: &[u8]) {
    table.cells_mut()[row].key[..key.len()].copy_from_slice(key);
    table.lengths_mut()[row].key = key.len() as u64;
}

fn put_value(table: &mut impl Table, row: usize, value: &[u8]) {
    table.cells_mut()[row].value[..value.len()].copy_from_slice(value);
    table.lengths_mut()[row].value = value.len() as u64;
}

/// Rows for these keys, which rise.
fn put_rows(random: &mut Random, table: &mut impl Table, keys: &[Vec<u8>]) {
    for (i, key) in keys.iter().enumerate() {
        put_key(table, i, key);
        put_value(table, i, &fields::value(random));
    }
    table.set_count(keys.len() as u64);
}

pub fn put_subtree(client: &mut c::Client, subtree: &[u8]) {
    client.subtree[..subtree.len()].copy_from_slice(subtree);
    client.header.subtree_length = subtree.len() as u64;
}

/// A number of a state: small, any, or at or near the greatest.
pub fn number(random: &mut Random) -> u64 {
    match random.below(10) {
        0 => NUMBER_MAX,
        1 => NUMBER_MAX - random.below(300) as u64,
        2 => random.next() >> 1,
        3 => 0,
        _ => random.below(1000) as u64,
    }
}

pub fn tick(random: &mut Random) -> u64 {
    match random.below(10) {
        0 => 0,
        1 => TICK_MAX,
        2 => TICK_MAX - random.below(100_000) as u64,
        3 => random.next() >> 2,
        _ => random.below(1_000_000) as u64,
    }
}

fn expiry(random: &mut Random, last_tick: u64) -> u64 {
    let near = last_tick + random.below(3000) as u64;
    random.pick(&[NEVER, NEVER, near, near, last_tick, last_tick / 2, EXPIRY_MAX])
}

pub fn server(random: &mut Random, rows: usize) -> Box<c::Server> {
    let keys = names::different_keys(random, rows, b"");
    server_with(random, &keys)
}

fn server_with(random: &mut Random, keys: &[Vec<u8>]) -> Box<c::Server> {
    let mut s = c::Server::zeroed();
    random.fill(s.bytes_mut());
    put_rows(random, &mut *s, keys);
    let (number, last_tick) = (number(random), tick(random));
    let last_published = last_tick - random.pick(&[0, 0, 1, 999, 1000, last_tick]).min(last_tick);
    s.header = c::ServerHeader { number, last_tick, last_published, ..s.header };
    for stamps in &mut s.stamps[..keys.len()] {
        let set = random.pick(&[0, 1, number, number / 2]).min(number);
        *stamps = RowStamps { number: set, expiry: expiry(random, last_tick) };
    }
    s
}

/// A server whose snapshot of the subtree of 95 bytes is as long as can be.
pub fn longest_server(random: &mut Random) -> Box<c::Server> {
    let keys = names::longest_keys(random);
    let mut s = server_with(random, &keys);
    for i in 0..keys.len() {
        put_value(&mut *s, i, &random.bytes(VALUE_MOST));
    }
    s
}

/// A client of this subtree with up to that many rows, waiting or live.
pub fn client(random: &mut Random, rows: usize, subtree: &[u8]) -> Box<c::Client> {
    let mut c = c::Client::zeroed();
    random.fill(c.bytes_mut());
    let keys = names::different_keys(random, rows, subtree);
    put_rows(random, &mut *c, &keys);
    put_subtree(&mut c, subtree);
    c.header.phase = random.pick(&[0, 0, 1, 1, 2, 256, 1 << 32, u64::MAX]);
    c.header.number = if c.header.phase == 0 { 0 } else { number(random) };
    c.header.clock = tick(random);
    c
}

/// Fills what means nothing in a table with noise.
pub fn scramble(random: &mut Random, table: &mut impl Table) {
    for i in 0..c::ROWS {
        let (key, value) = if (i as u64) < table.count() {
            (table.lengths()[i].key as usize, table.lengths()[i].value as usize)
        } else {
            table.lengths_mut()[i] = c::RowLengths { key: random.next(), value: random.next() };
            (0, 0)
        };
        random.fill(&mut table.cells_mut()[i].key[key..]);
        random.fill(&mut table.cells_mut()[i].value[value..]);
    }
}
