//! States of the library seen as states of the peer, and where the two differ in meaning. Bytes
//! after a length and rows from the count on mean nothing.

use crate::c::{self, KEY_MOST, NEVER, ROWS, VALUE_MOST};
use peer::client::{Client, Phase};
use peer::rows::{Row, Table};
use peer::server::{LastSet, Server};

/// A server state of the library as the peer's, everything copied, ill-formed or not.
pub fn server_view(lib: &c::Server) -> Box<Server> {
    let last_set = |i: usize| LastSet { number: lib.stamps[i].number, expiry: expiry_view(lib.stamps[i].expiry) };
    let table = table_view(lib, last_set);
    let c::ServerHeader { number, last_tick, last_published, .. } = lib.header;
    Box::new(Server { table, number, last_tick, last_published })
}

pub fn client_view(lib: &c::Client) -> Box<Client> {
    let table = table_view(lib, |_| ());
    let c::ClientHeader { phase, number, clock, subtree_length, .. } = lib.header;
    let (subtree, subtree_length) = (lib.subtree, subtree_length as usize);
    Box::new(Client { table, subtree, subtree_length, phase: phase_view(phase), number, clock })
}

fn expiry_view(expiry: u64) -> Option<u64> {
    (expiry != NEVER).then_some(expiry)
}

fn phase_view(phase: u64) -> Phase {
    if phase == 0 { Phase::Waiting } else { Phase::Live }
}

fn table_view<X: Copy>(lib: &impl c::Table, extra: impl Fn(usize) -> X) -> Table<X> {
    let row = |i: usize| Row {
        key: lib.cells()[i].key,
        key_length: lib.lengths()[i].key as usize,
        value: lib.cells()[i].value,
        value_length: lib.lengths()[i].value as usize,
        extra: extra(i),
    };
    Table { rows: std::array::from_fn(row), count: lib.count() as usize }
}

/// The first row in which the tables differ, if there is one.
fn table_difference<X>(lib: &impl c::Table, peer: &Table<X>, same: impl Fn(usize, &X) -> bool) -> Option<String> {
    let count = lib.count() as usize;
    if count != peer.count {
        return Some(format!("count {count} and {}", peer.count));
    }
    for (i, row) in peer.rows.iter().enumerate().take(count.min(ROWS)) {
        let (cell, lengths) = (&lib.cells()[i], &lib.lengths()[i]);
        let key = row.key_length.min(KEY_MOST);
        let value = row.value_length.min(VALUE_MOST);
        if lengths.key != row.key_length as u64 || cell.key[..key] != row.key[..key] {
            return Some(format!("key of row {i}"));
        }
        if lengths.value != row.value_length as u64 || cell.value[..value] != row.value[..value] {
            return Some(format!("value of row {i}"));
        }
        if !same(i, &row.extra) {
            return Some(format!("number or expiry of row {i}"));
        }
    }
    None
}

pub fn server_difference(lib: &c::Server, peer: &Server) -> Option<String> {
    let ours = (lib.header.number, lib.header.last_tick, lib.header.last_published);
    let theirs = (peer.number, peer.last_tick, peer.last_published);
    if ours != theirs {
        return Some(format!("number, last tick, last published {ours:?} and {theirs:?}"));
    }
    let same = |i: usize, set: &LastSet| {
        let c::RowStamps { number, expiry } = lib.stamps[i];
        number == set.number && expiry_view(expiry) == set.expiry
    };
    table_difference(lib, &peer.table, same)
}

pub fn client_difference(lib: &c::Client, peer: &Client) -> Option<String> {
    let c::ClientHeader { phase, number, clock, subtree_length, .. } = lib.header;
    let ours = (subtree_length, phase_view(phase), number, clock);
    let theirs = (peer.subtree_length as u64, peer.phase, peer.number, peer.clock);
    if ours != theirs {
        return Some(format!("subtree length, phase, number, clock {ours:?} and {theirs:?}"));
    }
    let subtree = peer.subtree_length.min(KEY_MOST);
    if lib.subtree[..subtree] != peer.subtree[..subtree] {
        return Some("subtree".to_string());
    }
    table_difference(lib, &peer.table, |_, ()| true)
}

/// Whether a client holds exactly the server's rows under its subtree.
pub fn client_follows(server: &Server, client: &Client) -> bool {
    let under = server.table.held().iter().filter(|row| row.key().starts_with(client.subtree()));
    let rows = under.map(|row| (row.key(), row.value()));
    rows.eq(client.table.held().iter().map(|row| (row.key(), row.value())))
}
