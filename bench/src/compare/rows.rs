//! The rows of a state, one by one, on both sides.

use crate::c::{self, NEVER, Table};
use crate::compare::counts::Entry;
use crate::compare::inputs;
use crate::compare::lockstep::{ClientPair, Lockstep, ServerPair};
use peer::rows::Row;

/// What a row is at the peer, with the number and the expiry that the header gives.
struct Expected<'a> {
    key: &'a [u8],
    value: &'a [u8],
    number: u64,
    expiry: u64,
}

impl<'a> Expected<'a> {
    fn of<X>(row: &'a Row<X>, number: u64, expiry: u64) -> Expected<'a> {
        Expected { key: row.key(), value: row.value(), number, expiry }
    }
}

/// The bytes that the library gave, if its pointer is that of the cell, and the cell has as many.
fn part_of(cell: &[u8], start: *const u8, length: usize) -> Option<&[u8]> {
    if start == cell.as_ptr() { cell.get(..length) } else { None }
}

/// Compares what the library said with the peer's row. Without a row it says 0 and leaves all as it was.
fn problem(
    table: &impl Table,
    i: usize,
    lib: (i32, c::Row),
    before: c::Row,
    peer: &Option<Expected>,
) -> Option<String> {
    let (said, row) = lib;
    let same = match peer {
        None => said == 0 && row == before,
        Some(expected) => {
            let cell = &table.cells()[i];
            let key = part_of(&cell.key, row.key, row.key_length);
            let value = part_of(&cell.value, row.value, row.value_length);
            let numbers = (row.number, row.expiry) == (expected.number, expected.expiry);
            said == 1 && key == Some(expected.key) && value == Some(expected.value) && numbers
        }
    };
    (!same).then(|| format!("library {said} and {row:?}, before {before:?}; peer has a row: {}", peer.is_some()))
}

impl Lockstep {
    /// A row with noise in each field.
    fn noisy_row(&mut self) -> c::Row {
        let random = &mut self.random;
        let mut pointer = || random.next() as usize as *const u8;
        let (key, value) = (pointer(), pointer());
        let (key_length, value_length) = (random.next() as usize, random.next() as usize);
        c::Row { key, key_length, value, value_length, number: random.next(), expiry: random.next() }
    }

    pub fn server_row(&mut self, pair: &ServerPair, i: usize) {
        inputs::note_row(&mut self.counts, &*pair.lib, i, pair.peer.is_well_formed());
        let before = self.noisy_row();
        let mut row = before;
        let said = self.form.server_row(&pair.lib, i, &mut row);
        let found = pair.peer.table.row(i);
        let peer = found.map(|row| Expected::of(row, row.extra.number, row.extra.expiry.unwrap_or(NEVER)));
        let problem = problem(&*pair.lib, i, (said, row), before, &peer);
        self.record_given(Entry::ServerRow, peer.is_none().then_some(0), problem, || format!("row {i}"));
    }

    pub fn client_row(&mut self, pair: &ClientPair, i: usize) {
        inputs::note_row(&mut self.counts, &*pair.lib, i, pair.peer.is_well_formed());
        let before = self.noisy_row();
        let mut row = before;
        let said = self.form.client_row(&pair.lib, i, &mut row);
        let peer = pair.peer.table.row(i).map(|row| Expected::of(row, 0, NEVER));
        let problem = problem(&*pair.lib, i, (said, row), before, &peer);
        self.record_given(Entry::ClientRow, peer.is_none().then_some(0), problem, || format!("row {i}"));
    }

    /// The places to ask for a row at: all up to the count, and some after it.
    fn places(&mut self, count: usize) -> Vec<usize> {
        let any = self.random.next() as usize;
        let after = [count, count.saturating_add(1), c::ROWS, c::ROWS + 1, usize::MAX, any];
        (0..count.min(c::ROWS)).chain(after).collect()
    }

    pub fn server_rows(&mut self, pair: &ServerPair) {
        for i in self.places(pair.lib.header.count as usize) {
            self.server_row(pair, i);
        }
    }

    pub fn client_rows(&mut self, pair: &ClientPair) {
        for i in self.places(pair.lib.header.count as usize) {
            self.client_row(pair, i);
        }
    }
}
