//! Rows in key order, held in an array with a count.

use crate::names::is_key;
use crate::{KEY_ROOM, MAX_ROWS, VALUE_ROOM};

/// A row; X is what its holder keeps beside key and value.
#[derive(Clone, Copy)]
pub struct Row<X> {
    pub key: [u8; KEY_ROOM],
    pub key_length: usize,
    pub value: [u8; VALUE_ROOM],
    pub value_length: usize,
    pub extra: X,
}

impl<X> Row<X> {
    pub fn new(key: &[u8], value: &[u8], extra: X) -> Row<X> {
        let mut row =
            Row { key: [0; KEY_ROOM], key_length: key.len(), value: [0; VALUE_ROOM], value_length: value.len(), extra };
        row.key[..key.len()].copy_from_slice(key);
        row.value[..value.len()].copy_from_slice(value);
        row
    }

    pub fn key(&self) -> &[u8] {
        &self.key[..self.key_length]
    }

    pub fn value(&self) -> &[u8] {
        &self.value[..self.value_length]
    }

    /// The lengths are tested before a part is taken.
    fn is_well_formed(&self) -> bool {
        self.key_length <= KEY_ROOM && (1..=VALUE_ROOM).contains(&self.value_length) && is_key(self.key())
    }
}

#[derive(Clone, Copy)]
pub struct Table<X> {
    pub rows: [Row<X>; MAX_ROWS],
    pub count: usize,
}

impl<X: Copy> Table<X> {
    /// No rows; the array is filled with the extra for want of another.
    pub fn empty(extra: X) -> Table<X> {
        Table { rows: [Row::new(b"", b"", extra); MAX_ROWS], count: 0 }
    }

    pub fn held(&self) -> &[Row<X>] {
        &self.rows[..self.count]
    }

    /// The row at a place, of an ill-formed table too: none from the count on, and none whose lengths do
    /// not fit its cells.
    pub fn row(&self, i: usize) -> Option<&Row<X>> {
        let row = self.rows.get(i)?;
        (i < self.count && row.key_length <= KEY_ROOM && row.value_length <= VALUE_ROOM).then_some(row)
    }

    /// At most 64 rows, each well-formed, with strictly rising keys.
    pub fn is_well_formed(&self) -> bool {
        self.count <= MAX_ROWS
            && self.held().iter().all(Row::is_well_formed)
            && self.held().windows(2).all(|pair| pair[0].key() < pair[1].key())
    }

    /// The place of the key's row, or else the place where it would be.
    pub fn find(&self, key: &[u8]) -> Result<usize, usize> {
        self.held().binary_search_by(|row| row.key().cmp(key))
    }

    /// Whether a row for the key can be set: it is held, or there is room for one more.
    pub fn has_room_for(&self, key: &[u8]) -> bool {
        self.count < MAX_ROWS || self.find(key).is_ok()
    }

    /// Sets the key's row; there is room for it.
    pub fn set(&mut self, key: &[u8], value: &[u8], extra: X) {
        let at = match self.find(key) {
            Ok(at) => at,
            Err(at) => {
                self.rows.copy_within(at..self.count, at + 1);
                self.count += 1;
                at
            }
        };
        self.rows[at] = Row::new(key, value, extra);
    }

    /// Removes the key's row if there is one.
    pub fn remove(&mut self, key: &[u8]) {
        if let Ok(at) = self.find(key) {
            self.rows.copy_within(at + 1..self.count, at);
            self.count -= 1;
        }
    }
}
