//! The states, laid out as in C: plain data of about 25 KB, without pointers. A host may copy, store or send them. A
//! state from elsewhere may be ill-formed: every call except the starts checks that first.

use crate::{KEY_MOST, NEVER, ROWS, VALUE_MOST};
use std::alloc::{Layout, alloc_zeroed, handle_alloc_error};

/// The bytes of a row: of either, as many count as its length says.
#[repr(C)]
#[derive(Clone, Copy, Debug, PartialEq, Eq)]
pub struct RowBytes {
    pub key: [u8; KEY_MOST],
    pub value: [u8; VALUE_MOST],
}

#[repr(C)]
#[derive(Clone, Copy, Debug, PartialEq, Eq)]
pub struct RowLengths {
    pub key: u64,
    pub value: u64,
}

/// What a server notes of a row: the number of its last set, and its expiry, a tick or [`NEVER`].
#[repr(C)]
#[derive(Clone, Copy, Debug, PartialEq, Eq)]
pub struct RowStamps {
    pub number: u64,
    pub expiry: u64,
}

/// The number of the last update, the tick of the last accepted call with one, the tick of the last publication, and how
/// many rows there are.
#[repr(C)]
#[derive(Clone, Copy, Debug, PartialEq, Eq)]
pub struct ServerHeader {
    pub number: u64,
    pub last_tick: u64,
    pub last_published: u64,
    pub count: u64,
}

/// Row i, for i below the count, has `rows[i]`, `lengths[i]` and `stamps[i]`. Rows are in key order.
#[repr(C)]
#[derive(Clone, Debug, PartialEq, Eq)]
pub struct Server {
    pub rows: [RowBytes; ROWS],
    pub lengths: [RowLengths; ROWS],
    pub stamps: [RowStamps; ROWS],
    pub header: ServerHeader,
}

/// The phase, 0 while the client waits for its snapshot; the number of the last update taken; the tick of the last HUGZ
/// or of the start; bytes of the subtree; and how many rows there are.
#[repr(C)]
#[derive(Clone, Copy, Debug, PartialEq, Eq)]
pub struct ClientHeader {
    pub phase: u64,
    pub number: u64,
    pub clock: u64,
    pub subtree_length: u64,
    pub count: u64,
}

/// Row i, for i below the count, has `rows[i]` and `lengths[i]`. Rows are in key order.
#[repr(C)]
#[derive(Clone, Debug, PartialEq, Eq)]
pub struct Client {
    pub rows: [RowBytes; ROWS],
    pub lengths: [RowLengths; ROWS],
    pub subtree: [u8; KEY_MOST],
    pub header: ClientHeader,
}

/// A row of a state. A client keeps neither number nor expiry: they are 0 and [`NEVER`].
#[derive(Clone, Copy, Debug, PartialEq, Eq)]
pub struct Row<'a> {
    pub key: &'a [u8],
    pub value: &'a [u8],
    pub number: u64,
    pub expiry: u64,
}

/// Zeros on the heap: nothing of the state is on the stack.
///
/// # Safety
/// Zeros are a value of the type, and it has a size.
unsafe fn zeroed<T>() -> Box<T> {
    let layout = Layout::new::<T>();
    // SAFETY: the type has a size, and what was allocated for it is filled with a value of it.
    unsafe {
        let place = alloc_zeroed(layout);
        if place.is_null() {
            handle_alloc_error(layout);
        }
        Box::from_raw(place.cast())
    }
}

impl Server {
    /// A server without rows at number 0 and tick 0, on the heap.
    pub fn boxed() -> Box<Server> {
        // SAFETY: numbers alone.
        unsafe { zeroed() }
    }

    /// Row i, counted from 0 in key order. In an ill-formed state, a row whose lengths do not fit its cells is no row.
    pub fn row(&self, i: usize) -> Option<Row<'_>> {
        let stamps = self.stamps.get(i)?;
        row_of(&self.rows, &self.lengths, self.header.count, i, stamps.number, stamps.expiry)
    }

    /// The rows in key order, as far as there are.
    pub fn rows(&self) -> impl Iterator<Item = Row<'_>> {
        (0..).map_while(|i| self.row(i))
    }
}

impl Client {
    /// A client of the empty subtree that waits from tick 0 on, on the heap.
    pub fn boxed() -> Box<Client> {
        // SAFETY: numbers alone.
        unsafe { zeroed() }
    }

    /// Whether the client has its snapshot.
    pub fn is_live(&self) -> bool {
        self.header.phase != 0
    }

    /// Row i, counted from 0 in key order. While the client waits, these are the rows of the snapshot so far. In an
    /// ill-formed state, a row whose lengths do not fit its cells is no row.
    pub fn row(&self, i: usize) -> Option<Row<'_>> {
        row_of(&self.rows, &self.lengths, self.header.count, i, 0, NEVER)
    }

    /// The rows in key order, as far as there are.
    pub fn rows(&self) -> impl Iterator<Item = Row<'_>> {
        (0..).map_while(|i| self.row(i))
    }
}

fn row_of<'a>(
    rows: &'a [RowBytes; ROWS],
    lengths: &[RowLengths; ROWS],
    count: u64,
    i: usize,
    number: u64,
    expiry: u64,
) -> Option<Row<'a>> {
    if i as u64 >= count {
        return None;
    }
    let (bytes, lengths) = (rows.get(i)?, lengths.get(i)?);
    let key = bytes.key.get(..usize::try_from(lengths.key).ok()?)?;
    let value = bytes.value.get(..usize::try_from(lengths.value).ok()?)?;
    Some(Row { key, value, number, expiry })
}
