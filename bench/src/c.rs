//! The structs of the C interface. The states are those of the Rust module, so that the check of the header
//! holds the module's structs against C's too.

pub use chp::{
    Client, ClientHeader, ICANHAZ_MOST, KEY_MOST, KVPUB_MOST, NEVER, ROWS, RowBytes, RowLengths, RowStamps,
    SNAPSHOT_MOST, Server, ServerHeader, VALUE_MOST,
};

#[repr(C)]
#[derive(Clone, Copy, PartialEq, Eq, Debug)]
pub struct Answer {
    pub kind: u64,
    pub refusal: u64,
    pub number: u64,
    pub written: u64,
}

/// A message that is built from parts in a buffer.
#[repr(C)]
#[derive(Clone, Copy, PartialEq, Eq, Debug)]
pub struct Message {
    pub bytes: *mut u8,
    pub room: usize,
    pub length: u64,
    pub stage: u64,
}

#[repr(C)]
#[derive(Clone, Copy, PartialEq, Eq, Debug)]
pub struct Frame {
    pub start: u64,
    pub length: u64,
    pub more: u64,
}

#[repr(C)]
#[derive(Clone, Copy, PartialEq, Eq, Debug)]
pub struct Part {
    pub start: u64,
    pub length: u64,
}

/// A row, which points into the state.
#[repr(C)]
#[derive(Clone, Copy, PartialEq, Eq, Debug)]
pub struct Row {
    pub key: *const u8,
    pub key_length: usize,
    pub value: *const u8,
    pub value_length: usize,
    pub number: u64,
    pub expiry: u64,
}

/// What both states have in common: rows, each with a cell of bytes and their lengths, and how many there are.
pub trait Table {
    fn cells(&self) -> &[RowBytes; ROWS];
    fn cells_mut(&mut self) -> &mut [RowBytes; ROWS];
    fn lengths(&self) -> &[RowLengths; ROWS];
    fn lengths_mut(&mut self) -> &mut [RowLengths; ROWS];
    fn count(&self) -> u64;
    fn set_count(&mut self, count: u64);

    /// The place of the last row; there is one.
    fn last(&self) -> usize {
        self.count() as usize - 1
    }
}

macro_rules! table {
    ($state:ty) => {
        impl Table for $state {
            fn cells(&self) -> &[RowBytes; ROWS] {
                &self.rows
            }

            fn cells_mut(&mut self) -> &mut [RowBytes; ROWS] {
                &mut self.rows
            }

            fn lengths(&self) -> &[RowLengths; ROWS] {
                &self.lengths
            }

            fn lengths_mut(&mut self) -> &mut [RowLengths; ROWS] {
                &mut self.lengths
            }

            fn count(&self) -> u64 {
                self.header.count
            }

            fn set_count(&mut self, count: u64) {
                self.header.count = count;
            }
        }
    };
}

table!(Server);
table!(Client);

/// A state seen as bytes, which it may be made of and compared by.
///
/// # Safety
/// For structs without padding of which every bit pattern is a value.
pub unsafe trait Plain: Sized {
    fn bytes(&self) -> &[u8] {
        // SAFETY: no padding, so every byte is initialised.
        unsafe { std::slice::from_raw_parts((&raw const *self).cast(), size_of::<Self>()) }
    }

    fn bytes_mut(&mut self) -> &mut [u8] {
        // SAFETY: as above, and any bytes are a value.
        unsafe { std::slice::from_raw_parts_mut((&raw mut *self).cast(), size_of::<Self>()) }
    }

    fn zeroed() -> Box<Self> {
        // SAFETY: zeros are a value.
        unsafe { Box::<Self>::new_zeroed().assume_init() }
    }
}

// SAFETY: arrays of bytes and of words alone, each field's length a multiple of eight; the layout
// check compares the sizes with those of C.
unsafe impl Plain for Server {}
// SAFETY: as above.
unsafe impl Plain for Client {}
