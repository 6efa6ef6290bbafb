//! The bookkeeping of 12/CHP's server and client, written a second time from the outline of the
//! rules alone. It shares no code and no state layout with the C library: that library is compared
//! with it and measured beside it.
//!
//! States are plain values. A call that may change a state takes it and gives it back, or changes a
//! lent one in place; a call that changes nothing borrows it. States can be ill-formed, so every call
//! tests the whole state first.

#![forbid(unsafe_code)]

pub mod answer;
pub mod client;
pub mod frames;
pub mod messages;
pub mod names;
pub mod parts;
pub mod properties;
pub mod rows;
pub mod server;

/// Rows that a server or a client holds at most.
pub const MAX_ROWS: usize = 64;
/// Bytes of the longest key, and of the longest subtree.
pub const KEY_ROOM: usize = 96;
/// Bytes of the longest value.
pub const VALUE_ROOM: usize = 256;
/// Bytes of the longest properties frame.
pub const PROPERTIES_ROOM: usize = 128;
/// The greatest number that a state keeps.
pub const NUMBER_MAX: u64 = (1 << 63) - 1;
/// The greatest tick, in milliseconds.
pub const TICK_MAX: u64 = 1 << 62;
/// The greatest ttl, in seconds.
pub const TTL_MAX: u64 = 86_400;
/// The greatest expiry: the greatest tick and the greatest ttl.
pub const EXPIRY_MAX: u64 = TICK_MAX + 1000 * TTL_MAX;
/// Milliseconds without a publication after which the server writes HUGZ.
pub const HEARTBEAT_MS: u64 = 1000;
/// Milliseconds of silence after which a client presumes the server gone.
pub const SILENCE_MS: u64 = 5000;
