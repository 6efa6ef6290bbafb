//! Limits, and lengths of buffers that are never too short.

/// The version that this module is for: a million times the major, a thousand times the minor, and the patch.
pub const VERSION: u64 = 8_000;

/// Rows that a state holds.
pub const ROWS: usize = 64;
/// Bytes of a key or a subtree, of a value, and of properties.
pub const KEY_MOST: usize = 96;
pub const VALUE_MOST: usize = 256;
pub const PROPERTIES_MOST: usize = 128;
/// Bytes of a UUID that is not empty.
pub const UUID_LENGTH: usize = 16;
/// Bytes of an identity.
pub const IDENTITY_MOST: usize = 255;
/// The last number, 2^63 - 1, and the last tick, 2^62.
pub const NUMBER_MOST: u64 = (1 << 63) - 1;
pub const TICK_MOST: u64 = 1 << 62;
/// The expiry of a row that does not expire.
pub const NEVER: u64 = u64::MAX;

/// Outputs: of KVSET and Tick at a server and of a client's KVSET; of a client's ICANHAZ; of ICANHAZ at a server.
pub const KVPUB_MOST: usize = 521;
pub const HUGZ_LENGTH: usize = 22;
pub const ICANHAZ_MOST: usize = 108;
pub const SNAPSHOT_MOST: usize = 40_953;

/// Inputs: a buffer of this length holds every message that the entry can accept, as [`crate::Message`] builds it.
pub const KVSET_ROOM: usize = 521;
pub const ICANHAZ_ROOM: usize = 365;
pub const SNAPSHOT_ROOM: usize = 377;
pub const SUBSCRIBER_ROOM: usize = 521;
