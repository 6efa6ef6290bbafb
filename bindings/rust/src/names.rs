//! Tests of names.

use crate::exports as c;

// SAFETY of every call below: each pointer has the length beside it.

/// Whether some bytes are a well-formed key.
pub fn is_key(bytes: &[u8]) -> bool {
    unsafe { c::chp_bytes_is_key(bytes.as_ptr(), bytes.len()) != 0 }
}

/// Whether some bytes are a well-formed subtree. The empty one is.
pub fn is_subtree(bytes: &[u8]) -> bool {
    unsafe { c::chp_bytes_is_subtree(bytes.as_ptr(), bytes.len()) != 0 }
}

/// Whether the bytes of a key begin with those of a subtree. Neither need be well-formed.
pub fn is_under(subtree: &[u8], key: &[u8]) -> bool {
    unsafe { c::chp_bytes_is_under(subtree.as_ptr(), subtree.len(), key.as_ptr(), key.len()) != 0 }
}
