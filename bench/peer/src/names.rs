//! Keys and subtrees.

use crate::KEY_ROOM;

/// A key is one or more segments, each a slash and at least one byte that is neither slash nor
/// zero.
pub fn is_key(bytes: &[u8]) -> bool {
    if bytes.len() > KEY_ROOM || bytes.first() != Some(&b'/') {
        return false;
    }
    let mut previous = b'/';
    for &byte in &bytes[1..] {
        if byte == 0 || (byte == b'/' && previous == b'/') {
            return false;
        }
        previous = byte;
    }
    previous != b'/'
}

/// A subtree is empty, or a key and a final slash.
pub fn is_subtree(bytes: &[u8]) -> bool {
    match bytes {
        [] => true,
        [key @ .., b'/'] => bytes.len() <= KEY_ROOM && is_key(key),
        _ => false,
    }
}

/// A key is under a subtree that is a prefix of it, final slash included.
pub fn is_under(subtree: &[u8], key: &[u8]) -> bool {
    key.starts_with(subtree)
}
