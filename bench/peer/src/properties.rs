//! The properties frame: lines of name, equals sign, value and newline. One name has a meaning, ttl.

use crate::answer::{Refusal, require};
use crate::{PROPERTIES_ROOM, TTL_MAX};

/// The ttl in seconds that well-formed properties carry, if they carry one.
pub fn read_ttl(properties: &[u8]) -> Result<Option<u64>, Refusal> {
    require(properties.len() <= PROPERTIES_ROOM, Refusal::Properties)?;
    let mut ttl = None;
    let mut rest = properties;
    while !rest.is_empty() {
        let (line, after) = cut(rest, b'\n')?;
        let (name, value) = cut(line, b'=')?;
        require(!name.is_empty() && !line.contains(&0), Refusal::Properties)?;
        if name == b"ttl" {
            require(ttl.is_none(), Refusal::Properties)?;
            ttl = Some(seconds(value)?);
        }
        rest = after;
    }
    Ok(ttl)
}

/// What comes before and after the first such byte.
fn cut(bytes: &[u8], mark: u8) -> Result<(&[u8], &[u8]), Refusal> {
    let at = bytes.iter().position(|byte| *byte == mark).ok_or(Refusal::Properties)?;
    Ok((&bytes[..at], &bytes[at + 1..]))
}

/// One to five decimal digits; zeros in front are allowed.
fn seconds(digits: &[u8]) -> Result<u64, Refusal> {
    require((1..=5).contains(&digits.len()), Refusal::Properties)?;
    let mut sum = 0;
    for digit in digits {
        require(digit.is_ascii_digit(), Refusal::Properties)?;
        sum = 10 * sum + u64::from(digit - b'0');
    }
    require(sum <= TTL_MAX, Refusal::Properties)?;
    Ok(sum)
}
