//! The fields of 12/CHP's messages, and the checks that several entries make on them.

use crate::answer::{Refusal, require};
use crate::names::is_key;
use crate::properties::read_ttl;
use crate::{NUMBER_MAX, VALUE_ROOM};

pub const ICANHAZ: &[u8] = b"ICANHAZ?";
pub const KTHXBAI: &[u8] = b"KTHXBAI";
pub const HUGZ: &[u8] = b"HUGZ";

/// HUGZ as its five bodies.
pub const HUGZ_BODIES: [&[u8]; 5] = [HUGZ, &[0; 8], b"", b"", b""];

/// What a KVSET or a KVPUB says.
pub struct Update<'a> {
    pub key: &'a [u8],
    pub number: u64,
    pub uuid: &'a [u8],
    pub properties: &'a [u8],
    /// Seconds.
    pub ttl: Option<u64>,
    pub value: &'a [u8],
}

/// Reads an update whose number may be at most the limit.
pub fn read_update<'a>(bodies: [&'a [u8]; 5], limit: u64) -> Result<Update<'a>, Refusal> {
    let [key, sequence, uuid, properties, value] = bodies;
    check_key(key)?;
    let number = read_sequence(sequence, limit)?;
    check_uuid(uuid)?;
    let ttl = read_ttl(properties)?;
    check_value(value)?;
    Ok(Update { key, number, uuid, properties, ttl, value })
}

pub fn check_key(key: &[u8]) -> Result<(), Refusal> {
    require(is_key(key), Refusal::Key)
}

pub fn check_uuid(uuid: &[u8]) -> Result<(), Refusal> {
    require(uuid.is_empty() || uuid.len() == 16, Refusal::Uuid)
}

pub fn check_value(value: &[u8]) -> Result<(), Refusal> {
    require(value.len() <= VALUE_ROOM, Refusal::Value)
}

/// A KVSET's and a KVSYNC's number is not used: any eight bytes will do.
pub const ANY_NUMBER: u64 = u64::MAX;

/// The number in a sequence frame.
pub fn read_sequence(sequence: &[u8], limit: u64) -> Result<u64, Refusal> {
    let octets = sequence.try_into().map_err(|_| Refusal::Sequence)?;
    let number = u64::from_be_bytes(octets);
    require(number <= limit, Refusal::Sequence)?;
    Ok(number)
}

/// The frames between sequence and value are empty in KVSYNC, KTHXBAI and HUGZ.
fn check_empty_middle(uuid: &[u8], properties: &[u8]) -> Result<(), Refusal> {
    require(uuid.is_empty(), Refusal::Uuid)?;
    require(properties.is_empty(), Refusal::Properties)
}

/// A KVSYNC whose key was looked at before.
pub fn check_kvsync_rest(bodies: [&[u8]; 5]) -> Result<(), Refusal> {
    let [_, sequence, uuid, properties, value] = bodies;
    read_sequence(sequence, ANY_NUMBER)?;
    check_empty_middle(uuid, properties)?;
    require(!value.is_empty(), Refusal::Value)?;
    check_value(value)
}

/// The number of a KTHXBAI that ends in this subtree.
pub fn read_kthxbai(bodies: [&[u8]; 5], subtree: &[u8]) -> Result<u64, Refusal> {
    let [_, sequence, uuid, properties, last] = bodies;
    require(last == subtree, Refusal::Subtree)?;
    let number = read_sequence(sequence, NUMBER_MAX)?;
    check_empty_middle(uuid, properties)?;
    Ok(number)
}

pub fn check_hugz(bodies: [&[u8]; 5]) -> Result<(), Refusal> {
    let [_, sequence, uuid, properties, value] = bodies;
    read_sequence(sequence, 0)?;
    check_empty_middle(uuid, properties)?;
    require(value.is_empty(), Refusal::Value)
}
