//! Random messages by their fields, good and bad.

use crate::compare::{names, wire};
use crate::random::Random;
use peer::NUMBER_MAX;

/// Added to a good length it gives a bad one that two octets cannot tell from it; seldom, since such
/// bodies are long.
pub const FAR: usize = 65_536;
pub const FAR_CHANCE: usize = 100;

/// The bodies of a message of five frames.
#[derive(Clone)]
pub struct Five {
    pub first: Vec<u8>,
    pub sequence: Vec<u8>,
    pub uuid: Vec<u8>,
    pub properties: Vec<u8>,
    pub last: Vec<u8>,
}

impl Five {
    pub fn bodies(&self) -> [&[u8]; 5] {
        [&self.first, &self.sequence, &self.uuid, &self.properties, &self.last]
    }

    /// The message's bytes, now and then with long sizes.
    pub fn encode(&self, random: &mut Random) -> Vec<u8> {
        if random.percent(10) {
            wire::encode_with_long_sizes(random, &self.bodies())
        } else {
            wire::encode(&self.bodies())
        }
    }
}

/// How the values and properties of a run of updates are chosen.
#[derive(Clone, Copy)]
pub struct Mix {
    /// Updates in a hundred that remove.
    pub removals: usize,
    /// Updates in a hundred with a ttl.
    pub ttls: usize,
}

/// A KVSET, or a KVPUB with this sequence, that is well-formed if the key is.
pub fn update(random: &mut Random, mix: Mix, key: Vec<u8>, sequence: Vec<u8>) -> Five {
    let last = if random.percent(mix.removals) { Vec::new() } else { value(random) };
    Five { first: key, sequence, uuid: uuid(random), properties: properties(random, mix.ttls), last }
}

pub fn kvsync(random: &mut Random, key: Vec<u8>) -> Five {
    let (sequence, last) = (any_sequence(random), value(random));
    Five { first: key, sequence, uuid: Vec::new(), properties: Vec::new(), last }
}

pub fn kthxbai(number: u64, subtree: &[u8]) -> Five {
    let sequence = number.to_be_bytes().to_vec();
    Five { first: b"KTHXBAI".to_vec(), sequence, uuid: Vec::new(), properties: Vec::new(), last: subtree.to_vec() }
}

pub fn hugz() -> Five {
    Five { first: b"HUGZ".to_vec(), sequence: vec![0; 8], uuid: Vec::new(), properties: Vec::new(), last: Vec::new() }
}

/// Makes one or two fields of a KVSET or KVPUB bad; a sequence of the right length may stay good.
pub fn spoil_update(random: &mut Random, five: &mut Five) {
    for _ in 0..random.pick(&[1, 1, 1, 2]) {
        match random.below(5) {
            0 => five.first = names::bad_key(random),
            1 => five.sequence = bad_sequence(random),
            2 => five.uuid = bad_uuid(random),
            3 => five.properties = bad_properties(random),
            _ => five.last = bad_value(random),
        }
    }
}

/// Makes one or two fields bad of a message with empty frames in the middle.
pub fn spoil_empty_middle(random: &mut Random, five: &mut Five) {
    for _ in 0..random.pick(&[1, 1, 1, 2]) {
        match random.below(5) {
            0 => five.first = names::bad_key(random),
            1 => five.sequence = bad_sequence(random),
            2 => five.uuid = random_length(random, &[1, 15, 16, 17]),
            3 => five.properties = random.pick(&["a=b\n", "ttl=1\n", "x", "\0"]).into(),
            _ => five.last = other_last(random),
        }
    }
}

/// For the last frame of a KVSYNC, KTHXBAI or HUGZ.
fn other_last(random: &mut Random) -> Vec<u8> {
    match random.below(5) {
        0 => Vec::new(),
        1 => bad_value(random),
        2 => names::bad_subtree(random),
        3 => names::subtree(random),
        _ => random_length(random, &[1, 255, 300]),
    }
}

fn random_length(random: &mut Random, lengths: &[usize]) -> Vec<u8> {
    let length = random.pick(lengths);
    random.bytes(length)
}

pub fn uuid(random: &mut Random) -> Vec<u8> {
    random_length(random, &[0, 0, 16])
}

pub fn bad_uuid(random: &mut Random) -> Vec<u8> {
    if random.below(FAR_CHANCE) == 0 {
        return vec![1; FAR + 16];
    }
    random_length(random, &[1, 15, 17, 32, 255, 272])
}

pub fn value(random: &mut Random) -> Vec<u8> {
    let any = random.between(1, 256);
    random_length(random, &[1, 2, 3, 5, 8, 32, 32, 254, 255, 256, any])
}

pub fn bad_value(random: &mut Random) -> Vec<u8> {
    if random.below(FAR_CHANCE) == 0 {
        return vec![1; FAR + 32];
    }
    random_length(random, &[257, 257, 258, 512, 900])
}

/// Eight bytes of any kind, for messages whose number is not used.
pub fn any_sequence(random: &mut Random) -> Vec<u8> {
    let any = random.next();
    random.pick(&[0, 0, 1, NUMBER_MAX, NUMBER_MAX + 1, u64::MAX, any]).to_be_bytes().to_vec()
}

/// Another length than eight; or eight bytes that say too much where the number is used.
pub fn bad_sequence(random: &mut Random) -> Vec<u8> {
    if random.below(FAR_CHANCE) == 0 {
        return vec![0; FAR + 8];
    }
    match random.below(4) {
        0 => random_length(random, &[0, 1, 7, 9, 16]),
        1 => vec![0; random.pick(&[0, 7, 9])],
        2 => (NUMBER_MAX + 1).to_be_bytes().to_vec(),
        _ => random.pick(&[u64::MAX, 1, 1 << 56]).to_be_bytes().to_vec(),
    }
}

/// Well-formed properties.
pub fn properties(random: &mut Random, ttls: usize) -> Vec<u8> {
    if random.percent(ttls) {
        return with_ttl(random);
    }
    match random.below(8) {
        0 => random.pick(&["a=b\n", "a==\n", "a=\n", "a=b\na=b\n", "x y=\r\t\n"]).into(),
        1 => random.pick(&["TTL=x\n", "ttl =x\n", "ttls=7777777\n", "ttl-ms=junk\n", " ttl=\n", "tt=9\n"]).into(),
        2 => of_length(random, 128),
        3 => {
            let length = random.between(3, 127);
            of_length(random, length)
        }
        _ => Vec::new(),
    }
}

/// Well-formed properties with a ttl, mostly a short one.
fn with_ttl(random: &mut Random) -> Vec<u8> {
    let ttl = random.pick(&["0", "0", "1", "1", "2", "3", "00002", "00000", "10", "86400", "86399"]);
    let (before, after) = random.pick(&[("", ""), ("", ""), ("a=b\n", ""), ("", "z=\n"), ("tt=1\n", "ttl2=x\n")]);
    format!("{before}ttl={ttl}\n{after}").into()
}

/// Well-formed lines of this length in all, which is at least three.
pub fn of_length(random: &mut Random, length: usize) -> Vec<u8> {
    let mut bytes = random.bytes(length);
    for byte in &mut bytes {
        if matches!(*byte, 0 | b'\n') {
            *byte = b'=';
        }
    }
    bytes[0] = b'n';
    bytes[1] = b'=';
    bytes[length - 1] = b'\n';
    bytes
}

pub fn bad_properties(random: &mut Random) -> Vec<u8> {
    if random.below(FAR_CHANCE) == 0 {
        return of_length(random, FAR + 32);
    }
    match random.below(4) {
        0 => of_length(random, 129),
        1 => random.pick(&["a=b", "=b\n", "ab\n", "\n", "a=b\0\n", "a\0=b\n", "a=b\n\n", "ttl\n", "a=b\nc"]).into(),
        2 => random.pick(&["ttl=86401\n", "ttl=99999\n", "ttl=000001\n", "ttl=100000\n", "ttl=\n", "ttl=1"]).into(),
        _ => random
            .pick(&[
                "ttl=1x\n",
                "ttl=-1\n",
                "ttl=+1\n",
                "ttl= 1\n",
                "ttl=1\r\n",
                "ttl=0x1\n",
                "ttl=:\n",
                "ttl==1\n",
                "ttl=1\nttl=1\n",
                "ttl=0\nttl=0\n",
                "ttl=0\na=b\nttl=5\n",
                "ttl=1\nttl=\n",
            ])
            .into(),
    }
}
