//! Random keys and subtrees, good and bad.

use crate::compare::fields::{FAR, FAR_CHANCE};
use crate::random::Random;

const PREFIXES: [&str; 6] = ["/", "/a/", "/a/b/", "/clip/", "/clip/7/", "/clip/70/"];

/// Bytes of a segment: mostly letters and digits, now and then any byte but slash and zero.
fn segment(random: &mut Random, length: usize) -> Vec<u8> {
    let odd = random.percent(15);
    let byte = |random: &mut Random| match random.byte() {
        0 | b'/' => b'=',
        any if odd => any,
        any => b"abcdefghij0123456789"[usize::from(any) % 20],
    };
    (0..length).map(|_| byte(random)).collect()
}

/// A subtree of 95 bytes, under which keys of 96 bytes fit.
pub fn subtree_of_95() -> Vec<u8> {
    [b"/", &[b's'; 93][..], b"/"].concat()
}

/// 64 keys of 96 bytes under the subtree of 95, in order.
pub fn longest_keys(random: &mut Random) -> Vec<Vec<u8>> {
    let first = random.between(1, 150) as u8;
    let last_bytes = (first..).filter(|byte| *byte != b'/').take(64);
    last_bytes.map(|byte| [subtree_of_95(), vec![byte]].concat()).collect()
}

/// A subtree of 96 bytes, under which no key fits.
pub fn subtree_of_96() -> Vec<u8> {
    [b"/", &[b't'; 94][..], b"/"].concat()
}

pub fn key(random: &mut Random) -> Vec<u8> {
    match random.below(20) {
        0 => key_of_length(random, 96),
        1 => [subtree_of_95(), segment(random, 1)].concat(),
        2 => random.pick(&["/a", "/clip", "/clip/7", "/HUGZ", "/KTHXBAI", "/a/b"]).into(),
        4 | 5 => one_of_a_family(random),
        3 => {
            let length = random.between(2, 96);
            key_of_length(random, length)
        }
        _ => {
            let prefix = random.pick(&PREFIXES);
            let length = random.between(1, 4);
            [prefix.as_bytes(), &segment(random, length)].concat()
        }
    }
}

/// Keys of which many are the beginning of others, or differ in one byte at some place.
fn one_of_a_family(random: &mut Random) -> Vec<u8> {
    let length = random.between(2, 30);
    let mut key = [b"/", &vec![b'q'; length - 1][..]].concat();
    if random.percent(50) {
        let at = random.between(1, length - 1);
        key[at] = random.pick(b"\x01pr\xFF");
    }
    key
}

fn key_of_length(random: &mut Random, length: usize) -> Vec<u8> {
    let mut key = [b"/".to_vec(), segment(random, length - 1)].concat();
    if length > 6 && random.percent(50) {
        let at = random.between(2, length - 2);
        key[at] = b'/';
    }
    key
}

/// A key under the subtree but for one bit somewhere.
pub fn key_near(random: &mut Random, subtree: &[u8]) -> Vec<u8> {
    let mut key = key_under(random, subtree);
    let at = random.below(key.len());
    key[at] ^= 1 << random.below(8);
    key
}

/// A key under the subtree, where one fits.
pub fn key_under(random: &mut Random, subtree: &[u8]) -> Vec<u8> {
    match subtree.len() {
        0 => key(random),
        96.. => subtree.to_vec(),
        length => {
            let tail = random.between(1, (96 - length).min(3));
            [subtree, &segment(random, tail)].concat()
        }
    }
}

pub fn bad_key(random: &mut Random) -> Vec<u8> {
    if random.below(FAR_CHANCE) == 0 {
        return key_of_length(random, FAR + 20);
    }
    let mut key = key(random);
    match random.below(12) {
        0 => key.clear(),
        1 => key[0] = b'k',
        2 => key.insert(0, b'/'),
        3 => key.push(b'/'),
        4 => key = key_of_length(random, 97),
        5 => {
            let length = random.between(98, 300);
            key = key_of_length(random, length);
        }
        6 => {
            let at = random.below(key.len());
            key[at] = 0;
        }
        7 => key.push(0),
        8 => key = b"/".to_vec(),
        9 => key = random.pick(&["HUGZ", "KTHXBAI", "hugz", "HUGZ\0", "kthxbai", "ICANHAZ?"]).into(),
        10 => {
            let length = random.between(4, 96);
            key = key_of_length(random, length);
            let at = random.between(1, length - 2);
            key[at..at + 2].copy_from_slice(b"//");
        }
        _ => key = random.bytes(200),
    }
    key
}

pub fn subtree(random: &mut Random) -> Vec<u8> {
    match random.below(12) {
        0..4 => Vec::new(),
        4 => subtree_of_95(),
        5 => subtree_of_96(),
        6 => {
            let length = random.between(1, 90);
            [b"/", &segment(random, length)[..], b"/"].concat()
        }
        _ => random.pick(&PREFIXES[1..]).into(),
    }
}

pub fn bad_subtree(random: &mut Random) -> Vec<u8> {
    if random.below(FAR_CHANCE) == 0 {
        return if random.percent(50) { vec![b'/'; FAR] } else { [b"/", &[b't'; FAR + 20][..], b"/"].concat() };
    }
    match random.below(10) {
        0 => b"/".to_vec(),
        1 => b"//".to_vec(),
        2 => b"a/".to_vec(),
        3 => b"/a//".to_vec(),
        4 => b"/a\0/".to_vec(),
        5 => [b"/", &[b't'; 95][..], b"/"].concat(),
        6 => [b"/", &[b't'; 300][..], b"/"].concat(),
        7 => [b"/", &[b't'; 95][..]].concat(),
        8 => random.pick(&["x", "\0", "HUGZ", "/a/ ", "//a/"]).into(),
        _ => key(random),
    }
}

/// A sorted list of that many different keys under the subtree. Few fit under a subtree of 95 or
/// 96 bytes, so the list may be shorter.
pub fn different_keys(random: &mut Random, count: usize, subtree: &[u8]) -> Vec<Vec<u8>> {
    let mut keys = Vec::new();
    for _ in 0..4 * count {
        let key = key_under(random, subtree);
        if let Err(at) = keys.binary_search(&key)
            && key.len() > subtree.len()
        {
            keys.insert(at, key);
        }
        if keys.len() == count {
            break;
        }
    }
    keys
}
