//! Messages as bytes: encoded in canonical and other sizes, and damaged.

use crate::random::Random;

/// The bodies as one message, each with the shortest size that holds it.
pub fn encode(bodies: &[&[u8]]) -> Vec<u8> {
    let mut bytes = Vec::new();
    for (i, body) in bodies.iter().enumerate() {
        put_frame(&mut bytes, i + 1 < bodies.len(), body.len() > 255, body);
    }
    bytes
}

/// The same with eight size octets for some short bodies.
pub fn encode_with_long_sizes(random: &mut Random, bodies: &[&[u8]]) -> Vec<u8> {
    let mut bytes = Vec::new();
    for (i, body) in bodies.iter().enumerate() {
        let long = body.len() > 255 || random.percent(50);
        put_frame(&mut bytes, i + 1 < bodies.len(), long, body);
    }
    bytes
}

fn put_frame(bytes: &mut Vec<u8>, more: bool, long: bool, body: &[u8]) {
    bytes.push(u8::from(more) | (u8::from(long) << 1));
    if long {
        bytes.extend_from_slice(&(body.len() as u64).to_be_bytes());
    } else {
        bytes.push(body.len() as u8);
    }
    bytes.extend_from_slice(body);
}

/// Damages a message in one of many ways; it may stay a message.
pub fn damage(random: &mut Random, bytes: &mut Vec<u8>) {
    let length = bytes.len();
    match random.below(9) {
        0 if length > 0 => bytes[random.below(length)] ^= 1 << random.below(8),
        1 => bytes.truncate(random.below(length + 1)),
        2 => bytes.truncate(length.saturating_sub(1)),
        3 => {
            let surplus = random.between(1, 3);
            bytes.extend(random.bytes(surplus));
        }
        4 => wrong_flag(random, bytes),
        5 => wrong_size(random, bytes),
        6 => wrong_long_size(random, bytes),
        7 => bytes.clear(),
        _ => add_frames(random, bytes),
    }
}

/// Changes the flag octet of some frame, mostly to one that is refused.
fn wrong_flag(random: &mut Random, bytes: &mut [u8]) {
    let starts = frame_starts(bytes);
    if !starts.is_empty() {
        let at = random.pick(&starts);
        let any = random.byte();
        bytes[at] = random.pick(&[bytes[at] | 4, bytes[at] | 4, bytes[at] | 0x80, bytes[at] ^ 1, any]);
    }
}

/// Changes the first size octet of some frame.
fn wrong_size(random: &mut Random, bytes: &mut [u8]) {
    let starts = frame_starts(bytes);
    if !starts.is_empty() {
        let at = random.pick(&starts) + 1;
        let any = random.byte();
        bytes[at] = random.pick(&[bytes[at].wrapping_add(1), bytes[at].wrapping_sub(1), any]);
    }
}

/// Replaces the last frame by one whose long size says more, or less, than there is.
fn wrong_long_size(random: &mut Random, bytes: &mut Vec<u8>) {
    let starts = frame_starts(bytes);
    let at = starts.last().copied().unwrap_or(0);
    bytes.truncate(at);
    let body = random.between(0, 20);
    let near = [body as u64 + 1, (body as u64).saturating_sub(1), body as u64];
    let far = [u64::MAX, u64::MAX - 8, u64::MAX - at as u64, 1 << 63, 1 << 32];
    let size = if random.percent(50) { random.pick(&near) } else { random.pick(&far) };
    bytes.push(2);
    bytes.extend_from_slice(&size.to_be_bytes());
    bytes.extend(random.bytes(body));
}

/// Puts frames after the last one, which then says that another follows: six or more in all, or
/// some hundreds. The last of them may be broken.
fn add_frames(random: &mut Random, bytes: &mut Vec<u8>) {
    if let Some(&last) = frame_starts(bytes).last() {
        bytes[last] |= 1;
    }
    let count = if random.percent(5) { 300 } else { random.between(1, 3) };
    for i in 0..count {
        put_frame(bytes, i + 1 < count, false, b"x");
    }
    if random.percent(30) {
        bytes.pop();
    }
}

/// Where each frame begins, as far as the bytes are frames.
fn frame_starts(bytes: &[u8]) -> Vec<usize> {
    let mut starts = Vec::new();
    let mut at = 0;
    while let Some(frame) = peer::frames::frame_at(bytes, at) {
        starts.push(at);
        at = frame.start + frame.length;
        if !frame.more {
            break;
        }
    }
    starts
}
