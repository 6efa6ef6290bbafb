//! The ways in which a state can be ill-formed, each as a change to a well-formed state that has
//! rows; and changes that look odd and leave it well-formed. A change breaks one rule where that is
//! possible, so that no other check can hide it.

use crate::c::{Client, KEY_MOST, NEVER, Server, Table};
use crate::compare::plant::{put_key, put_subtree};
use crate::random::Random;
use peer::{EXPIRY_MAX, NUMBER_MAX, TICK_MAX};

pub struct Way<S: ?Sized> {
    pub name: &'static str,
    pub apply: fn(&mut Random, &mut S),
}

/// The first row, the last row or any.
fn row(random: &mut Random, table: &(impl Table + ?Sized)) -> usize {
    let last = table.last();
    let any = random.between(0, last);
    random.pick(&[0, last, any])
}

/// Lets a row's key go on with these bytes, or end in them where there is no room. A longer key
/// mostly stays below the next one.
fn append(random: &mut Random, table: &mut dyn Table, bytes: &[u8]) {
    let i = row(random, table);
    let length = table.lengths()[i].key as usize;
    let at = length.min(KEY_MOST - bytes.len());
    table.cells_mut()[i].key[at..][..bytes.len()].copy_from_slice(bytes);
    table.lengths_mut()[i].key = (at + bytes.len()) as u64;
}

/// Lengths far too great; the first three have the right length in their low half.
fn far(random: &mut Random, length: u64) -> u64 {
    random.pick(&[length | 1 << 32, length | 1 << 63, length | 1 << 16, 1 << 31, u64::MAX])
}

/// The last key becomes one of 97 bytes that would be a key but for its length. Its last byte is the
/// first one of the row's value, which comes right after the key.
fn key_of_97(table: &mut dyn Table) {
    let last = table.last();
    let cell = &mut table.cells_mut()[last];
    cell.key = [b'\xFF'; KEY_MOST];
    cell.key[0] = b'/';
    cell.value[0] = b'\xFF';
    table.lengths_mut()[last].key = 97;
}

/// Gives the first key, made longer now and then, these bytes at some place after its first byte. They
/// are below most bytes, so that the key mostly stays below the next one.
fn inside(random: &mut Random, table: &mut dyn Table, bytes: &[u8]) {
    if random.percent(70) {
        let length = random.between(4, KEY_MOST);
        let key = [b"/", &vec![b'0'; length - 1][..]].concat();
        put_key(table, 0, &key);
    }
    let length = table.lengths()[0].key as usize;
    let last = length.max(1 + bytes.len()) - bytes.len();
    let at = random.between(1, last);
    table.cells_mut()[0].key[at..at + bytes.len()].copy_from_slice(bytes);
    table.lengths_mut()[0].key = length.max(at + bytes.len()) as u64;
}

/// The bytes alone become equal, and not what comes after them.
fn equal_keys(random: &mut Random, table: &mut dyn Table) {
    let i = random.below(table.last());
    let length = table.lengths()[i].key as usize;
    let key = table.cells()[i].key;
    put_key(table, i + 1, &key[..length]);
}

/// The last two keys, above all others: the second goes on where the first ends, or the other way.
fn prefix_last(random: &mut Random, table: &mut dyn Table, rising: bool) {
    let length = random.between(2, KEY_MOST - 1);
    let short = [b"/", &vec![b'\xFF'; length - 1][..]].concat();
    let long = [&short[..], b"\x01"].concat();
    let (first, second) = if rising { (&short, &long) } else { (&long, &short) };
    let last = table.last();
    put_key(table, last - 1, first);
    put_key(table, last, second);
}

/// Two keys change places, and their values stay.
fn falling_keys(random: &mut Random, table: &mut dyn Table) {
    let i = random.below(table.last());
    let (first, second) = (table.cells()[i].key, table.cells()[i + 1].key);
    (table.cells_mut()[i].key, table.cells_mut()[i + 1].key) = (second, first);
    let (first, second) = (table.lengths()[i].key, table.lengths()[i + 1].key);
    (table.lengths_mut()[i].key, table.lengths_mut()[i + 1].key) = (second, first);
}

pub const TABLE_WAYS: &[Way<dyn Table>] = &[
    Way { name: "65 rows", apply: |_, t| t.set_count(65) },
    Way { name: "far too many rows", apply: |r, t| t.set_count(far(r, t.count())) },
    Way { name: "key of 0 bytes", apply: |_, t| t.lengths_mut()[0].key = 0 },
    Way { name: "key of 97 bytes", apply: |_, t| key_of_97(t) },
    Way {
        name: "key length far too great",
        apply: |r, t| {
            let i = row(r, t);
            t.lengths_mut()[i].key = far(r, t.lengths()[i].key);
        },
    },
    Way {
        name: "key without slash in front",
        apply: |_, t| {
            let last = t.last();
            t.cells_mut()[last].key[0] = b'z';
        },
    },
    Way { name: "key with two slashes in a row", apply: |r, t| append(r, t, b"//x") },
    Way { name: "key with a final slash", apply: |r, t| append(r, t, b"/") },
    Way { name: "key with a zero byte", apply: |r, t| append(r, t, b"\0x") },
    Way { name: "key with two slashes at any place", apply: |r, t| inside(r, t, b"//") },
    Way { name: "key with a zero byte at any place", apply: |r, t| inside(r, t, b"\0") },
    Way { name: "two equal keys", apply: |r, t| equal_keys(r, t) },
    Way { name: "key before its own beginning", apply: |r, t| prefix_last(r, t, false) },
    Way { name: "falling keys", apply: |r, t| falling_keys(r, t) },
    Way {
        name: "value of 0 bytes",
        apply: |r, t| {
            let i = row(r, t);
            t.lengths_mut()[i].value = 0;
        },
    },
    Way {
        name: "value of 257 bytes",
        apply: |r, t| {
            let i = row(r, t);
            t.lengths_mut()[i].value = 257;
        },
    },
    Way {
        name: "value length far too great",
        apply: |r, t| {
            let i = row(r, t);
            t.lengths_mut()[i].value = far(r, t.lengths()[i].value);
        },
    },
];

pub const SERVER_WAYS: &[Way<Server>] = &[
    Way {
        name: "row's number above the state's",
        apply: |r, s| {
            let i = row(r, s);
            s.stamps[i].number = r.pick(&[s.header.number + 1, s.header.number + 1, u64::MAX]);
        },
    },
    Way { name: "number above 2^63 - 1", apply: |r, s| s.header.number = r.pick(&[NUMBER_MAX + 1, u64::MAX]) },
    Way {
        name: "last published above last tick",
        apply: |r, s| {
            s.header.last_tick = s.header.last_tick.min(TICK_MAX - 1);
            s.header.last_published = r.pick(&[s.header.last_tick + 1, TICK_MAX]);
        },
    },
    Way { name: "last tick above 2^62", apply: |r, s| s.header.last_tick = r.pick(&[TICK_MAX + 1, u64::MAX]) },
    Way {
        name: "last published above 2^62",
        apply: |r, s| {
            s.header.last_tick = r.pick(&[TICK_MAX + 1, u64::MAX]);
            s.header.last_published = s.header.last_tick;
        },
    },
    Way {
        name: "expiry above 2^62 + 86,400,000",
        apply: |r, s| {
            let i = row(r, s);
            s.stamps[i].expiry = r.pick(&[EXPIRY_MAX + 1, NEVER - 1, NUMBER_MAX]);
        },
    },
];

/// Keeps one row alone, and takes the beginning of its key, with no final slash, as the subtree.
fn subtree_without_slash(random: &mut Random, c: &mut Client) {
    c.header.count = 1;
    let key = c.rows[0].key;
    let length = random.between(1, c.lengths[0].key as usize);
    let length = if key[length - 1] == b'/' && length > 1 { length - 1 } else { length };
    put_subtree(c, &key[..length]);
}

/// A subtree of all rows but the last, or but the first.
fn key_not_under(random: &mut Random, c: &mut Client) {
    let last = c.last();
    for i in 0..=last {
        put_key(c, i, format!("/m/{i:02}").as_bytes());
    }
    put_subtree(c, b"/m/");
    let outside = random.pick(&["/m", "/n/x", "/l/x", "/m0"]);
    let i = if outside < "/m/" { 0 } else { last };
    put_key(c, i, outside.as_bytes());
}

pub const CLIENT_WAYS: &[Way<Client>] = &[
    Way {
        name: "malformed subtree, no rows",
        apply: |r, c| {
            c.header.count = 0;
            put_subtree(c, r.pick(&["/", "//", "a/", "/a", "/a//", "//a/", "/a\0/", "\0"]).as_bytes());
        },
    },
    Way { name: "malformed subtree, rows under it", apply: |_, c| put_subtree(c, b"/") },
    Way { name: "subtree with no final slash", apply: subtree_without_slash },
    Way {
        name: "subtree of 97 bytes",
        apply: |_, c| {
            c.header.count = 0;
            c.subtree = [b't'; KEY_MOST];
            c.subtree[0] = b'/';
            c.header.subtree_length = 97;
        },
    },
    Way {
        name: "subtree length far too great",
        apply: |r, c| {
            c.header.count = r.pick(&[0, c.header.count]);
            c.header.subtree_length = far(r, c.header.subtree_length);
        },
    },
    Way { name: "key not under the subtree", apply: key_not_under },
    Way {
        name: "waiting with a number",
        apply: |r, c| {
            c.header.phase = 0;
            c.header.number = r.pick(&[1, NUMBER_MAX]);
        },
    },
    Way {
        name: "number above 2^63 - 1",
        apply: |r, c| {
            c.header.phase = 1;
            c.header.number = r.pick(&[NUMBER_MAX + 1, u64::MAX]);
        },
    },
    Way { name: "clock above 2^62", apply: |r, c| c.header.clock = r.pick(&[TICK_MAX + 1, u64::MAX]) },
];

pub const ODD_SERVERS: &[Way<Server>] = &[
    Way { name: "key after its own beginning", apply: |r, s| prefix_last(r, s, true) },
    Way {
        name: "expiries of 2^62 + 86,400,000",
        apply: |_, s| s.stamps.iter_mut().for_each(|row| row.expiry = EXPIRY_MAX),
    },
    Way { name: "expiries of 0", apply: |_, s| s.stamps.iter_mut().for_each(|row| row.expiry = 0) },
    Way { name: "rows numbered 0", apply: |_, s| s.stamps.iter_mut().for_each(|row| row.number = 0) },
    Way {
        name: "rows numbered as the state",
        apply: |_, s| s.stamps.iter_mut().for_each(|row| row.number = s.header.number),
    },
    Way { name: "number 2^63 - 1", apply: |_, s| s.header.number = NUMBER_MAX },
    Way {
        name: "last published and last tick 2^62",
        apply: |_, s| (s.header.last_tick, s.header.last_published) = (TICK_MAX, TICK_MAX),
    },
    Way {
        name: "last published 0, last tick 2^62",
        apply: |_, s| (s.header.last_tick, s.header.last_published) = (TICK_MAX, 0),
    },
    Way { name: "no rows", apply: |_, s| s.header.count = 0 },
];

pub const ODD_CLIENTS: &[Way<Client>] = &[
    Way {
        name: "key after its own beginning",
        apply: |r, c| {
            c.header.subtree_length = 0;
            prefix_last(r, c, true);
        },
    },
    Way { name: "waiting, with rows", apply: |_, c| (c.header.phase, c.header.number) = (0, 0) },
    Way { name: "live at 0", apply: |_, c| (c.header.phase, c.header.number) = (1, 0) },
    Way { name: "live, phase 256", apply: |_, c| c.header.phase = 256 },
    Way {
        name: "live, phase 2^64 - 1, number 2^63 - 1",
        apply: |_, c| (c.header.phase, c.header.number) = (u64::MAX, NUMBER_MAX),
    },
    Way { name: "clock 2^62", apply: |_, c| c.header.clock = TICK_MAX },
    Way {
        name: "subtree of 96 bytes",
        apply: |_, c| {
            c.header.count = 0;
            c.subtree = [b't'; KEY_MOST];
            (c.subtree[0], c.subtree[95], c.header.subtree_length) = (b'/', b'/', 96);
        },
    },
    Way { name: "no rows", apply: |_, c| c.header.count = 0 },
];
