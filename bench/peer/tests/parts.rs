//! Messages built from parts, and walks over frames: both sides of each edge.

use peer::answer::{Answer, Kind, Refusal};
use peer::frames::{frame_length, split, value, write_message};
use peer::parts::{
    Built, ICANHAZ_ROOM, KVSET_ROOM, OPEN, SNAPSHOT_ROOM, SUBSCRIBER_ROOM, Step, VOID, WHOLE, add, next_frame, received,
};
use peer::{client, server};

const LOST: Built = Built { length: 0, stage: VOID };

/// A message in a buffer that holds EE at first.
struct Message {
    buffer: Vec<u8>,
    built: Built,
}

impl Message {
    fn new(room: usize) -> Message {
        Message { buffer: vec![0xEE; room], built: Built::NOTHING }
    }

    /// Of these bodies as its parts, with the right flags.
    fn of(room: usize, bodies: &[&[u8]]) -> Message {
        let mut message = Message::new(room);
        for (i, body) in bodies.iter().enumerate() {
            message.add(body, i + 1 < bodies.len());
        }
        message
    }

    fn add(&mut self, part: &[u8], more: bool) {
        self.built = add(&mut self.buffer, self.built, Some(part), more);
    }

    fn bytes(&self) -> &[u8] {
        &self.buffer[..self.built.length as usize]
    }

    fn is(&self, length: u64, stage: u64) -> bool {
        self.built == Built { length, stage }
    }
}

fn encoded(bodies: &[&[u8]]) -> Vec<u8> {
    let mut out = vec![0; bodies.iter().map(|body| frame_length(body.len())).sum()];
    write_message(&mut out, bodies);
    out
}

#[test]
fn frames_follow_each_other_and_nothing_else_changes() {
    let mut message = Message::new(12);
    assert!(message.is(0, OPEN));
    message.add(b"abc", true);
    assert!(message.is(5, OPEN));
    message.add(b"", true);
    assert!(message.is(7, OPEN));
    message.add(b"z", false);
    assert!(message.is(10, WHOLE));
    assert_eq!(message.buffer, *b"\x01\x03abc\x01\x00\x00\x01z\xEE\xEE");
    assert_eq!(split::<3>(message.bytes()), Ok([&b"abc"[..], b"", b"z"]));
}

#[test]
fn a_part_that_fits_exactly_and_one_byte_less_of_room() {
    for length in [0, 1, 254, 255, 256, 257, 10_000, 65_536] {
        let part = vec![7; length];
        let needed = frame_length(length);
        let mut exact = Message::new(needed);
        exact.add(&part, false);
        assert!(exact.is(needed as u64, WHOLE));
        assert_eq!(split::<1>(&exact.buffer), Ok([&part[..]]));
        let mut short = Message::new(needed - 1);
        short.add(&part, false);
        assert_eq!(short.built, LOST);
        assert!(short.buffer.iter().all(|byte| *byte == 0xEE));
    }
}

#[test]
fn one_size_octet_up_to_255_and_eight_from_256_on() {
    let mut message = Message::new(600);
    message.add(&[7; 255], true);
    assert!(message.is(257, OPEN));
    assert_eq!(message.buffer[..3], [0x01, 0xFF, 7]);
    message.add(&[8; 256], false);
    assert!(message.is(257 + 265, WHOLE));
    assert_eq!(message.buffer[257..267], [0x02, 0, 0, 0, 0, 0, 0, 1, 0, 8]);
    assert_eq!(message.buffer[522..], [0xEE; 78]);
    let mut message = Message::new(600);
    message.add(&[8; 256], true);
    assert_eq!(message.buffer[..10], [0x03, 0, 0, 0, 0, 0, 0, 1, 0, 8]);
}

#[test]
fn a_buffer_without_room_takes_no_part() {
    for room in [0, 1] {
        let mut message = Message::new(room);
        assert_eq!(split::<1>(message.bytes()), Err(Refusal::Framing));
        message.add(b"", false);
        assert_eq!(message.built, LOST);
    }
    assert!(Message::of(2, &[b""]).is(2, WHOLE));
}

#[test]
fn a_part_after_the_last_one_makes_the_message_void() {
    for more in [false, true] {
        let mut message = Message::of(100, &[b"a", b"b"]);
        assert!(message.is(6, WHOLE));
        let before = message.buffer.clone();
        message.add(b"c", more);
        assert_eq!((message.built, &message.buffer), (LOST, &before));
    }
}

#[test]
fn void_stays_void() {
    let mut message = Message::new(10);
    message.add(&[7; 9], true);
    assert_eq!(message.built, LOST);
    for more in [true, false, true] {
        message.add(b"", more);
        assert_eq!(message.built, LOST);
        message.built = add(&mut message.buffer, message.built, None, more);
        assert_eq!(message.built, LOST);
    }
    assert_eq!(message.buffer, [0xEE; 10]);
    assert_eq!(value(message.bytes()), Err(Refusal::Framing));
}

#[test]
fn a_negative_length_is_no_part() {
    assert_eq!(received(b"abc", 3), Some(&b"abc"[..]));
    assert_eq!(received(b"abc", 0), Some(&b""[..]));
    for length in [-1, i64::MIN] {
        assert_eq!(received(b"abc", length), None);
        for more in [false, true] {
            let mut message = Message::new(20);
            message.add(b"a", true);
            let before = message.buffer.clone();
            message.built = add(&mut message.buffer, message.built, received(b"", length), more);
            assert_eq!((message.built, &message.buffer), (LOST, &before));
        }
    }
}

#[test]
fn any_state_is_taken() {
    let ended = |length, stage| add(&mut [0xEE; 10], Built { length, stage }, Some(b"a"), false);
    assert_eq!(ended(7, OPEN), Built { length: 10, stage: WHOLE });
    for length in [8, 9, 10, 11, u64::MAX, u64::MAX - 1, u64::MAX - 2, 1 << 63] {
        assert_eq!(ended(length, OPEN), LOST, "{length}");
    }
    for stage in [WHOLE, VOID, 3, 256, 1 << 32, u64::MAX] {
        for length in [0, 7, 10, 11, u64::MAX] {
            assert_eq!(ended(length, stage), LOST, "{length} at {stage}");
        }
    }
}

/// Whichever of six parts is too long, what is left is never a message of five.
#[test]
fn six_parts_of_which_one_does_not_fit() {
    let short: [&[u8]; 6] = [b"/key", &[0; 8], b"", b"", b"value", b"six"];
    assert_eq!(value(Message::of(KVSET_ROOM, &short).bytes()), Err(Refusal::FrameCount));
    assert_eq!(value(Message::of(KVSET_ROOM, &short[..5]).bytes()), Ok(&b"value"[..]));
    let (s, _) = server::start(0, 0);
    for long in 0..6 {
        let mut bodies = short;
        bodies[long] = &[7; KVSET_ROOM];
        let message = Message::of(KVSET_ROOM, &bodies);
        assert_eq!(message.built, LOST);
        let (_, answer) = server::kvset(s, message.bytes(), 0, &mut [0; 600]);
        assert_eq!(answer, Answer::refused(Refusal::Framing, 0));
    }
}

#[test]
fn an_unfinished_message_is_refused() {
    let bodies: [&[u8]; 5] = [b"/key", &[0; 8], b"", b"", b"value"];
    let (s, _) = server::start(0, 0);
    let mut message = Message::new(KVSET_ROOM);
    for (i, body) in bodies.iter().enumerate() {
        let (_, answer) = server::kvset(s, message.bytes(), 0, &mut [0; 600]);
        assert_eq!(answer, Answer::refused(Refusal::Framing, 0), "after {i} parts");
        message.add(body, i < 4);
    }
    let (_, answer) = server::kvset(s, message.bytes(), 0, &mut [0; 600]);
    assert_eq!(answer, Answer::accepted(Kind::Wrote, 1, 6 + 10 + 2 + 2 + 7));
}

#[test]
fn rooms_hold_the_longest_messages_and_no_byte_more() {
    assert_eq!((KVSET_ROOM, ICANHAZ_ROOM, SNAPSHOT_ROOM, SUBSCRIBER_ROOM), (521, 365, 377, 521));
    let key = [b"/", &[b'k'; 95][..]].concat();
    let subtree = [b"/", &[b't'; 94][..], b"/"].concat();
    let properties = [b"a=", &[b'b'; 125][..], b"\n"].concat();
    let number = 1u64.to_be_bytes();

    let update: [&[u8]; 5] = [&key, &number, &[9; 16], &properties, &[7; 256]];
    let kvset = Message::of(KVSET_ROOM, &update);
    assert!(kvset.is(521, WHOLE));
    let (s, _) = server::start(0, 0);
    let (s, answer) = server::kvset(s, kvset.bytes(), 0, &mut [0; 521]);
    assert_eq!(answer, Answer::accepted(Kind::Wrote, 1, 521));

    let icanhaz: [&[u8]; 3] = [&[7; 255], b"ICANHAZ?", &subtree];
    let request = Message::of(ICANHAZ_ROOM, &icanhaz);
    assert!(request.is(365, WHOLE));
    assert_eq!(server::icanhaz(&s, request.bytes(), &mut [0; 999]).kind, Kind::Wrote);

    let kvsync: [&[u8]; 5] = [&key, &number, b"", b"", &[7; 256]];
    let row = Message::of(SNAPSHOT_ROOM, &kvsync);
    assert!(row.is(377, WHOLE));
    let (c, _) = client::start(b"", 0);
    let (c, answer) = client::snapshot(c, row.bytes());
    assert_eq!(answer.kind, Kind::Synced);

    let (c, _) = client::snapshot(c, &encoded(&[b"KTHXBAI", &[0; 8], b"", b"", b""]));
    let (_, answer) = client::subscriber(c, Message::of(SUBSCRIBER_ROOM, &update).bytes(), 0);
    assert_eq!(answer, Answer::accepted(Kind::Applied, 1, 0));

    assert_eq!(Message::of(KVSET_ROOM - 1, &update).built, LOST);
    assert_eq!(Message::of(ICANHAZ_ROOM - 1, &icanhaz).built, LOST);
    assert_eq!(Message::of(SNAPSHOT_ROOM - 1, &kvsync).built, LOST);
}

/// All frames of a walk, with the number of calls that it took.
fn walk(bytes: &[u8]) -> (Vec<Step>, usize) {
    let (mut steps, mut last) = (Vec::new(), Step::default());
    while let Some(step) = next_frame(bytes, last) {
        steps.push(step);
        last = step;
    }
    let calls = steps.len() + 1;
    assert!(calls <= bytes.len() / 2 + 1);
    (steps, calls)
}

fn bodies<'a>(bytes: &'a [u8], steps: &[Step]) -> Vec<(&'a [u8], u64)> {
    steps.iter().map(|step| (&bytes[step.start as usize..][..step.length as usize], step.more)).collect()
}

#[test]
fn a_walk_gives_the_frames_of_all_messages() {
    let long = [7; 256];
    let bytes = [encoded(&[b"ab", b"", b"c"]), encoded(&[b""]), encoded(&[&long, b"z"])].concat();
    let (steps, _) = walk(&bytes);
    let expected: [(&[u8], u64); 6] = [(b"ab", 1), (b"", 1), (b"c", 0), (b"", 0), (&long, 1), (b"z", 0)];
    assert_eq!(bodies(&bytes, &steps), expected);
    assert_eq!(steps[0], Step { start: 2, length: 2, more: 1 });
    assert_eq!(steps[4], Step { start: 20, length: 256, more: 1 });
    let last = steps[5];
    assert_eq!(last.start + last.length, bytes.len() as u64);
}

#[test]
fn a_walk_over_no_bytes_and_over_many_empty_messages() {
    assert_eq!(walk(b"").1, 1);
    assert_eq!(walk(&[0; 1]).1, 1);
    assert_eq!(walk(&[0; 20]).1, 11, "as many calls as a walk can take");
    assert_eq!(walk(&[0; 21]).1, 11);
}

#[test]
fn a_walk_ends_before_a_broken_tail() {
    let good = encoded(&[b"ab", b"c"]);
    for tail in [&b"\x04\x00"[..], b"\x00", b"\x00\x01", b"\x02\x00\x00", b"\xFF", b"\x01\x00"] {
        let bytes = [&good[..], tail].concat();
        let (steps, _) = walk(&bytes);
        assert_eq!(bodies(&bytes, &steps), [(&b"ab"[..], 1), (b"c", 0)], "{}", tail.escape_ascii());
    }
    let huge = [&good[..], &[2], &u64::MAX.to_be_bytes(), b"x"].concat();
    assert_eq!(walk(&huge).0.len(), 2);
}

#[test]
fn of_a_message_whose_last_frame_is_broken_no_frame_is_given() {
    let message = encoded(&[b"ab", b"", b"cde"]);
    for length in 0..message.len() {
        assert_eq!(walk(&message[..length]).0, [], "{length} bytes");
        let bytes = [&encoded(&[b"x"])[..], &message[..length]].concat();
        assert_eq!(walk(&bytes).0, [Step { start: 2, length: 1, more: 0 }], "{length} bytes after a message");
    }
    let mut flag = message.clone();
    flag[6] = 4;
    assert_eq!(walk(&flag).0, []);
    flag[6] = 1;
    assert_eq!(walk(&flag).0, [], "the last frame promises another");
    assert_eq!(walk(&message).0.len(), 3);
}

#[test]
fn a_walk_can_begin_anywhere() {
    let message = encoded(&[b"ab", b"", b"cde"]);
    let (broken, _) = message.split_at(message.len() - 1);
    let after = |bytes: &[u8], start, length, more| next_frame(bytes, Step { start, length, more });
    assert_eq!(after(broken, 2, 2, 1), Some(Step { start: 6, length: 0, more: 1 }), "the frame itself is whole");
    assert_eq!(after(broken, 2, 2, 0), None, "between messages, a whole one must follow");
    assert_eq!(after(broken, 6, 0, 1), None);
    assert_eq!(after(&message, 2, 2, 0), Some(Step { start: 6, length: 0, more: 1 }));
    for more in [2, 256, u64::MAX] {
        assert_eq!(after(broken, 4, 0, more), Some(Step { start: 6, length: 0, more: 1 }));
    }
    let end = message.len() as u64;
    for more in [0, 1] {
        assert_eq!(after(&message, 0, end, more), None);
        assert_eq!(after(&message, end + 1, 0, more), None);
        assert_eq!(after(&message, u64::MAX, 0, more), None);
        assert_eq!(after(&message, u64::MAX, 1, more), None);
        assert_eq!(after(&message, 5, u64::MAX - 4, more), None, "the sum is 0 but for 64 bits");
        assert_eq!(after(&message, 1 << 63, 1 << 63, more), None);
    }
}

#[test]
fn rows_of_any_table() {
    let (s, _) = server::start(0, 0);
    let kvset = |key: &[u8]| encoded(&[key, &[0; 8], b"", b"", b"v"]);
    let (s, _) = server::kvset(s, &kvset(b"/b"), 0, &mut [0; 99]);
    let (mut s, _) = server::kvset(s, &kvset(b"/a"), 0, &mut [0; 99]);
    let key = |s: &server::Server, i| s.table.row(i).map(|row| row.key().to_vec());
    assert_eq!([0, 1, 2].map(|i| key(&s, i)), [Some(b"/a".to_vec()), Some(b"/b".to_vec()), None]);
    s.table.rows[0].key_length = 97;
    s.table.rows[1].value_length = 257;
    assert_eq!([0, 1].map(|i| key(&s, i)), [None, None]);
    (s.table.rows[0].key_length, s.table.rows[1].value_length) = (96, 256);
    assert_eq!([0, 1].map(|i| key(&s, i).map(|key| key.len())), [Some(96), Some(2)]);
    s.table.count = usize::MAX;
    assert!(key(&s, 63).is_some() && key(&s, 64).is_none() && key(&s, usize::MAX).is_none());
}
