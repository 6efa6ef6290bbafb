//! The worked exchange and both sides of each edge.

use peer::answer::{Answer, Kind, Refusal};
use peer::frames::{frame_at, message_length, split, value, write_message};
use peer::server::Server;
use peer::{NUMBER_MAX, TICK_MAX, client, server};

fn message(bodies: &[&[u8]]) -> Vec<u8> {
    let mut out = vec![0; 2000];
    let written = write_message(&mut out, bodies);
    out.truncate(written);
    out
}

fn kvset_message(key: &[u8], properties: &[u8], value: &[u8]) -> Vec<u8> {
    message(&[key, &[0; 8], b"", properties, value])
}

/// A KVSET with a long output; gives the bytes written too.
fn set(s: Server, key: &[u8], properties: &[u8], value: &[u8], tick: u64) -> (Server, Answer, Vec<u8>) {
    let mut out = vec![0; 600];
    let (s, answer) = server::kvset(s, &kvset_message(key, properties, value), tick, &mut out);
    out.truncate(answer.written);
    (s, answer, out)
}

fn key_of(length: usize) -> Vec<u8> {
    let mut key = vec![b'k'; length];
    key[0] = b'/';
    key
}

fn full_server() -> Server {
    let (mut s, _) = server::start(0, 0);
    for i in 0..64 {
        s = set(s, format!("/row/{i:02}").as_bytes(), b"", b"v", 0).0;
    }
    assert_eq!(s.table.count, 64);
    s
}

fn live_client(subtree: &[u8], number: u64) -> client::Client {
    let (c, _) = client::start(subtree, 0);
    let kthxbai = message(&[b"KTHXBAI", &number.to_be_bytes(), b"", b"", subtree]);
    let (c, answer) = client::snapshot(c, &kthxbai);
    assert_eq!(answer, Answer::accepted(Kind::Live, number, 0));
    c
}

const W1_KVPUB: [u8; 33] = [
    0x01, 0x0C, 0x2F, 0x63, 0x6C, 0x69, 0x70, 0x2F, 0x37, 0x2F, 0x75, 0x6E, 0x64, 0x6F, 0x01, 0x08, 0x00, 0x00, 0x00,
    0x00, 0x00, 0x00, 0x00, 0x01, 0x01, 0x00, 0x01, 0x00, 0x00, 0x03, 0x63, 0x75, 0x74,
];
const W1_IDENTITY: [u8; 7] = [0x01, 0x05, 0x00, 0x41, 0x42, 0x43, 0x44];
const W1_KTHXBAI: [u8; 33] = [
    0x01, 0x07, 0x4B, 0x54, 0x48, 0x58, 0x42, 0x41, 0x49, 0x01, 0x08, 0x00, 0x00, 0x00, 0x00, 0x00, 0x00, 0x00, 0x02,
    0x01, 0x00, 0x01, 0x00, 0x00, 0x08, 0x2F, 0x63, 0x6C, 0x69, 0x70, 0x2F, 0x37, 0x2F,
];

#[test]
fn w1_whole_exchange() {
    let (s, answer) = server::start(0, 0);
    assert_eq!(answer, Answer::accepted(Kind::Started, 0, 0));
    let (s, answer, bytes) = set(s, b"/clip/7/undo", b"", b"cut", 0);
    assert_eq!(answer, Answer::accepted(Kind::Wrote, 1, 33));
    assert_eq!(bytes, W1_KVPUB);
    let (s, answer, other) = set(s, b"/clip/70/undo", b"", b"paste", 0);
    assert_eq!(answer.number, 2);

    let mut out = [0; 80];
    let request = message(&[&[0x00, 0x41, 0x42, 0x43, 0x44], b"ICANHAZ?", b"/clip/7/"]);
    assert_eq!(server::icanhaz(&s, &request, &mut out), Answer::accepted(Kind::Wrote, 2, 80));
    assert_eq!(out[..], [&W1_IDENTITY[..], &W1_KVPUB, &W1_IDENTITY, &W1_KTHXBAI].concat());
    assert_eq!(message_length(&out), Some(40));

    let (c, _) = client::start(b"/clip/7/", 0);
    let (c, answer) = client::snapshot(c, &out[7..40]);
    assert_eq!(answer, Answer::accepted(Kind::Synced, 0, 0));
    let (c, answer) = client::snapshot(c, &out[47..]);
    assert_eq!(answer, Answer::accepted(Kind::Live, 2, 0));
    let (c, answer) = client::subscriber(c, &other, 0);
    assert_eq!(answer, Answer::accepted(Kind::Stale, 2, 0));
    let mut copy = [0; 3];
    let answer = client::lookup(&c, b"/clip/7/undo", &mut copy);
    assert_eq!((answer, copy), (Answer::accepted(Kind::Found, 2, 3), *b"cut"));
}

#[test]
fn w2_subtree_of_one_slash_is_refused() {
    let (c, answer) = client::start(b"/", 7);
    assert_eq!(answer, Answer::refused(Refusal::Subtree, 0));
    assert_eq!((c.subtree_length, c.clock), (0, 0));
    let (s, _) = server::start(0, 0);
    let request = message(&[b"A", b"ICANHAZ?", b"/"]);
    let answer = server::icanhaz(&s, &request, &mut [0; 99]);
    assert_eq!(answer, Answer::refused(Refusal::Subtree, 0));
}

#[test]
fn w3_empty_subtree_is_accepted() {
    assert_eq!(client::start(b"", 7).1, Answer::accepted(Kind::Started, 0, 0));
    let (s, _) = server::start(0, 0);
    let request = message(&[b"A", b"ICANHAZ?", b""]);
    assert_eq!(server::icanhaz(&s, &request, &mut [0; 99]).kind, Kind::Wrote);
}

#[test]
fn w4_w5_key_of_96_and_of_97() {
    let (s, _) = server::start(0, 0);
    let (s, answer, _) = set(s, &key_of(96), b"", b"v", 0);
    assert_eq!(answer, Answer::accepted(Kind::Wrote, 1, 98 + 10 + 2 + 2 + 3));
    assert_eq!(set(s, &key_of(97), b"", b"v", 0).1, Answer::refused(Refusal::Key, 1));
}

#[test]
fn w6_w7_w8_value_of_255_256_and_257() {
    let (s, _) = server::start(0, 0);
    let (s, _, bytes) = set(s, b"/k", b"", &[7; 255], 0);
    assert_eq!(bytes[18..20], [0x00, 0xFF]);
    let (s, _, bytes) = set(s, b"/k", b"", &[7; 256], 0);
    assert_eq!(bytes[18..27], [0x02, 0, 0, 0, 0, 0, 0, 1, 0]);
    assert_eq!(set(s, b"/k", b"", &[7; 257], 0).1, Answer::refused(Refusal::Value, 2));
}

#[test]
fn w9_w10_ttl_of_86400_and_of_86401() {
    let (s, _) = server::start(0, 0);
    let (s, answer, _) = set(s, b"/k", b"ttl=86400\n", b"v", 5);
    assert_eq!(answer.kind, Kind::Wrote);
    assert_eq!(s.table.rows[0].extra.expiry, Some(86_400_005));
    let (_, answer, _) = set(s, b"/k", b"ttl=86401\n", b"v", 5);
    assert_eq!(answer, Answer::refused(Refusal::Properties, 1));
}

#[test]
fn w11_w12_expiry_at_the_tick_and_one_before() {
    let (s, _) = server::start(0, 0);
    let (s, ..) = set(s, b"/k", b"ttl=1\n", b"v", 500);
    let (s, answer) = server::tick(s, 1500, &mut [0; 22]);
    assert_eq!(answer, Answer::accepted(Kind::Wrote, 1, 22));
    assert_eq!(s.table.count, 1);
    let (s, answer) = server::tick(s, 1501, &mut [0; 22]);
    assert_eq!(answer, Answer::accepted(Kind::Wrote, 2, 20));
    assert_eq!(s.table.count, 0);
}

#[test]
fn w13_w14_held_and_new_key_at_64_rows() {
    let (s, answer, _) = set(full_server(), b"/row/17", b"", b"new", 0);
    assert_eq!(answer.kind, Kind::Wrote);
    assert_eq!(s.table.rows[17].value(), b"new");
    let (s, answer, bytes) = set(s, b"/row/64", b"", b"new", 0);
    assert_eq!(answer, Answer::refused(Refusal::Full, 65));
    assert_eq!((s.table.count, bytes.len()), (64, 0));
    let (_, answer, _) = set(s, b"/row/64", b"", b"", 0);
    assert_eq!(answer.kind, Kind::Wrote, "a removal of an absent key adds no row");
}

#[test]
fn w15_kvpub_at_the_clients_number_is_stale() {
    let c = live_client(b"/a/", 5);
    let kvpub = |number: u64, key: &[u8]| message(&[key, &number.to_be_bytes(), b"", b"", b"v"]);
    let (c, answer) = client::subscriber(c, &kvpub(5, b"/a/k"), 0);
    assert_eq!(answer, Answer::accepted(Kind::Stale, 5, 0));
    let (c, answer) = client::subscriber(c, &kvpub(6, b"/a"), 0);
    assert_eq!(answer, Answer::accepted(Kind::Outside, 6, 0));
    let (c, answer) = client::subscriber(c, &kvpub(9, b"/a/k"), u64::MAX);
    assert_eq!(answer, Answer::accepted(Kind::Applied, 9, 0));
    assert_eq!(c.table.count, 1);
}

#[test]
fn hugz_bytes_and_its_clock() {
    let (s, _) = server::start(3, 0);
    let mut out = [0xEE; 30];
    let (s, answer) = server::tick(s, 999, &mut out);
    assert_eq!(answer, Answer::accepted(Kind::Nothing, 3, 0));
    let (_, answer) = server::tick(s, 1000, &mut out);
    assert_eq!(answer, Answer::accepted(Kind::Wrote, 3, 22));
    let start = [0x01, 0x04, 0x48, 0x55, 0x47, 0x5A, 0x01, 0x08, 0, 0, 0, 0, 0, 0, 0, 0];
    assert_eq!(out[..16], start);
    assert_eq!(out[16..], [0x01, 0, 0x01, 0, 0, 0, 0xEE, 0xEE, 0xEE, 0xEE, 0xEE, 0xEE, 0xEE, 0xEE]);

    let c = live_client(b"", 3);
    let (c, answer) = client::subscriber(c, &out[..22], 9000);
    assert_eq!(answer, Answer::accepted(Kind::Heard, 3, 0));
    assert_eq!(client::ask(&c, 14_000).kind, Kind::Present);
    assert_eq!(client::ask(&c, 14_001).kind, Kind::Gone);
    assert_eq!(client::ask(&c, 8_999), Answer::refused(Refusal::Tick, 3));
}

#[test]
fn framing_is_judged_before_the_count() {
    assert_eq!(split::<5>(b""), Err(Refusal::Framing));
    assert_eq!(split::<5>(&[0, 0]), Err(Refusal::FrameCount));
    assert_eq!(split::<1>(&[0, 0, 0]), Err(Refusal::Framing));
    assert_eq!(split::<1>(&[4, 0]), Err(Refusal::Framing));
    let mut six = message(&[b"", b"", b"", b"", b"", b"x"]);
    assert_eq!(value(&six), Err(Refusal::FrameCount));
    six.pop();
    assert_eq!(value(&six), Err(Refusal::Framing));
    let huge = [2, 0xFF, 0xFF, 0xFF, 0xFF, 0xFF, 0xFF, 0xFF, 0xFF, 1];
    assert_eq!(frame_at(&huge, 0), None);
    assert_eq!(value(&message(&[b"", b"", b"", b"", b"hello"])), Ok(&b"hello"[..]));
}

#[test]
fn properties_and_their_ttl() {
    let read = peer::properties::read_ttl;
    for good in [&b""[..], b"a==\n", b"a=\n", b"TTL=x\n", b"ttl =x\n", b"ttls=7777777\n", b"a=b\na=b\n"] {
        assert_eq!(read(good), Ok(None), "{}", good.escape_ascii());
    }
    assert_eq!(read(b"a=b\nttl=00002\n"), Ok(Some(2)));
    assert_eq!(read(b"ttl=0\n"), Ok(Some(0)));
    for bad in [
        &b"\n"[..],
        b"=b\n",
        b"ab\n",
        b"a=b",
        b"a=b\0\n",
        b"ttl=\n",
        b"ttl=1x\n",
        b"ttl=+1\n",
        b"ttl=000001\n",
        b"ttl=0\nttl=0\n",
        b"a=b\n\n",
    ] {
        assert_eq!(read(bad), Err(Refusal::Properties), "{}", bad.escape_ascii());
    }
}

#[test]
fn limits_of_numbers_and_ticks() {
    assert_eq!(server::start(NUMBER_MAX + 1, TICK_MAX + 1).1, Answer::refused(Refusal::Sequence, 0));
    assert_eq!(server::start(NUMBER_MAX, TICK_MAX + 1).1, Answer::refused(Refusal::Tick, 0));
    let (s, _) = server::start(NUMBER_MAX - 1, TICK_MAX);
    let (s, answer, _) = set(s, b"/k", b"ttl=0\n", b"v", TICK_MAX);
    assert_eq!(answer.number, NUMBER_MAX);
    let (s, answer, _) = set(s, b"/k", b"", b"", TICK_MAX);
    assert_eq!(answer, Answer::refused(Refusal::Exhausted, NUMBER_MAX));
    assert_eq!(set(s, b"/k", b"", b"", TICK_MAX - 1).1, Answer::refused(Refusal::Tick, NUMBER_MAX));
}

#[test]
fn ill_formed_states_are_refused_first() {
    let mut s = full_server();
    s.table.count = usize::MAX;
    assert_eq!(set(s, b"bad", b"", b"", 0).1, Answer::refused(Refusal::State, 64));
    let mut c = live_client(b"/a/", 5);
    c.subtree_length = 97;
    assert_eq!(client::ask(&c, u64::MAX), Answer::refused(Refusal::State, 5));
    c.subtree_length = 3;
    c.phase = client::Phase::Waiting;
    assert_eq!(client::write_icanhaz(&c, &mut []), Answer::refused(Refusal::State, 5));
}

#[test]
fn sixty_five_ticks_end_with_nothing() {
    let (mut s, _) = server::start(0, 0);
    for i in 0..64 {
        s = set(s, format!("/row/{i:02}").as_bytes(), b"ttl=1\n", b"v", i / 2).0;
    }
    let mut out = [0; 600];
    for i in 0..64 {
        let (next, answer) = server::tick(s, 5000, &mut out);
        s = next;
        assert_eq!((answer.kind, answer.number), (Kind::Wrote, 65 + i));
        assert_eq!(out[2..9], *format!("/row/{i:02}").as_bytes());
    }
    assert_eq!(server::tick(s, 5000, &mut out).1.kind, Kind::Nothing);
}
