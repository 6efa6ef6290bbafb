//! Holds the header, the Rust module and the archive against each other and against what this program takes for
//! granted: how the structs are laid out, the constants, the version, and the text of each kind and each refusal.

use crate::c::{
    self, Answer, Client, ClientHeader, Frame, Message, Part, Plain, Row, RowBytes, RowLengths, RowStamps, Server,
    ServerHeader,
};
use crate::functions::{self, Marks};
use crate::module::numbers;
use peer::answer::{Kind, Refusal};
use peer::parts;
use std::mem::offset_of;

type Places = Vec<(String, u64)>;

macro_rules! places {
    ($list:ident, $name:literal, $type:ty, $($field:ident),+) => {
        $list.push(($name.to_string(), size_of::<$type>() as u64));
        $($list.push((
            concat!($name, ".", stringify!($field)).to_string(),
            offset_of!($type, $field) as u64,
        ));)+
    };
}

/// Each struct's size, then the offset of each of its fields. The states are the module's.
fn layout() -> Places {
    let mut list = Vec::new();
    places!(list, "chp_answer", Answer, kind, refusal, number, written);
    places!(list, "chp_row_bytes", RowBytes, key, value);
    places!(list, "chp_row_lengths", RowLengths, key, value);
    places!(list, "chp_row_stamps", RowStamps, number, expiry);
    places!(list, "chp_server_header", ServerHeader, number, last_tick, last_published, count);
    places!(list, "chp_server", Server, rows, lengths, stamps, header);
    places!(list, "chp_client_header", ClientHeader, phase, number, clock, subtree_length, count);
    places!(list, "chp_client", Client, rows, lengths, subtree, header);
    places!(list, "chp_message", Message, bytes, room, length, stage);
    places!(list, "chp_frame", Frame, start, length, more);
    places!(list, "chp_part", Part, start, length);
    places!(list, "chp_row", Row, key, key_length, value, value_length, number, expiry);
    list
}

fn named<const N: usize>(list: [(&str, u64); N]) -> Places {
    list.map(|(name, number)| (name.to_string(), number)).to_vec()
}

/// The limits as the peer has them, and the stages.
fn limits() -> Places {
    named([
        ("CHP_ROWS", peer::MAX_ROWS as u64),
        ("CHP_KEY_MOST", peer::KEY_ROOM as u64),
        ("CHP_VALUE_MOST", peer::VALUE_ROOM as u64),
        ("CHP_PROPERTIES_MOST", peer::PROPERTIES_ROOM as u64),
        ("CHP_UUID_LENGTH", 16),
        ("CHP_IDENTITY_MOST", 255),
        ("CHP_NUMBER_MOST", peer::NUMBER_MAX),
        ("CHP_TICK_MOST", peer::TICK_MAX),
        ("CHP_NEVER", u64::MAX),
        ("CHP_KVPUB_MOST", 521),
        ("CHP_HUGZ_LENGTH", 22),
        ("CHP_ICANHAZ_MOST", 108),
        ("CHP_SNAPSHOT_MOST", 40_953),
        ("CHP_KVSET_ROOM", parts::KVSET_ROOM as u64),
        ("CHP_ICANHAZ_ROOM", parts::ICANHAZ_ROOM as u64),
        ("CHP_SNAPSHOT_ROOM", parts::SNAPSHOT_ROOM as u64),
        ("CHP_SUBSCRIBER_ROOM", parts::SUBSCRIBER_ROOM as u64),
        ("CHP_OPEN", parts::OPEN),
        ("CHP_WHOLE", parts::WHOLE),
        ("CHP_VOID", parts::VOID),
    ])
}

/// The same limits as the module has them.
fn module_limits() -> Places {
    named([
        ("CHP_ROWS", chp::ROWS as u64),
        ("CHP_KEY_MOST", chp::KEY_MOST as u64),
        ("CHP_VALUE_MOST", chp::VALUE_MOST as u64),
        ("CHP_PROPERTIES_MOST", chp::PROPERTIES_MOST as u64),
        ("CHP_UUID_LENGTH", chp::UUID_LENGTH as u64),
        ("CHP_IDENTITY_MOST", chp::IDENTITY_MOST as u64),
        ("CHP_NUMBER_MOST", chp::NUMBER_MOST),
        ("CHP_TICK_MOST", chp::TICK_MOST),
        ("CHP_NEVER", chp::NEVER),
        ("CHP_KVPUB_MOST", chp::KVPUB_MOST as u64),
        ("CHP_HUGZ_LENGTH", chp::HUGZ_LENGTH as u64),
        ("CHP_ICANHAZ_MOST", chp::ICANHAZ_MOST as u64),
        ("CHP_SNAPSHOT_MOST", chp::SNAPSHOT_MOST as u64),
        ("CHP_KVSET_ROOM", chp::KVSET_ROOM as u64),
        ("CHP_ICANHAZ_ROOM", chp::ICANHAZ_ROOM as u64),
        ("CHP_SNAPSHOT_ROOM", chp::SNAPSHOT_ROOM as u64),
        ("CHP_SUBSCRIBER_ROOM", chp::SUBSCRIBER_ROOM as u64),
    ])
}

fn kinds() -> Places {
    let list = [
        ("CHP_REFUSED", Kind::Refused),
        ("CHP_STARTED", Kind::Started),
        ("CHP_APPLIED", Kind::Applied),
        ("CHP_STALE", Kind::Stale),
        ("CHP_OUTSIDE", Kind::Outside),
        ("CHP_SYNCED", Kind::Synced),
        ("CHP_LIVE", Kind::Live),
        ("CHP_HEARD", Kind::Heard),
        ("CHP_WROTE", Kind::Wrote),
        ("CHP_NOTHING", Kind::Nothing),
        ("CHP_FOUND", Kind::Found),
        ("CHP_ABSENT", Kind::Absent),
        ("CHP_PRESENT", Kind::Present),
        ("CHP_GONE", Kind::Gone),
    ];
    named(list.map(|(name, kind)| (name, kind as u64)))
}

fn refusals() -> Places {
    let list = [
        ("CHP_FRAMING", Refusal::Framing),
        ("CHP_FRAME_COUNT", Refusal::FrameCount),
        ("CHP_WORD", Refusal::Word),
        ("CHP_BAD_KEY", Refusal::Key),
        ("CHP_BAD_SUBTREE", Refusal::Subtree),
        ("CHP_BAD_SEQUENCE", Refusal::Sequence),
        ("CHP_BAD_UUID", Refusal::Uuid),
        ("CHP_BAD_PROPERTIES", Refusal::Properties),
        ("CHP_BAD_VALUE", Refusal::Value),
        ("CHP_BAD_TICK", Refusal::Tick),
        ("CHP_FULL", Refusal::Full),
        ("CHP_EXHAUSTED", Refusal::Exhausted),
        ("CHP_PHASE", Refusal::Phase),
        ("CHP_SHORT_OUTPUT", Refusal::Output),
        ("CHP_BAD_IDENTITY", Refusal::Identity),
        ("CHP_ILL_FORMED", Refusal::State),
    ];
    let refusals = named(list.map(|(name, refusal)| (name, refusal as u64)));
    [named([("CHP_ACCEPTED", 0)]), refusals].concat()
}

/// Whether the archive's marks, 1, 2, 3 and so on in the order of the fields, lie where the header and the module
/// have the fields, and the archive has as many rows.
fn marks_are_right() -> bool {
    let expected = Marks {
        row: RowBytes { key: [1; c::KEY_MOST], value: [2; c::VALUE_MOST] },
        lengths: RowLengths { key: 3, value: 4 },
        stamps: RowStamps { number: 5, expiry: 6 },
        server: ServerHeader { number: 7, last_tick: 8, last_published: 9, count: 10 },
        subtree: [11; c::KEY_MOST],
        client: ClientHeader { phase: 12, number: 13, clock: 14, subtree_length: 15, count: 16 },
        answer: Answer { kind: 17, refusal: 18, number: 19, written: 20 },
    };
    let mut marks = Marks {
        row: RowBytes { key: [0; c::KEY_MOST], value: [0; c::VALUE_MOST] },
        lengths: RowLengths { key: 0, value: 0 },
        stamps: RowStamps { number: 0, expiry: 0 },
        server: ServerHeader { number: 0, last_tick: 0, last_published: 0, count: 0 },
        subtree: [0; c::KEY_MOST],
        client: ClientHeader { phase: 0, number: 0, clock: 0, subtree_length: 0, count: 0 },
        answer: Answer { kind: 0, refusal: 0, number: 0, written: 0 },
    };
    let rows = functions::layout_marks(&mut marks);
    rows == c::ROWS as u64 && marks == expected && functions::layout_agrees() && chp::layout_agrees()
}

/// The version's number is made of its three parts, and the archive was built as it, and the module is for it.
fn version_is_right() -> bool {
    let [major, minor, patch, all] = functions::version();
    let archive = functions::archive_version();
    let made_of_parts = minor < 1000 && patch < 1000 && all == major * 1_000_000 + minor * 1000 + patch;
    let right = made_of_parts && archive == all && chp::VERSION == all;
    let judged = if right { "the same" } else { "NOT the same" };
    println!("header: version {major}.{minor}.{patch} ({all}), archive {archive}, module {}, {judged}", chp::VERSION);
    right
}

/// Each number up to the last has a text of its own, and others are unknown.
fn texts_are_right(text: fn(u64) -> String, last: u64) -> bool {
    let mut texts: Vec<String> = (0..=last + 1).map(text).collect();
    let unknown = texts.pop().is_some_and(|text| text == "unknown") && text(u64::MAX) == "unknown";
    texts.sort();
    let different = texts.windows(2).all(|pair| pair[0] != pair[1]);
    unknown && different && !texts.iter().any(|text| text.is_empty() || text == "unknown")
}

/// The module's refusals have the header's numbers and texts, and there are no others.
fn module_refusals_are_right() -> bool {
    let right = |number| {
        let found = chp::Refusal::of(number);
        found.is_some_and(|refusal| refusal as u64 == number && refusal.text() == functions::refusal_text(number))
    };
    (1..=16).all(right) && [0, 17, u64::MAX].map(chp::Refusal::of) == [None; 3]
}

/// The module's answers have the header's texts and give their numbers back.
fn module_answers_are_right() -> bool {
    use chp::Answer as A;
    let (refusal, number, written) = (chp::Refusal::Full, 7, 5);
    let answers = [
        A::Refused { refusal, number },
        A::Started { number },
        A::Applied { number },
        A::Stale { number },
        A::Outside { number },
        A::Synced { number },
        A::Live { number },
        A::Heard { number },
        A::Wrote { number, written },
        A::Nothing { number },
        A::Found { number, written },
        A::Absent { number },
        A::Present { number },
        A::Gone { number },
    ];
    let right = |(kind, answer): (usize, &A)| {
        let asked = (answer.refusal().map_or(0, |refusal| refusal as u64), answer.number(), answer.written() as u64);
        let Answer { kind: numbered, refusal, number, written } = numbers(*answer);
        let shown = if kind == 0 { "refused: the table is full" } else { answer.text() };
        let texts = answer.text() == functions::kind_text(numbered) && answer.to_string() == shown;
        numbered == kind as u64 && (refusal, number, written) == asked && texts
    };
    answers.iter().enumerate().all(right)
}

/// The module's new states are zeros, and any phase but 0 is live.
fn module_states_are_right() -> bool {
    let (s, mut c) = (Server::boxed(), Client::boxed());
    let zeros = s.bytes().iter().chain(c.bytes()).all(|byte| *byte == 0);
    let phases = [0, 1, 2, 256, 1 << 32, u64::MAX];
    zeros
        && phases.iter().all(|phase| {
            c.header.phase = *phase;
            c.is_live() == (*phase != 0)
        })
}

/// Whether each of our places is the same in C; prints each that is not.
fn are_in_c(what: &str, ours: &Places, theirs: &Places) -> bool {
    let mut same = true;
    for (name, number) in ours {
        let their = theirs.iter().find(|their| their.0 == *name).map(|their| their.1);
        if their != Some(*number) {
            println!("header: {name} is {number} here and {their:?} in C");
            same = false;
        }
    }
    println!("header: {} {what}, {}", ours.len(), if same { "all the same" } else { "NOT the same" });
    same
}

/// Whether all agrees; prints each place where it does not.
pub fn check() -> bool {
    let ours = [layout(), limits(), kinds(), refusals()].concat();
    let theirs = functions::layout();
    let same = are_in_c("sizes, offsets and constants", &ours, &theirs) && ours.len() == theirs.len();
    let module = are_in_c("limits of the Rust module", &module_limits(), &theirs);
    let version = version_is_right();
    let marks = marks_are_right();
    println!("header: the archive's marks {}", if marks { "in place" } else { "NOT in place" });
    let texts = texts_are_right(functions::kind_text, 13) && texts_are_right(functions::refusal_text, 16);
    println!("header: texts {}", if texts { "in order" } else { "NOT in order" });
    let answers = module_refusals_are_right() && module_answers_are_right() && module_states_are_right();
    println!("header: answers and states of the Rust module {}", if answers { "in order" } else { "NOT in order" });
    same && module && version && marks && texts && answers
}
