//! What was met, by entry: kinds, refusals, ill-formed and odd states, messages built from parts, and
//! inputs at the edges.

use crate::compare::ways::{CLIENT_WAYS, ODD_CLIENTS, ODD_SERVERS, SERVER_WAYS, TABLE_WAYS};
use std::collections::BTreeMap;

#[derive(Clone, Copy, PartialEq, Eq, Debug)]
pub enum Entry {
    ServerStart,
    Kvset,
    Tick,
    Icanhaz,
    ClientStart,
    Snapshot,
    Subscriber,
    WriteIcanhaz,
    WriteKvset,
    Ask,
    Lookup,
    ServerRow,
    ClientRow,
    MessageIn,
    AddPart,
    NextFrame,
    MessageLength,
    Value,
    IsKey,
    IsSubtree,
    IsUnder,
}

impl Entry {
    /// Whether it is one of the calls on a state that give an answer.
    pub fn is_call_on_state(self) -> bool {
        self as usize <= Entry::Lookup as usize
    }
}

/// An entry's name, the kinds that it can answer and the refusals that it can make.
struct Allowed {
    name: &'static str,
    kinds: &'static [usize],
    refusals: &'static [usize],
}

/// In the order of `Entry`. From the rows on they give no answer record: of them a refusal is counted,
/// or (0) that there was no such thing.
const ALLOWED: [Allowed; 21] = [
    Allowed { name: "server start", kinds: &[1], refusals: &[6, 10] },
    Allowed { name: "KVSET", kinds: &[8], refusals: &[1, 2, 4, 6, 7, 8, 9, 10, 11, 12, 14, 16] },
    Allowed { name: "Tick", kinds: &[8, 9], refusals: &[10, 12, 14, 16] },
    Allowed { name: "ICANHAZ", kinds: &[8], refusals: &[1, 2, 3, 5, 14, 15, 16] },
    Allowed { name: "client start", kinds: &[1], refusals: &[5, 10] },
    Allowed { name: "snapshot", kinds: &[5, 6], refusals: &[1, 2, 4, 5, 6, 7, 8, 9, 11, 13, 16] },
    Allowed { name: "subscriber", kinds: &[2, 3, 4, 7], refusals: &[1, 2, 4, 6, 7, 8, 9, 10, 11, 13, 16] },
    Allowed { name: "write ICANHAZ", kinds: &[8], refusals: &[13, 14, 16] },
    Allowed { name: "write KVSET", kinds: &[8], refusals: &[4, 7, 8, 9, 14, 16] },
    Allowed { name: "ask", kinds: &[12, 13], refusals: &[10, 16] },
    Allowed { name: "lookup", kinds: &[10, 11], refusals: &[4, 13, 14, 16] },
    Allowed { name: "server row", kinds: &[14], refusals: &[0] },
    Allowed { name: "client row", kinds: &[14], refusals: &[0] },
    Allowed { name: "message in", kinds: &[14], refusals: &[] },
    Allowed { name: "add part", kinds: &[14], refusals: &[0] },
    Allowed { name: "next frame", kinds: &[14], refusals: &[0] },
    Allowed { name: "message length", kinds: &[14], refusals: &[0] },
    Allowed { name: "value", kinds: &[14], refusals: &[1, 2] },
    Allowed { name: "is key", kinds: &[14], refusals: &[0] },
    Allowed { name: "is subtree", kinds: &[14], refusals: &[0] },
    Allowed { name: "is under", kinds: &[14], refusals: &[0] },
];

const KINDS: [&str; 15] = [
    "refused", "started", "applied", "stale", "outside", "synced", "live", "heard", "wrote", "nothing", "found",
    "absent", "present", "gone", "given",
];
/// The place of "given" above: what the entries without an answer record answer when they accept.
pub const GIVEN: u64 = 14;

const SERVER_ENTRIES: [Entry; 3] = [Entry::Kvset, Entry::Tick, Entry::Icanhaz];
const CLIENT_ENTRIES: [Entry; 6] =
    [Entry::Snapshot, Entry::Subscriber, Entry::WriteIcanhaz, Entry::WriteKvset, Entry::Ask, Entry::Lookup];

const MESSAGE_ENTRIES: [Entry; 5] = [Entry::Kvset, Entry::Icanhaz, Entry::Snapshot, Entry::Subscriber, Entry::Value];

/// What can become of a message that is built from parts, at each entry that takes a message.
const BUILT: [&str; 9] = [
    "whole, accepted",
    "whole, refused",
    "no part",
    "unfinished",
    "void",
    "good, and too long for its buffer",
    "six parts",
    "six parts, and too long for the buffer",
    "longer than its buffer by 9,000 or more",
];

/// The same at the entries that the header names a room for.
const BUILT_IN_ROOM: [&str; 3] =
    ["as long as the room, accepted", "as long as the room, one byte less room", "longer than the room"];

/// Inputs that must come up, as `inputs.rs` finds them.
const INPUTS: [&str; 38] = [
    "key of 96 bytes",
    "key of 97 bytes",
    "value of 0 bytes",
    "value of 1 byte",
    "value of 255 bytes",
    "value of 256 bytes",
    "value of 257 bytes",
    "UUID of 0 bytes",
    "UUID of 15 bytes",
    "UUID of 16 bytes",
    "UUID of 17 bytes",
    "properties of 128 bytes",
    "properties of 129 bytes",
    "ttl=0",
    "ttl=86400",
    "ttl=86401",
    "ttl of six digits",
    "ttl without digits",
    "two ttl lines",
    "long size for a short body",
    "six or more frames",
    "identity of 0 bytes",
    "identity of 1 byte",
    "identity of 255 bytes",
    "identity of 256 bytes",
    "tick 0",
    "tick 2^62",
    "tick 2^62 + 1",
    "tick going back",
    "number 2^63 - 1",
    "64 rows",
    "output exact",
    "output one byte short",
    "output empty",
    "output longer",
    "wrote 521 bytes",
    "wrote 108 bytes",
    "wrote 40953 bytes",
];

/// The same of parts that are added to a message.
const PARTS: [&str; 31] = [
    "room of 0 bytes",
    "room of 1 byte",
    "room of 521 bytes",
    "room of 365 bytes",
    "room of 377 bytes",
    "part of 0 bytes, fits",
    "part of 1 byte, fits",
    "part of 254 bytes, fits",
    "part of 255 bytes, fits",
    "part of 256 bytes, fits",
    "part of 257 bytes, fits",
    "part of 10,000 bytes or more, fits",
    "part of 65,536 bytes or more, fits",
    "short part, fits exactly",
    "short part, one byte too long",
    "long part, fits exactly",
    "long part, one byte too long",
    "part as long as the room",
    "part longer than the room",
    "part of 10,000 bytes or more, too long",
    "too long, but its last size octet fits",
    "too long, but its last two size octets fit",
    "part after the last one",
    "part added to a void message",
    "stage above 2",
    "length above the room",
    "length near 2^64",
    "part of length -1",
    "part of length -2^63",
    "part that was lost",
    "more neither 0 nor 1, fits",
];

/// The same of walks over frames.
const WALKS: [&str; 21] = [
    "first frame",
    "first frame of a later message",
    "frame inside a message",
    "frame inside a message that is not whole",
    "frame with a long size for a short body",
    "no bytes",
    "end of the bytes",
    "past the end",
    "start + length of 2^64 or more",
    "more above 1, frame",
    "more above 1, none",
    "whole frame of a message that is not whole",
    "broken frame between messages",
    "broken frame inside a message",
    "size that nothing can hold",
    "walk to the end of the bytes",
    "walk of one empty frame after another",
    "walk to a broken tail",
    "walk to a message with a broken last frame",
    "walk without a frame",
    "walk over a snapshot",
];

/// The same of rows that are asked for.
const ROWS_ASKED: [&str; 8] = [
    "the last row",
    "row 63",
    "row at the count",
    "row 2^64 - 1",
    "row 64 of more",
    "row with a key of more than 96 bytes",
    "row with a value of more than 256 bytes",
    "row of an ill-formed state",
];

/// The same of names that are asked about.
const NAMES: [&str; 10] = [
    "no bytes",
    "key of 96 bytes",
    "no key, for its 97 bytes",
    "subtree of 96 bytes",
    "no subtree, for its 97 bytes",
    "under the empty subtree",
    "under itself",
    "under what is no subtree",
    "not under by its last byte",
    "not under what is longer",
];

/// What an input can be of.
#[derive(Clone, Copy, PartialEq, Eq, PartialOrd, Ord)]
pub enum Topic {
    Call,
    Part,
    Walk,
    Row,
    Name,
}

const TOPICS: [(Topic, &str, &[&str]); 5] = [
    (Topic::Call, "Calls with an input at an edge", &INPUTS),
    (Topic::Part, "Parts added to a message", &PARTS),
    (Topic::Walk, "Frames walked over", &WALKS),
    (Topic::Row, "Rows asked for", &ROWS_ASKED),
    (Topic::Name, "Names asked about", &NAMES),
];

/// What can be said through the header alone, where any numbers can be handed in. The Rust module takes slices and
/// flags, and keeps its place in a message or a walk: a walk through it never stands in a message that is not whole.
const THROUGH_HEADER_ALONE: [(Topic, &str); 12] = [
    (Topic::Part, "stage above 2"),
    (Topic::Part, "length above the room"),
    (Topic::Part, "length near 2^64"),
    (Topic::Part, "part of length -1"),
    (Topic::Part, "part of length -2^63"),
    (Topic::Part, "more neither 0 nor 1, fits"),
    (Topic::Walk, "frame inside a message that is not whole"),
    (Topic::Walk, "broken frame inside a message"),
    (Topic::Walk, "past the end"),
    (Topic::Walk, "start + length of 2^64 or more"),
    (Topic::Walk, "more above 1, frame"),
    (Topic::Walk, "more above 1, none"),
];

/// What can be said through the Rust module alone, which has a call in place of negative lengths.
const THROUGH_MODULE_ALONE: [(Topic, &str); 1] = [(Topic::Part, "part that was lost")];

/// What is counted by name and entry.
#[derive(Clone, Copy, PartialEq, Eq, PartialOrd, Ord)]
pub enum Sort {
    IllFormed,
    Odd,
    Built,
}

pub struct Counts {
    /// Whether the calls take any numbers, as those through the header do.
    pub any_numbers: bool,
    kinds: BTreeMap<(usize, u64), u64>,
    refusals: BTreeMap<(usize, u64), u64>,
    sorts: BTreeMap<(Sort, String, usize), u64>,
    inputs: BTreeMap<(Topic, &'static str), u64>,
}

impl Counts {
    pub fn new(any_numbers: bool) -> Counts {
        let (kinds, refusals) = (BTreeMap::new(), BTreeMap::new());
        Counts { any_numbers, kinds, refusals, sorts: BTreeMap::new(), inputs: BTreeMap::new() }
    }

    /// Whether calls of this form can have such an input.
    fn can_come_up(&self, input: (Topic, &str)) -> bool {
        let others: &[(Topic, &str)] = if self.any_numbers { &THROUGH_MODULE_ALONE } else { &THROUGH_HEADER_ALONE };
        !others.contains(&input)
    }

    pub fn kind(&mut self, entry: Entry, kind: u64) {
        *self.kinds.entry((entry as usize, kind)).or_default() += 1;
    }

    pub fn refusal(&mut self, entry: Entry, refusal: u64) {
        *self.refusals.entry((entry as usize, refusal)).or_default() += 1;
    }

    pub fn sort(&mut self, sort: Sort, name: &str, entry: Entry) {
        *self.sorts.entry((sort, name.to_string(), entry as usize)).or_default() += 1;
    }

    pub fn input(&mut self, name: &'static str) {
        self.met(Topic::Call, name);
    }

    pub fn met(&mut self, topic: Topic, name: &'static str) {
        *self.inputs.entry((topic, name)).or_default() += 1;
    }

    /// Prints all tables and gives the things that never came up, or came up and may not.
    pub fn report(&self) -> Vec<String> {
        let mut gaps = Vec::new();
        self.report_kinds(&mut gaps);
        self.report_refusals(&mut gaps);
        self.report_sorts(&mut gaps);
        for (topic, title, names) in TOPICS {
            println!("\n{title}\n");
            for name in names {
                let count = self.inputs.get(&(topic, name)).copied().unwrap_or(0);
                let expected = self.can_come_up((topic, name));
                println!("{name:<44}{:>9}", if expected || count > 0 { count.to_string() } else { "-".to_string() });
                if expected != (count > 0) {
                    gaps.push(format!("{title}: {name} {}", fault(expected)));
                }
            }
        }
        let unknown =
            |(topic, name): &&(Topic, &str)| !TOPICS.iter().any(|(t, _, names)| t == topic && names.contains(name));
        gaps.extend(self.inputs.keys().filter(unknown).map(|(_, name)| format!("no table lists {name}")));
        gaps
    }

    fn report_kinds(&self, gaps: &mut Vec<String>) {
        println!("\nAccepted calls by kind\n");
        let columns: Vec<usize> = (1..KINDS.len()).collect();
        print_head(columns.iter().map(|kind| KINDS[*kind].to_string()));
        self.print_rows(&columns, &self.kinds, |allowed| allowed.kinds, gaps, |kind| KINDS[kind].to_string());
    }

    fn report_refusals(&self, gaps: &mut Vec<String>) {
        println!("\nRefused calls by refusal (0: no such row, frame, message or name, or a void message)\n");
        let columns: Vec<usize> = (0..17).collect();
        print_head(columns.iter().map(ToString::to_string));
        self.print_rows(
            &columns,
            &self.refusals,
            |allowed| allowed.refusals,
            gaps,
            |refusal| format!("refusal {refusal}"),
        );
    }

    fn print_rows(
        &self,
        columns: &[usize],
        counted: &BTreeMap<(usize, u64), u64>,
        allowed: fn(&Allowed) -> &'static [usize],
        gaps: &mut Vec<String>,
        name: impl Fn(usize) -> String,
    ) {
        for (entry, rule) in ALLOWED.iter().enumerate() {
            print!("{:<16}", rule.name);
            for &column in columns {
                let count = counted.get(&(entry, column as u64)).copied().unwrap_or(0);
                let expected = allowed(rule).contains(&column);
                print!("{:>8}", if expected || count > 0 { count.to_string() } else { "-".to_string() });
                if expected != (count > 0) {
                    gaps.push(format!("{}: {} {}", rule.name, name(column), fault(expected)));
                }
            }
            println!();
        }
    }

    fn report_sorts(&self, gaps: &mut Vec<String>) {
        let tables = TABLE_WAYS.iter().map(|way| way.name);
        let servers: Vec<&str> = tables.clone().chain(SERVER_WAYS.iter().map(|way| way.name)).collect();
        let title = "Ill-formed servers, each refused with 16";
        self.print_sort(title, Sort::IllFormed, &servers, &SERVER_ENTRIES, gaps);
        let clients: Vec<&str> = tables.chain(CLIENT_WAYS.iter().map(|way| way.name)).collect();
        let title = "Ill-formed clients, each refused with 16";
        self.print_sort(title, Sort::IllFormed, &clients, &CLIENT_ENTRIES, gaps);
        let servers: Vec<&str> = ODD_SERVERS.iter().map(|way| way.name).collect();
        let title = "Odd but well-formed servers, none refused with 16";
        self.print_sort(title, Sort::Odd, &servers, &SERVER_ENTRIES, gaps);
        let clients: Vec<&str> = ODD_CLIENTS.iter().map(|way| way.name).collect();
        let title = "Odd but well-formed clients, none refused with 16";
        self.print_sort(title, Sort::Odd, &clients, &CLIENT_ENTRIES, gaps);
        let title = "Messages built from parts";
        self.print_sort(title, Sort::Built, &BUILT, &MESSAGE_ENTRIES, gaps);
        let title = "Messages built from parts, by the header's room for the entry";
        self.print_sort(title, Sort::Built, &BUILT_IN_ROOM, &MESSAGE_ENTRIES[..4], gaps);
    }

    fn print_sort(&self, title: &str, sort: Sort, names: &[&str], entries: &[Entry], gaps: &mut Vec<String>) {
        println!("\n{title}\n");
        print!("{:<40}", "");
        entries.iter().for_each(|entry| print!("{:>15}", ALLOWED[*entry as usize].name));
        println!();
        for name in names {
            print!("{name:<40}");
            for &entry in entries {
                let count = self.sorts.get(&(sort, name.to_string(), entry as usize)).copied().unwrap_or(0);
                print!("{count:>15}");
                if count == 0 {
                    gaps.push(format!("{}: never {name}", ALLOWED[entry as usize].name));
                }
            }
            println!();
        }
    }
}

/// What is wrong with a count of something that was expected, or was not.
fn fault(expected: bool) -> &'static str {
    if expected { "never came up" } else { "must not come up" }
}

fn print_head(names: impl Iterator<Item = String>) {
    print!("{:<16}", "");
    names.for_each(|name| print!("{name:>8}"));
    println!();
}
