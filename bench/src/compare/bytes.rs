//! The entries that take bytes alone, on both sides, but for those of `parts.rs`.

use crate::c;
use crate::compare::counts::{Entry, GIVEN};
use crate::compare::inputs;
use crate::compare::lockstep::{Lockstep, exact, hex};
use peer::{frames, names};

impl Lockstep {
    /// Entries without an answer record count as given, or as refused with this number.
    pub(super) fn record_given(
        &mut self,
        entry: Entry,
        refusal: Option<u64>,
        problem: Option<String>,
        call: impl FnOnce() -> String,
    ) -> bool {
        let kind = if refusal.is_none() { GIVEN } else { 0 };
        let answer = c::Answer { kind, refusal: refusal.unwrap_or(0), number: 0, written: 0 };
        self.record(entry, answer, problem, call)
    }

    /// The value entries, as one answer in which the value counts as written. Where the empty part of
    /// a refused message lies is free, as long as it lies in the message.
    pub fn value(&mut self, message: &[u8]) -> c::Answer {
        let message = &*exact(message);
        let (part, refusal) = self.form.value(message);
        let expected = frames::value(message);
        let expected_refusal = expected.err().map(|refusal| refusal as u64);
        let value = expected.unwrap_or(b"");
        let inside = part.start.checked_add(part.length).is_some_and(|end| end <= message.len() as u64);
        // The value is the last frame.
        let starts_right = expected.is_err() || part.start == (message.len() - value.len()) as u64;
        let same = part.length == value.len() as u64 && inside && starts_right;
        let problem = (!same || refusal != expected_refusal.unwrap_or(0))
            .then(|| format!("library {part:?} and {refusal}, peer {} bytes and {expected_refusal:?}", value.len()));
        self.record_given(Entry::Value, expected_refusal, problem, || format!("message {}", hex(message)));
        c::Answer { kind: if refusal == 0 { GIVEN } else { 0 }, refusal, number: 0, written: part.length }
    }

    pub fn message_length(&mut self, bytes: &[u8]) -> usize {
        let bytes = &*exact(bytes);
        let lib = self.form.message_length(bytes);
        let expected = frames::message_length(bytes);
        let problem = (lib != expected.unwrap_or(0)).then(|| format!("library {lib}, peer {expected:?}"));
        let call = || format!("bytes {}", hex(bytes));
        self.record_given(Entry::MessageLength, expected.is_none().then_some(0), problem, call);
        lib
    }

    pub fn is_key(&mut self, bytes: &[u8]) {
        let bytes = &*exact(bytes);
        inputs::note_key(&mut self.counts, bytes);
        self.yes_or_no(Entry::IsKey, self.form.is_key(bytes), names::is_key(bytes), || hex(bytes));
    }

    pub fn is_subtree(&mut self, bytes: &[u8]) {
        let bytes = &*exact(bytes);
        inputs::note_subtree(&mut self.counts, bytes);
        self.yes_or_no(Entry::IsSubtree, self.form.is_subtree(bytes), names::is_subtree(bytes), || hex(bytes));
    }

    pub fn is_under(&mut self, subtree: &[u8], key: &[u8]) {
        let (subtree, key) = (&*exact(subtree), &*exact(key));
        inputs::note_under(&mut self.counts, subtree, key);
        let call = || format!("subtree {} key {}", hex(subtree), hex(key));
        self.yes_or_no(Entry::IsUnder, self.form.is_under(subtree, key), names::is_under(subtree, key), call);
    }

    fn yes_or_no(&mut self, entry: Entry, lib: i32, peer: bool, call: impl FnOnce() -> String) {
        let problem = (lib != i32::from(peer)).then(|| format!("library {lib}, peer {peer}"));
        self.record_given(entry, (!peer).then_some(0), problem, call);
    }
}
