//! The calls on a client.

use crate::exports as c;
use crate::{Answer, Client};

// SAFETY of every call below: the arrays and the header are whole and borrowed, each pointer to bytes has the length
// beside it, and nothing that is written overlaps anything else that is borrowed.

impl Client {
    /// A client that waits for the snapshot of a subtree, from a tick on. Refused, it has the empty subtree and tick 0.
    pub fn start(&mut self, subtree: &[u8], tick: u64) -> Answer {
        let (rows, lengths, own) = (self.rows.as_mut_ptr(), self.lengths.as_mut_ptr(), self.subtree.as_mut_ptr());
        let (wanted, wanted_len) = (subtree.as_ptr(), subtree.len());
        let mut answer = [0; 4];
        unsafe {
            c::chp_lent_client_start(rows, lengths, own, &mut self.header, wanted, wanted_len, tick, &mut answer);
        }
        Answer::of(answer)
    }

    /// A message from the server's router, without the identity frame: KVSYNC, or KTHXBAI, which makes the client live.
    pub fn snapshot(&mut self, msg: &[u8]) -> Answer {
        let (rows, lengths, own) = (self.rows.as_mut_ptr(), self.lengths.as_mut_ptr(), self.subtree.as_ptr());
        let (msg, msg_len) = (msg.as_ptr(), msg.len());
        let mut answer = [0; 4];
        unsafe { c::chp_lent_client_snapshot(rows, lengths, own, &mut self.header, msg, msg_len, &mut answer) };
        Answer::of(answer)
    }

    /// A message that the server published: KVPUB or HUGZ. Only HUGZ uses the tick.
    pub fn subscriber(&mut self, msg: &[u8], tick: u64) -> Answer {
        let (rows, lengths, own) = (self.rows.as_mut_ptr(), self.lengths.as_mut_ptr(), self.subtree.as_ptr());
        let (msg, msg_len) = (msg.as_ptr(), msg.len());
        let mut answer = [0; 4];
        unsafe {
            c::chp_lent_client_subscriber(rows, lengths, own, &mut self.header, msg, msg_len, tick, &mut answer);
        }
        Answer::of(answer)
    }

    /// Writes ICANHAZ, of at most [`crate::ICANHAZ_MOST`] bytes.
    pub fn write_icanhaz(&self, out: &mut [u8]) -> Answer {
        let (rows, lengths, own) = (self.rows.as_ptr(), self.lengths.as_ptr(), self.subtree.as_ptr());
        let (out, out_len) = (out.as_mut_ptr(), out.len());
        let mut answer = [0; 4];
        unsafe { c::chp_lent_client_write_icanhaz(rows, lengths, own, &self.header, out, out_len, &mut answer) };
        Answer::of(answer)
    }

    /// Writes KVSET, of at most [`crate::KVPUB_MOST`] bytes. An empty value removes the key.
    pub fn write_kvset(&self, key: &[u8], uuid: &[u8], properties: &[u8], value: &[u8], out: &mut [u8]) -> Answer {
        let (rows, lengths, own) = (self.rows.as_ptr(), self.lengths.as_ptr(), self.subtree.as_ptr());
        let [(key, key_len), (uuid, uuid_len), (properties, properties_len), (value, value_len)] =
            [key, uuid, properties, value].map(|bytes| (bytes.as_ptr(), bytes.len()));
        let (out, out_len) = (out.as_mut_ptr(), out.len());
        let mut answer = [0; 4];
        unsafe {
            c::chp_lent_client_write_kvset(
                rows,
                lengths,
                own,
                &self.header,
                key,
                key_len,
                uuid,
                uuid_len,
                properties,
                properties_len,
                value,
                value_len,
                out,
                out_len,
                &mut answer,
            )
        };
        Answer::of(answer)
    }

    /// Whether more than 5000 ms have passed since HUGZ was heard, or since the start.
    pub fn ask(&self, tick: u64) -> Answer {
        let (rows, lengths, own) = (self.rows.as_ptr(), self.lengths.as_ptr(), self.subtree.as_ptr());
        let mut answer = [0; 4];
        unsafe { c::chp_lent_client_ask(rows, lengths, own, &self.header, tick, &mut answer) };
        Answer::of(answer)
    }

    /// Copies the value of a key to the output, at most [`crate::VALUE_MOST`] bytes.
    pub fn lookup(&self, key: &[u8], out: &mut [u8]) -> Answer {
        let (rows, lengths, own) = (self.rows.as_ptr(), self.lengths.as_ptr(), self.subtree.as_ptr());
        let (key, key_len) = (key.as_ptr(), key.len());
        let (out, out_len) = (out.as_mut_ptr(), out.len());
        let mut answer = [0; 4];
        unsafe {
            c::chp_lent_client_lookup(rows, lengths, own, &self.header, key, key_len, out, out_len, &mut answer);
        }
        Answer::of(answer)
    }
}
