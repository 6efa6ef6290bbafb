//! The calls on a server.

use crate::exports as c;
use crate::{Answer, Server};

// SAFETY of every call below: the arrays and the header are whole and borrowed, each pointer to bytes has the length
// beside it, and nothing that is written overlaps anything else that is borrowed.

impl Server {
    /// A server without rows, at a number and a tick. Refused, it is at number 0 and tick 0.
    pub fn start(&mut self, number: u64, tick: u64) -> Answer {
        let (rows, lengths, stamps) = (self.rows.as_mut_ptr(), self.lengths.as_mut_ptr(), self.stamps.as_mut_ptr());
        let mut answer = [0; 4];
        unsafe { c::chp_lent_server_start(rows, lengths, stamps, &mut self.header, number, tick, &mut answer) };
        Answer::of(answer)
    }

    /// KVSET at a tick: sets or removes a row, and writes the KVPUB, of at most [`crate::KVPUB_MOST`] bytes.
    pub fn kvset(&mut self, msg: &[u8], tick: u64, out: &mut [u8]) -> Answer {
        let (rows, lengths, stamps) = (self.rows.as_mut_ptr(), self.lengths.as_mut_ptr(), self.stamps.as_mut_ptr());
        let (msg, msg_len) = (msg.as_ptr(), msg.len());
        let (out, out_len) = (out.as_mut_ptr(), out.len());
        let mut answer = [0; 4];
        unsafe {
            c::chp_lent_server_kvset(
                rows,
                lengths,
                stamps,
                &mut self.header,
                msg,
                msg_len,
                tick,
                out,
                out_len,
                &mut answer,
            )
        };
        Answer::of(answer)
    }

    /// Tells the time: writes the KVPUB of a row that expired, or else HUGZ if nothing was published for 1000 ms. If it
    /// wrote, call again at once.
    pub fn tick(&mut self, tick: u64, out: &mut [u8]) -> Answer {
        let (rows, lengths, stamps) = (self.rows.as_mut_ptr(), self.lengths.as_mut_ptr(), self.stamps.as_mut_ptr());
        let (out, out_len) = (out.as_mut_ptr(), out.len());
        let mut answer = [0; 4];
        unsafe {
            c::chp_lent_server_tick(rows, lengths, stamps, &mut self.header, tick, out, out_len, &mut answer);
        }
        Answer::of(answer)
    }

    /// ICANHAZ: writes the snapshot of a subtree, of at most [`crate::SNAPSHOT_MOST`] bytes, which [`crate::frames`]
    /// splits.
    pub fn icanhaz(&self, msg: &[u8], out: &mut [u8]) -> Answer {
        let (rows, lengths, stamps) = (self.rows.as_ptr(), self.lengths.as_ptr(), self.stamps.as_ptr());
        let (msg, msg_len) = (msg.as_ptr(), msg.len());
        let (out, out_len) = (out.as_mut_ptr(), out.len());
        let mut answer = [0; 4];
        unsafe {
            c::chp_lent_server_icanhaz(rows, lengths, stamps, &self.header, msg, msg_len, out, out_len, &mut answer);
        }
        Answer::of(answer)
    }
}
