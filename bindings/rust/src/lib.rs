//! The bookkeeping of ZeroMQ's Clustered Hashmap Protocol (12/CHP), for Rust: a message comes in, and the message that
//! goes out is written. `include/chp.h` is the manual of the same functions; here slices go in and an [`Answer`] comes
//! out. What is called is proved; this module, like the header, is not.
//!
//! ```
//! use chp::{Answer, Client, KVPUB_MOST, Server};
//!
//! let mut server = Server::boxed();
//! let mut desk = Client::boxed();
//! server.start(0, 0);
//! desk.start(b"/clip/7/", 0);
//!
//! let (mut request, mut update) = ([0; KVPUB_MOST], [0; KVPUB_MOST]);
//! let asked = desk.write_kvset(b"/clip/7/undo", b"", b"", b"cut", &mut request);
//! match server.kvset(&request[..asked.written()], 0, &mut update) {
//!     Answer::Wrote { number, written } => assert_eq!((number, written), (1, 33)),
//!     answer => panic!("{answer}"),
//! }
//! ```
//!
//! Every function accepts any state, any bytes, any tick and any length, and returns. A call that is refused changes
//! nothing and writes nothing. An accepted one leaves the output after the bytes that it wrote unchanged.

mod answer;
mod client;
mod exports;
mod layout;
mod limits;
mod message;
mod names;
mod server;
mod state;

pub use answer::{Answer, Refusal};
pub use layout::layout_agrees;
pub use limits::*;
pub use message::{Frame, Frames, Message, Stage, frames, message_length, value};
pub use names::{is_key, is_subtree, is_under};
pub use state::{Client, ClientHeader, Row, RowBytes, RowLengths, RowStamps, Server, ServerHeader};
