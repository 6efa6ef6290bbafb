//! The first exchange in Rust: a server, a desk that cuts clip 7, one update, one snapshot, one lookup. There is no
//! network here: what sockets would carry is handed over in memory. It writes what examples/first.c writes.

use chp::{Answer, Client, ICANHAZ_MOST, ICANHAZ_ROOM, KVPUB_MOST, Message, SNAPSHOT_MOST, SNAPSHOT_ROOM, Server};
use chp::{VALUE_MOST, frames};
use std::process::ExitCode;

/// In place of a PUB socket.
fn publish(server: &Server, message: &[u8]) {
    let value = chp::value(message).unwrap_or_default();
    let (length, number) = (message.len(), server.header.number);
    println!("published: {length} bytes, number {number}, value {}", String::from_utf8_lossy(value));
}

fn update_clip(server: &mut Server, desk: &mut Client, now_ms: u64) {
    let (mut request, mut update) = ([0; KVPUB_MOST], [0; KVPUB_MOST]);
    desk.start(b"/clip/7/", now_ms);
    let asked = desk.write_kvset(b"/clip/7/undo", b"", b"", b"cut", &mut request);

    server.start(0, now_ms);
    match server.kvset(&request[..asked.written()], now_ms, &mut update) {
        Answer::Wrote { written, .. } => publish(server, &update[..written]),
        answer => eprintln!("{answer}"),
    }
}

/// In place of the way to the server: the ROUTER socket puts the identity of the desk in front.
fn with_identity<'a>(request: &[u8], buffer: &'a mut [u8]) -> Message<'a> {
    let mut message = Message::new(buffer);
    message.add(b"desk", true);
    for frame in frames(request) {
        message.add(frame.body, frame.more);
    }
    message
}

/// In place of the way back: the desk receives each message of the answer without the identity.
fn take_snapshot(desk: &mut Client, answer: &[u8]) {
    let mut buffer = [0; SNAPSHOT_ROOM];
    let mut rest = frames(answer);
    while rest.next().is_some() {
        let mut message = Message::new(&mut buffer);
        for frame in rest.by_ref() {
            message.add(frame.body, frame.more);
            if !frame.more {
                break;
            }
        }
        println!("snapshot: {}", desk.snapshot(message.bytes()));
    }
}

fn join(server: &Server, desk: &mut Client) {
    let (mut request, mut buffer) = ([0; ICANHAZ_MOST], [0; ICANHAZ_ROOM]);
    let mut snapshot = vec![0; SNAPSHOT_MOST];
    let asked = desk.write_icanhaz(&mut request);
    let routed = with_identity(&request[..asked.written()], &mut buffer);
    let answer = server.icanhaz(routed.bytes(), &mut snapshot);
    take_snapshot(desk, &snapshot[..answer.written()]);
}

fn look_up(desk: &Client) {
    let mut value = [0; VALUE_MOST];
    if let Answer::Found { number, written } = desk.lookup(b"/clip/7/undo", &mut value) {
        println!("found at number {number}: {}", String::from_utf8_lossy(&value[..written]));
    }
}

fn main() -> ExitCode {
    if !chp::layout_agrees() {
        return ExitCode::FAILURE;
    }
    let (mut server, mut desk) = (Server::boxed(), Client::boxed());
    update_clip(&mut server, &mut desk, 0);
    join(&server, &mut desk);
    look_up(&desk);
    ExitCode::SUCCESS
}
