//! The functions of the archive, as `include/chp_exports.h` declares them. A pointer to bytes is followed by their
//! length, and is never null.

use crate::state::{ClientHeader, RowBytes, RowLengths, RowStamps, ServerHeader};

pub type Words = [u64; 4];

unsafe extern "C" {
    pub fn chp_lent_server_start(
        rows: *mut RowBytes,
        lengths: *mut RowLengths,
        stamps: *mut RowStamps,
        header: *mut ServerHeader,
        number: u64,
        tick: u64,
        answer: *mut Words,
    );
    pub fn chp_lent_server_kvset(
        rows: *mut RowBytes,
        lengths: *mut RowLengths,
        stamps: *mut RowStamps,
        header: *mut ServerHeader,
        msg: *const u8,
        msg_len: usize,
        tick: u64,
        out: *mut u8,
        out_len: usize,
        answer: *mut Words,
    );
    pub fn chp_lent_server_tick(
        rows: *mut RowBytes,
        lengths: *mut RowLengths,
        stamps: *mut RowStamps,
        header: *mut ServerHeader,
        tick: u64,
        out: *mut u8,
        out_len: usize,
        answer: *mut Words,
    );
    pub fn chp_lent_server_icanhaz(
        rows: *const RowBytes,
        lengths: *const RowLengths,
        stamps: *const RowStamps,
        header: *const ServerHeader,
        msg: *const u8,
        msg_len: usize,
        out: *mut u8,
        out_len: usize,
        answer: *mut Words,
    );

    pub fn chp_lent_client_start(
        rows: *mut RowBytes,
        lengths: *mut RowLengths,
        subtree: *mut u8,
        header: *mut ClientHeader,
        wanted: *const u8,
        wanted_len: usize,
        tick: u64,
        answer: *mut Words,
    );
    pub fn chp_lent_client_snapshot(
        rows: *mut RowBytes,
        lengths: *mut RowLengths,
        subtree: *const u8,
        header: *mut ClientHeader,
        msg: *const u8,
        msg_len: usize,
        answer: *mut Words,
    );
    pub fn chp_lent_client_subscriber(
        rows: *mut RowBytes,
        lengths: *mut RowLengths,
        subtree: *const u8,
        header: *mut ClientHeader,
        msg: *const u8,
        msg_len: usize,
        tick: u64,
        answer: *mut Words,
    );
    pub fn chp_lent_client_write_icanhaz(
        rows: *const RowBytes,
        lengths: *const RowLengths,
        subtree: *const u8,
        header: *const ClientHeader,
        out: *mut u8,
        out_len: usize,
        answer: *mut Words,
    );
    pub fn chp_lent_client_write_kvset(
        rows: *const RowBytes,
        lengths: *const RowLengths,
        subtree: *const u8,
        header: *const ClientHeader,
        key: *const u8,
        key_len: usize,
        uuid: *const u8,
        uuid_len: usize,
        properties: *const u8,
        properties_len: usize,
        value: *const u8,
        value_len: usize,
        out: *mut u8,
        out_len: usize,
        answer: *mut Words,
    );
    pub fn chp_lent_client_ask(
        rows: *const RowBytes,
        lengths: *const RowLengths,
        subtree: *const u8,
        header: *const ClientHeader,
        tick: u64,
        answer: *mut Words,
    );
    pub fn chp_lent_client_lookup(
        rows: *const RowBytes,
        lengths: *const RowLengths,
        subtree: *const u8,
        header: *const ClientHeader,
        key: *const u8,
        key_len: usize,
        out: *mut u8,
        out_len: usize,
        answer: *mut Words,
    );

    pub fn chp_bytes_put_part(
        buffer: *mut u8,
        room: usize,
        built: *mut [u64; 2],
        more: u64,
        part: *const u8,
        part_len: usize,
    );
    pub fn chp_bytes_next_frame(bytes: *const u8, len: usize, frame: *mut [u64; 3]) -> u64;
    pub fn chp_bytes_message_length(bytes: *const u8, len: usize) -> usize;
    pub fn chp_bytes_value_length(msg: *const u8, msg_len: usize) -> usize;
    pub fn chp_bytes_value_refusal(msg: *const u8, msg_len: usize) -> u64;

    pub fn chp_bytes_is_key(bytes: *const u8, len: usize) -> u64;
    pub fn chp_bytes_is_subtree(bytes: *const u8, len: usize) -> u64;
    pub fn chp_bytes_is_under(subtree: *const u8, subtree_len: usize, key: *const u8, key_len: usize) -> u64;

    pub fn chp_archive_version() -> u64;
    pub fn chp_layout_marks(
        row: *mut RowBytes,
        lengths: *mut RowLengths,
        stamps: *mut RowStamps,
        subtree: *mut u8,
        server: *mut ServerHeader,
        client: *mut ClientHeader,
        answer: *mut Words,
    ) -> u64;
}
