//! The declarations of include/scoterlime.h.

use crate::{Answer, Batched, Fed, GsubPromoted, GsubRead, Sent};

/// A read: of single substitutions, or of any lookups.
pub type Read =
    unsafe extern "C" fn(*mut u8, usize, *mut u32, usize, u32, u32, *const u8, usize) -> GsubRead;

/// A promotion, of the same.
pub type Promote = unsafe extern "C" fn(
    *mut u8,
    usize,
    *mut u32,
    usize,
    u32,
    u32,
    *const u8,
    usize,
    *mut u8,
    usize,
    *mut u64,
    usize,
) -> GsubPromoted;

extern "C" {
    pub fn scoterlime_records_need(piece_limit: u32, link_limit: u32) -> u64;
    pub fn scoterlime_work_need(piece_limit: u32, link_limit: u32, copies: u32) -> u64;
    pub fn scoterlime_start(
        store: *mut u8,
        n: usize,
        records: *mut u32,
        r: usize,
        piece_limit: u32,
        link_limit: u32,
    ) -> Answer;
    pub fn scoterlime_open(store: *mut u8, n: usize, records: *mut u32, r: usize) -> Answer;
    pub fn scoterlime_put(
        store: *mut u8,
        n: usize,
        records: *mut u32,
        r: usize,
        bytes: *const u8,
        k: usize,
    ) -> Answer;
    pub fn scoterlime_link(
        store: *mut u8,
        n: usize,
        records: *mut u32,
        r: usize,
        width: u32,
        id: u32,
        inner: u32,
    ) -> Answer;
    pub fn scoterlime_close(store: *mut u8, n: usize, records: *mut u32, r: usize) -> Answer;
    pub fn scoterlime_drop(store: *mut u8, n: usize, records: *mut u32, r: usize) -> Answer;
    pub fn scoterlime_tally(store: *const u8, n: usize, records: *const u32, r: usize) -> Answer;
    pub fn scoterlime_pack(
        store: *const u8,
        n: usize,
        records: *const u32,
        r: usize,
        id: u32,
        copies: u32,
        out: *mut u8,
        o: usize,
        work: *mut u64,
        w: usize,
    ) -> Answer;
    pub fn scoterlime_read_gsub(
        store: *mut u8,
        n: usize,
        records: *mut u32,
        r: usize,
        piece_limit: u32,
        link_limit: u32,
        table: *const u8,
        t: usize,
    ) -> GsubRead;
    pub fn scoterlime_promote_gsub(
        store: *mut u8,
        n: usize,
        records: *mut u32,
        r: usize,
        piece_limit: u32,
        link_limit: u32,
        table: *const u8,
        t: usize,
        out: *mut u8,
        o: usize,
        work: *mut u64,
        w: usize,
    ) -> GsubPromoted;
    pub fn scoterlime_read_gsub_whole(
        store: *mut u8,
        n: usize,
        records: *mut u32,
        r: usize,
        piece_limit: u32,
        link_limit: u32,
        table: *const u8,
        t: usize,
    ) -> GsubRead;
    pub fn scoterlime_promote_gsub_whole(
        store: *mut u8,
        n: usize,
        records: *mut u32,
        r: usize,
        piece_limit: u32,
        link_limit: u32,
        table: *const u8,
        t: usize,
        out: *mut u8,
        o: usize,
        work: *mut u64,
        w: usize,
    ) -> GsubPromoted;
    pub fn scoterlime_batch_need(piece_limit: u32, link_limit: u32) -> u64;
    pub fn scoterlime_batch(
        store: *mut u8,
        n: usize,
        records: *mut u32,
        r: usize,
        calls: *const u32,
        c: usize,
        bytes: *const u8,
        b: usize,
        ids: *mut u32,
        i: usize,
        work: *mut u64,
        w: usize,
    ) -> Batched;
    pub fn scoterlime_head_need() -> u64;
    pub fn scoterlime_send(table: *const u8, t: usize, out: *mut u8, o: usize) -> Sent;
    pub fn scoterlime_feed(
        head: *mut u8,
        h: usize,
        text: *const u8,
        t: usize,
        out: *mut u8,
        o: usize,
    ) -> Fed;
}
