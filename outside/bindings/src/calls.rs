//! The calls as the header has them, on slices.
//!
//! Each `unsafe` block hands over a slice's pointer and its length; `&mut`
//! slices overlap nothing else that is lent.

use crate::foreign;
use crate::{Answer, Batched, Fed, GsubPromoted, GsubRead, Sent};

/// Words of 32 bits that the record store needs.
pub fn records_need(piece_limit: u32, link_limit: u32) -> usize {
    unsafe { foreign::scoterlime_records_need(piece_limit, link_limit) as usize }
}

/// Words of 64 bits that the work memory needs of a pack that allows so many
/// copies.
pub fn work_need(piece_limit: u32, link_limit: u32, copies: u32) -> usize {
    unsafe { foreign::scoterlime_work_need(piece_limit, link_limit, copies) as usize }
}

pub fn start(store: &mut [u8], records: &mut [u32], piece_limit: u32, link_limit: u32) -> Answer {
    let (n, r) = (store.len(), records.len());
    let (store, records) = (store.as_mut_ptr(), records.as_mut_ptr());
    unsafe { foreign::scoterlime_start(store, n, records, r, piece_limit, link_limit) }
}

pub fn open(store: &mut [u8], records: &mut [u32]) -> Answer {
    let (n, r) = (store.len(), records.len());
    unsafe { foreign::scoterlime_open(store.as_mut_ptr(), n, records.as_mut_ptr(), r) }
}

pub fn put(store: &mut [u8], records: &mut [u32], bytes: &[u8]) -> Answer {
    let (n, r) = (store.len(), records.len());
    let (store, records) = (store.as_mut_ptr(), records.as_mut_ptr());
    unsafe { foreign::scoterlime_put(store, n, records, r, bytes.as_ptr(), bytes.len()) }
}

pub fn link(store: &mut [u8], records: &mut [u32], width: u32, id: u32, inner: u32) -> Answer {
    let (n, r) = (store.len(), records.len());
    let (store, records) = (store.as_mut_ptr(), records.as_mut_ptr());
    unsafe { foreign::scoterlime_link(store, n, records, r, width, id, inner) }
}

pub fn close(store: &mut [u8], records: &mut [u32]) -> Answer {
    let (n, r) = (store.len(), records.len());
    unsafe { foreign::scoterlime_close(store.as_mut_ptr(), n, records.as_mut_ptr(), r) }
}

pub fn drop(store: &mut [u8], records: &mut [u32]) -> Answer {
    let (n, r) = (store.len(), records.len());
    unsafe { foreign::scoterlime_drop(store.as_mut_ptr(), n, records.as_mut_ptr(), r) }
}

pub fn tally(store: &[u8], records: &[u32]) -> Answer {
    let (n, r) = (store.len(), records.len());
    unsafe { foreign::scoterlime_tally(store.as_ptr(), n, records.as_ptr(), r) }
}

pub fn pack(
    store: &[u8],
    records: &[u32],
    id: u32,
    copies: u32,
    out: &mut [u8],
    work: &mut [u64],
) -> Answer {
    let (n, r, o, w) = (store.len(), records.len(), out.len(), work.len());
    let (store, records) = (store.as_ptr(), records.as_ptr());
    let (out, work) = (out.as_mut_ptr(), work.as_mut_ptr());
    unsafe { foreign::scoterlime_pack(store, n, records, r, id, copies, out, o, work, w) }
}

/// Starts a session and reads a table of single substitutions into it.
pub fn read_gsub(
    store: &mut [u8],
    records: &mut [u32],
    piece_limit: u32,
    link_limit: u32,
    table: &[u8],
) -> GsubRead {
    let limits = (piece_limit, link_limit);
    read_by(foreign::scoterlime_read_gsub, store, records, limits, table)
}

/// Starts a session and reads a table of any lookups into it.
pub fn read_gsub_whole(
    store: &mut [u8],
    records: &mut [u32],
    piece_limit: u32,
    link_limit: u32,
    table: &[u8],
) -> GsubRead {
    let limits = (piece_limit, link_limit);
    read_by(
        foreign::scoterlime_read_gsub_whole,
        store,
        records,
        limits,
        table,
    )
}

fn read_by(
    read: foreign::Read,
    store: &mut [u8],
    records: &mut [u32],
    (p, l): (u32, u32),
    table: &[u8],
) -> GsubRead {
    let (n, r, t) = (store.len(), records.len(), table.len());
    let (store, records, table) = (store.as_mut_ptr(), records.as_mut_ptr(), table.as_ptr());
    unsafe { read(store, n, records, r, p, l, table, t) }
}

/// Reads a table of single substitutions and packs it, with as few of its last
/// lookups promoted as an order fits. The work memory is that of a pack without
/// copies.
pub fn promote_gsub(
    store: &mut [u8],
    records: &mut [u32],
    piece_limit: u32,
    link_limit: u32,
    table: &[u8],
    out: &mut [u8],
    work: &mut [u64],
) -> GsubPromoted {
    let (call, limits) = (foreign::scoterlime_promote_gsub, (piece_limit, link_limit));
    promote_by(call, store, records, limits, table, out, work)
}

/// The same of a table of any lookups.
pub fn promote_gsub_whole(
    store: &mut [u8],
    records: &mut [u32],
    piece_limit: u32,
    link_limit: u32,
    table: &[u8],
    out: &mut [u8],
    work: &mut [u64],
) -> GsubPromoted {
    let (call, limits) = (
        foreign::scoterlime_promote_gsub_whole,
        (piece_limit, link_limit),
    );
    promote_by(call, store, records, limits, table, out, work)
}

fn promote_by(
    promote: foreign::Promote,
    store: &mut [u8],
    records: &mut [u32],
    (p, l): (u32, u32),
    table: &[u8],
    out: &mut [u8],
    work: &mut [u64],
) -> GsubPromoted {
    let (n, r, t) = (store.len(), records.len(), table.len());
    let (o, w) = (out.len(), work.len());
    let (store, records, table) = (store.as_mut_ptr(), records.as_mut_ptr(), table.as_ptr());
    let (out, work) = (out.as_mut_ptr(), work.as_mut_ptr());
    unsafe { promote(store, n, records, r, p, l, table, t, out, o, work, w) }
}

/// Words of 64 bits that the work memory needs of a batch.
pub fn batch_need(piece_limit: u32, link_limit: u32) -> usize {
    unsafe { foreign::scoterlime_batch_need(piece_limit, link_limit) as usize }
}

/// Carries out many calls, given as words. [`crate::Batch`] writes them.
pub fn batch(
    store: &mut [u8],
    records: &mut [u32],
    calls: &[u32],
    bytes: &[u8],
    ids: &mut [u32],
    work: &mut [u64],
) -> Batched {
    let (n, r, c, b) = (store.len(), records.len(), calls.len(), bytes.len());
    let (i, w) = (ids.len(), work.len());
    let (store, records) = (store.as_mut_ptr(), records.as_mut_ptr());
    let (calls, bytes) = (calls.as_ptr(), bytes.as_ptr());
    let (ids, work) = (ids.as_mut_ptr(), work.as_mut_ptr());
    unsafe { foreign::scoterlime_batch(store, n, records, r, calls, c, bytes, b, ids, i, work, w) }
}

/// Bytes that a head needs.
pub fn head_need() -> usize {
    unsafe { foreign::scoterlime_head_need() as usize }
}

/// Writes a table as frames of text.
pub fn send(table: &[u8], out: &mut [u8]) -> Sent {
    let (t, o) = (table.len(), out.len());
    unsafe { foreign::scoterlime_send(table.as_ptr(), t, out.as_mut_ptr(), o) }
}

/// Takes text up to the end of a stretch, and judges that one.
pub fn feed(head: &mut [u8], text: &[u8], out: &mut [u8]) -> Fed {
    let (h, t, o) = (head.len(), text.len(), out.len());
    let (head, text, out) = (head.as_mut_ptr(), text.as_ptr(), out.as_mut_ptr());
    unsafe { foreign::scoterlime_feed(head, h, text, t, out, o) }
}
