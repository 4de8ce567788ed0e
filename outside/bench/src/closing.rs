//! A close with closed pieces to look through, one in a large store, and one
//! that moves nearly the longest store.

use crate::sessions::{Limits, Memory};
use crate::timing::both;
use crate::Line;
use bindings::calls;
use reference::session;

const SMALL: Limits = Limits {
    pieces: 4_096,
    links: 0,
    store: 40_000,
};

const MIB: Limits = Limits {
    pieces: 4_096,
    links: 0,
    store: 1 << 20,
};

const LONGEST: Limits = Limits {
    pieces: 2,
    links: 0,
    store: 16 << 20,
};

pub fn lines() -> Vec<Line> {
    let small = closed(&SMALL, 4_000, leaf);
    let wide_ones = closed(&MIB, 4_000, |id| wide(0, id));
    let long_ones = closed(&MIB, 240, long);
    let few = closed(&MIB, 10, leaf);
    let one = closed(&LONGEST, 1, leaf);
    let wider = [wide(0, 0), vec![0]].concat();
    vec![
        line(
            "close, 4,000 closed, a new piece",
            &small,
            leaf(4_000),
            4_000,
        ),
        line(
            "close, 4,000 closed, equal to the last",
            &small,
            leaf(3_999),
            3_999,
        ),
        line(
            "close, 4,000 closed, equal to the first",
            &small,
            leaf(0),
            0,
        ),
        line(
            "close, 4,000 closed, of another size",
            &wide_ones,
            wider,
            4_000,
        ),
        line(
            "close, 4,000 closed, byte 1 of 256 differs",
            &wide_ones,
            wide(1, 0),
            4_000,
        ),
        line(
            "close, 240 closed, byte 4,097 differs",
            &long_ones,
            long(240),
            240,
        ),
        line(
            "close, 1 MiB store, 10 closed, a new piece",
            &few,
            leaf(10),
            10,
        ),
        // All but a leaf and a byte.
        line("close of 16 MiB", &one, vec![7; LONGEST.store - 9], 1),
    ]
}

fn closed(limits: &Limits, count: u32, bytes: impl Fn(u32) -> Vec<u8>) -> Memory {
    let mut memory = Memory::start(limits);
    for id in 0..count {
        memory.piece(&[], &bytes(id));
    }
    memory
}

/// Pieces of one length that differ in their last bytes only.
fn leaf(id: u32) -> Vec<u8> {
    u64::from(id).to_be_bytes().to_vec()
}

/// Pieces of 256 bytes that differ in the first byte, or in the last ones.
fn wide(first: u8, id: u32) -> Vec<u8> {
    [vec![first], vec![0; 251], id.to_be_bytes().to_vec()].concat()
}

/// Pieces of 4,097 bytes that differ in the last byte only.
fn long(id: u32) -> Vec<u8> {
    [vec![0; 4_096], vec![id as u8]].concat()
}

fn line(what: &str, memory: &Memory, bytes: Vec<u8>, id: u64) -> Line {
    let mut memory = memory.clone();
    memory.open();
    memory.put(&bytes);
    let times = both(
        60,
        || memory.clone(),
        |m| assert_eq!(calls::close(&mut m.store, &mut m.records).id, id),
        |m| assert_eq!(session::close(&mut m.store, &mut m.records).id, id),
    );
    Line {
        what: what.to_string(),
        times,
    }
}
