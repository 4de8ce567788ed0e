//! A put into a session with a store of 1 MiB, and one that fills the longest
//! store, the test for soundness included.

use crate::sessions::{Limits, Memory};
use crate::timing::both;
use crate::Line;
use bindings::calls;
use reference::session;

const MIB: Limits = Limits {
    pieces: 4_096,
    links: 16_384,
    store: 1 << 20,
};

const LONGEST: Limits = Limits {
    pieces: 1,
    links: 0,
    store: 16 << 20,
};

pub fn lines() -> Vec<Line> {
    let empty = Memory::start(&MIB);
    let mut held = empty.clone();
    for id in 0..4_000_u32 {
        let links: Vec<(u32, u32)> = (0..4).map(|k| (2, (id * 7 + k) % id.max(1))).collect();
        let links = if id == 0 { &[] } else { &links[..] };
        held.piece(links, &id.to_be_bytes());
    }
    vec![
        line("put, 1 MiB store, nothing closed", empty, b"abcd"),
        line("put, 1 MiB store, 4,000 closed", held, b"abcd"),
        line(
            "put of 16 MiB",
            Memory::start(&LONGEST),
            &vec![7; LONGEST.store],
        ),
    ]
}

fn line(what: &str, mut memory: Memory, bytes: &[u8]) -> Line {
    memory.open();
    let times = both(
        60,
        || memory.clone(),
        |m| assert_eq!(calls::put(&mut m.store, &mut m.records, bytes).number, 0),
        |m| assert_eq!(session::put(&mut m.store, &mut m.records, bytes).number, 0),
    );
    Line {
        what: what.to_string(),
        times,
    }
}
