//! Calls on the longest store, beside a plain sum of the same memory: each call
//! looks at the whole session first.

use crate::sessions::Memory;
use crate::timing::least;
use bindings::calls;
use compare::largest::{LINKS, LONGEST, PIECES};
use compare::made::{self, Room};
use compare::shapes::{Graph, Link, Piece};
use reference::call::Call;
use reference::random::Numbers;
use reference::session;
use reference::sound::sound;
use std::hint::black_box;

/// Times in microseconds, and lengths in bytes.
pub struct Line {
    pub what: String,
    pub proved: f64,
    pub reference: f64,
    pub sum: f64,
    /// What soundness is about.
    pub looked_at: usize,
    /// Both stores.
    pub summed: usize,
}

const CLOSED: usize = 16_000;

pub fn lines() -> Vec<Line> {
    let mut lines = Vec::new();
    for (held, memory) in [
        ("nothing closed", with_open(&Vec::new(), 8)),
        ("16,000 small ones closed", with_open(&closed(8), 8)),
        ("16,000 of 1 KiB closed", with_open(&closed(1_010), 1_010)),
    ] {
        let put = Call::Put(b"abcd".to_vec());
        for (name, call) in [("put", put), ("tally", Call::Tally), ("close", Call::Close)] {
            lines.push(line(&format!("{name}, {held}"), &memory, &call));
        }
    }
    lines
}

fn closed(bytes: usize) -> Graph {
    (0..CLOSED).map(|id| piece(id, id, bytes)).collect()
}

/// Four links to pieces below, and so many bytes, of which the last ones tell
/// the id.
fn piece(id: usize, below: usize, bytes: usize) -> Piece {
    let fields = if below == 0 { 0 } else { 4 };
    let child = |field: usize| Link::new(3 + field as u32 % 2, (id * 7 + field) % below);
    Piece {
        links: (0..fields).map(child).collect(),
        bytes: [vec![0; bytes - 8], id.to_be_bytes().to_vec()].concat(),
        links_first: true,
    }
}

/// A session of the longest store and all limits, in which a new piece is open
/// that is like the closed ones.
fn with_open(graph: &Graph, bytes: usize) -> Memory {
    let room = Room {
        pieces: PIECES as u32,
        links: LINKS as u32,
        store: LONGEST,
    };
    let stores = made::stores(graph, room, &mut Numbers::new(1));
    let mut memory = Memory {
        store: stores.bytes,
        records: stores.records,
    };
    let new = piece(CLOSED, graph.len(), bytes);
    memory.open();
    for link in new.links {
        memory.link(link.width, link.child as u32);
    }
    memory.put(&new.bytes);
    memory
}

fn line(what: &str, memory: &Memory, call: &Call) -> Line {
    let [proved, reference, sum] = least(
        60,
        || memory.clone(),
        [
            &mut |m| assert_eq!(by_proved(m, call), 0),
            &mut |m| assert_eq!(by_reference(m, call), 0),
            &mut |m| sum_of(m),
        ],
    );
    Line {
        what: what.to_string(),
        proved,
        reference,
        sum,
        looked_at: looked_at(memory),
        summed: memory.store.len() + 4 * memory.records.len(),
    }
}

fn by_proved(memory: &mut Memory, call: &Call) -> u64 {
    let (store, records) = (&mut memory.store, &mut memory.records);
    match call {
        Call::Put(bytes) => calls::put(store, records, bytes).number,
        Call::Close => calls::close(store, records).number,
        _ => calls::tally(store, records).number,
    }
}

fn by_reference(memory: &mut Memory, call: &Call) -> u64 {
    let (store, records) = (&mut memory.store, &mut memory.records);
    match call {
        Call::Put(bytes) => session::put(store, records, bytes).number,
        Call::Close => session::close(store, records).number,
        _ => session::tally(store, records).number,
    }
}

fn sum_of(memory: &mut Memory) {
    let bytes: u64 = memory.store.iter().map(|&byte| byte as u64).sum();
    let words: u64 = memory.records.iter().map(|&word| word as u64).sum();
    black_box((bytes, words));
}

/// The bytes between and those of fields; of the records the counts, the four
/// tables and the links.
fn looked_at(memory: &Memory) -> usize {
    let view = sound(&memory.store, &memory.records).expect("sound");
    let (depth, closed) = (view.depth(), view.closed());
    let open_links = 0..view.open_link_end(depth);
    let links = open_links.chain(view.closed_link_begin(closed)..view.layout.links);
    let widths: Vec<u32> = links.map(|record| view.field(record).width).collect();
    let words = 3 + 2 * (depth + 1) + 2 * (closed + 1) + 4 * widths.len();
    view.between().len() + widths.iter().sum::<u32>() as usize + 4 * words
}
