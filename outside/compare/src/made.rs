//! Sessions of a graph made without calls: the two stores written at the
//! positions of docs/LAYOUT.md, and the readings of all pieces. To build as many
//! pieces and links as the limits allow takes more than 100,000 calls, each of
//! which looks at the whole session.

use crate::shapes::{Graph, Piece};
use reference::call::Stores;
use reference::random::Numbers;
use reference::reading::{Draft, Reading};
use reference::view::{Layout, CLOSED_COUNT, OPEN_DEPTH, PIECE_LIMIT};
use std::rc::Rc;

/// Both limits, and the byte store's length.
#[derive(Clone, Copy, Debug, PartialEq, Eq)]
pub struct Room {
    pub pieces: u32,
    pub links: u32,
    pub store: usize,
}

impl Room {
    /// Of objects and of links.
    pub fn limits(self) -> (u32, u32) {
        (self.pieces, self.links)
    }

    pub fn layout(self) -> Layout {
        Layout {
            pieces: self.pieces as usize,
            links: self.links as usize,
        }
    }
}

/// The stores when all pieces are closed, in the graph's order and all of them
/// different. Words that say nothing hold anything.
pub fn stores(graph: &Graph, room: Room, numbers: &mut Numbers) -> Stores {
    let layout = room.layout();
    let words = layout.need() + numbers.below(4);
    let mut bytes = vec![0; room.store];
    let mut records: Vec<u32> = (0..words).map(|_| numbers.next() as u32).collect();
    records[PIECE_LIMIT] = room.pieces;
    records[CLOSED_COUNT] = graph.len() as u32;
    records[OPEN_DEPTH] = 0;
    records[layout.open_end(0)] = 0;
    records[layout.open_link_end(0)] = 0;
    let (mut begin, mut first) = (room.store, layout.links);
    records[layout.closed_begin(0)] = begin as u32;
    records[layout.closed_link_begin(0)] = first as u32;
    for (id, piece) in graph.iter().enumerate() {
        let end = begin;
        begin -= piece.size();
        first -= piece.links.len();
        bytes[begin..end].copy_from_slice(&piece.all_bytes());
        records[layout.closed_begin(id + 1)] = begin as u32;
        records[layout.closed_link_begin(id + 1)] = first as u32;
        for (record, field) in (first..).zip(piece.fields()) {
            let word = layout.link(record);
            let words = [field.place, field.width, field.inner, field.child];
            records[word..word + 4].copy_from_slice(&words);
        }
    }
    Stores { bytes, records }
}

/// What each piece reads.
pub fn readings(graph: &Graph) -> Vec<Rc<Reading>> {
    let mut made: Vec<Rc<Reading>> = Vec::new();
    for piece in graph {
        made.push(reading(piece, &made));
    }
    made
}

fn reading(piece: &Piece, below: &[Rc<Reading>]) -> Rc<Reading> {
    let mut draft = Draft::default();
    if !piece.links_first {
        draft.put(&piece.bytes);
    }
    for field in piece.fields() {
        let child = Rc::clone(&below[field.child as usize]);
        draft.link(field.width as usize, field.inner as usize, child);
    }
    if piece.links_first {
        draft.put(&piece.bytes);
    }
    draft.finish()
}
