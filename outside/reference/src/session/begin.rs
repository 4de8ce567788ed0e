//! start, open and tally.

use super::{done, Look};
use crate::answer::{self, Answer};
use crate::limits;
use crate::sound::sound;
use crate::view::{Layout, OPEN_DEPTH, PIECE_LIMIT};

/// Clears the byte store and the needed words, and records limits and length.
pub fn start(store: &mut [u8], records: &mut [u32], pieces: u32, links: u32) -> Answer {
    let in_range = limits::pieces_in_range(pieces.into())
        && limits::links_in_range(links.into())
        && limits::store_in_range(store.len());
    if !in_range || (records.len() as u64) < limits::record_need(pieces.into(), links.into()) {
        return Answer::bare(answer::OUT_OF_RANGE);
    }
    let layout = Layout {
        pieces: pieces as usize,
        links: links as usize,
    };
    store.fill(0);
    records[..layout.need()].fill(0);
    records[PIECE_LIMIT] = pieces;
    records[layout.closed_begin(0)] = store.len() as u32;
    records[layout.closed_link_begin(0)] = links;
    done(store, records)
}

/// Opens an empty piece inside the others.
pub fn open(store: &[u8], records: &mut [u32]) -> Answer {
    open_by(sound, store, records)
}

pub fn open_by(look: Look, store: &[u8], records: &mut [u32]) -> Answer {
    let Some(view) = look(store, records) else {
        return Answer::bare(answer::NOT_SOUND);
    };
    let (layout, depth) = (view.layout, view.depth());
    if depth as u64 == limits::DEEPEST {
        return Answer::with_tally_of(answer::TOO_DEEP, view.tally());
    }
    records[layout.open_end(depth + 1)] = records[layout.open_end(depth)];
    records[layout.open_link_end(depth + 1)] = records[layout.open_link_end(depth)];
    records[OPEN_DEPTH] += 1;
    done(store, records)
}

/// Tells the counts and changes nothing.
pub fn tally(store: &[u8], records: &[u32]) -> Answer {
    tally_by(sound, store, records)
}

pub fn tally_by(look: Look, store: &[u8], records: &[u32]) -> Answer {
    match look(store, records) {
        Some(view) => Answer::with_tally_of(answer::DONE, view.tally()),
        None => Answer::bare(answer::NOT_SOUND),
    }
}
