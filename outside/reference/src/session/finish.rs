//! close and drop: what ends the innermost open piece.

use super::{done, Look};
use crate::answer::{self, Answer};
use crate::sound::sound;
use crate::view::{Layout, Piece, CLOSED_COUNT, OPEN_DEPTH};

/// Closes the innermost piece and gives its id, the lowest equal one if any.
pub fn close(store: &mut [u8], records: &mut [u32]) -> Answer {
    close_by(sound, store, records)
}

pub fn close_by(look: Look, store: &mut [u8], records: &mut [u32]) -> Answer {
    let Some(view) = look(store, records) else {
        return Answer::bare(answer::NOT_SOUND);
    };
    let refuse = |number| Answer::with_tally_of(number, view.tally());
    let Some(innermost) = view.depth().checked_sub(1) else {
        return refuse(answer::NOTHING_OPEN);
    };
    let piece = view.open_piece(innermost);
    if piece.bytes.is_empty() {
        return refuse(answer::EMPTY_PIECE);
    }
    if view.hopeless(&piece) {
        return refuse(answer::HOPELESS);
    }
    let closed = view.closed();
    let layout = view.layout;
    let equal = (0..closed).find(|&id| view.equal(&piece, &view.closed_piece(id)));
    if equal.is_none() && closed == layout.pieces {
        return refuse(answer::PIECES_FULL);
    }
    match equal {
        Some(_) => forget(store, records, &piece),
        None => keep(store, records, layout, closed, &piece),
    }
    Answer {
        id: equal.unwrap_or(closed) as u64,
        ..done(store, records)
    }
}

/// Forgets the innermost piece.
pub fn drop(store: &mut [u8], records: &mut [u32]) -> Answer {
    let Some(view) = sound(store, records) else {
        return Answer::bare(answer::NOT_SOUND);
    };
    let Some(innermost) = view.depth().checked_sub(1) else {
        return Answer::with_tally_of(answer::NOTHING_OPEN, view.tally());
    };
    let piece = view.open_piece(innermost);
    forget(store, records, &piece);
    done(store, records)
}

fn forget(store: &mut [u8], records: &mut [u32], piece: &Piece) {
    store[piece.bytes.clone()].fill(0);
    records[OPEN_DEPTH] -= 1;
}

/// Moves the piece to the back, where it becomes the closed piece `id`.
fn keep(store: &mut [u8], records: &mut [u32], layout: Layout, id: usize, piece: &Piece) {
    let end = records[layout.closed_begin(id)] as usize;
    let begin = end - piece.bytes.len();
    store.copy_within(piece.bytes.clone(), begin);
    store[piece.bytes.start..begin].fill(0);
    records[layout.closed_begin(id + 1)] = begin as u32;

    let link_end = records[layout.closed_link_begin(id)] as usize;
    let link_begin = link_end - piece.links.len();
    let from = layout.link(piece.links.start)..layout.link(piece.links.end);
    records.copy_within(from, layout.link(link_begin));
    records[layout.closed_link_begin(id + 1)] = link_begin as u32;

    records[CLOSED_COUNT] += 1;
    records[OPEN_DEPTH] -= 1;
}
