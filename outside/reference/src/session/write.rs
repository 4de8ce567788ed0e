//! put and link: what is appended to the innermost open piece.

use super::{done, Look};
use crate::answer::{self, Answer};
use crate::sound::sound;

/// Appends bytes.
pub fn put(store: &mut [u8], records: &mut [u32], bytes: &[u8]) -> Answer {
    put_by(sound, store, records, bytes)
}

pub fn put_by(look: Look, store: &mut [u8], records: &mut [u32], bytes: &[u8]) -> Answer {
    let Some(view) = look(store, records) else {
        return Answer::bare(answer::NOT_SOUND);
    };
    if view.depth() == 0 {
        return Answer::with_tally_of(answer::NOTHING_OPEN, view.tally());
    }
    let between = view.between();
    if bytes.len() > between.len() {
        return Answer::with_tally_of(answer::STORE_FULL, view.tally());
    }
    let end_word = view.layout.open_end(view.depth());
    let end = between.start + bytes.len();
    store[between.start..end].copy_from_slice(bytes);
    records[end_word] = end as u32;
    done(store, records)
}

/// Appends a field of zero bytes and records it with its inner start and child.
pub fn link(store: &[u8], records: &mut [u32], width: u32, id: u32, inner: u32) -> Answer {
    link_by(sound, store, records, [width, id, inner])
}

pub fn link_by(
    look: Look,
    store: &[u8],
    records: &mut [u32],
    [width, id, inner]: [u32; 3],
) -> Answer {
    let Some(view) = look(store, records) else {
        return Answer::bare(answer::NOT_SOUND);
    };
    let tally = view.tally();
    let (layout, depth) = (view.layout, view.depth());
    let place = match depth.checked_sub(1) {
        Some(innermost) => view.open_piece(innermost).bytes.len() as u32,
        None => 0,
    };
    let refusal = if depth == 0 {
        Some(answer::NOTHING_OPEN)
    } else if !matches!(width, 2..=4) || inner > place {
        Some(answer::BAD_FIELD)
    } else if u64::from(id) >= tally.objects {
        Some(answer::NOT_CLOSED)
    } else if tally.links == view.layout.links as u64 {
        Some(answer::LINKS_FULL)
    } else if tally.bytes + u64::from(width) > store.len() as u64 {
        Some(answer::STORE_FULL)
    } else {
        None
    };
    if let Some(number) = refusal {
        return Answer::with_tally_of(number, tally);
    }
    let record = layout.link(view.open_link_end(depth));
    records[record..record + 4].copy_from_slice(&[place, width, inner, id]);
    records[layout.open_end(depth)] += width;
    records[layout.open_link_end(depth)] += 1;
    done(store, records)
}
