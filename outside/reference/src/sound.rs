//! When a session is sound.

use crate::limits;
use crate::view::{Piece, View};

/// The session in the two stores, if it is sound.
pub fn sound<'a>(store: &'a [u8], words: &'a [u32]) -> Option<View<'a>> {
    sound_but_hopeless(store, words).filter(|view| {
        let mut closed = (0..view.closed()).map(|id| view.closed_piece(id));
        !closed.any(|piece| view.hopeless(&piece))
    })
}

/// The same, though closed pieces may be hopeless.
pub fn sound_but_hopeless<'a>(store: &'a [u8], words: &'a [u32]) -> Option<View<'a>> {
    let view = View::framed(store, words)?;
    // Each check may index by what the checks before it have settled.
    let agrees = counts_within_limits(&view)
        && bytes_as_drawn(&view)
        && links_as_drawn(&view)
        && open_fields_right(&view)
        && closed_fields_right(&view)
        && store[view.between()].iter().all(|&byte| byte == 0);
    agrees.then_some(view)
}

fn counts_within_limits(view: &View) -> bool {
    view.closed() <= view.layout.pieces && view.depth() as u64 <= limits::DEEPEST
}

/// Open pieces from the front, closed ones of 1 or more bytes from the back.
fn bytes_as_drawn(view: &View) -> bool {
    view.open_end(0) == 0
        && (0..view.depth()).all(|k| view.open_end(k) <= view.open_end(k + 1))
        && view.open_end(view.depth()) <= view.closed_begin(view.closed())
        && (0..view.closed()).all(|i| view.closed_begin(i + 1) < view.closed_begin(i))
}

/// Open links from the front, closed ones from the back.
fn links_as_drawn(view: &View) -> bool {
    view.open_link_end(0) == 0
        && (0..view.depth()).all(|k| view.open_link_end(k) <= view.open_link_end(k + 1))
        && view.open_link_end(view.depth()) <= view.closed_link_begin(view.closed())
        && (0..view.closed()).all(|i| view.closed_link_begin(i + 1) <= view.closed_link_begin(i))
}

/// Every child of an open piece is closed.
fn open_fields_right(view: &View) -> bool {
    let closed = view.closed();
    (0..view.depth()).all(|number| fields_right(view, &view.open_piece(number), closed))
}

/// Every child of a closed piece is lower than its parent.
fn closed_fields_right(view: &View) -> bool {
    (0..view.closed()).all(|id| fields_right(view, &view.closed_piece(id), id))
}

/// Fields rising, apart, inside the piece, of width 2, 3 or 4 and of zero bytes,
/// with inner starts not past them and children below a bound.
fn fields_right(view: &View, piece: &Piece, bound: usize) -> bool {
    let bytes = &view.store[piece.bytes.clone()];
    let mut free_from: u64 = 0;
    for record in piece.links.clone() {
        let field = view.field(record);
        let begin = u64::from(field.place);
        let end = begin + u64::from(field.width);
        let well_placed = matches!(field.width, 2..=4)
            && field.inner <= field.place
            && free_from <= begin
            && end <= bytes.len() as u64
            && (field.child as usize) < bound;
        if !well_placed || bytes[begin as usize..end as usize].iter().any(|&b| b != 0) {
            return false;
        }
        free_from = end;
    }
    true
}
