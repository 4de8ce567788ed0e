//! pack: one root and all that it reaches, written as a table.

use crate::answer::{self, Answer};
use crate::copies::{self, Laid};
use crate::graph::Graph;
use crate::limits;
use crate::orders;
use crate::sound::sound;
use crate::view::View;

/// Writes the table of a closed piece at the front of the output, with up to so
/// many copies. The needed part of the work memory is zero after 0, 10 and 11.
pub fn pack(
    store: &[u8],
    records: &[u32],
    id: u32,
    copies: u32,
    out: &mut [u8],
    work: &mut [u64],
) -> Answer {
    let Some(view) = sound(store, records) else {
        return Answer::bare(answer::NOT_SOUND);
    };
    if !limits::copies_in_range(copies.into()) {
        return Answer::bare(answer::OUT_OF_RANGE);
    }
    let (pieces, links) = (view.layout.pieces as u64, view.layout.links as u64);
    let need = limits::work_need(pieces, links, copies.into());
    if (work.len() as u64) < need {
        return Answer::bare(answer::OUT_OF_RANGE);
    }
    let tally = view.tally();
    if tally.depth > 0 {
        return Answer::with_tally_of(answer::STILL_OPEN, tally);
    }
    if u64::from(id) >= tally.objects {
        return Answer::with_tally_of(answer::NOT_CLOSED, tally);
    }
    work[..need as usize].fill(0);
    pack_root(&view, id as usize, copies as usize, out)
}

fn pack_root(view: &View, root: usize, copies: usize, out: &mut [u8]) -> Answer {
    let tally = view.tally();
    let laid = copies::lay(Graph::of(view), root, copies);
    if let Some(overflow) = laid.overflow {
        return Answer {
            parent: overflow.parent as u64,
            field: overflow.field,
            needed: overflow.needed,
            ..Answer::with_tally_of(answer::NO_FIT, tally)
        };
    }
    let length = laid.placing.length(&laid.graph);
    if (out.len() as u64) < length {
        return Answer::with_tally_of(answer::OUTPUT_SHORT, tally);
    }
    write(view, &laid, out);
    Answer {
        length,
        copies: laid.copies.made() as u64,
        placed: laid.placing.order.len() as u64,
        ..Answer::with_tally_of(answer::DONE, tally)
    }
}

fn write(view: &View, laid: &Laid, out: &mut [u8]) {
    let nodes = &laid.graph.nodes;
    let place_of = laid.placing.by_id(nodes.len());
    for &id in &laid.placing.order {
        let bytes = &view.store[view.closed_piece(laid.copies.original(id)).bytes];
        let begin = place_of[id] as usize;
        let part = &mut out[begin..begin + bytes.len()];
        part.copy_from_slice(bytes);
        for link in &nodes[id].links {
            let offset = orders::offset(&place_of, id, link).to_be_bytes();
            let (field, width) = (link.place as usize, link.width as usize);
            part[field..field + width].copy_from_slice(&offset[8 - width..]);
        }
    }
}
