//! Offsets, the first that does not fit, and the table's bytes.

use crate::orders::{Bytes, Placing};
use crate::session::{capacity, Link, Objects};

/// An offset that its field cannot hold.
#[derive(Clone, Copy, Debug, PartialEq, Eq)]
pub struct Overflow {
    pub parent: u32,
    /// The field's place in the parent.
    pub field: u32,
    pub needed: u64,
}

/// The first overflow in placing order, then by rising field place.
pub fn overflow<B: Bytes>(objects: &impl Objects, placing: &Placing<B>) -> Option<Overflow> {
    for &parent in &placing.order {
        for link in objects.links(parent) {
            let needed = offset(placing, parent, link);
            let [field, width, _, _] = *link;
            if needed >= capacity(width) {
                return Some(Overflow {
                    parent,
                    field,
                    needed,
                });
            }
        }
    }
    None
}

fn offset<B: Bytes>(placing: &Placing<B>, parent: u32, &[_, _, inner, child]: &Link) -> u64 {
    let way = placing.places[child as usize] - placing.places[parent as usize] - inner.into();
    way.into()
}

/// The objects one behind the other, with their offsets filled in.
pub fn write<B: Bytes>(objects: &impl Objects, placing: &Placing<B>, out: &mut [u8]) {
    for &id in &placing.order {
        let bytes = objects.bytes(id);
        let begin: u64 = placing.places[id as usize].into();
        let object = &mut out[begin as usize..begin as usize + bytes.len()];
        object.copy_from_slice(bytes);
        for link in objects.links(id) {
            let [field, width, _, _] = *link;
            fill(
                &mut object[field as usize..],
                width,
                offset(placing, id, link),
            );
        }
    }
}

/// The offset, which fits, as so many bytes, the high one first.
fn fill(field: &mut [u8], width: u32, offset: u64) {
    let bytes = (offset as u32).to_be_bytes();
    match width {
        2 => field[..2].copy_from_slice(&bytes[2..]),
        3 => field[..3].copy_from_slice(&bytes[1..]),
        _ => field[..4].copy_from_slice(&bytes),
    }
}
