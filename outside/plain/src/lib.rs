//! An ordinary packer in Rust, by which the proved library's speed is measured:
//! the same stores and the same tables, with the standard library's queue and
//! heap and memory of its own. [`build`] writes objects, [`frames`] sends and takes
//! in tables.

#![forbid(unsafe_code)]

pub mod build;
mod copies;
pub mod frames;
mod graph;
mod orders;
mod session;
mod sound;
mod spaces;
mod table;

use copies::{Cured, Third};
use orders::Placing;
use session::Session;
use table::Overflow;

/// What a written table has.
#[derive(Clone, Copy, Debug, PartialEq, Eq)]
pub struct Packed {
    pub length: usize,
    /// Copies made.
    pub copies: u32,
    /// Objects in it, the copies among them.
    pub placed: usize,
}

/// Why there is no table.
#[derive(Clone, Copy, Debug, PartialEq, Eq)]
pub enum Refusal {
    NotClosed,
    StillOpen,
    OutputShort,
    NoFit(Overflow),
    NotSound,
    TooManyCopies,
}

impl Refusal {
    /// Its number in docs/RULES.md.
    pub fn number(&self) -> u64 {
        match self {
            Refusal::NotClosed => 4,
            Refusal::StillOpen => 9,
            Refusal::OutputShort => 10,
            Refusal::NoFit(_) => 11,
            Refusal::NotSound => 12,
            Refusal::TooManyCopies => 13,
        }
    }
}

/// Writes the table of a closed object, with up to so many copies, at the front
/// of the output.
pub fn pack(
    store: &[u8],
    records: &[u32],
    root: u32,
    copies: u32,
    out: &mut [u8],
) -> Result<Packed, Refusal> {
    let session = sound::read(store, records).ok_or(Refusal::NotSound)?;
    if copies > copies::MOST {
        return Err(Refusal::TooManyCopies);
    }
    if session.open_objects > 0 {
        return Err(Refusal::StillOpen);
    }
    if root as usize >= session.closed() {
        return Err(Refusal::NotClosed);
    }
    let laid = first_fit(&session, root, copies).map_err(Refusal::NoFit)?;
    let packed = laid.packed();
    let out = out.get_mut(..packed.length).ok_or(Refusal::OutputShort)?;
    match laid {
        Laid::Objects(placing) => table::write(&session, &placing, out),
        Laid::WithCopies(cured) => table::write(&cured.objects, &cured.placing, out),
    }
    Ok(packed)
}

enum Laid<'a> {
    Objects(Placing<u32>),
    WithCopies(Cured<'a>),
}

impl Laid<'_> {
    fn packed(&self) -> Packed {
        match self {
            Laid::Objects(placing) => Packed {
                length: placing.length as usize,
                copies: 0,
                placed: placing.order.len(),
            },
            Laid::WithCopies(cured) => Packed {
                length: cured.placing.length as usize,
                copies: cured.made,
                placed: cured.placing.order.len(),
            },
        }
    }
}

/// The first of the three orders in which every offset fits its field, the third
/// with copies, or the first overflow of the third.
fn first_fit<'a>(session: &'a Session<'a>, root: u32, copies: u32) -> Result<Laid<'a>, Overflow> {
    let incoming = graph::incoming(session, root);
    let count = incoming.len();
    let kahn = orders::kahn(session, root, &incoming);
    if table::overflow(session, &kahn).is_none() {
        return Ok(Laid::Objects(kahn));
    }
    let mut keys = graph::distances(session, count, root, &kahn.order);
    let by_distance = orders::by_keys(session, root, &incoming, &keys);
    if table::overflow(session, &by_distance).is_none() {
        return Ok(Laid::Objects(by_distance));
    }
    spaces::add(session, root, &by_distance.order, &mut keys);
    let by_spaces = orders::by_keys(session, root, &incoming, &keys);
    let Some(unfit) = table::overflow(session, &by_spaces) else {
        return Ok(Laid::Objects(by_spaces));
    };
    if copies == 0 {
        return Err(unfit);
    }
    let distances = graph::distances(session, count, root, &kahn.order);
    let shares = keys
        .iter()
        .zip(distances)
        .map(|(key, distance)| key - distance);
    let third = Third {
        incoming,
        shares: shares.collect(),
        order: by_spaces.order,
        unfit,
    };
    copies::cure(session, root, copies, third).map(Laid::WithCopies)
}
