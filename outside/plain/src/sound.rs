//! The soundness test: what two stores that hold a session are.

use crate::session::{capacity, Link, Objects, Session};
use std::ops::RangeInclusive;

const OBJECT_LIMITS: RangeInclusive<usize> = 1..=16_384;
const LINK_LIMITS: RangeInclusive<usize> = 0..=65_536;
const STORE_LENGTHS: RangeInclusive<usize> = 1..=16_777_216;
const DEEPEST: usize = 64;
const NARROWEST: u32 = 2;
const WIDEST: u32 = 4;

const OBJECT_LIMIT: usize = 0;
const CLOSED: usize = 1;
const OPEN: usize = 2;
const ENDS: usize = 3;
const LINK_ENDS: usize = ENDS + DEEPEST + 1;
const BEGINS: usize = LINK_ENDS + DEEPEST + 1;

/// Bytes that are tested for zero together.
const RUN: usize = 64;

/// The session, if the stores are sound.
pub fn read<'a>(store: &'a [u8], records: &'a [u32]) -> Option<Session<'a>> {
    let limit = *records.get(OBJECT_LIMIT)? as usize;
    let closed = *records.get(CLOSED)? as usize;
    let open = *records.get(OPEN)? as usize;
    let in_range = OBJECT_LIMITS.contains(&limit) && STORE_LENGTHS.contains(&store.len());
    if !in_range || closed > limit || open > DEEPEST {
        return None;
    }
    let ends = records.get(ENDS..=ENDS + open)?;
    let link_ends = records.get(LINK_ENDS..=LINK_ENDS + open)?;
    let begins = records.get(BEGINS..=BEGINS + closed)?;
    let link_begins_at = BEGINS + limit + 1;
    let link_begins = records.get(link_begins_at..=link_begins_at + closed)?;
    let link_limit = link_begins[0] as usize;
    if !LINK_LIMITS.contains(&link_limit) {
        return None;
    }
    let (links, _) = records.get(link_begins_at + limit + 1..)?.as_chunks();
    let session = Session {
        store,
        begins,
        link_begins,
        links: links.get(..link_limit)?,
        open_objects: open,
    };
    is_sound(&session, ends, link_ends).then_some(session)
}

fn is_sound(session: &Session, ends: &[u32], link_ends: &[u32]) -> bool {
    let Session {
        store,
        begins,
        link_begins,
        ..
    } = *session;
    let (top, low) = (ends[ends.len() - 1], begins[begins.len() - 1]);
    let (top_link, low_link) = (
        link_ends[link_ends.len() - 1],
        link_begins[link_begins.len() - 1],
    );
    begins[0] as usize == store.len()
        && begins.is_sorted_by(|end, begin| begin < end)
        && link_begins.is_sorted_by(|end, begin| begin <= end)
        && (ends[0], link_ends[0]) == (0, 0)
        && ends.is_sorted()
        && link_ends.is_sorted()
        && top <= low
        && top_link <= low_link
        && is_zero(&store[top as usize..low as usize])
        && open_fields_sound(session, ends, link_ends)
        && closed_fields_sound(session)
}

fn is_zero(bytes: &[u8]) -> bool {
    let (runs, rest) = bytes.as_chunks::<RUN>();
    let zero = |bytes: &[u8]| bytes.iter().fold(0, |all, byte| all | byte) == 0;
    runs.iter().all(|run| zero(run)) && zero(rest)
}

fn open_fields_sound(session: &Session, ends: &[u32], link_ends: &[u32]) -> bool {
    ends.windows(2)
        .zip(link_ends.windows(2))
        .all(|(ends, links)| {
            let bytes = &session.store[ends[0] as usize..ends[1] as usize];
            let links = &session.links[links[0] as usize..links[1] as usize];
            fields_sound(bytes, links, session.closed() as u32)
        })
}

fn closed_fields_sound(session: &Session) -> bool {
    (0..session.closed() as u32).all(|id| {
        let (bytes, links) = (session.bytes(id), session.links(id));
        fields_sound(bytes, links, id) && !hopeless(bytes.len() as u32, links)
    })
}

/// Fields that rise, are apart, inside the object, of width 2, 3 or 4 and of zero
/// bytes, with inner starts not past them and children below a bound.
fn fields_sound(bytes: &[u8], links: &[Link], bound: u32) -> bool {
    let mut free_from = 0;
    links.iter().all(|&[place, width, inner, child]| {
        let begin = place as usize;
        let after = begin >= free_from;
        free_from = begin + width as usize;
        after
            && (NARROWEST..=WIDEST).contains(&width)
            && inner <= place
            && child < bound
            && bytes.get(begin..free_from).is_some_and(field_zero)
    })
}

/// A field has two to four bytes: its first two and its last two are all of it, and
/// no branch goes by its width.
fn field_zero(field: &[u8]) -> bool {
    let last = field.len() - 2;
    field[0] | field[1] | field[last] | field[last + 1] == 0
}

/// Whether some field can be filled in no order. Few objects are long enough.
fn hopeless(size: u32, links: &[Link]) -> bool {
    let over = |&[_, width, inner, _]: &Link| u64::from(size - inner) >= capacity(width);
    u64::from(size) >= capacity(NARROWEST) && links.iter().any(over)
}
