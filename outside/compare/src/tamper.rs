//! Damage to the two stores, by words, by bits and by length.

use reference::call::Stores;
use reference::random::{any_inner, Numbers};
use reference::view::View;

pub fn damage(stores: &mut Stores, numbers: &mut Numbers) {
    if stores.bytes.is_empty() || stores.records.len() < 3 {
        return;
    }
    match numbers.below(12) {
        0 => lengths(stores, numbers),
        1..=3 => a_byte(stores, numbers),
        4..=5 => a_header_word(stores, numbers),
        6..=7 => a_bit(stores, numbers),
        8 => exchanged(stores, numbers),
        _ => a_word(stores, numbers),
    }
}

/// Mostly near what stood there, so that some damage is hard to see.
fn near(word: u32, numbers: &mut Numbers) -> u32 {
    match numbers.below(6) {
        0 => numbers.next() as u32,
        1 => numbers.below(8) as u32,
        2 => u32::MAX - numbers.below(3) as u32,
        3 => word.wrapping_add(1),
        4 => word.wrapping_sub(1),
        _ => word.wrapping_add(numbers.below(9) as u32).wrapping_sub(4),
    }
}

fn a_word(stores: &mut Stores, numbers: &mut Numbers) {
    let at = numbers.below(stores.records.len());
    stores.records[at] = near(stores.records[at], numbers);
}

/// Limits, counts and the first entries of the tables.
fn a_header_word(stores: &mut Stores, numbers: &mut Numbers) {
    let limit = stores.records[0] as usize;
    let at = match numbers.below(8) {
        0 => 133,
        1 => 134 + limit,
        2 => 3 + stores.records[2] as usize,
        3 => 133 + stores.records[1] as usize,
        4 => 134 + limit + stores.records[1] as usize,
        at => at - 5,
    };
    let at = at.min(stores.records.len() - 1);
    stores.records[at] = near(stores.records[at], numbers);
}

/// The inner start of one held link of a sound session, if there is any, set to
/// one that it may have or not. Gives whether it may.
pub fn an_inner_start(stores: &mut Stores, numbers: &mut Numbers) -> Option<bool> {
    let view = View::framed(&stores.bytes, &stores.records)?;
    let open = view.open_link_end(view.depth());
    let closed = view.closed_link_begin(view.closed())..view.layout.links;
    // Those of open pieces are few, so they are as often chosen.
    let record = match (open, closed.len()) {
        (0, 0) => return None,
        (0, held) => closed.start + numbers.below(held),
        (_, held) if held > 0 && numbers.below(2) == 0 => closed.start + numbers.below(held),
        _ => numbers.below(open),
    };
    let place = view.field(record).place;
    let word = view.layout.link(record) + 2;
    let inner = match numbers.below(3) {
        0 => place + 1,
        _ => any_inner(place as usize, numbers),
    };
    stores.records[word] = inner;
    Some(inner <= place)
}

/// A word of a closed piece with links, if there is one, set near what it was:
/// an inner start, a width, or where the piece begins.
pub fn a_closed_piece(stores: &mut Stores, numbers: &mut Numbers) {
    let Some(view) = View::framed(&stores.bytes, &stores.records) else {
        return;
    };
    let has_links = |id: &usize| !view.closed_piece(*id).links.is_empty();
    let parents: Vec<usize> = (0..view.closed()).filter(has_links).collect();
    if parents.is_empty() {
        return;
    }
    let id = numbers.one_of(&parents);
    let links = view.closed_piece(id).links;
    let record = view.layout.link(links.start + numbers.below(links.len()));
    let at = match numbers.below(4) {
        0 => view.layout.closed_begin(id + 1),
        1 => record + 1,
        _ => record + 2,
    };
    let lower = stores.records[at].saturating_sub(1 + numbers.below(3) as u32);
    stores.records[at] = match numbers.below(4) {
        0 => near(stores.records[at], numbers),
        1 if at == record + 2 => any_inner(stores.records[record] as usize, numbers),
        _ => lower,
    };
}

fn a_byte(stores: &mut Stores, numbers: &mut Numbers) {
    let at = numbers.below(stores.bytes.len());
    stores.bytes[at] = numbers.next() as u8;
}

fn a_bit(stores: &mut Stores, numbers: &mut Numbers) {
    if numbers.below(2) == 0 {
        let at = numbers.below(stores.bytes.len());
        stores.bytes[at] ^= 1 << numbers.below(8);
    } else {
        let at = numbers.below(stores.records.len());
        stores.records[at] ^= 1 << numbers.below(32);
    }
}

fn exchanged(stores: &mut Stores, numbers: &mut Numbers) {
    let at = numbers.below(stores.records.len() - 1);
    stores.records.swap(at, at + 1);
}

/// A store lent shorter or longer than before.
fn lengths(stores: &mut Stores, numbers: &mut Numbers) {
    let (n, r) = (stores.bytes.len(), stores.records.len());
    match numbers.below(6) {
        0 => stores.bytes.truncate(numbers.below(n)),
        1 => stores.bytes.truncate(n - 1),
        2 => stores.bytes.push(0),
        3 => stores.records.truncate(numbers.below(r)),
        4 => stores.records.truncate(r - 1),
        _ => stores.records.push(numbers.next() as u32),
    }
}
