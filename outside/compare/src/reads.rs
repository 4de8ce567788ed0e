//! Reads of a table in a room of their own, and once more of its packed table.

use crate::made::Room;
use crate::pair::Pair;
use crate::{Checked, Numbers};
use reference::answer::{DONE, NO_FIT};
use reference::gsub::{lookup_count, substitute, GsubRead, Scope};
use reference::history::History;
use reference::limits;
use reference::reading::same;

/// A room that any table of these tests fits in.
const ROOMY: Room = Room {
    pieces: limits::MOST_PIECES as u32,
    links: limits::MOST_LINKS as u32,
    store: 1 << 20,
};

/// What a read by the history alone tells.
pub fn by_history(scope: Scope, room: Room, table: &[u8]) -> GsubRead {
    let Room {
        pieces,
        links,
        store,
    } = room;
    let lengths = (store, room.layout().need());
    let mut history = History::begin(pieces, links, lengths.0, lengths.1).expect("in range");
    history.read_scope(scope, (pieces, links), lengths, table, 0)
}

/// What a whole table holds when there is room for it.
pub fn held(scope: Scope, table: &[u8]) -> GsubRead {
    by_history(scope, ROOMY, table)
}

/// A room about as large as a table needs that holds this. Tables that are led to
/// again take more while they are read than is held at the end.
pub fn about(held: &GsubRead, numbers: &mut Numbers) -> Room {
    let mut near = |held: u64, more: usize| match numbers.below(8) {
        0 => numbers.below(held as usize + 1) as u64,
        1 => held.saturating_sub(1),
        2 => held,
        _ => held + numbers.below(more) as u64,
    };
    Room {
        pieces: near(held.objects, 3).max(1) as u32,
        links: near(held.links, 6) as u32,
        store: near(held.bytes, 60).max(1) as usize,
    }
}

/// A room that a table which holds this surely fits in: while it is read, no more
/// than all of it is there again. There is room for small damage too.
pub fn roomy(held: &GsubRead) -> Room {
    Room {
        pieces: held.objects as u32 + 20,
        links: 2 * held.links as u32 + 40,
        store: 2 * held.bytes as usize + 400,
    }
}

/// A table read into stores that hold anything.
pub struct Reading<'a> {
    scope: Scope,
    room: Room,
    table: &'a [u8],
    pub checked: Checked,
    pub told: GsubRead,
}

pub fn read<'a>(scope: Scope, room: Room, table: &'a [u8], numbers: &mut Numbers) -> Reading<'a> {
    let records = room.layout().need() + numbers.below(3);
    let mut checked = Checked::unread(room.store, records, numbers);
    let told = checked.read_gsub(scope, room.limits(), table);
    Reading {
        scope,
        room,
        table,
        checked,
        told,
    }
}

impl Reading<'_> {
    /// Packs the root that an accepted read told, and reads the packed table into
    /// the same stores: all is as before. Gives the packed table, if there is an
    /// order that fits.
    pub fn packed(&mut self, numbers: &mut Numbers) -> Option<Vec<u8>> {
        let outcome = self.checked.pack(self.told.id as u32, 0, numbers);
        if outcome.answer.number == NO_FIT {
            return None;
        }
        let length = outcome.answer.length;
        assert_eq!((outcome.answer.number, length), (DONE, self.told.bytes));
        let packed = outcome.output.1[..length as usize].to_vec();
        let before = self.checked.pair.reference.clone();
        let limits = self.room.limits();
        let again = self.checked.read_gsub(self.scope, limits, &packed);
        assert_eq!(again, self.told);
        assert!(self.checked.pair.reference == before, "the same session");
        let readings = [self.table, &packed].map(|table| self.scope.reading(table).expect("read"));
        assert!(same(&readings[0], &readings[1]));
        Some(packed)
    }
}

/// A read whose limits or stores are out of range.
pub fn out_of_range(scope: Scope, table: &[u8], numbers: &mut Numbers) -> GsubRead {
    let (mut pieces, mut links, mut store) = (4, 5, 60);
    let mut records = limits::record_need(pieces.into(), links.into()) as usize;
    match numbers.below(5) {
        0 => pieces = numbers.one_of(&[0, 16_385, u32::MAX]),
        1 => links = numbers.one_of(&[65_537, u32::MAX]),
        2 => store = 0,
        3 => records = numbers.below(records),
        _ => records -= 1,
    }
    Pair::new(store, records, numbers).read_gsub(scope, (pieces, links), table)
}

/// The glyphs that any two bytes of the table name, and their neighbours.
pub fn named(table: &[u8]) -> Vec<u16> {
    let numbers = table
        .chunks_exact(2)
        .map(|n| u16::from_be_bytes([n[0], n[1]]));
    let mut glyphs: Vec<u16> = numbers
        .flat_map(|n| [n.wrapping_sub(1), n, n.wrapping_add(1)])
        .collect();
    glyphs.sort_unstable();
    glyphs.dedup();
    glyphs
}

/// Two tables do the same to these glyphs. Gives how many are changed.
pub fn same_substitutes(one: &[u8], other: &[u8], glyphs: &[u16]) -> usize {
    assert_eq!(lookup_count(one), lookup_count(other));
    let mut changed = 0;
    for lookup in 0..lookup_count(one).saturating_add(1) {
        for &glyph in glyphs {
            let becomes = substitute(one, lookup, glyph);
            assert_eq!(becomes, substitute(other, lookup, glyph));
            changed += usize::from(becomes != glyph);
        }
    }
    changed
}
