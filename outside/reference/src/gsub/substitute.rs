//! What a lookup does to a glyph, in a table that a read accepts.

use super::{long_number, number, EXTENSION, SINGLE};

/// The header's fields, and those of the tables below, by their places.
const LOOKUP_LIST: usize = 8;
const FIRST_LOOKUP: usize = 2;
const SUBTABLE_COUNT: usize = 4;
const FIRST_SUBTABLE: usize = 6;
const EXTENDED_TYPE: usize = 2;
const EXTENDED: usize = 4;
const COVERAGE: usize = 2;
const DELTA: usize = 4;
const SUBSTITUTE_COUNT: usize = 4;
const FIRST_SUBSTITUTE: usize = 6;
const COVERED_COUNT: usize = 2;
const FIRST_COVERED: usize = 4;
const RANGE: usize = 6;

/// How many lookups the table's list has.
pub fn lookup_count(slice: &[u8]) -> u16 {
    field(slice, led(slice, 0, LOOKUP_LIST))
}

/// What the glyph becomes by the lookup of this number: itself, where there is no
/// such lookup or none of its subtables covers it.
pub fn substitute(slice: &[u8], lookup: u16, glyph: u16) -> u16 {
    if lookup >= lookup_count(slice) {
        return glyph;
    }
    let list = led(slice, 0, LOOKUP_LIST);
    let lookup = led(slice, list, FIRST_LOOKUP + 2 * usize::from(lookup));
    let count = usize::from(field(slice, lookup + SUBTABLE_COUNT));
    // The first subtable that covers the glyph counts, whatever it does to it. Those
    // of other types are passed over.
    for subtable in (0..count).filter_map(|at| single(slice, lookup, at)) {
        if let Some(index) = covered(slice, led(slice, subtable, COVERAGE), glyph) {
            return replaced(slice, subtable, index, glyph);
        }
    }
    glyph
}

/// A lookup's subtable of this number, if that is of type 1: of a lookup of type 7,
/// what its Extension leads to.
fn single(slice: &[u8], lookup: usize, at: usize) -> Option<usize> {
    let subtable = led(slice, lookup, FIRST_SUBTABLE + 2 * at);
    match field(slice, lookup) {
        SINGLE => Some(subtable),
        EXTENSION if field(slice, subtable + EXTENDED_TYPE) == SINGLE => {
            let offset = long_number(slice, subtable + EXTENDED);
            Some(subtable + offset.expect("a read accepts the table") as usize)
        }
        _ => None,
    }
}

/// By a subtable that has the glyph at this index of its coverage.
fn replaced(slice: &[u8], subtable: usize, index: usize, glyph: u16) -> u16 {
    if field(slice, subtable) == 1 {
        return glyph.wrapping_add(field(slice, subtable + DELTA));
    }
    let count = usize::from(field(slice, subtable + SUBSTITUTE_COUNT));
    if index >= count {
        return glyph;
    }
    field(slice, subtable + FIRST_SUBSTITUTE + 2 * index)
}

/// The glyph's index, by the first entry or range that has it.
fn covered(slice: &[u8], coverage: usize, glyph: u16) -> Option<usize> {
    let count = usize::from(field(slice, coverage + COVERED_COUNT));
    let first = coverage + FIRST_COVERED;
    if field(slice, coverage) == 1 {
        return (0..count).find(|at| field(slice, first + 2 * at) == glyph);
    }
    (0..count).find_map(|at| {
        let range = first + RANGE * at;
        let [start, end, index] = [0, 2, 4].map(|place| field(slice, range + place));
        let inside = (start..=end).contains(&glyph);
        inside.then(|| usize::from(index) + usize::from(glyph - start))
    })
}

/// Where the offset in this field of the table at `begin` leads.
fn led(slice: &[u8], begin: usize, place: usize) -> usize {
    begin + usize::from(field(slice, begin + place))
}

fn field(slice: &[u8], place: usize) -> u16 {
    number(slice, place).expect("a read accepts the table")
}
