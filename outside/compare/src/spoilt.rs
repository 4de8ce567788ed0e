//! Damaged tables.

use crate::Numbers;
use reference::gsub::reading::FieldAt;

/// Numbers that fields are set to.
const SET_TO: [u16; 3] = [0, 1, 0xffff];

/// The table cut at every byte.
pub fn cut(table: &[u8]) -> impl Iterator<Item = Vec<u8>> + '_ {
    (0..table.len()).map(|length| table[..length].to_vec())
}

/// The table with each number of two bytes set to 0, 1 and 65,535.
pub fn set(table: &[u8]) -> impl Iterator<Item = Vec<u8>> + '_ {
    let fields = (0..table.len() / 2).map(|field| 2 * field);
    fields.flat_map(|at| SET_TO.map(|number| with(table, at, number)))
}

fn with(table: &[u8], at: usize, number: u16) -> Vec<u8> {
    let mut spoilt = table.to_vec();
    spoilt[at..at + 2].copy_from_slice(&number.to_be_bytes());
    spoilt
}

/// Numbers that a field which is judged is set to.
const JUDGED: [usize; 12] = [0, 1, 2, 3, 4, 5, 6, 7, 8, 9, 256, 0xffff];

/// The table with a number in a field that does not belong there: an offset is 0.
pub fn judged(table: &[u8], field: &FieldAt, numbers: &mut Numbers) -> Vec<u8> {
    let part = field.part.expect("a field that is there");
    let bad: Vec<usize> = JUDGED.into_iter().filter(|&n| !part.holds(n)).collect();
    let number = numbers.one_of(&bad).to_be_bytes();
    let (at, width) = (field.place, part.width());
    let mut spoilt = table.to_vec();
    spoilt[at..at + width].copy_from_slice(&number[number.len() - width..]);
    spoilt
}

/// The table with a few bytes changed, often only a little.
pub fn any(table: &[u8], numbers: &mut Numbers) -> Vec<u8> {
    let mut spoilt = table.to_vec();
    for _ in 0..1 + numbers.below(3) {
        let at = numbers.below(spoilt.len());
        match numbers.below(6) {
            0 => spoilt[at] = numbers.next() as u8,
            1 => spoilt[at] ^= 1 << numbers.below(8),
            2 => spoilt[at] = spoilt[at].wrapping_add(1),
            3 => spoilt[at] = spoilt[at].wrapping_sub(1),
            4 if at + 2 < spoilt.len() => spoilt.swap(at, at + 2),
            5 => spoilt.truncate(at.max(1)),
            _ => spoilt.push(0),
        }
    }
    spoilt
}
