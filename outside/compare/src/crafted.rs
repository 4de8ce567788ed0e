//! GSUB tables with long subtables, with one table led to often, and with many
//! tables.

use crate::parts::Part;
use crate::Numbers;

/// One lookup with one subtable of so many substitutes, among which its coverage
/// lies. Scripts and features have no entry.
pub fn wide(substitutes: u16, numbers: &mut Numbers) -> Vec<u8> {
    let head = [1, 0, 10, 10, 12, 0, 1, 4, 1, 0, 1, 8, 2, 6, substitutes];
    filled(&head, usize::from(substitutes), numbers)
}

/// The same with a second subtable among the substitutes of the first, of as many
/// less three, and with the same coverage.
pub fn two_wide(substitutes: u16, numbers: &mut Numbers) -> Vec<u8> {
    let head = [1, 0, 10, 10, 12, 0, 1, 4, 1, 0, 2, 10, 16];
    let first = [2, 12, substitutes];
    let second = [2, 6, substitutes - 3];
    let head = [&head[..], &first, &second].concat();
    filled(&head, usize::from(substitutes) - 3, numbers)
}

/// These numbers, and so many more that begin with a coverage of two glyphs.
fn filled(head: &[u16], more: usize, numbers: &mut Numbers) -> Vec<u8> {
    let mut table = bytes(&[head, &[1, 2, 7, 9]].concat());
    let length = 2 * (head.len() + more);
    let byte = numbers.next() as u8;
    table.extend((table.len()..length).map(|at| byte.wrapping_add(at as u8)));
    table
}

/// A list of so many lookups that are all one, with so many subtables that are all
/// one too.
pub fn shared(lookups: u16, subtables: u16) -> Vec<u8> {
    let mut table = bytes(&[1, 0, 10, 10, 12, 0, lookups]);
    let lookup = 2 + 2 * lookups;
    table.extend(bytes(&vec![lookup; lookups.into()]));
    table.extend(bytes(&[1, 0, subtables]));
    let subtable = 6 + 2 * subtables;
    table.extend(bytes(&vec![subtable; subtables.into()]));
    table.extend(bytes(&[1, 6, 5, 1, 1, 30]));
    table
}

/// One lookup with a subtable of type 2 behind an Extension for each of these lists,
/// with a sequence of two glyphs for each of its numbers.
pub fn many(lists: &[Vec<u16>]) -> Vec<u8> {
    let count = lists.len() as u16;
    let mut table = bytes(&[1, 0, 10, 10, 12, 0, 1, 4, 7, 0, count]);
    table.extend(bytes(
        &(0..count)
            .map(|at| 6 + 2 * count + 8 * at)
            .collect::<Vec<_>>(),
    ));
    let subtables: Vec<_> = lists.iter().map(|list| multiple(list)).collect();
    let mut offset = 8 * lists.len();
    for subtable in &subtables {
        table.extend(bytes(&[1, 2, (offset >> 16) as u16, offset as u16]));
        offset += subtable.len() - 8;
    }
    table.extend(subtables.concat());
    table
}

/// A subtable with these sequences, behind a coverage without glyphs.
fn multiple(sequences: &[u16]) -> Vec<u8> {
    let count = sequences.len() as u16;
    let coverage = 6 + 2 * count;
    let mut subtable = bytes(&[1, coverage, count]);
    let places = (0..count).map(|at| coverage + 4 + 6 * at);
    subtable.extend(bytes(&places.collect::<Vec<_>>()));
    subtable.extend(bytes(&[1, 0]));
    for &glyph in sequences {
        subtable.extend(bytes(&[2, 5, glyph]));
    }
    subtable
}

fn bytes(numbers: &[u16]) -> Vec<u8> {
    Part::of(numbers).bytes
}
