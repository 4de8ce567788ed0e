//! Words that are no call, and damage to those that are.

use crate::batches::Batch;
use reference::random::Numbers;

/// Why the next words are no call, in the order of the rules.
#[derive(Clone, Copy, Debug, PartialEq, Eq)]
pub enum Kind {
    AnotherWord,
    CutShort,
    FewBytes,
    NoClose,
    NoRoom,
}

pub const KINDS: [Kind; 5] = [
    Kind::AnotherWord,
    Kind::CutShort,
    Kind::FewBytes,
    Kind::NoClose,
    Kind::NoRoom,
];

impl Kind {
    /// Adds such words to a batch of which so many closes are carried out. Behind
    /// a close for which there is no room, or words that are cut short, the caller
    /// adds no room and no words.
    pub fn add(self, batch: &mut Batch, closes: u32, numbers: &mut Numbers) {
        let width = numbers.one_of(&[2, 3, 4, 5]);
        match self {
            Kind::AnotherWord => batch.calls.push(another(numbers)),
            Kind::CutShort => {
                let (first, words) = numbers.one_of(&[(2, 2), (3, 4), (4, 4)]);
                let length = 1 + numbers.below(words - 1);
                batch.calls.extend(&[first, width, 0, 0][..length]);
            }
            Kind::FewBytes => {
                let left = numbers.below(4) as u32;
                batch.bytes.resize(batch.bytes.len() + left as usize, 7);
                let more = numbers.one_of(&[1, 1, 2, 256, 65_536, u32::MAX - left]);
                batch.calls.extend([2, left + more]);
            }
            Kind::NoClose => {
                let past = numbers.one_of(&[0, 0, 1, 2, 65_536, u32::MAX - closes]);
                batch.calls.extend([4, width, closes + past, 0]);
            }
            Kind::NoRoom => batch.calls.push(5),
        }
    }
}

/// A word that no call begins with.
fn another(numbers: &mut Numbers) -> u32 {
    match numbers.below(6) {
        0..=1 => 0,
        2 => 7,
        3 => u32::MAX,
        4 => 1 + numbers.below(6) as u32 + numbers.one_of(&[1 << 8, 1 << 16, 1 << 24, 1 << 31]),
        _ => 7 + numbers.below(1_000) as u32,
    }
}

/// Changes, loses, doubles or exchanges words, or loses bytes.
pub fn damage(batch: &mut Batch, numbers: &mut Numbers) {
    let Batch { calls, bytes, .. } = batch;
    if calls.is_empty() {
        return;
    }
    let (at, other) = (numbers.below(calls.len()), numbers.below(calls.len()));
    match numbers.below(9) {
        0 => calls[at] = numbers.next() as u32,
        1 => calls[at] = calls[at].wrapping_add(1),
        2 => calls[at] = calls[at].wrapping_sub(1),
        3 => calls[at] = numbers.below(8) as u32,
        4 => drop(calls.remove(at)),
        5 => calls.insert(at, calls[other]),
        6 => calls.swap(at, other),
        7 => calls.truncate(at),
        _ => bytes.truncate(numbers.below(bytes.len() + 1)),
    }
}
