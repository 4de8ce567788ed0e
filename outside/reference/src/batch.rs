//! Many calls in one, given as words.

use crate::answer::{Answer, DONE, NOT_SOUND, NO_CALL, OUT_OF_RANGE};
use crate::call::{Call, Stores};
use crate::history::History;
use crate::limits;
use crate::view::PIECE_LIMIT;

/// What a batch tells.
#[derive(Clone, Copy, Debug, Default, PartialEq, Eq)]
pub struct Batched {
    pub number: u64,
    /// Held bytes.
    pub bytes: u64,
    /// Held links.
    pub links: u64,
    /// Closed pieces.
    pub objects: u64,
    /// Open pieces.
    pub depth: u64,
    /// Calls that were carried out.
    pub calls: u64,
    /// Ids that were written.
    pub ids: u64,
}

/// Carries out the calls on the session of these stores, up to the first that is
/// refused or is none.
pub fn batch(
    stores: &mut Stores,
    calls: &[u32],
    bytes: &[u8],
    ids: &mut [u32],
    work: &mut [u64],
) -> Batched {
    if stores.run(&Call::Tally).answer.number == NOT_SOUND {
        return refused(NOT_SOUND);
    }
    let need = limits::batch_need(stores.records[PIECE_LIMIT].into()) as usize;
    let Some(needed) = work.get_mut(..need) else {
        return refused(OUT_OF_RANGE);
    };
    needed.fill(0);
    let words = Words { calls, bytes };
    batch_by(words, ids, &mut |call| stores.run(call).answer)
}

/// A number with nothing beside it.
fn refused(number: u64) -> Batched {
    Batched {
        number,
        ..Batched::default()
    }
}

/// The batch of a session by its calls.
fn batch_by(mut words: Words, ids: &mut [u32], run: &mut dyn FnMut(&Call) -> Answer) -> Batched {
    let (mut carried_out, mut told) = (0, 0);
    let mut number = DONE;
    while number == DONE && !words.calls.is_empty() {
        let Some(call) = words.next(&ids[..told], ids.len()) else {
            number = NO_CALL;
            break;
        };
        let answer = run(&call);
        number = answer.number;
        if number == DONE {
            carried_out += 1;
            if call == Call::Close {
                ids[told] = answer.id as u32;
                told += 1;
            }
        }
    }
    let tally = run(&Call::Tally);
    Batched {
        number,
        bytes: tally.bytes,
        links: tally.links,
        objects: tally.objects,
        depth: tally.depth,
        calls: carried_out,
        ids: told as u64,
    }
}

/// The words and the bytes that are left.
struct Words<'a> {
    calls: &'a [u32],
    bytes: &'a [u8],
}

impl Words<'_> {
    /// The next call, if the words are one. These ids are told, and there is room
    /// for so many.
    fn next(&mut self, ids: &[u32], room: usize) -> Option<Call> {
        match self.word()? {
            1 => Some(Call::Open),
            2 => self.put(),
            3 => {
                let [width, id, inner] = self.three()?;
                Some(Call::Link { width, id, inner })
            }
            4 => {
                let [width, close, inner] = self.three()?;
                let id = *ids.get(close as usize)?;
                Some(Call::Link { width, id, inner })
            }
            5 => (ids.len() < room).then_some(Call::Close),
            6 => Some(Call::Drop),
            _ => None,
        }
    }

    fn word(&mut self) -> Option<u32> {
        let (&word, rest) = self.calls.split_first()?;
        self.calls = rest;
        Some(word)
    }

    fn three(&mut self) -> Option<[u32; 3]> {
        Some([self.word()?, self.word()?, self.word()?])
    }

    fn put(&mut self) -> Option<Call> {
        let length = self.word()? as usize;
        let (bytes, rest) = self.bytes.split_at_checked(length)?;
        self.bytes = rest;
        Some(Call::Put(bytes.to_vec()))
    }
}

impl History {
    /// Feeds a batch that lends so many words of work memory.
    pub fn batch(&mut self, calls: &[u32], bytes: &[u8], ids: &mut [u32], work: usize) -> Batched {
        if work < self.batch_need() {
            return refused(OUT_OF_RANGE);
        }
        batch_by(Words { calls, bytes }, ids, &mut |call| {
            // None of these calls goes by the lengths of the stores.
            let told = self.feed(call, 0, 0);
            told.expect("a batch makes no pack")
        })
    }
}
