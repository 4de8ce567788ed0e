//! The call that reads a table into a session.

use super::walk::{Refusal, Walk};
use super::Scope;
use crate::answer::{Answer, DONE, OUT_OF_RANGE};
use crate::call::{Call, Stores};
use crate::history::History;

/// What a read tells. Values that it does not have are 0.
#[derive(Clone, Copy, Debug, Default, PartialEq, Eq)]
pub struct GsubRead {
    pub number: u64,
    /// Held bytes.
    pub bytes: u64,
    /// Held links.
    pub links: u64,
    /// Closed pieces.
    pub objects: u64,
    /// Open pieces.
    pub depth: u64,
    /// The id of the whole table's piece.
    pub id: u64,
    /// Beside 15, where in the slice the field is.
    pub place: u64,
}

impl GsubRead {
    fn accepted(id: u32, tally: Answer) -> GsubRead {
        GsubRead {
            number: tally.number,
            bytes: tally.bytes,
            links: tally.links,
            objects: tally.objects,
            depth: tally.depth,
            id: id.into(),
            place: 0,
        }
    }

    fn refused(number: u64, place: u64) -> GsubRead {
        GsubRead {
            number,
            place,
            ..GsubRead::default()
        }
    }
}

/// Starts a session in these stores and reads a table of single substitutions
/// into it.
pub fn read_gsub(stores: &mut Stores, pieces: u32, links: u32, table: &[u8]) -> GsubRead {
    Scope::Single.read_last(stores, (pieces, links), table, 0)
}

/// The same of any table.
pub fn read_gsub_whole(stores: &mut Stores, pieces: u32, links: u32, table: &[u8]) -> GsubRead {
    Scope::Whole.read_last(stores, (pieces, links), table, 0)
}

impl Scope {
    /// A read with the last lookups promoted, so many of them.
    pub fn read_last(
        self,
        stores: &mut Stores,
        limits: (u32, u32),
        table: &[u8],
        promoted: u16,
    ) -> GsubRead {
        // From its start on the session is sound, and is looked at once it is read.
        let told = self.read_calls(limits, table, promoted, &mut |call| stores.run_sound(call));
        assert!(told.number == OUT_OF_RANGE || stores.is_sound());
        told
    }

    /// The read of a session by its calls. A refused one leaves what a start does.
    pub fn read_calls(
        self,
        (pieces, links): (u32, u32),
        table: &[u8],
        promoted: u16,
        run: &mut dyn FnMut(&Call) -> Answer,
    ) -> GsubRead {
        let start = Call::Start { pieces, links };
        let started = run(&start);
        if started.number != DONE {
            return GsubRead::refused(started.number, 0);
        }
        let walk = Walk {
            scope: self,
            slice: table,
            promoted,
            run,
        };
        match walk.whole() {
            Ok(id) => GsubRead::accepted(id, run(&Call::Tally)),
            Err(Refusal { number, place }) => {
                run(&start);
                GsubRead::refused(number, place)
            }
        }
    }
}

impl History {
    /// Feeds a read that lends stores of these lengths.
    pub fn read_gsub(
        &mut self,
        limits: (u32, u32),
        lengths: (usize, usize),
        table: &[u8],
    ) -> GsubRead {
        self.read_last(limits, lengths, table, 0)
    }

    /// The same with the last lookups promoted, so many of them.
    pub fn read_last(
        &mut self,
        limits: (u32, u32),
        lengths: (usize, usize),
        table: &[u8],
        promoted: u16,
    ) -> GsubRead {
        self.read_scope(Scope::Single, limits, lengths, table, promoted)
    }

    /// The same of any scope.
    pub fn read_scope(
        &mut self,
        scope: Scope,
        limits: (u32, u32),
        (store, records): (usize, usize),
        table: &[u8],
        promoted: u16,
    ) -> GsubRead {
        scope.read_calls(limits, table, promoted, &mut |call| {
            let told = self.feed(call, store, records);
            told.expect("a read makes no pack")
        })
    }
}
