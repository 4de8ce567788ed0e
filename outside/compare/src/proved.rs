//! The proved packer's memory and calls.

use crate::fenced::Fenced;
use bindings::calls;
use reference::batch::Batched;
use reference::call::{Call, Stores};
use reference::gsub::{GsubPromoted, GsubRead, Scope};
use reference::Answer;

pub struct Proved {
    pub bytes: Fenced<u8>,
    pub records: Fenced<u32>,
}

impl Proved {
    pub fn new(stores: &Stores) -> Proved {
        Proved {
            bytes: Fenced::new(&stores.bytes, 0x5f),
            records: Fenced::new(&stores.records, 0x5f5f_5f5f),
        }
    }

    /// Runs a call; a pack lends these.
    pub fn run(&mut self, call: &Call, output: &mut [u8], work: &mut [u64]) -> Answer {
        let (bytes, records) = (self.bytes.inside_mut(), self.records.inside_mut());
        told(match call {
            Call::Start { pieces, links } => calls::start(bytes, records, *pieces, *links),
            Call::Open => calls::open(bytes, records),
            Call::Put(added) => calls::put(bytes, records, added),
            Call::Link { width, id, inner } => calls::link(bytes, records, *width, *id, *inner),
            Call::Close => calls::close(bytes, records),
            Call::Drop => calls::drop(bytes, records),
            Call::Tally => calls::tally(bytes, records),
            Call::Pack { id, copies, .. } => {
                calls::pack(bytes, records, *id, *copies, output, work)
            }
        })
    }

    pub fn read_gsub(
        &mut self,
        scope: Scope,
        (pieces, links): (u32, u32),
        table: &[u8],
    ) -> GsubRead {
        let (bytes, records) = (self.bytes.inside_mut(), self.records.inside_mut());
        let read = match scope {
            Scope::Single => calls::read_gsub,
            Scope::Whole => calls::read_gsub_whole,
        };
        let told = read(bytes, records, pieces, links, table);
        GsubRead {
            number: told.number,
            bytes: told.bytes,
            links: told.links,
            objects: told.objects,
            depth: told.depth,
            id: told.id,
            place: told.place,
        }
    }

    pub fn promote_gsub(
        &mut self,
        scope: Scope,
        (pieces, links): (u32, u32),
        table: &[u8],
        output: &mut [u8],
        work: &mut [u64],
    ) -> GsubPromoted {
        let (bytes, records) = (self.bytes.inside_mut(), self.records.inside_mut());
        let promote = match scope {
            Scope::Single => calls::promote_gsub,
            Scope::Whole => calls::promote_gsub_whole,
        };
        let told = promote(bytes, records, pieces, links, table, output, work);
        GsubPromoted {
            number: told.number,
            bytes: told.bytes,
            links: told.links,
            objects: told.objects,
            depth: told.depth,
            id: told.id,
            length: told.length,
            parent: told.parent,
            field: told.field,
            needed: told.needed,
            place: told.place,
            promoted: told.promoted,
        }
    }

    pub fn batch(
        &mut self,
        words: &[u32],
        added: &[u8],
        ids: &mut [u32],
        work: &mut [u64],
    ) -> Batched {
        let (bytes, records) = (self.bytes.inside_mut(), self.records.inside_mut());
        let told = calls::batch(bytes, records, words, added, ids, work);
        Batched {
            number: told.number,
            bytes: told.bytes,
            links: told.links,
            objects: told.objects,
            depth: told.depth,
            calls: told.calls,
            ids: told.ids,
        }
    }

    pub fn fences_stand(&self) -> bool {
        self.bytes.stands() && self.records.stands()
    }

    /// The same memory as the reference's.
    pub fn same(&self, stores: &Stores) -> bool {
        self.bytes.inside() == &stores.bytes[..] && self.records.inside() == &stores.records[..]
    }
}

fn told(answer: bindings::Answer) -> Answer {
    Answer {
        number: answer.number,
        bytes: answer.bytes,
        links: answer.links,
        objects: answer.objects,
        depth: answer.depth,
        id: answer.id,
        length: answer.length,
        parent: answer.parent,
        field: answer.field,
        needed: answer.needed,
        copies: answer.copies,
        placed: answer.placed,
    }
}
