//! A session that keeps its two stores borrowed.

use crate::{calls, Answer, Batched, GsubPromoted, GsubRead};

/// A refused call: its number, and what stands beside it.
#[derive(Clone, Copy, Debug, PartialEq, Eq)]
pub struct Refused(pub Answer);

/// A refused read: its number, and what stands beside it.
#[derive(Clone, Copy, Debug, PartialEq, Eq)]
pub struct NotRead(pub GsubRead);

/// A refused promotion: its number, and what stands beside it, which is the place
/// of a field that cannot be read, or the link that does not fit.
#[derive(Clone, Copy, Debug, PartialEq, Eq)]
pub struct NotPromoted(pub GsubPromoted);

/// A table, at the front of the output, how many copies were made for it, and
/// how many objects it has, the copies among them.
#[derive(Clone, Copy, Debug, PartialEq, Eq)]
pub struct Packed<'o> {
    pub table: &'o [u8],
    pub copies: u32,
    pub placed: u32,
}

/// A table, at the front of the output, how many of its last lookups are promoted,
/// and the root's id.
#[derive(Clone, Copy, Debug, PartialEq, Eq)]
pub struct Promoted<'o> {
    pub table: &'o [u8],
    pub promoted: u32,
    pub root: u32,
}

/// A batch that ended before its last word: the number and what stands beside it,
/// how many of its calls stand among that, and the ids that its closes told.
#[derive(Clone, Copy, Debug, PartialEq, Eq)]
pub struct Unfinished<'i> {
    pub told: Batched,
    pub ids: &'i [u32],
}

fn told(answer: Answer) -> Result<Answer, Refused> {
    match answer.number {
        0 => Ok(answer),
        _ => Err(Refused(answer)),
    }
}

pub struct Session<'a> {
    store: &'a mut [u8],
    records: &'a mut [u32],
}

impl<'a> Session<'a> {
    /// Begins a session in these stores, whatever they held.
    pub fn start(
        store: &'a mut [u8],
        records: &'a mut [u32],
        piece_limit: u32,
        link_limit: u32,
    ) -> Result<Session<'a>, Refused> {
        told(calls::start(store, records, piece_limit, link_limit))?;
        Ok(Session { store, records })
    }

    /// Begins a session that holds a GSUB table of single substitutions, and gives
    /// the root's id.
    pub fn read_gsub(
        store: &'a mut [u8],
        records: &'a mut [u32],
        piece_limit: u32,
        link_limit: u32,
        table: &[u8],
    ) -> Result<(Session<'a>, u32), NotRead> {
        let told = calls::read_gsub(store, records, piece_limit, link_limit, table);
        Session { store, records }.read(told)
    }

    /// The same of a GSUB table of any lookups.
    pub fn read_gsub_whole(
        store: &'a mut [u8],
        records: &'a mut [u32],
        piece_limit: u32,
        link_limit: u32,
        table: &[u8],
    ) -> Result<(Session<'a>, u32), NotRead> {
        let told = calls::read_gsub_whole(store, records, piece_limit, link_limit, table);
        Session { store, records }.read(told)
    }

    fn read(self, told: GsubRead) -> Result<(Session<'a>, u32), NotRead> {
        match told.number {
            // An id is below 16,384.
            0 => Ok((self, told.id as u32)),
            _ => Err(NotRead(told)),
        }
    }

    /// Begins a session that holds a GSUB table of single substitutions, and packs
    /// it, with as few of its last lookups promoted as an order fits.
    pub fn promote_gsub<'o>(
        store: &'a mut [u8],
        records: &'a mut [u32],
        (piece_limit, link_limit): (u32, u32),
        table: &[u8],
        out: &'o mut [u8],
        work: &mut [u64],
    ) -> Result<(Session<'a>, Promoted<'o>), NotPromoted> {
        let (p, l) = (piece_limit, link_limit);
        let told = calls::promote_gsub(store, records, p, l, table, out, work);
        Session { store, records }.promoted(told, out)
    }

    /// The same of a GSUB table of any lookups.
    pub fn promote_gsub_whole<'o>(
        store: &'a mut [u8],
        records: &'a mut [u32],
        (piece_limit, link_limit): (u32, u32),
        table: &[u8],
        out: &'o mut [u8],
        work: &mut [u64],
    ) -> Result<(Session<'a>, Promoted<'o>), NotPromoted> {
        let (p, l) = (piece_limit, link_limit);
        let told = calls::promote_gsub_whole(store, records, p, l, table, out, work);
        Session { store, records }.promoted(told, out)
    }

    fn promoted<'o>(
        self,
        told: GsubPromoted,
        out: &'o [u8],
    ) -> Result<(Session<'a>, Promoted<'o>), NotPromoted> {
        if told.number != 0 {
            return Err(NotPromoted(told));
        }
        let promoted = Promoted {
            table: &out[..told.length as usize],
            // No more than 65,535.
            promoted: told.promoted as u32,
            // An id is below 16,384.
            root: told.id as u32,
        };
        Ok((self, promoted))
    }

    pub fn open(&mut self) -> Result<Answer, Refused> {
        told(calls::open(self.store, self.records))
    }

    pub fn put(&mut self, bytes: &[u8]) -> Result<Answer, Refused> {
        told(calls::put(self.store, self.records, bytes))
    }

    /// A field whose offset counts from this many bytes behind the object's
    /// first one.
    pub fn link(&mut self, width: u32, id: u32, inner: u32) -> Result<Answer, Refused> {
        told(calls::link(self.store, self.records, width, id, inner))
    }

    /// The closed object's id.
    pub fn close(&mut self) -> Result<u32, Refused> {
        // An id is below 16,384.
        told(calls::close(self.store, self.records)).map(|answer| answer.id as u32)
    }

    pub fn drop_object(&mut self) -> Result<Answer, Refused> {
        told(calls::drop(self.store, self.records))
    }

    /// Carries out many calls, given as words, and gives the ids that the closes
    /// told, which are the front of `ids`. Calls before one that is refused stand.
    pub fn batch<'i>(
        &mut self,
        calls: &[u32],
        bytes: &[u8],
        ids: &'i mut [u32],
        work: &mut [u64],
    ) -> Result<&'i [u32], Unfinished<'i>> {
        let told = calls::batch(self.store, self.records, calls, bytes, ids, work);
        let ids = &ids[..told.ids as usize];
        match told.number {
            0 => Ok(ids),
            _ => Err(Unfinished { told, ids }),
        }
    }

    pub fn tally(&self) -> Result<Answer, Refused> {
        told(calls::tally(self.store, self.records))
    }

    /// Packs a closed object. Where a field cannot reach a shared object, that
    /// field may get a copy of it, as long as no more than `copies` are made.
    pub fn pack<'o>(
        &self,
        id: u32,
        copies: u32,
        out: &'o mut [u8],
        work: &mut [u64],
    ) -> Result<Packed<'o>, Refused> {
        let answer = calls::pack(self.store, self.records, id, copies, out, work);
        let answer = told(answer)?;
        Ok(Packed {
            table: &out[..answer.length as usize],
            // No more than 1,024.
            copies: answer.copies as u32,
            // No more than 16,384 and the copies.
            placed: answer.placed as u32,
        })
    }
}
