//! The call that reads a table and packs it, with as few of its last lookups
//! promoted as an order fits.

use super::{lookup_count, GsubRead, Scope};
use crate::answer::{Answer, DONE, NO_FIT};
use crate::call::{Call, Stores};

/// What a promotion tells. Values that it does not have are 0.
#[derive(Clone, Copy, Debug, Default, PartialEq, Eq)]
pub struct GsubPromoted {
    pub number: u64,
    /// Held bytes.
    pub bytes: u64,
    /// Held links.
    pub links: u64,
    /// Closed pieces.
    pub objects: u64,
    /// Open pieces.
    pub depth: u64,
    /// The id of the whole table's piece.
    pub id: u64,
    /// Length of the packed table.
    pub length: u64,
    /// Beside 11, parent id, field place and offset of the link that does not fit.
    pub parent: u64,
    pub field: u64,
    pub needed: u64,
    /// Beside 15, where in the slice the field is.
    pub place: u64,
    /// How many of the last lookups are promoted.
    pub promoted: u64,
}

impl GsubPromoted {
    fn accepted(read: GsubRead, length: u64, promoted: u16) -> GsubPromoted {
        GsubPromoted {
            number: read.number,
            bytes: read.bytes,
            links: read.links,
            objects: read.objects,
            depth: read.depth,
            id: read.id,
            length,
            promoted: promoted.into(),
            ..GsubPromoted::default()
        }
    }

    fn not_read(read: GsubRead) -> GsubPromoted {
        GsubPromoted {
            number: read.number,
            place: read.place,
            ..GsubPromoted::default()
        }
    }

    fn not_packed(pack: Answer) -> GsubPromoted {
        GsubPromoted {
            number: pack.number,
            parent: pack.parent,
            field: pack.field,
            needed: pack.needed,
            ..GsubPromoted::default()
        }
    }
}

/// Starts a session in these stores for each trial, reads the table of single
/// substitutions into it with none of its lookups promoted, the last one, the last
/// two and so on, and packs it, up to the first trial that is not refused because
/// no order fits.
pub fn promote_gsub(
    stores: &mut Stores,
    limits: (u32, u32),
    table: &[u8],
    out: &mut [u8],
    work: &mut [u64],
) -> GsubPromoted {
    Scope::Single.promote(stores, limits, table, out, work)
}

/// The same of any table.
pub fn promote_gsub_whole(
    stores: &mut Stores,
    limits: (u32, u32),
    table: &[u8],
    out: &mut [u8],
    work: &mut [u64],
) -> GsubPromoted {
    Scope::Whole.promote(stores, limits, table, out, work)
}

impl Scope {
    pub fn promote(
        self,
        stores: &mut Stores,
        limits: (u32, u32),
        table: &[u8],
        out: &mut [u8],
        work: &mut [u64],
    ) -> GsubPromoted {
        let mut promoted = 0;
        loop {
            let read = self.read_last(stores, limits, table, promoted);
            if read.number != DONE {
                return GsubPromoted::not_read(read);
            }
            let pack = Call::Pack {
                id: read.id as u32,
                copies: 0,
                output: out.len(),
                work: work.len(),
            };
            let packed = stores.run_lent(&pack, out, work);
            match packed.number {
                DONE => return GsubPromoted::accepted(read, packed.length, promoted),
                NO_FIT if promoted < lookup_count(table) => promoted += 1,
                _ => {
                    let (pieces, links) = limits;
                    stores.run(&Call::Start { pieces, links });
                    return GsubPromoted::not_packed(packed);
                }
            }
        }
    }
}
