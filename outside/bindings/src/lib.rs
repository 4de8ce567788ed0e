//! The proved packer for Rust.
//!
//! [`calls`] has the eight calls on any two lent stores, the read of a GSUB table of
//! single substitutions or of any lookups, with its lookups promoted where that is
//! needed to pack it, many calls in one, and a table sent as frames of text and
//! taken in again.
//! [`Batch`] collects calls. [`Session`] keeps both stores borrowed from its start on, so that
//! nothing else writes them between calls. What include/scoterlime.h asks of
//! callers holds by Rust's slices: pointers good for their lengths, never null,
//! and no two areas that overlap:
//!
//! ```compile_fail
//! let (mut store, mut records) = ([0; 8], vec![0; bindings::records_need(1, 0)]);
//! bindings::calls::put(&mut store, &mut records, &store[..1]);
//! ```

mod batch;
pub mod calls;
mod foreign;
mod session;

pub use batch::Batch;
pub use calls::{batch_need, head_need, records_need, work_need};
pub use session::{NotPromoted, NotRead, Packed, Promoted, Refused, Session, Unfinished};

/// What a call tells: the struct of include/scoterlime.h. Values that a call
/// does not have are 0.
#[repr(C)]
#[derive(Clone, Copy, Debug, Default, PartialEq, Eq)]
pub struct Answer {
    pub number: u64,
    pub bytes: u64,
    pub links: u64,
    pub objects: u64,
    pub depth: u64,
    pub id: u64,
    pub length: u64,
    pub parent: u64,
    pub field: u64,
    pub needed: u64,
    pub copies: u64,
    pub placed: u64,
}

/// What a read of a GSUB table tells: its struct of include/scoterlime.h.
/// Values that it does not have are 0.
#[repr(C)]
#[derive(Clone, Copy, Debug, Default, PartialEq, Eq)]
pub struct GsubRead {
    pub number: u64,
    pub bytes: u64,
    pub links: u64,
    pub objects: u64,
    pub depth: u64,
    /// The root's id.
    pub id: u64,
    /// Where in the table a field is that cannot be read.
    pub place: u64,
}

/// What a promotion tells: its struct of include/scoterlime.h. Values that it
/// does not have are 0.
#[repr(C)]
#[derive(Clone, Copy, Debug, Default, PartialEq, Eq)]
pub struct GsubPromoted {
    pub number: u64,
    pub bytes: u64,
    pub links: u64,
    pub objects: u64,
    pub depth: u64,
    /// The root's id.
    pub id: u64,
    /// The packed table's length.
    pub length: u64,
    pub parent: u64,
    pub field: u64,
    pub needed: u64,
    /// Where in the table a field is that cannot be read.
    pub place: u64,
    /// How many of the last lookups are promoted.
    pub promoted: u64,
}

/// What a batch tells: its struct of include/scoterlime.h.
#[repr(C)]
#[derive(Clone, Copy, Debug, Default, PartialEq, Eq)]
pub struct Batched {
    pub number: u64,
    pub bytes: u64,
    pub links: u64,
    pub objects: u64,
    pub depth: u64,
    /// How many calls were carried out.
    pub calls: u64,
    /// How many ids were written.
    pub ids: u64,
}

/// What a send tells: its struct of include/scoterlime.h.
#[repr(C)]
#[derive(Clone, Copy, Debug, Default, PartialEq, Eq)]
pub struct Sent {
    pub number: u64,
    /// How long the text is.
    pub length: u64,
}

/// What a feed tells: its struct of include/scoterlime.h.
#[repr(C)]
#[derive(Clone, Copy, Debug, Default, PartialEq, Eq)]
pub struct Fed {
    pub number: u64,
    /// Bytes of the text that were taken.
    pub taken: u64,
    /// Bytes of an accepted frame, which are in the output now.
    pub written: u64,
    /// 1 once all frames are in.
    pub whole: u64,
}
