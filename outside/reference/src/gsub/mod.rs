//! A layer above the packer: a GSUB table by the OpenType specification, read from
//! its bytes into a session.
//!
//! * [`Scope`] says which tables are read: those of single substitution, or all.
//! * [`read_gsub`] is the call, [`walk`] the way that it takes.
//! * [`promote_gsub`] reads and packs with as few of the last lookups promoted as
//!   an order fits.
//! * [`reading`] says what a table reads, without a session.
//! * [`substitute`] says what a lookup of a table does to a glyph.

mod params;
mod promote;
mod read;
pub mod reading;
mod rows;
mod scope;
mod substitute;
mod walk;

pub use params::Params;
pub use promote::{promote_gsub, promote_gsub_whole, GsubPromoted};
pub use read::{read_gsub, read_gsub_whole, GsubRead};
pub use rows::{Kind, Part};
pub use scope::Scope;
pub use substitute::{lookup_count, substitute};

/// The bit of a lookup's flag by which a mark filtering set follows the offsets.
const USE_MARK_FILTERING_SET: u16 = 0x0010;

/// Types of lookups: single substitution, and any behind Extensions.
const SINGLE: u16 = 1;
const EXTENSION: u16 = 7;

/// Bytes of an offset, and of one that reaches any place.
const SHORT: usize = 2;
const LONG: usize = 4;

/// A big-endian number of two bytes, if the slice has both.
fn number(slice: &[u8], place: usize) -> Option<u16> {
    let field = slice.get(place..)?.first_chunk()?;
    Some(u16::from_be_bytes(*field))
}

/// The same of four bytes.
fn long_number(slice: &[u8], place: usize) -> Option<u32> {
    let field = slice.get(place..)?.first_chunk()?;
    Some(u32::from_be_bytes(*field))
}

fn big_endian(bytes: &[u8]) -> usize {
    bytes
        .iter()
        .fold(0, |number, &byte| 256 * number + usize::from(byte))
}
