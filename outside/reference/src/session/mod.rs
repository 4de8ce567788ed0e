//! The seven session calls on two lent stores. Those that end in `_by` come to
//! see the session by another look than the test of all of it.

mod begin;
mod finish;
mod write;

pub use begin::{open, open_by, start, tally, tally_by};
pub use finish::{close, close_by, drop};
pub use write::{link, link_by, put, put_by};

use crate::answer::{self, Answer};
use crate::view::View;

/// How a call comes to see the session: [`crate::sound::sound`], or where that is
/// known to hold [`View::framed`].
pub type Look = for<'a> fn(&'a [u8], &'a [u32]) -> Option<View<'a>>;

/// An accepted call, beside the tally that it leaves.
fn done(store: &[u8], records: &[u32]) -> Answer {
    let tally = View::framed(store, records).map_or(Answer::default(), |view| view.tally());
    Answer::with_tally_of(answer::DONE, tally)
}
