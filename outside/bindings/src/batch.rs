//! Calls collected to be made in one.

use crate::{Session, Unfinished};

/// The first word of each call.
const OPEN: u32 = 1;
const PUT: u32 = 2;
const LINK: u32 = 3;
const LINK_OWN: u32 = 4;
const CLOSE: u32 = 5;
const DROP: u32 = 6;

/// A list of calls. Nothing is judged before it is run, which may be done on any
/// session and more than once.
#[derive(Clone, Debug, Default, PartialEq, Eq)]
pub struct Batch {
    calls: Vec<u32>,
    bytes: Vec<u8>,
    closes: usize,
}

impl Batch {
    pub fn new() -> Batch {
        Batch::default()
    }

    pub fn open(&mut self) {
        self.calls.push(OPEN);
    }

    pub fn put(&mut self, bytes: &[u8]) {
        self.calls.extend([PUT, word(bytes.len())]);
        self.bytes.extend_from_slice(bytes);
    }

    /// A field that leads to an object that is closed already.
    pub fn link(&mut self, width: u32, id: u32, inner: u32) {
        self.calls.extend([LINK, width, id, inner]);
    }

    /// A field that leads to the object of an earlier close of this batch.
    pub fn link_own(&mut self, width: u32, close: usize, inner: u32) {
        self.calls.extend([LINK_OWN, width, word(close), inner]);
    }

    /// Gives which close of the batch it is, from 0: the place of its id among
    /// those that a run gives.
    pub fn close(&mut self) -> usize {
        self.calls.push(CLOSE);
        self.closes += 1;
        self.closes - 1
    }

    pub fn drop_object(&mut self) {
        self.calls.push(DROP);
    }

    /// How many ids a run gives that comes to its end.
    pub fn closes(&self) -> usize {
        self.closes
    }

    /// Makes the calls, and gives the ids that the closes told, which are the
    /// front of `ids`.
    pub fn run<'i>(
        &self,
        session: &mut Session,
        ids: &'i mut [u32],
        work: &mut [u64],
    ) -> Result<&'i [u32], Unfinished<'i>> {
        session.batch(&self.calls, &self.bytes, ids, work)
    }
}

/// A length or a close that no word holds is refused as the greatest is: no byte
/// store has room for so many bytes, and no batch has so many closes.
fn word(number: usize) -> u32 {
    u32::try_from(number).unwrap_or(u32::MAX)
}
