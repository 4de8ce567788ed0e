//! Calls as values, and the memory that they are run on.

use crate::answer::Answer;
use crate::history::History;
use crate::pack::pack;
use crate::session;
use crate::sound::sound;
use crate::view::View;

/// A call with its arguments. A pack lends an output and a work memory of the
/// given lengths.
#[derive(Clone, Debug, PartialEq, Eq)]
pub enum Call {
    Start {
        pieces: u32,
        links: u32,
    },
    Open,
    Put(Vec<u8>),
    Link {
        width: u32,
        id: u32,
        inner: u32,
    },
    Close,
    Drop,
    Tally,
    Pack {
        id: u32,
        /// How many copies are allowed.
        copies: u32,
        output: usize,
        work: usize,
    },
}

/// The two stores that every call of a run lends.
#[derive(Clone, Debug, PartialEq, Eq)]
pub struct Stores {
    pub bytes: Vec<u8>,
    pub records: Vec<u32>,
}

/// What a call tells, and what a pack leaves in its own memory.
#[derive(Clone, Debug, PartialEq, Eq)]
pub struct Told {
    pub answer: Answer,
    pub output: Vec<u8>,
    pub work: Vec<u64>,
}

/// What lent memory holds before it is written.
pub const STALE_BYTE: u8 = 0xa5;
pub const STALE_RECORD: u32 = 0xa5a5_a5a5;
pub const STALE_WORK: u64 = 0xa5a5_a5a5_a5a5_a5a5;

impl Stores {
    pub fn new(bytes: usize, records: usize) -> Stores {
        Stores {
            bytes: vec![STALE_BYTE; bytes],
            records: vec![STALE_RECORD; records],
        }
    }

    /// Runs a call; a pack lends an output and a work memory of stale words.
    pub fn run(&mut self, call: &Call) -> Told {
        let (length, words) = match call {
            Call::Pack { output, work, .. } => (*output, *work),
            _ => (0, 0),
        };
        let mut output = vec![STALE_BYTE; length];
        let mut work = vec![STALE_WORK; words];
        let answer = self.run_lent(call, &mut output, &mut work);
        Told {
            answer,
            output,
            work,
        }
    }

    /// Runs a call; a pack lends these.
    pub fn run_lent(&mut self, call: &Call, output: &mut [u8], work: &mut [u64]) -> Answer {
        let (bytes, records) = (&mut self.bytes[..], &mut self.records[..]);
        match call {
            Call::Start { pieces, links } => session::start(bytes, records, *pieces, *links),
            Call::Open => session::open(bytes, records),
            Call::Put(added) => session::put(bytes, records, added),
            Call::Link { width, id, inner } => session::link(bytes, records, *width, *id, *inner),
            Call::Close => session::close(bytes, records),
            Call::Drop => session::drop(bytes, records),
            Call::Tally => session::tally(bytes, records),
            Call::Pack { id, copies, .. } => pack(bytes, records, *id, *copies, output, work),
        }
    }

    /// Runs a call of a session that is sound, as a start and the calls behind it
    /// leave it: all of it is not looked at again. Drops and packs are not made so.
    pub fn run_sound(&mut self, call: &Call) -> Answer {
        let (bytes, records) = (&mut self.bytes[..], &mut self.records[..]);
        let look: session::Look = |bytes, records| View::framed(bytes, records);
        match call {
            Call::Open => session::open_by(look, bytes, records),
            Call::Put(added) => session::put_by(look, bytes, records, added),
            Call::Link { width, id, inner } => {
                session::link_by(look, bytes, records, [*width, *id, *inner])
            }
            Call::Close => session::close_by(look, bytes, records),
            Call::Tally => session::tally_by(look, bytes, records),
            Call::Start { .. } | Call::Drop | Call::Pack { .. } => self.run(call).answer,
        }
    }

    /// Whether the two stores hold a sound session.
    pub fn is_sound(&self) -> bool {
        sound(&self.bytes, &self.records).is_some()
    }
}

impl History {
    /// Feeds a call that lends stores of these lengths. A pack changes nothing
    /// and is not judged here.
    pub fn feed(&mut self, call: &Call, store: usize, records: usize) -> Option<Answer> {
        match call {
            Call::Start { pieces, links } => Some(self.start(*pieces, *links, store, records)),
            Call::Open => Some(self.open()),
            Call::Put(added) => Some(self.put(added)),
            Call::Link { width, id, inner } => Some(self.link(*width, *id, *inner)),
            Call::Close => Some(self.close()),
            Call::Drop => Some(self.drop_piece()),
            Call::Tally => Some(self.tally()),
            Call::Pack { .. } => None,
        }
    }
}
