//! Helpers shared by the tests.
#![allow(dead_code, unused_imports)]

pub mod slow;

use reference::answer::Answer;
use reference::call::{Call, Stores, Told};
use reference::limits;
pub use reference::random::Numbers;

/// A started session with just as many words as needed.
pub struct Session {
    pub stores: Stores,
    /// What a pack without copies needs.
    pub work: usize,
    limits: (u64, u64),
}

impl Session {
    pub fn new(pieces: u32, links: u32, store: usize) -> Session {
        let records = limits::record_need(pieces.into(), links.into()) as usize;
        let mut session = Session {
            stores: Stores::new(store, records),
            work: limits::work_need(pieces.into(), links.into(), 0) as usize,
            limits: (pieces.into(), links.into()),
        };
        let started = session.run(Call::Start { pieces, links });
        assert_eq!(started, Answer::default());
        session
    }

    pub fn run(&mut self, call: Call) -> Answer {
        self.stores.run(&call).answer
    }

    pub fn open(&mut self) -> Answer {
        self.run(Call::Open)
    }

    pub fn put(&mut self, bytes: &[u8]) -> Answer {
        self.run(Call::Put(bytes.to_vec()))
    }

    pub fn link(&mut self, width: u32, id: u32) -> Answer {
        self.link_from(width, id, 0)
    }

    pub fn link_from(&mut self, width: u32, id: u32, inner: u32) -> Answer {
        self.run(Call::Link { width, id, inner })
    }

    pub fn close(&mut self) -> Answer {
        self.run(Call::Close)
    }

    pub fn drop_piece(&mut self) -> Answer {
        self.run(Call::Drop)
    }

    pub fn tally(&mut self) -> Answer {
        self.run(Call::Tally)
    }

    pub fn pack(&mut self, id: u32, output: usize) -> Told {
        let (copies, work) = (0, self.work);
        self.stores.run(&Call::Pack {
            id,
            copies,
            output,
            work,
        })
    }

    /// What a pack needs that allows so many copies.
    pub fn need(&self, copies: u32) -> usize {
        let (pieces, links) = self.limits;
        limits::work_need(pieces, links, copies.into()) as usize
    }

    /// A pack that allows so many copies.
    pub fn pack_copying(&mut self, id: u32, copies: u32, output: usize) -> Told {
        let work = self.need(copies);
        self.stores.run(&Call::Pack {
            id,
            copies,
            output,
            work,
        })
    }

    /// Opens, puts, links and closes a piece, all accepted, and gives its id.
    pub fn piece(&mut self, bytes: &[u8], links: &[(u32, u32)]) -> u64 {
        assert_eq!(self.open().number, 0);
        assert_eq!(self.put(bytes).number, 0);
        for &(width, id) in links {
            assert_eq!(self.link(width, id).number, 0);
        }
        let closed = self.close();
        assert_eq!(closed.number, 0);
        closed.id
    }

    /// The same of bytes and one width-2 link to id 0, with an inner start.
    pub fn piece_from(&mut self, bytes: &[u8], inner: u32) -> u64 {
        assert_eq!(self.open().number, 0);
        assert_eq!(self.put(bytes).number, 0);
        assert_eq!(self.link_from(2, 0, inner).number, 0);
        let closed = self.close();
        assert_eq!(closed.number, 0);
        closed.id
    }
}

/// A number and a tally, in the order bytes, links, objects, depth.
pub fn told(number: u64, tally: [u64; 4]) -> Answer {
    Answer {
        number,
        bytes: tally[0],
        links: tally[1],
        objects: tally[2],
        depth: tally[3],
        ..Answer::default()
    }
}
