//! Sessions to measure on. Both sides have the same layout, so one is built
//! and both are measured on it.

use bindings::calls;

#[derive(Clone)]
pub struct Memory {
    pub store: Vec<u8>,
    pub records: Vec<u32>,
}

pub struct Limits {
    pub pieces: u32,
    pub links: u32,
    pub store: usize,
}

impl Memory {
    pub fn start(limits: &Limits) -> Memory {
        let (pieces, links) = (limits.pieces, limits.links);
        let mut memory = Memory {
            store: vec![0; limits.store],
            records: vec![0; bindings::records_need(pieces, links)],
        };
        accepted(calls::start(
            &mut memory.store,
            &mut memory.records,
            pieces,
            links,
        ));
        memory
    }

    pub fn open(&mut self) {
        accepted(calls::open(&mut self.store, &mut self.records));
    }

    pub fn put(&mut self, bytes: &[u8]) {
        accepted(calls::put(&mut self.store, &mut self.records, bytes));
    }

    pub fn link(&mut self, width: u32, id: u32) {
        let inner = 0;
        accepted(calls::link(
            &mut self.store,
            &mut self.records,
            width,
            id,
            inner,
        ));
    }

    /// A closed piece: links of these widths and children, then bytes.
    pub fn piece(&mut self, links: &[(u32, u32)], bytes: &[u8]) -> u32 {
        self.open();
        for &(width, id) in links {
            self.link(width, id);
        }
        self.put(bytes);
        accepted(calls::close(&mut self.store, &mut self.records)).id as u32
    }
}

fn accepted(answer: bindings::Answer) -> bindings::Answer {
    assert_eq!(answer.number, 0);
    answer
}
