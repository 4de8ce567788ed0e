//! Memory that a caller lends to reads and packs of the proved library, again and
//! again.

use bindings::{calls, records_need, work_need, Answer, GsubPromoted, GsubRead};

pub struct Lent {
    limits: (u32, u32),
    pub store: Vec<u8>,
    pub records: Vec<u32>,
    pub out: Vec<u8>,
    pub work: Vec<u64>,
}

impl Lent {
    /// For these limits of objects and links, with a byte store and an output of this
    /// length.
    pub fn new(limits: (u32, u32), store: usize) -> Lent {
        let (objects, links) = limits;
        Lent {
            limits,
            store: vec![0; store],
            records: vec![0; records_need(objects, links)],
            out: vec![0; store],
            work: vec![0; work_need(objects, links, 0)],
        }
    }

    pub fn read_gsub(&mut self, table: &[u8]) -> GsubRead {
        let ((p, l), store, records) = (self.limits, &mut self.store, &mut self.records);
        calls::read_gsub(store, records, p, l, table)
    }

    pub fn read_gsub_whole(&mut self, table: &[u8]) -> GsubRead {
        let ((p, l), store, records) = (self.limits, &mut self.store, &mut self.records);
        calls::read_gsub_whole(store, records, p, l, table)
    }

    /// Without copies.
    pub fn pack(&mut self, root: u32) -> Answer {
        let (out, work) = (&mut self.out, &mut self.work);
        calls::pack(&self.store, &self.records, root, 0, out, work)
    }

    pub fn promote_gsub(&mut self, table: &[u8]) -> GsubPromoted {
        let ((p, l), store, records) = (self.limits, &mut self.store, &mut self.records);
        let (out, work) = (&mut self.out, &mut self.work);
        calls::promote_gsub(store, records, p, l, table, out, work)
    }

    pub fn promote_gsub_whole(&mut self, table: &[u8]) -> GsubPromoted {
        let ((p, l), store, records) = (self.limits, &mut self.store, &mut self.records);
        let (out, work) = (&mut self.out, &mut self.work);
        calls::promote_gsub_whole(store, records, p, l, table, out, work)
    }
}
