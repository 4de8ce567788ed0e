//! The closed objects and their links, read where they lie in the two stores.

/// A link record: the field's place, its width, its inner start, the child.
pub type Link = [u32; 4];

/// Objects by number.
pub trait Objects {
    fn size(&self, id: u32) -> u32;
    fn bytes(&self, id: u32) -> &[u8];
    fn links(&self, id: u32) -> &[Link];
}

pub struct Session<'a> {
    pub store: &'a [u8],
    /// Where each object ends, and last where the highest one begins.
    pub begins: &'a [u32],
    /// The same of its link records.
    pub link_begins: &'a [u32],
    pub links: &'a [Link],
    pub open_objects: usize,
}

impl<'a> Session<'a> {
    pub fn closed(&self) -> usize {
        self.begins.len() - 1
    }
}

impl Objects for Session<'_> {
    fn size(&self, id: u32) -> u32 {
        let id = id as usize;
        self.begins[id] - self.begins[id + 1]
    }

    fn bytes(&self, id: u32) -> &[u8] {
        let id = id as usize;
        &self.store[self.begins[id + 1] as usize..self.begins[id] as usize]
    }

    fn links(&self, id: u32) -> &[Link] {
        let id = id as usize;
        &self.links[self.link_begins[id + 1] as usize..self.link_begins[id] as usize]
    }
}

/// The least offset that a field of this width cannot hold.
pub fn capacity(width: u32) -> u64 {
    1 << (8 * width)
}
