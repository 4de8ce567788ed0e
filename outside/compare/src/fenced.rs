//! Lent memory with a fence on both sides, so that a write outside shows.

const FENCE: usize = 32;

pub struct Fenced<T> {
    all: Vec<T>,
    fence: T,
}

impl<T: Copy + PartialEq> Fenced<T> {
    pub fn new(inside: &[T], fence: T) -> Fenced<T> {
        let mut all = vec![fence; FENCE];
        all.extend_from_slice(inside);
        all.extend_from_slice(&[fence; FENCE]);
        Fenced { all, fence }
    }

    pub fn inside(&self) -> &[T] {
        &self.all[FENCE..self.all.len() - FENCE]
    }

    pub fn inside_mut(&mut self) -> &mut [T] {
        let end = self.all.len() - FENCE;
        &mut self.all[FENCE..end]
    }

    pub fn stands(&self) -> bool {
        let (front, rest) = self.all.split_at(FENCE);
        let back = &rest[rest.len() - FENCE..];
        front.iter().chain(back).all(|&item| item == self.fence)
    }
}
