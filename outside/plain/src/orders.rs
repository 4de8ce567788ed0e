//! The orders of placing.

use crate::session::{Objects, Session};
use std::cmp::Reverse;
use std::collections::{BinaryHeap, VecDeque};
use std::ops::{AddAssign, Sub};

/// A number of bytes: those of a session need 32 bits, with copies 64.
pub trait Bytes: Copy + Default + From<u32> + Into<u64> + AddAssign + Sub<Output = Self> {}

impl Bytes for u32 {}
impl Bytes for u64 {}

pub struct Placing<B> {
    pub order: Vec<u32>,
    /// The place of each placed object, by its number.
    pub places: Vec<B>,
    /// Bytes of all of them.
    pub length: B,
}

impl<B: Bytes> Placing<B> {
    fn new(count: usize) -> Placing<B> {
        Placing {
            order: Vec::with_capacity(count),
            places: vec![B::default(); count],
            length: B::default(),
        }
    }

    fn put(&mut self, id: u32, size: u32) {
        self.order.push(id);
        self.places[id as usize] = self.length;
        self.length += size.into();
    }
}

/// Next is the object that has been ready longest.
pub fn kahn(session: &Session, root: u32, incoming: &[u32]) -> Placing<u32> {
    let mut waiting = incoming.to_vec();
    let mut ready = VecDeque::with_capacity(waiting.len());
    let mut placing = Placing::new(waiting.len());
    ready.push_back(root);
    while let Some(id) = ready.pop_front() {
        placing.put(id, session.size(id));
        for &[_, _, _, child] in session.links(id) {
            let left = &mut waiting[child as usize];
            *left -= 1;
            if *left == 0 {
                ready.push_back(child);
            }
        }
    }
    placing
}

/// Next is the ready object of the least key, of equal ones the one that has been
/// ready longest.
pub fn by_keys<B: Bytes>(
    objects: &impl Objects,
    root: u32,
    incoming: &[u32],
    keys: &[u64],
) -> Placing<B> {
    let mut waiting = incoming.to_vec();
    let mut ready = BinaryHeap::with_capacity(waiting.len());
    let mut placing = Placing::new(waiting.len());
    let mut turn = 0_u32;
    ready.push(Reverse(entry(keys[root as usize], turn, root)));
    while let Some(Reverse(least)) = ready.pop() {
        let id = least as u32;
        placing.put(id, objects.size(id));
        for &[_, _, _, child] in objects.links(id) {
            let left = &mut waiting[child as usize];
            *left -= 1;
            if *left == 0 {
                turn += 1;
                ready.push(Reverse(entry(keys[child as usize], turn, child)));
            }
        }
    }
    placing
}

/// A ready object as one number, which takes one comparison: the key, when it
/// became ready, and in the low 32 bits its id.
fn entry(key: u64, turn: u32, id: u32) -> u128 {
    u128::from(key) << 64 | u128::from(turn) << 32 | u128::from(id)
}
