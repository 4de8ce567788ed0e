//! The spaces: objects that narrow links hold together.

use crate::session::{Link, Objects, Session};

const WIDE: u32 = 4;

/// What each number of a space adds to the keys of its members.
const STEP: u64 = 1 << 32;

/// Adds to each distance what the number of the object's space weighs. `order` is
/// the shortest-distance order.
pub fn add(session: &Session, root: u32, order: &[u32], keys: &mut [u64]) {
    let near_root = space_zero(session, root, order);
    let mut sets = joined(session, order, &near_root);
    let mut numbers = vec![0; near_root.len()];
    let mut last = 0;
    for &id in order {
        if near_root[id as usize] {
            continue;
        }
        let number: &mut u64 = &mut numbers[sets.find(id) as usize];
        if *number == 0 {
            last += 1;
            *number = last;
        }
        keys[id as usize] += *number * STEP;
    }
}

fn narrow_children(links: &[Link]) -> impl Iterator<Item = u32> + '_ {
    let narrow = links.iter().filter(|[_, width, _, _]| *width != WIDE);
    narrow.map(|&[_, _, _, child]| child)
}

/// Which objects the root reaches by narrow links alone.
fn space_zero(session: &Session, root: u32, order: &[u32]) -> Vec<bool> {
    let mut near_root = vec![false; root as usize + 1];
    near_root[root as usize] = true;
    for &id in order {
        if near_root[id as usize] {
            for child in narrow_children(session.links(id)) {
                near_root[child as usize] = true;
            }
        }
    }
    near_root
}

/// The other objects, joined by their narrow links.
fn joined(session: &Session, order: &[u32], near_root: &[bool]) -> Sets {
    let mut sets = Sets::new(near_root.len());
    for &id in order {
        if !near_root[id as usize] {
            for child in narrow_children(session.links(id)) {
                if !near_root[child as usize] {
                    sets.join(id, child);
                }
            }
        }
    }
    sets
}

/// Disjoint sets of ids.
struct Sets {
    parents: Vec<u32>,
}

impl Sets {
    fn new(ids: usize) -> Sets {
        Sets {
            parents: (0..ids as u32).collect(),
        }
    }

    /// The member that stands for the set, by path halving.
    fn find(&mut self, mut id: u32) -> u32 {
        loop {
            let parent = self.parents[id as usize];
            let above = self.parents[parent as usize];
            if parent == above {
                return parent;
            }
            self.parents[id as usize] = above;
            id = above;
        }
    }

    fn join(&mut self, one: u32, other: u32) {
        let (one, other) = (self.find(one), self.find(other));
        self.parents[other as usize] = one;
    }
}
