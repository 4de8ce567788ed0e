//! What the root reaches, and how far off it is.

use crate::session::{Objects, Session};

/// Fields of reached objects that lead to each object up to the root. A child's
/// id is below its parent's, so one pass down the ids meets every object after
/// all its parents.
pub fn incoming(session: &Session, root: u32) -> Vec<u32> {
    let mut incoming = vec![0; root as usize + 1];
    for id in (0..=root).rev() {
        if id < root && incoming[id as usize] == 0 {
            continue;
        }
        for &[_, _, _, child] in session.links(id) {
            incoming[child as usize] += 1;
        }
    }
    incoming
}

/// The distance from the root of each of so many objects, along any topological
/// order.
pub fn distances(objects: &impl Objects, count: usize, root: u32, order: &[u32]) -> Vec<u64> {
    let mut distances = vec![u64::MAX; count];
    distances[root as usize] = 0;
    for &id in order {
        let distance = distances[id as usize];
        for &[_, width, _, child] in objects.links(id) {
            let through = distance + u64::from(objects.size(child)) + weight(width);
            let least = &mut distances[child as usize];
            *least = through.min(*least);
        }
    }
    distances
}

/// What a link weighs besides its child's size.
fn weight(width: u32) -> u64 {
    1 << (8 * width)
}
