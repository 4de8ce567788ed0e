//! A pack by the plain order, and one in which only the distance order fits.

use crate::sessions::{Limits, Memory};
use crate::timing::{both, Times};
use crate::Line;
use bindings::calls;
use reference::graph::Graph;
use reference::orders;
use reference::sound::sound;

/// A leaf so large that whatever is placed behind it is hardly reached by a
/// field of width 2.
const LARGE: usize = 65_533;

pub fn lines() -> Vec<Line> {
    let mut lines = Vec::new();
    for (name, shape) in [
        ("chain", chain as Shape),
        ("fan", fan),
        ("shared leaves", shared),
    ] {
        for large in [false, true] {
            for count in [1_000, 4_000] {
                lines.push(line(name, shape, count, large));
            }
        }
    }
    lines
}

/// Builds a graph over the large leaf, if there is one, and gives its root.
type Shape = fn(&mut Memory, u32, &[(u32, u32)]) -> u32;

fn line(name: &str, shape: Shape, count: u32, large: bool) -> Line {
    let limits = Limits {
        pieces: count,
        links: 3 * count,
        store: 30 * count as usize + LARGE,
    };
    let mut memory = Memory::start(&limits);
    let leaf = large.then(|| (2, memory.piece(&[], &[0xff; LARGE])));
    let root = shape(&mut memory, count - 2, leaf.as_slice());
    assert_eq!(plain_fits(&memory, root), !large);
    let order = if large { "distance" } else { "plain" };
    let work = bindings::work_need(limits.pieces, limits.links, 0);
    Line {
        what: format!("pack, {order} order, {name} of {count}"),
        times: timed(&memory, root, work),
    }
}

/// A pack that fits, with so many words of work memory.
pub fn timed(memory: &Memory, root: u32, work: usize) -> Times {
    let (store, records) = (&memory.store, &memory.records);
    both(
        12,
        || (vec![0; store.len()], vec![0; work]),
        |(out, work)| assert_eq!(calls::pack(store, records, root, 0, out, work).number, 0),
        |(out, work)| {
            assert_eq!(
                reference::pack(store, records, root, 0, out, work).number,
                0
            )
        },
    )
}

pub fn plain_fits(memory: &Memory, root: u32) -> bool {
    let graph = Graph::of(&sound(&memory.store, &memory.records).expect("sound"));
    orders::plain(&graph, root as usize)
        .overflow(&graph)
        .is_none()
}

/// Each piece links the one before.
fn chain(memory: &mut Memory, count: u32, large: &[(u32, u32)]) -> u32 {
    let mut last = memory.piece(&[], &[1]);
    for _ in 1..count {
        last = memory.piece(&[(2, last)], &[]);
    }
    memory.piece(&[large, &[(2, last)]].concat(), &[])
}

/// The root links every leaf.
fn fan(memory: &mut Memory, count: u32, large: &[(u32, u32)]) -> u32 {
    let leaves = (0..count).map(|id| (2, memory.piece(&[], &id.to_be_bytes())));
    let links: Vec<(u32, u32)> = large
        .iter()
        .copied()
        .chain(leaves.collect::<Vec<_>>())
        .collect();
    memory.piece(&links, &[])
}

/// Half of the pieces each link two of the other half.
fn shared(memory: &mut Memory, count: u32, large: &[(u32, u32)]) -> u32 {
    let half = count / 2;
    let leaves: Vec<u32> = (0..half)
        .map(|id| memory.piece(&[], &id.to_be_bytes()))
        .collect();
    let mut links = large.to_vec();
    for id in 0..count - half {
        let child = |k: u32| (4, leaves[(id * k % half) as usize]);
        links.push((2, memory.piece(&[child(1), child(3)], &id.to_be_bytes())));
    }
    memory.piece(&links, &[])
}
