//! Orders that go by ids, as no packer's may. Where they place what two sessions
//! hold of one graph in two ways, a packer that goes by ids shows.

use crate::written::{Packer, Written};
use reference::graph::Graph;
use reference::orders::{self, Placing};
use reference::spaces;
use std::cmp::Reverse;
use std::collections::BinaryHeap;

/// A graph as one session holds it, and its root's id there.
pub struct Reached {
    pub graph: Graph,
    pub root: usize,
}

impl Reached {
    pub fn of<P: Packer>(written: &Written<P>, root: usize) -> Reached {
        Reached {
            graph: Graph::of(&written.view()),
            root: written.ids[root] as usize,
        }
    }

    /// The order that decides without copies, and whether it fits.
    pub fn decided(&self) -> (usize, bool) {
        let all = [orders::plain, orders::by_distance, orders::by_spaces];
        let fits = |order: &fn(&Graph, usize) -> Placing| {
            let placing = order(&self.graph, self.root);
            placing.overflow(&self.graph).is_none()
        };
        let found = all.iter().position(fits);
        (found.unwrap_or(2), found.is_some())
    }

    /// The keys of this order, by id; 0 where nothing is reached.
    pub fn keys(&self, order: usize) -> Vec<u64> {
        let distances = self.graph.distances(self.root);
        let by_distance = orders::by_distance(&self.graph, self.root).order;
        let spaces = match order {
            2 => spaces::numbers(&self.graph, &by_distance),
            _ => vec![0; distances.len()],
        };
        let keys = distances.iter().zip(spaces);
        keys.map(|(distance, space)| distance.unwrap_or(0) + (space << 32))
            .collect()
    }

    /// The order that decides, as packers have it that go by id.
    pub fn by_id(&self, order: usize) -> [Option<Placing>; 3] {
        let Reached { graph, root } = self;
        let by_turns = || turns(graph, *root);
        let by_ties = || ties(graph, *root, &self.keys(order));
        let by_spaces = || spaces_by_id(graph, *root);
        [
            (order == 0).then(by_turns),
            (order > 0).then(by_ties),
            (order == 2).then(by_spaces),
        ]
    }
}

/// What a placing shows: the pieces in their order, or what does not fit.
pub fn shown<P: Packer>(
    placing: &Placing,
    graph: &Graph,
    written: &Written<P>,
) -> Result<Vec<usize>, (usize, u64, u64)> {
    match placing.overflow(graph) {
        None => Ok(placing.order.iter().map(|&id| written.piece(id)).collect()),
        Some(unfit) => Err((written.piece(unfit.parent), unfit.field, unfit.needed)),
    }
}

/// The order by these keys, equal ones by id.
fn ties(graph: &Graph, root: usize, keys: &[u64]) -> Placing {
    let mut waiting = graph.incoming(root);
    let mut ready = BinaryHeap::from([Reverse((keys[root], root))]);
    let mut order = Vec::new();
    while let Some(Reverse((_, id))) = ready.pop() {
        order.push(id);
        for link in &graph.nodes[id].links {
            waiting[link.child] -= 1;
            if waiting[link.child] == 0 {
                ready.push(Reverse((keys[link.child], link.child)));
            }
        }
    }
    placed(graph, order)
}

/// The plain order, but those made ready by one parent by id.
fn turns(graph: &Graph, root: usize) -> Placing {
    let mut waiting = graph.incoming(root);
    let mut order = vec![root];
    let mut next = 0;
    while let Some(&id) = order.get(next) {
        let first = order.len();
        for link in &graph.nodes[id].links {
            waiting[link.child] -= 1;
            if waiting[link.child] == 0 {
                order.push(link.child);
            }
        }
        order[first..].sort_unstable();
        next += 1;
    }
    placed(graph, order)
}

/// The order by spaces, these numbered by their least ids.
fn spaces_by_id(graph: &Graph, root: usize) -> Placing {
    let mut order = orders::plain(graph, root).order;
    order[1..].sort_unstable();
    orders::in_spaces(graph, root, &spaces::numbers(graph, &order))
}

fn placed(graph: &Graph, order: Vec<usize>) -> Placing {
    let sizes = order.iter().map(|&id| graph.nodes[id].size);
    let places = sizes.scan(0, |next, size| {
        let place = *next;
        *next += size;
        Some(place)
    });
    Placing {
        places: places.collect(),
        order,
    }
}
