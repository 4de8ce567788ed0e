//! The order of a table's pieces, and the copies that cure an overflow of the
//! third order.

use crate::graph::Graph;
use crate::orders::{self, Overflow, Placing};
use crate::spaces;

/// What each copy was made of, the oldest copy first. Copies are numbered behind
/// the pieces.
#[derive(Clone, Debug, PartialEq, Eq)]
pub struct Copies {
    pieces: usize,
    of: Vec<usize>,
}

impl Copies {
    pub fn made(&self) -> usize {
        self.of.len()
    }

    /// How many of them were made of a copy.
    pub fn of_copies(&self) -> usize {
        self.of.iter().filter(|&&node| node >= self.pieces).count()
    }

    /// The piece whose bytes a node has.
    pub fn original(&self, mut node: usize) -> usize {
        while let Some(copy) = node.checked_sub(self.pieces) {
            node = self.of[copy];
        }
        node
    }
}

/// An order of the reached pieces and their copies.
#[derive(Clone, Debug, PartialEq, Eq)]
pub struct Laid {
    pub graph: Graph,
    pub placing: Placing,
    pub copies: Copies,
    /// The link that does not fit though all that is allowed was tried. A copy
    /// is named by its original.
    pub overflow: Option<Overflow>,
}

/// The first of the three orders that fits, the third with up to so many copies.
pub fn lay(graph: Graph, root: usize, allowed: usize) -> Laid {
    let copies = Copies {
        pieces: graph.nodes.len(),
        of: Vec::new(),
    };
    let by_distance = orders::by_distance(&graph, root);
    for placing in [orders::plain(&graph, root), by_distance.clone()] {
        if placing.overflow(&graph).is_none() {
            return Laid {
                graph,
                placing,
                copies,
                overflow: None,
            };
        }
    }
    // A copy gets its child's number; those of the pieces stay.
    let numbers = spaces::numbers(&graph, &by_distance.order);
    cure(graph, root, allowed, numbers, copies)
}

/// Runs the third order until every offset fits or no copy may be made.
fn cure(
    mut graph: Graph,
    root: usize,
    allowed: usize,
    mut spaces: Vec<u64>,
    mut copies: Copies,
) -> Laid {
    loop {
        let placing = orders::in_spaces(&graph, root, &spaces);
        let overflow = placing.overflow(&graph);
        match overflow {
            Some(unfit) if copies.made() < allowed && shared(&mut graph, root, &unfit) => {
                let child = copy(&mut graph, &unfit);
                spaces.push(spaces[child]);
                copies.of.push(child);
            }
            _ => {
                let overflow = overflow.map(|unfit| Overflow {
                    parent: copies.original(unfit.parent),
                    ..unfit
                });
                return Laid {
                    graph,
                    placing,
                    copies,
                    overflow,
                };
            }
        }
    }
}

/// Where a link leads.
fn child_of<'a>(graph: &'a mut Graph, link: &Overflow) -> &'a mut usize {
    let links = graph.nodes[link.parent].links.iter_mut();
    let mut found = links.filter(|field| field.place == link.field);
    &mut found.next().expect("a field of the parent").child
}

/// Whether another link leads to the same node, from the same parent or not.
fn shared(graph: &mut Graph, root: usize, link: &Overflow) -> bool {
    let child = *child_of(graph, link);
    graph.incoming(root)[child] > 1
}

/// Leads this link alone to a copy of its child, and gives the child. The copy's
/// own links lead where the child's lead now.
fn copy(graph: &mut Graph, link: &Overflow) -> usize {
    let node = graph.nodes.len();
    let child = std::mem::replace(child_of(graph, link), node);
    graph.nodes.push(graph.nodes[child].clone());
    child
}
