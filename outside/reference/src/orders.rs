//! The three placing orders, the places they give and the first overflow.

use crate::graph::{Graph, Link};
use crate::limits;
use crate::spaces;
use std::cmp::Reverse;
use std::collections::{BinaryHeap, VecDeque};

/// The first link, in placing order and then by rising field place, that does
/// not fit.
#[derive(Clone, Copy, Debug, PartialEq, Eq)]
pub struct Overflow {
    pub parent: usize,
    pub field: u64,
    pub needed: u64,
}

/// The reached pieces in one order, with the place of each.
#[derive(Clone, Debug, PartialEq, Eq)]
pub struct Placing {
    pub order: Vec<usize>,
    pub places: Vec<u64>,
}

/// Next is the piece that has been ready longest.
pub fn plain(graph: &Graph, root: usize) -> Placing {
    place(graph, order(graph, root, VecDeque::new()))
}

/// Next is the ready piece of least distance, equal ones by longest ready.
pub fn by_distance(graph: &Graph, root: usize) -> Placing {
    place(
        graph,
        order(graph, root, KeyQueue::by(graph.distances(root))),
    )
}

/// Next is the ready piece of least distance and 4,294,967,296 for each number
/// of its space, equal ones by longest ready.
pub fn by_spaces(graph: &Graph, root: usize) -> Placing {
    let numbers = spaces::numbers(graph, &by_distance(graph, root).order);
    in_spaces(graph, root, &numbers)
}

/// The same where the numbers of the spaces are known.
pub fn in_spaces(graph: &Graph, root: usize, numbers: &[u64]) -> Placing {
    let distances = graph.distances(root);
    let keys = distances.iter().zip(numbers);
    let keys = keys.map(|(distance, number)| Some((*distance)? + number * 4_294_967_296));
    place(graph, order(graph, root, KeyQueue::by(keys.collect())))
}

/// The ready pieces, in the order in which they become ready.
trait Ready {
    fn add(&mut self, id: usize);
    fn next(&mut self) -> Option<usize>;
}

impl Ready for VecDeque<usize> {
    fn add(&mut self, id: usize) {
        self.push_back(id);
    }

    fn next(&mut self) -> Option<usize> {
        self.pop_front()
    }
}

struct KeyQueue {
    keys: Vec<Option<u64>>,
    /// Key, turn of becoming ready, id.
    heap: BinaryHeap<Reverse<(u64, usize, usize)>>,
    turn: usize,
}

impl KeyQueue {
    fn by(keys: Vec<Option<u64>>) -> KeyQueue {
        KeyQueue {
            keys,
            heap: BinaryHeap::new(),
            turn: 0,
        }
    }
}

impl Ready for KeyQueue {
    fn add(&mut self, id: usize) {
        let key = self.keys[id].expect("a ready piece is reached");
        self.heap.push(Reverse((key, self.turn, id)));
        self.turn += 1;
    }

    fn next(&mut self) -> Option<usize> {
        self.heap.pop().map(|Reverse((_, _, id))| id)
    }
}

/// A piece is ready when the last field of its reached parents is passed, so
/// those made ready by one parent come in the order of their last field in it.
fn order(graph: &Graph, root: usize, mut ready: impl Ready) -> Vec<usize> {
    let mut waiting = graph.incoming(root);
    let mut order = Vec::new();
    ready.add(root);
    while let Some(id) = ready.next() {
        order.push(id);
        for link in &graph.nodes[id].links {
            waiting[link.child] -= 1;
            if waiting[link.child] == 0 {
                ready.add(link.child);
            }
        }
    }
    order
}

fn place(graph: &Graph, order: Vec<usize>) -> Placing {
    let mut next = 0;
    let mut places = Vec::with_capacity(order.len());
    for &id in &order {
        places.push(next);
        next += graph.nodes[id].size;
    }
    Placing { order, places }
}

/// From the inner start of a parent's link to the child, by the places of all
/// pieces. The child stands behind its parent, the inner start is inside it.
pub fn offset(place_of: &[u64], parent: usize, link: &Link) -> u64 {
    place_of[link.child] - place_of[parent] - link.inner
}

/// With copies a table may be longer than any width can count.
fn fits(link: &Link, offset: u64) -> bool {
    offset < limits::capacity(link.width as u32)
}

impl Placing {
    /// The place of each piece by id; 0 for one that is not placed.
    pub fn by_id(&self, pieces: usize) -> Vec<u64> {
        let mut by_id = vec![0; pieces];
        for (&id, &place) in self.order.iter().zip(&self.places) {
            by_id[id] = place;
        }
        by_id
    }

    pub fn overflow(&self, graph: &Graph) -> Option<Overflow> {
        let place_of = self.by_id(graph.nodes.len());
        for &parent in &self.order {
            for link in &graph.nodes[parent].links {
                let needed = offset(&place_of, parent, link);
                if !fits(link, needed) {
                    return Some(Overflow {
                        parent,
                        field: link.place,
                        needed,
                    });
                }
            }
        }
        None
    }

    /// Where the last node ends.
    pub fn length(&self, graph: &Graph) -> u64 {
        let last = self.order.last().map_or(0, |&id| graph.nodes[id].size);
        self.places.last().map_or(0, |&place| place + last)
    }
}
