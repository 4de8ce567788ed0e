//! Graphs by the order that packs them. Every field is of width 3 or 4 but one,
//! which decides: graphs for two orders differ in the widths of two fields.

use crate::largest::WIDE;
use crate::shapes::{self, Family, Graph, Link, Make, Piece, PARTS};
use reference::random::Numbers;

/// The three orders, in which they are tried.
#[derive(Clone, Copy, Debug, PartialEq, Eq)]
pub enum Order {
    Kahn,
    Distance,
    Spaces,
}

pub const ORDERS: [Order; 3] = [Order::Kahn, Order::Distance, Order::Spaces];

/// Pieces that are added to those of the family.
const ADDED: usize = 8;

/// A graph of so many pieces, and of so many links or a few more, of which this
/// order is the first that fits; the last piece is its root.
pub fn graph(
    order: Order,
    family: Family,
    pieces: usize,
    links: usize,
    numbers: &mut Numbers,
) -> Graph {
    let make = Make {
        pieces: pieces - ADDED,
        fanout: 4,
        widths: WIDE,
        sizes: &[2, 9, 20],
    };
    let mut graph = make.graph(family, numbers);
    let links = links.saturating_sub(ADDED).max(shapes::links(&graph));
    shapes::thicken(&mut graph, links, WIDE, numbers);
    let mut root = graph.pop().expect("a graph has pieces");
    let width = |narrow| if order == narrow { 2 } else { 3 };
    long_leaf(&mut graph, &mut root);
    branches(&mut graph, &mut root, width(Order::Spaces));
    short_leaf(&mut graph, &mut root, width(Order::Distance));
    graph.push(root);
    graph
}

/// In the kahn order it lies before all other children of the root.
fn long_leaf(graph: &mut Graph, root: &mut Piece) {
    let leaf = add(graph, 70_000, &[]);
    root.links.insert(0, Link::new(4, leaf));
}

/// Two branches of three pieces. A field of this width leads from the long piece
/// of the first one to its last: in the order by spaces nothing of the other one
/// lies between, in the others its long piece does.
fn branches(graph: &mut Graph, root: &mut Piece, width: u32) {
    for (last_size, width) in [(1, width), (2, 3)] {
        let last = add(graph, last_size, &[]);
        let long = add(graph, 40_000, &[Link::new(width, last)]);
        let first = add(graph, 1, &[Link::new(3, long)]);
        root.links.push(Link::new(4, first));
    }
}

/// A field of this width leads to it from the root's end. By distances it is the
/// first behind the root if that is 2.
fn short_leaf(graph: &mut Graph, root: &mut Piece, width: u32) {
    let leaf = add(graph, 7, &[]);
    root.links.push(Link::new(width, leaf).with_part(PARTS));
}

/// Adds a piece of so many bytes besides its fields, and gives its number.
fn add(graph: &mut Graph, bytes: usize, links: &[Link]) -> usize {
    graph.push(Piece {
        links: links.to_vec(),
        bytes: vec![b'a'; bytes],
        links_first: false,
    });
    graph.len() - 1
}
