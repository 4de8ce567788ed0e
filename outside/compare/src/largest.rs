//! Graphs of as many pieces, links and bytes as the limits allow, or nearly.

use crate::shapes::{self, Family, Graph, Link, Make, Piece, PARTS};
use reference::random::Numbers;

pub const PIECES: usize = 16_384;
pub const LINKS: usize = 65_536;
pub const LONGEST: usize = 16_777_216;

/// A family, with widths and sizes.
#[derive(Clone, Copy, Debug)]
pub struct Kind {
    pub family: Family,
    /// Links of a piece, or pieces of a group.
    pub fanout: usize,
    /// Widths of the root's fields.
    pub root: &'static [u32],
    /// Widths of all other fields.
    pub others: &'static [u32],
    pub sizes: &'static [usize],
    /// Whether all the root's offsets count from their fields.
    pub at_field: bool,
    /// Links from the root to any pieces, besides those of its family.
    pub more: usize,
    /// With pieces under the root by which the plain order does not fit.
    pub outlying: bool,
    /// The first piece, which has no links, is as long as it takes to hold so
    /// many bytes in all.
    pub bytes: usize,
}

pub const WIDE: &[u32] = &[3, 4];
pub const MIXED: &[u32] = &[2, 3, 4];
/// So few of width 2 that what they lead to has room near the root.
pub const FEW_NARROW: &[u32] = &[2, 3, 3, 3, 3, 3, 3, 3, 3, 3, 3, 3, 3, 3, 3, 3, 3, 3, 4, 4];

impl Kind {
    /// Small pieces.
    pub const fn small(family: Family, widths: &'static [u32]) -> Kind {
        Kind {
            family,
            fanout: 4,
            root: widths,
            others: widths,
            sizes: &[2, 9, 20],
            at_field: false,
            more: 0,
            outlying: false,
            bytes: 0,
        }
    }

    /// Pieces of about a thousand bytes, that together fill the longest store.
    pub const fn long(family: Family, widths: &'static [u32]) -> Kind {
        Kind {
            sizes: &[800, 980, 1_120],
            bytes: LONGEST,
            ..Kind::small(family, widths)
        }
    }

    pub const fn outlying(self) -> Kind {
        Kind {
            outlying: true,
            ..self
        }
    }

    /// A graph of so many pieces and at least so many links; the last piece is
    /// its root.
    pub fn graph(&self, pieces: usize, links: usize, numbers: &mut Numbers) -> Graph {
        let make = Make {
            pieces: if self.outlying { pieces - 2 } else { pieces },
            fanout: self.fanout,
            widths: self.others,
            sizes: self.sizes,
        };
        let mut graph = make.graph(self.family, numbers);
        let mut root = graph.pop().expect("a graph has pieces");
        let narrow = usize::from(self.outlying);
        let below = graph.len();
        // Widths of the root's are chosen below.
        let any = |_| Link::any(0, numbers.below(below), numbers);
        root.links.extend((0..self.more).map(any));
        if self.outlying {
            graph.extend([leaf(b'l', 70_000), leaf(b's', 7)]);
            root.links.insert(0, Link::new(0, below));
        }
        graph.push(root);
        shapes::thicken(&mut graph, links - narrow, self.others, numbers);
        let root = &mut graph[pieces - 1];
        for link in &mut root.links {
            link.width = numbers.one_of(self.root);
            link.part = if self.at_field { PARTS } else { link.part };
        }
        if self.outlying {
            root.links.push(Link::new(2, below + 1));
        }
        let rest = self.bytes.saturating_sub(shapes::bytes(&graph));
        let first = &mut graph[0].bytes;
        first.resize(first.len() + rest, numbers.next() as u8);
        graph
    }
}

fn leaf(byte: u8, size: usize) -> Piece {
    Piece {
        links: Vec::new(),
        bytes: vec![byte; size],
        links_first: true,
    }
}
