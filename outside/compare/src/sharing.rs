//! Graphs that need copies, and some that not even copies cure.

use crate::shapes::{shuffled, Graph, Link, Piece, PARTS};
use reference::random::Numbers;

/// The first three are the shapes of HarfBuzz's repacker tests: a leaf under two
/// subgraphs, a chain that is copied piece by piece, and 16-bit subgraphs isolated.
#[derive(Clone, Copy, Debug, PartialEq, Eq)]
pub enum Sharing {
    /// A leaf under the root and under long pieces.
    Leaf,
    /// The same with a chain of pieces, which is copied from its top on.
    Chain,
    /// A leaf under a subgraph of narrow links and under others behind wide ones.
    Isolated,
    /// Long pieces with several links to one leaf.
    Doubled,
    /// Pieces that alone link a leaf, twice.
    Twice,
    /// Copies lead to more copies, of which some are made of copies.
    Again,
    /// Pieces that link any of those before them.
    Any,
}

pub const SHARINGS: [Sharing; 7] = [
    Sharing::Leaf,
    Sharing::Chain,
    Sharing::Isolated,
    Sharing::Doubled,
    Sharing::Twice,
    Sharing::Again,
    Sharing::Any,
];

/// Of these, two or three are more than a field of width 2 reaches over.
const LONG: &[usize] = &[24_000, 33_000, 40_000, 55_000];

impl Sharing {
    /// A graph with so many pieces, or groups of pieces, that share something, and
    /// its root.
    pub fn graph(self, count: usize, numbers: &mut Numbers) -> (Graph, usize) {
        let mut made = Made {
            graph: Vec::new(),
            numbers,
        };
        let mut root = match self {
            Sharing::Leaf => {
                let leaf = made.small(&[]);
                made.under_long(leaf, count, &[2])
            }
            Sharing::Chain => {
                let top = made.chain();
                made.under_long(top, count, &[2])
            }
            Sharing::Isolated => made.isolated(count),
            Sharing::Doubled => {
                let leaf = made.small(&[]);
                made.under_long(leaf, count, &[2, 2, 2, 3, 4])
            }
            Sharing::Twice => made.twice(count),
            Sharing::Again => made.again(count),
            Sharing::Any => made.any(6 * count),
        };
        if self != Sharing::Again && made.numbers.below(4) == 0 {
            made.blocked(&mut root);
        }
        if made.numbers.below(3) == 0 {
            made.apart();
        }
        let bytes = 2 + made.numbers.below(9);
        let root = made.add(bytes, &root);
        if made.numbers.below(4) == 0 {
            made.apart();
        }
        (made.graph, root)
    }
}

/// A graph in the making.
struct Made<'a> {
    graph: Graph,
    numbers: &'a mut Numbers,
}

impl Made<'_> {
    /// A piece of so many bytes besides its fields, at least two, which tell it
    /// from all others; gives its number.
    fn add(&mut self, bytes: usize, links: &[Link]) -> usize {
        let id = self.graph.len();
        let mut own = (id as u16).to_be_bytes().to_vec();
        own.resize(bytes.max(2), b'a');
        self.graph.push(Piece {
            links: links.to_vec(),
            bytes: own,
            links_first: self.numbers.below(2) == 0,
        });
        id
    }

    fn small(&mut self, links: &[Link]) -> usize {
        let bytes = self.numbers.one_of(&[2, 3, 10, 900]);
        self.add(bytes, links)
    }

    fn long(&mut self, links: &[Link]) -> usize {
        let bytes = self.numbers.one_of(LONG);
        self.add(bytes, links)
    }

    fn link(&mut self, width: u32, child: usize) -> Link {
        Link::any(width, child, self.numbers)
    }

    /// Pieces that each link the one before; gives the last.
    fn chain(&mut self) -> usize {
        let mut top = self.small(&[]);
        for _ in 0..1 + self.numbers.below(3) {
            let link = self.link(2, top);
            top = self.small(&[link]);
        }
        top
    }

    /// Long pieces with links of these widths to one piece, one link if there is
    /// one width; gives the links of a root over all.
    fn under_long(&mut self, shared: usize, count: usize, widths: &[u32]) -> Vec<Link> {
        let mut root = Vec::new();
        // Without this link the long pieces are one space.
        if self.numbers.below(4) > 0 {
            root.push(self.link(2, shared));
        }
        for _ in 0..count {
            let fields = match widths.len() {
                1 => 1,
                _ => 1 + self.numbers.below(3),
            };
            let mut links = Vec::new();
            for _ in 0..fields {
                let width = self.numbers.one_of(widths);
                links.push(self.link(width, shared));
            }
            let long = self.long(&links);
            root.push(self.link(4, long));
        }
        root
    }

    /// s and t are under a, which the root links by width 2, and under a long
    /// piece of each subgraph that the root links by width 4; t is under s too.
    fn isolated(&mut self, count: usize) -> Vec<Link> {
        let t = self.small(&[]);
        let to_t = self.link(2, t);
        let s = self.small(&[to_t]);
        let both = [self.link(2, s), self.link(2, t)];
        let a = self.small(&both);
        let mut root = vec![self.link(2, a)];
        for _ in 0..count {
            let (to_s, to_t) = (self.link(2, s), self.link(3, t));
            let long = match self.numbers.below(3) {
                0 => self.long(&[to_s, to_t]),
                _ => self.long(&[to_s]),
            };
            let to_long = self.link(2, long);
            let top = self.small(&[to_long]);
            root.push(self.link(4, top));
        }
        root
    }

    /// Pieces with two leaves of one size. The one that has two links is ready last,
    /// and too far for the first of them; its copy is ready first.
    fn twice(&mut self, count: usize) -> Vec<Link> {
        let mut root = Vec::new();
        for _ in 0..count {
            let bytes = self.numbers.one_of(&[20_000, 33_000, 34_000, 36_000]);
            let [x, y] = [self.add(bytes, &[]), self.add(bytes, &[])];
            let header = self.numbers.one_of(&[28_000, 32_000, 32_500]);
            let part = self.numbers.one_of(&[0, PARTS, PARTS, PARTS]);
            let links = [
                Link::new(2, x),
                Link::new(2, y).with_part(part),
                self.link(4, x),
            ];
            let piece = self.add(header, &links);
            self.graph[piece].links_first = false;
            root.push(self.link(4, piece));
        }
        root
    }

    /// Groups one behind the other. In each the copy of w lies between a and y, so
    /// y is copied; that copy lies between p and x, so x is copied; and the copy of
    /// x shares the copy of w, which is too far from it.
    fn again(&mut self, count: usize) -> Vec<Link> {
        let first = self.add(2, &[]);
        let mut root = vec![Link::new(4, first)];
        // The last group comes first, as children do.
        let mut next = None;
        for _ in 0..count {
            let (w, y) = (self.about(5_000), self.about(5_000));
            let z = self.add(10, &[&[Link::new(4, w)][..], next.as_slice()].concat());
            let f = self.add(64_000, &[Link::new(4, z)]);
            let b = self.add(1_000, &[Link::new(4, y), Link::new(4, f)]);
            let x = self.add(2_000, &[Link::new(2, w)]);
            let bytes = 59_900 + self.numbers.below(200);
            let a = self.add(bytes, &[Link::new(4, x), Link::new(2, y), Link::new(4, b)]);
            let p = self.add(1_000, &[Link::new(2, x), Link::new(4, a)]);
            root.extend([Link::new(3, w), Link::new(3, y)]);
            next = Some(Link::new(4, p));
        }
        root.extend(next);
        root
    }

    /// A leaf of about so many bytes.
    fn about(&mut self, bytes: usize) -> usize {
        let bytes = bytes - 100 + self.numbers.below(200);
        self.add(bytes, &[])
    }

    /// Any pieces over any others, and a root over a third of them.
    fn any(&mut self, count: usize) -> Vec<Link> {
        let (narrow, sizes): (&[u32], &[usize]) = match self.numbers.below(3) {
            0 => (&[2], &[10, 10_000, 20_000, 30_000]),
            1 => (&[2, 2, 3, 4], &[10, 10, 5_000, 8_000]),
            _ => (&[2, 4], &[10, 100, 1_000, 40_000]),
        };
        for id in 0..count {
            let fields = if id == 0 { 0 } else { self.numbers.below(4) };
            let mut links = Vec::new();
            for _ in 0..fields {
                let child = id - 1 - self.numbers.below(id.min(12));
                let width = self.numbers.one_of(narrow);
                links.push(self.link(width, child));
            }
            let bytes = self.numbers.one_of(sizes);
            self.add(bytes, &links);
        }
        let mut root = Vec::new();
        for child in shuffled(0..count, self.numbers) {
            let width = self.numbers.one_of(&[0, 0, 0, 0, 2, 4, 4]);
            if width > 0 {
                root.push(self.link(width, child));
            }
        }
        root
    }

    /// A piece that the root does not reach, with links to pieces that it does.
    fn apart(&mut self) {
        let below = self.graph.len();
        let last = below.saturating_sub(4)..below;
        let any = (0..4).map(|_| self.numbers.below(below));
        let children: Vec<usize> = any.chain(last).collect();
        let links: Vec<Link> = children.iter().map(|&id| Link::new(4, id)).collect();
        self.small(&links);
    }

    /// Two long leaves under one more piece, of which its second field cannot
    /// reach the other: no copy cures that.
    fn blocked(&mut self, root: &mut Vec<Link>) {
        let leaves = [self.add(40_000, &[]), self.add(40_000, &[])];
        let piece = self.add(30_000, &leaves.map(|leaf| Link::new(2, leaf)));
        root.push(Link::new(4, piece));
    }
}
