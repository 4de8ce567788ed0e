//! Named graphs, given by sizes and links.

use crate::graph::{Graph, Link, Node};

pub struct Named {
    pub name: &'static str,
    pub graph: Graph,
    pub root: usize,
}

/// A piece by its size and its links' places, widths and children; all offsets
/// count from the piece's first byte.
type Given<'a> = (u64, &'a [(u64, u64, usize)]);

/// The last piece is the root.
fn named(name: &'static str, pieces: &[Given]) -> Named {
    let node = |&(size, links): &Given| Node {
        size,
        links: links
            .iter()
            .map(|&(place, width, child)| Link {
                place,
                width,
                inner: 0,
                child,
            })
            .collect(),
    };
    Named {
        name,
        graph: Graph {
            nodes: pieces.iter().map(node).collect(),
        },
        root: pieces.len() - 1,
    }
}

pub fn all() -> Vec<Named> {
    let two_leaves: &[(u64, u64, usize)] = &[(0, 2, 0), (2, 2, 1)];
    vec![
        // x, y, root.
        named(
            "5",
            &[(1, &[]), (2, &[(0, 2, 0)]), (4, &[(0, 2, 0), (2, 2, 1)])],
        ),
        named("11", &[(65_531, &[]), (10, &[]), (4, two_leaves)]),
        named("12", &[(65_532, &[]), (10, &[]), (4, two_leaves)]),
        named("13", &[(65_532, &[]), (65_532, &[]), (4, two_leaves)]),
        // f, g, d, e, b, c, a.
        named(
            "14",
            &[
                (1, &[]),
                (1, &[]),
                (40_000, &[(0, 2, 0)]),
                (40_000, &[(0, 2, 1)]),
                (2, &[(0, 2, 2)]),
                (2, &[(0, 2, 3)]),
                (8, &[(0, 4, 4), (4, 4, 5)]),
            ],
        ),
        // x, y, root.
        named(
            "links x y x",
            &[(1, &[]), (1, &[]), (6, &[(0, 2, 0), (2, 2, 1), (4, 2, 0)])],
        ),
        // x, the unreached parent, root.
        named(
            "unreached parent",
            &[(1, &[]), (3, &[(1, 2, 0)]), (2, &[(0, 2, 0)])],
        ),
        // x, y, a linking x, b linking y, root.
        named(
            "equal distances ids along",
            &[
                (65_531, &[]),
                (65_530, &[]),
                (5, &[(3, 2, 0)]),
                (6, &[(4, 2, 1)]),
                (4, &[(0, 2, 2), (2, 2, 3)]),
            ],
        ),
        // y, x, a linking x, b linking y, root.
        named(
            "equal distances ids other way round",
            &[
                (65_530, &[]),
                (65_531, &[]),
                (5, &[(3, 2, 1)]),
                (6, &[(4, 2, 0)]),
                (4, &[(0, 2, 2), (2, 2, 3)]),
            ],
        ),
        // y, x, z, m linking y, root linking z, m and x twice.
        named(
            "lighter link second",
            &[
                (1, &[]),
                (3, &[]),
                (65_530, &[]),
                (10, &[(6, 4, 0)]),
                (10, &[(0, 2, 2), (2, 2, 3), (4, 4, 1), (8, 2, 1)]),
            ],
        ),
        named(
            "lighter link first",
            &[
                (1, &[]),
                (3, &[]),
                (65_530, &[]),
                (10, &[(6, 4, 0)]),
                (10, &[(0, 2, 2), (2, 2, 3), (4, 2, 1), (6, 4, 1)]),
            ],
        ),
        // x, y, a linking x, b linking y, root.
        named(
            "different ready times",
            &[
                (65_540, &[]),
                (65_541, &[]),
                (6, &[(4, 2, 0)]),
                (5, &[(3, 2, 1)]),
                (4, &[(0, 2, 2), (2, 2, 3)]),
            ],
        ),
        // x by width 3, y by width 2.
        named(
            "width 3 weighs more than width 2",
            &[(1, &[]), (10, &[]), (5, &[(0, 3, 0), (3, 2, 1)])],
        ),
        // y by width 4, x by width 3.
        named(
            "width 3 weighs less than width 4",
            &[(10, &[]), (1, &[]), (7, &[(0, 4, 1), (4, 3, 0)])],
        ),
        // x, w, a linking x by width 4, b linking x and w, root linking a, b.
        named(
            "least of two paths",
            &[
                (7, &[]),
                (9, &[]),
                (5, &[(1, 4, 0)]),
                (5, &[(1, 2, 1), (3, 2, 0)]),
                (4, &[(0, 2, 2), (2, 2, 3)]),
            ],
        ),
        // three pieces with a leaf each, and the root.
        named(
            "spaces by distance",
            &[
                (1, &[]),
                (40_000, &[(0, 2, 0)]),
                (1, &[]),
                (30_000, &[(0, 2, 2)]),
                (1, &[]),
                (50_000, &[(0, 2, 4)]),
                (12, &[(0, 4, 5), (4, 4, 1), (8, 4, 3)]),
            ],
        ),
        // a leaf, two pieces linking it, root linking all.
        named(
            "child in space 0",
            &[
                (10, &[]),
                (40_000, &[(0, 2, 0)]),
                (40_000, &[(0, 2, 0)]),
                (10, &[(0, 2, 0), (2, 4, 1), (6, 4, 2)]),
            ],
        ),
        // a leaf, two pieces linking it, root linking those.
        named(
            "shared child",
            &[
                (1, &[]),
                (3, &[(0, 2, 0)]),
                (2, &[(0, 2, 0)]),
                (8, &[(0, 4, 2), (4, 4, 1)]),
            ],
        ),
    ]
}
