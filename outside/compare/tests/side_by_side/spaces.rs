//! Graphs that fall into spaces: some are packed by the third order, and some
//! refused by it.

use crate::graphs::{compare, compare_made, make, report, Batch, Seen};
use compare::groups::Groups;
use compare::largest::{Kind, PIECES};
use compare::seed;
use compare::shapes::{Family, Graph, Link, Piece};

/// Widths of links that hold a group together, but for a few.
const HOLDING: &[u32] = &[2, 2, 2, 2, 3, 3, 4];

/// Few pieces of these fit behind one another.
const SIZES: &[usize] = &[2, 10, 16_000, 22_000, 30_000];

const fn batch(groups: &'static [Family], fanout: usize, least: usize) -> Batch {
    Batch {
        turns: 400,
        families: groups,
        least,
        more: 12,
        make: make(fanout, HOLDING, SIZES),
    }
}

pub const BATCHES: [Batch; 6] = [
    batch(&[Family::Grouped(Groups::Parted)], 3, 9),
    batch(&[Family::Grouped(Groups::Nested)], 3, 14),
    batch(&[Family::Grouped(Groups::Bridged)], 3, 9),
    batch(&[Family::Grouped(Groups::Ladders)], 2, 9),
    batch(&[Family::Grouped(Groups::Zigzags)], 5, 9),
    // Most links part.
    Batch {
        turns: 600,
        families: &[Family::Shared, Family::Lattice, Family::Near, Family::Any],
        least: 9,
        more: 12,
        make: make(2, &[2, 3, 4, 4, 4, 4, 4], SIZES),
    },
];

/// One graph in eight is built by calls.
#[test]
fn graphs_that_fall_into_spaces() {
    let mut numbers = seed::numbers("spaces");
    let mut sum = [0; 2];
    for batch in &BATCHES {
        let mut seen = Seen::default();
        batch.each(&mut numbers, |graph, numbers| match seen.graphs % 8 {
            0 => compare(graph, numbers, &mut seen),
            _ => compare_made(graph, numbers, &mut seen),
        });
        println!("{:?}: {}", batch.families, told(&seen));
        report(&seen);
        assert!(seen.by_spaces.iter().all(|&count| count >= 10));
        add(&mut sum, &seen);
    }
    assert!(sum.iter().all(|&count| count >= 200), "{sum:?}");
}

fn told(seen: &Seen) -> String {
    let [packed, refused] = seen.by_spaces;
    format!("{packed} packed by the order by spaces, {refused} refused")
}

fn add(sum: &mut [usize; 2], seen: &Seen) {
    for (sum, count) in sum.iter_mut().zip(seen.by_spaces) {
        *sum += count;
    }
}

/// Widths of links that join, and with a few that do not.
const JOINING: &[u32] = &[2, 2, 2, 3];
const TIGHT: &[u32] = &[2, 2, 2, 2, 2, 2, 2, 2, 2, 2, 2, 2, 3, 3, 3, 3, 3, 3, 3, 4];

const fn kind(
    groups: Groups,
    fanout: usize,
    others: &'static [u32],
    sizes: &'static [usize],
) -> Kind {
    Kind {
        fanout,
        root: &[4],
        sizes,
        ..Kind::small(Family::Grouped(groups), others)
    }
}

/// The first two are one space, but for the leaf.
const LARGEST: [Kind; 10] = [
    kind(Groups::Zigzags, PIECES, JOINING, &[2]),
    kind(Groups::Zigzags, PIECES, JOINING, &[9]),
    kind(Groups::Zigzags, 200, JOINING, &[2, 9, 20]),
    kind(Groups::Zigzags, 200, TIGHT, &[2, 9, 20]),
    kind(Groups::Parted, 3, JOINING, &[2, 9, 20]),
    kind(Groups::Parted, 3, TIGHT, &[2, 9, 20]),
    kind(Groups::Nested, 6, JOINING, &[2, 9, 20]),
    kind(Groups::Nested, 6, TIGHT, &[2, 9, 20]),
    kind(Groups::Bridged, 6, TIGHT, &[2, 9, 20]),
    kind(Groups::Ladders, 8, TIGHT, &[60, 90, 200]),
];

#[test]
fn graphs_of_all_pieces_that_fall_into_spaces() {
    let mut numbers = seed::numbers("largest spaces");
    let mut sum = [0; 2];
    for kind in LARGEST {
        let mut seen = Seen::default();
        let mut graph = kind.graph(PIECES - 1, 0, &mut numbers);
        hang_leaf(60_000, &mut graph);
        compare_made(&graph, &mut numbers, &mut seen);
        println!("{PIECES} pieces, {:?}: {}", kind.family, told(&seen));
        assert_eq!(seen.most.0, PIECES);
        add(&mut sum, &seen);
    }
    assert!(sum.iter().all(|&count| count >= 3), "{sum:?}");
}

/// One more leaf below the root. In the first two orders it lies between the
/// pieces that the root links and theirs.
fn hang_leaf(size: usize, graph: &mut Graph) {
    let mut root = graph.pop().expect("a graph has pieces");
    root.links.push(Link::new(4, graph.len()));
    graph.push(Piece {
        links: Vec::new(),
        bytes: vec![0xff; size],
        links_first: true,
    });
    graph.push(root);
}
