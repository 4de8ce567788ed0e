//! As many pieces and links as the limits allow, in stores made without calls.

use crate::graphs::{packs, report, Seen};
use compare::largest::{Kind, FEW_NARROW, LINKS, LONGEST, MIXED, PIECES, WIDE};
use compare::made::Room;
use compare::shapes::{self, Family};
use compare::{seed, Checked};
use reference::call::Call;

/// Packs a graph of each kind, with so many links.
fn compare(name: &str, kinds: &[(Kind, usize)]) -> Seen {
    let mut numbers = seed::numbers(name);
    let (mut seen, mut inner_starts) = (Seen::default(), 0);
    let ids: Vec<u32> = (0..PIECES as u32).collect();
    for (kind, links) in kinds {
        let graph = kind.graph(PIECES, *links, &mut numbers);
        let room = Room {
            pieces: PIECES as u32,
            links: LINKS as u32,
            store: shapes::bytes(&graph),
        };
        let mut session = Checked::made(&graph, room, &mut numbers);
        let tally = session.run(&Call::Tally, &mut numbers).answer;
        assert_eq!((tally.objects, tally.links), (PIECES as u64, *links as u64));
        inner_starts += shapes::inner_starts(&graph);
        packs(&graph, &ids, &mut session, &mut numbers, &mut seen);
    }
    report(&seen);
    let tables = seen.met.packed;
    println!("  {inner_starts} inner starts above 0, {tables} tables with some");
    assert!(inner_starts >= kinds.len() * PIECES / 2 && tables >= kinds.len() / 2);
    assert_eq!(seen.most, (PIECES, LINKS));
    // Where no order fits, too short an output is not told.
    assert_eq!(seen.told[10], kinds.len() - seen.by_spaces[1]);
    seen
}

#[test]
fn chains_and_lattices_of_all_pieces_and_links() {
    let seen = compare(
        "largest chains and lattices",
        &[
            (Kind::small(Family::Chain, MIXED), LINKS),
            (Kind::small(Family::Chain, WIDE).outlying(), LINKS),
            (Kind::long(Family::Chain, MIXED), LINKS),
            (Kind::small(Family::Lattice, MIXED), LINKS),
            (Kind::small(Family::Lattice, WIDE).outlying(), LINKS),
            (Kind::long(Family::Lattice, WIDE).outlying(), LINKS),
            (Kind::long(Family::Lattice, MIXED), LINKS),
        ],
    );
    assert!(seen.told[11] >= 1 && seen.by_order[1] + seen.by_order[2] >= 3);
    assert_eq!(seen.longest, LONGEST as u64);
}

#[test]
fn fans_and_shared_leaves_of_all_pieces_and_links() {
    let short = Kind {
        root: FEW_NARROW,
        bytes: LONGEST,
        ..Kind::small(Family::Fan, WIDE)
    };
    // The last leaf lies 98,296 bytes behind the root's first one.
    let from_fields = Kind {
        sizes: &[4],
        at_field: true,
        ..Kind::small(Family::Fan, &[2])
    };
    let seen = compare(
        "largest fans and shared leaves",
        &[
            (from_fields, PIECES - 1),
            (Kind::long(Family::Fan, WIDE), LINKS),
            (short, PIECES - 1),
            (Kind::long(Family::Shared, WIDE).outlying(), LINKS),
            (
                Kind {
                    family: Family::Shared,
                    ..short
                },
                LINKS,
            ),
            (Kind::small(Family::Shared, MIXED), LINKS),
        ],
    );
    assert!(seen.told[11] >= 1 && seen.by_order[1] + seen.by_order[2] >= 3 && seen.by_inner >= 1);
    assert_eq!(seen.longest, LONGEST as u64);
}

#[test]
fn random_graphs_of_all_pieces_and_links() {
    let spread = |kind| Kind {
        more: 9_000,
        ..kind
    };
    let seen = compare(
        "largest random graphs",
        &[
            (Kind::small(Family::Near, MIXED), LINKS),
            (Kind::small(Family::Near, WIDE).outlying(), LINKS),
            (Kind::long(Family::Near, WIDE).outlying(), LINKS),
            (Kind::long(Family::Near, MIXED), LINKS),
            (Kind::small(Family::Any, MIXED), LINKS),
            (spread(Kind::small(Family::Any, WIDE)).outlying(), LINKS),
            (spread(Kind::long(Family::Any, WIDE)), LINKS),
            (spread(Kind::long(Family::Any, MIXED)), LINKS),
        ],
    );
    assert!(seen.told[11] >= 1 && seen.by_order[1] + seen.by_order[2] >= 3);
    assert!(seen.longest > 12 << 20);
}
