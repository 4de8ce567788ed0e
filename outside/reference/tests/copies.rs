//! Copies that cure an overflow of the third order.

mod common;

use common::slow::{any_graph, parted_graph, slow_distances};
use common::slow::{slow_order, slow_overflow, slow_spaces};
use common::{told, Numbers, Session};
use reference::answer::Answer;
use reference::call::{Call, Stores};
use reference::cases::hand_counted_cases;
use reference::copies::{lay, Laid};
use reference::graph::{Graph, Link, Node};
use reference::orders::{by_distance, plain, Overflow};

/// A graph of pieces given by sizes and by their links' widths and children, with
/// the fields first. The last one is the root.
fn graph(pieces: &[(u64, &[(u64, usize)])]) -> Graph {
    let node = |&(size, links): &(u64, &[(u64, usize)])| {
        let mut next = 0;
        let links = links.iter().map(|&(width, child)| {
            next += width;
            Link {
                place: next - width,
                width,
                inner: 0,
                child,
            }
        });
        Node {
            size,
            links: links.collect(),
        }
    };
    Graph {
        nodes: pieces.iter().map(node).collect(),
    }
}

fn laid(pieces: &[(u64, &[(u64, usize)])], allowed: usize) -> Laid {
    lay(graph(pieces), pieces.len() - 1, allowed)
}

/// The parent, field place and offset of the link that does not fit.
fn unfit(laid: &Laid) -> Option<(usize, u64, u64)> {
    let unfit = laid.overflow;
    unfit.map(|unfit| (unfit.parent, unfit.field, unfit.needed))
}

/// Each node of the order by its original.
fn originals(laid: &Laid) -> Vec<usize> {
    let order = laid.placing.order.iter();
    order.map(|&node| laid.copies.original(node)).collect()
}

/// A leaf s, two pieces p and q that link it, and a root that links all.
const SHARED: [(u64, &[(u64, usize)]); 4] = [
    (10, &[]),
    (40_000, &[(2, 0)]),
    (40_000, &[(2, 0)]),
    (10, &[(2, 0), (4, 1), (4, 2)]),
];

#[test]
fn a_leaf_under_two_pieces() {
    assert_eq!(unfit(&laid(&SHARED, 0)), Some((3, 0, 80_010)));
    let one = laid(&SHARED, 1);
    assert_eq!((unfit(&one), one.copies.made()), (Some((1, 0, 80_000)), 1));
    for allowed in [2, 3, 1_024] {
        let cured = laid(&SHARED, allowed);
        assert_eq!((unfit(&cured), cured.copies.made()), (None, 2));
        assert_eq!(originals(&cured), [3, 0, 1, 0, 2, 0]);
        assert_eq!(cured.placing.places, [0, 10, 20, 40_020, 40_030, 80_030]);
        assert_eq!(cured.placing.length(&cured.graph), 80_040);
    }
}

#[test]
fn distances_are_found_anew() {
    let of = laid(
        &[
            (65_520, &[]),
            (65_520, &[]),
            (30_008, &[(4, 0), (2, 1), (2, 0)]),
        ],
        8,
    );
    assert_eq!((unfit(&of), of.copies.made()), (Some((2, 6, 95_528)), 1));
}

#[test]
fn two_links_of_one_parent_are_two() {
    let of = laid(
        &[
            (40_000, &[]),
            (40_000, &[]),
            (65_528, &[(2, 1), (2, 0), (4, 1)]),
        ],
        4,
    );
    assert_eq!((unfit(&of), of.copies.made()), (Some((2, 2, 105_528)), 1));
}

#[test]
fn a_chain_under_two_pieces_is_copied_from_its_top() {
    let long = 40_000;
    let cured = laid(
        &[
            (1, &[]),
            (2, &[(2, 0)]),
            (long, &[(2, 1)]),
            (long, &[(2, 1)]),
            (long, &[(2, 1)]),
            (14, &[(2, 1), (4, 2), (4, 3), (4, 4)]),
        ],
        9,
    );
    assert_eq!(unfit(&cured), None);
    assert_eq!(originals(&cured), [5, 1, 0, 2, 1, 0, 3, 1, 4, 1, 0]);
    assert_eq!((cured.copies.made(), cured.copies.of_copies()), (5, 0));
}

/// The copy of w lies between a and y, so y is copied; that copy lies between p
/// and x, so x is copied; and both lead to the copy of w, which is too far from
/// the first.
#[test]
fn a_copy_is_copied_and_named_by_its_original() {
    let [w, y, z, f, b, x, a, p, e, root] = [0, 1, 2, 3, 4, 5, 6, 7, 8, 9];
    let pieces: [(u64, &[(u64, usize)]); 10] = [
        (5_000, &[]),
        (5_000, &[]),
        (10, &[(4, w)]),
        (64_000, &[(4, z)]),
        (1_000, &[(4, y), (4, f)]),
        (2_000, &[(2, w)]),
        (60_000, &[(4, x), (2, y), (4, b)]),
        (1_000, &[(2, x), (4, a)]),
        (1, &[]),
        (14, &[(3, w), (3, y), (4, p), (4, e)]),
    ];
    // What is told when so many copies are spent.
    for (allowed, told) in [
        (0, (x, 0, 2_000 + 1_000 + 5_000 + 64_000 + 10)),
        (1, (a, 4, 60_000 + 2_000 + 5_000 + 1_000)),
        (2, (p, 0, 1_000 + 60_000 + 5_000)),
        // The field is that of the copy of x.
        (3, (x, 0, 2_000 + 60_000 + 5_000 + 2_000)),
    ] {
        let of = laid(&pieces, allowed);
        assert_eq!((unfit(&of), of.copies.made()), (Some(told), allowed));
    }
    let cured = laid(&pieces, 9);
    assert_eq!((unfit(&cured), cured.copies.made()), (None, 4));
    assert_eq!(cured.copies.of_copies(), 1);
    assert_eq!(
        originals(&cured),
        [root, e, p, x, w, a, y, x, w, b, y, f, z, w]
    );
}

/// A long leaf under the root and under pieces of 40,000 bytes, and a small one
/// under the last of them and, by this width, under the root.
fn long_leaf(leaf: u64, parents: usize, width: u64) -> Laid {
    let both: &[(u64, usize)] = &[(2, 0), (4, 1)];
    let mut pieces: Vec<(u64, &[(u64, usize)])> = vec![(leaf, &[]), (9, &[])];
    let mut root = vec![(2, 0), (width, 1)];
    for parent in 1..=parents {
        root.push((4, pieces.len()));
        let links = if parent < parents { 1 } else { 2 };
        pieces.push((40_000, &both[..links]));
    }
    pieces.push((4 * root.len() as u64, &root));
    laid(&pieces, 1_024)
}

#[test]
fn wider_fields_are_judged() {
    // The first copies are of the long leaf, for all but the last of its links.
    let fits = long_leaf(8_300_000, 2, 3);
    assert_eq!((unfit(&fits), fits.copies.made()), (None, 2));
    let cured = long_leaf(8_400_000, 2, 3);
    assert_eq!((unfit(&cured), cured.copies.made()), (None, 3));
    assert_eq!(
        cured.placing.length(&cured.graph),
        16 + 3 * 8_400_000 + 2 * 40_000 + 2 * 9
    );
    // With 267 copies before it the root cannot reach the small leaf. Its copy is
    // in its space, the last, and so no nearer.
    let far = long_leaf(16_000_000, 270, 4);
    let needed = 4 * 272 + 16_000_000 * (267 + 1) + 40_000 * 270;
    assert_eq!(unfit(&far), Some((272, 2, needed)));
    assert_eq!(far.copies.made(), 267 + 1);
}

#[test]
fn eleven_before_ten_and_ten_by_the_length_with_copies() {
    let mut session = Session::new(4, 5, 80_020);
    session.piece(&[1; 10], &[]);
    for byte in [2, 3] {
        session.open();
        session.link(2, 0);
        session.put(&vec![byte; 39_998]);
        session.close();
    }
    session.piece(&[], &[(2, 0), (4, 1), (4, 2)]);
    let held = [80_020, 5, 4, 0];
    let mut pack = |copies, output| session.pack_copying(3, copies, output).answer;
    for output in [0, 80_020, 80_040] {
        assert_eq!(pack(0, output).number, 11);
        let expected = Answer {
            parent: 1,
            needed: 80_000,
            ..told(11, held)
        };
        assert_eq!(pack(1, output), expected);
    }
    for output in [0, 80_020, 80_039] {
        assert_eq!(pack(2, output), told(10, held));
    }
    let expected = Answer {
        length: 80_040,
        copies: 2,
        placed: 6,
        ..told(0, held)
    };
    assert_eq!(pack(2, 80_040), expected);
    assert_eq!(pack(1_024, 80_041), expected);
}

/// What the packs of a case tell.
fn packs_of(name: &str) -> Vec<Answer> {
    let cases = hand_counted_cases();
    let case = cases.into_iter().find(|case| case.name == name).unwrap();
    let mut stores = Stores::new(case.store, case.records);
    let told = case
        .calls
        .iter()
        .map(|call| (call, stores.run(call).answer));
    let packs = told.filter(|(call, _)| matches!(call, Call::Pack { .. }));
    packs.map(|(_, answer)| answer).collect()
}

#[test]
fn cases_25_to_28() {
    let unfit = |name, tally, parent, field, needed| {
        let expected = Answer {
            parent,
            field,
            needed,
            ..told(11, tally)
        };
        assert_eq!(packs_of(name), [expected], "{name}");
    };
    let held = [80_020, 5, 4, 0];
    unfit("25 copies 0", held, 3, 0, 80_010);
    unfit("25 copies 1", held, 1, 0, 80_000);
    unfit("26", [161_048, 3, 3, 0], 2, 6, 95_528);
    unfit("27", [145_528, 3, 3, 0], 2, 2, 105_528);
    let packed = Answer {
        length: 80_040,
        copies: 2,
        placed: 6,
        ..told(0, held)
    };
    assert_eq!(packs_of("25 copies 2"), [packed]);
    let refused = packs_of("28")[..3].to_vec();
    assert_eq!(refused, [Answer::bare(13); 3]);
    assert!(packs_of("28")[3..].iter().all(|told| told.length == 1));
}

#[test]
fn more_than_1_024_copies() {
    let mut session = Session::new(1, 0, 1);
    session.piece(b"x", &[]);
    assert_eq!(session.need(1_024), 11 * 1_025 + 1_024);
    assert_eq!(session.pack_copying(0, 1_024, 1).answer.length, 1);
    for copies in [1_025, u32::MAX] {
        // More than either needs by any count that wraps.
        let work = 20_000;
        let call = Call::Pack {
            id: 0,
            copies,
            output: 1,
            work,
        };
        assert_eq!(session.run(call), Answer::bare(13));
    }
    for work in [11, session.need(1_024) - 1] {
        let call = Call::Pack {
            id: 0,
            copies: 1_024,
            output: 1,
            work,
        };
        assert_eq!(session.run(call), Answer::bare(13));
    }
}

#[test]
fn no_copies_where_one_of_the_first_orders_fits() {
    let mut session = Session::new(3, 3, 20);
    session.piece(b"x", &[]);
    session.piece(&[], &[(2, 0)]);
    session.piece(&[], &[(2, 0), (2, 1)]);
    let packed = session.pack_copying(2, 9, 7);
    let told = packed.answer;
    assert_eq!((told.length, told.copies, told.placed), (7, 0, 3));
    assert_eq!(packed.output, [0, 6, 0, 4, 0, 2, b'x']);
}

/// All by the definitions, with counts made anew: the order, what does not fit
/// and the nodes that copies are made of.
fn slow_lay(
    mut graph: Graph,
    root: usize,
    allowed: usize,
) -> (Graph, Vec<usize>, Option<Overflow>) {
    let mut spaces = slow_spaces(&graph, &by_distance(&graph, root).order);
    loop {
        let distances = slow_distances(&graph, root);
        let rank = |node: usize| distances[node].unwrap() + spaces[node] * 4_294_967_296;
        let order = slow_order(&graph, root, rank);
        let unfit = slow_overflow(&graph, &order, |link| link.inner);
        let Some(link) = unfit else {
            return (graph, order, None);
        };
        let led = |link: &&Link| link.place == unfit.unwrap().field;
        let child = graph.nodes[link.parent]
            .links
            .iter()
            .find(led)
            .unwrap()
            .child;
        let links = order.iter().flat_map(|&node| &graph.nodes[node].links);
        let incoming = links.filter(|link| link.child == child).count();
        if incoming == 1 || spaces.len() - root - 1 == allowed {
            return (graph, order, unfit);
        }
        let copy = graph.nodes.len();
        let own = graph.nodes[child].clone();
        graph.nodes.push(own);
        spaces.push(spaces[child]);
        for field in &mut graph.nodes[link.parent].links {
            if field.place == link.field {
                field.child = copy;
            }
        }
    }
}

#[test]
fn copies_agree_with_the_definitions() {
    let mut numbers = Numbers::new(3);
    let (mut cured, mut refused) = (0, 0);
    for turn in 0..4_000 {
        let graph = match turn % 2 {
            0 => parted_graph(&mut numbers),
            _ => any_graph(&mut numbers),
        };
        let root = graph.nodes.len() - 1;
        let first_two = [plain(&graph, root), by_distance(&graph, root)];
        if first_two.iter().any(|p| p.overflow(&graph).is_none()) {
            continue;
        }
        let allowed = numbers.one_of(&[0, 1, 2, 5, 12]);
        let of = lay(graph.clone(), root, allowed);
        let (with_copies, order, unfit) = slow_lay(graph, root, allowed);
        assert_eq!((&of.graph, &of.placing.order), (&with_copies, &order));
        let named = unfit.map(|unfit| Overflow {
            parent: of.copies.original(unfit.parent),
            ..unfit
        });
        assert_eq!(of.overflow, named);
        if of.copies.made() > 0 {
            cured += usize::from(unfit.is_none());
            refused += usize::from(unfit.is_some());
        }
    }
    println!("{cured} cured, {refused} refused with copies");
    assert!(cured > 50 && refused > 200);
}
