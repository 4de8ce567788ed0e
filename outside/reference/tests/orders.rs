//! The three orders, against hand counts and against the plain definitions.

mod common;

use common::slow::{any_graph, overflow, parted_graph, slow_distances};
use common::slow::{slow_order, slow_overflow, slow_spaces};
use common::Numbers;
use reference::graph::{Graph, Link, Node};
use reference::graphs;
use reference::orders::{by_distance, by_spaces, offset, plain, Placing};
use reference::spaces;

fn named(name: &str) -> (Graph, usize) {
    let all = graphs::all();
    let found = all.into_iter().find(|named| named.name == name).unwrap();
    (found.graph, found.root)
}

fn both(name: &str) -> (Graph, Placing, Placing) {
    let (graph, root) = named(name);
    let (first, second) = (plain(&graph, root), by_distance(&graph, root));
    (graph, first, second)
}

#[test]
fn a_child_waits_for_all_its_parents() {
    let (_, first, second) = both("5");
    assert_eq!(first.order, [2, 1, 0]);
    assert_eq!(first.places, [0, 4, 6]);
    assert_eq!(first, second);
}

#[test]
fn ready_at_the_last_field() {
    let (_, first, second) = both("links x y x");
    assert_eq!(first.order, [2, 1, 0]);
    assert_eq!(second.order, [2, 1, 0]);
}

#[test]
fn only_reached_parents_count() {
    let (_, first, second) = both("unreached parent");
    assert_eq!(first.order, [2, 0]);
    assert_eq!(first.places, [0, 2]);
    assert_eq!(first, second);
}

#[test]
fn the_65_535_boundary() {
    let (graph, first, _) = both("11");
    assert_eq!(first.places, [0, 4, 65_535]);
    assert_eq!(first.overflow(&graph), None);
    let (graph, first, second) = both("12");
    assert_eq!(first.overflow(&graph), overflow(2, 2, 65_536));
    assert_eq!(second.order, [2, 1, 0]);
    assert_eq!(second.places, [0, 4, 14]);
    assert_eq!(second.overflow(&graph), None);
    let (graph, first, second) = both("13");
    assert_eq!(first, second);
    assert_eq!(second.overflow(&graph), overflow(2, 2, 65_536));
}

#[test]
fn case_14_in_all_orders() {
    let (graph, first, second) = both("14");
    assert_eq!(first.order, [6, 4, 5, 2, 3, 0, 1]);
    assert_eq!(first, second);
    assert_eq!(first.overflow(&graph), overflow(2, 0, 80_000));
    let third = by_spaces(&graph, 6);
    assert_eq!(third.order, [6, 4, 2, 0, 5, 3, 1]);
    assert_eq!(third.overflow(&graph), None);
}

#[test]
fn spaces_are_numbered_by_the_distance_order() {
    let (graph, _, second) = both("spaces by distance");
    assert_eq!(second.overflow(&graph), overflow(3, 0, 120_000));
    assert_eq!(
        spaces::numbers(&graph, &second.order),
        [2, 2, 1, 1, 3, 3, 0]
    );
    let third = by_spaces(&graph, 6);
    assert_eq!(third.order, [6, 3, 2, 1, 0, 5, 4]);
    assert_eq!(third.overflow(&graph), None);
}

#[test]
fn a_child_in_space_0_joins_nothing() {
    let (graph, _, second) = both("child in space 0");
    assert_eq!(spaces::numbers(&graph, &second.order), [0, 1, 2, 0]);
    let third = by_spaces(&graph, 3);
    assert_eq!(third.overflow(&graph), overflow(3, 0, 80_010));
    let (graph, _, second) = both("shared child");
    assert_eq!(spaces::numbers(&graph, &second.order), [1, 1, 1, 0]);
}

#[test]
fn equal_distances_by_longest_ready_and_not_by_id() {
    let (_, first, second) = both("equal distances ids along");
    assert_eq!(first.order, [4, 2, 3, 0, 1]);
    assert_eq!(first, second);
    let (_, first, second) = both("equal distances ids other way round");
    assert_eq!(first.order, [4, 2, 3, 1, 0]);
    assert_eq!(first, second);
}

#[test]
fn the_lighter_of_two_links_counts() {
    for name in ["lighter link second", "lighter link first"] {
        let (graph, first, second) = both(name);
        assert_eq!(first.order, [4, 2, 3, 1, 0]);
        assert_eq!(first.overflow(&graph), overflow(4, 2, 65_540));
        assert_eq!(second.order, [4, 1, 3, 2, 0]);
        assert_eq!(second.overflow(&graph), None);
        assert_eq!(graph.distances(4)[1], Some(65_539));
    }
}

#[test]
fn the_least_of_two_paths_counts() {
    let (graph, first, second) = both("least of two paths");
    assert_eq!(graph.distances(4)[0], Some(65_541 + 65_543));
    assert_eq!(first.order, [4, 2, 3, 1, 0]);
    assert_eq!(second.order, [4, 2, 3, 0, 1]);
}

#[test]
fn each_order_has_its_own_ready_times() {
    let (graph, first, second) = both("different ready times");
    let distances = graph.distances(4);
    assert_eq!(distances[0], distances[1]);
    assert_eq!(first.order, [4, 2, 3, 0, 1]);
    assert_eq!(second.order, [4, 3, 2, 1, 0]);
    assert_eq!(first.overflow(&graph), overflow(3, 3, 65_545));
    assert_eq!(second.overflow(&graph), overflow(2, 4, 65_547));
}

#[test]
fn distances_pass_32_bits() {
    let link = |child| Link {
        place: 0,
        width: 4,
        inner: 0,
        child,
    };
    let leaf = Node {
        size: 7,
        links: vec![],
    };
    let parent = |child| Node {
        size: 4,
        links: vec![link(child)],
    };
    let graph = Graph {
        nodes: vec![leaf, parent(0), parent(1)],
    };
    let width_4 = 4_294_967_296;
    let expected = [Some(2 * width_4 + 11), Some(width_4 + 4), Some(0)];
    assert_eq!(graph.distances(2), expected);
}

#[test]
fn all_orders_agree_with_the_definitions() {
    let mut numbers = Numbers::new(1);
    let (mut differing, mut parted, mut unfit, mut by_inner) = (0, 0, 0, 0);
    for turn in 0..6_000 {
        let graph = match turn % 3 {
            0 => parted_graph(&mut numbers),
            _ => any_graph(&mut numbers),
        };
        let root = graph.nodes.len() - 1;
        let distances = slow_distances(&graph, root);
        assert_eq!(graph.distances(root), distances);
        let first = plain(&graph, root);
        let second = by_distance(&graph, root);
        assert_eq!(first.order, slow_order(&graph, root, |_| 0));
        let rank = |id: usize| distances[id].unwrap();
        assert_eq!(second.order, slow_order(&graph, root, rank));
        let spaces = slow_spaces(&graph, &second.order);
        assert_eq!(spaces::numbers(&graph, &second.order), spaces);
        let third = by_spaces(&graph, root);
        let rank = |id: usize| distances[id].unwrap() + spaces[id] * 4_294_967_296;
        assert_eq!(third.order, slow_order(&graph, root, rank));
        parted += usize::from(second.order != third.order);
        let placed: u64 = first.order.iter().map(|&id| graph.nodes[id].size).sum();
        assert_eq!(first.length(&graph), placed);
        differing += usize::from(first.order != second.order);
        for placing in [first, second, third] {
            let expected = slow_overflow(&graph, &placing.order, |link| link.inner);
            assert_eq!(placing.overflow(&graph), expected);
            let without = slow_overflow(&graph, &placing.order, |_| 0);
            unfit += usize::from(expected.is_some());
            by_inner += usize::from(expected != without);
        }
    }
    assert!(differing > 500);
    assert!(unfit > 500 && by_inner > 200, "{unfit} {by_inner}");
    assert!(parted > 200, "{parted}");
}

#[test]
fn sixteen_thousand_pieces_are_placed() {
    let count = 16_000;
    let mut numbers = Numbers::new(2);
    let mut nodes: Vec<Node> = (0..count)
        .map(|id| {
            let children = if id == 0 { 0 } else { 1 + numbers.below(2) };
            let links = (0..children).map(|field| Link {
                place: 2 * field as u64,
                width: 2,
                inner: 0,
                child: numbers.below(id),
            });
            let links = links.collect();
            Node { size: 8, links }
        })
        .collect();
    nodes.push(Node {
        size: 4 * count as u64,
        links: (0..count)
            .map(|child| Link {
                place: 4 * child as u64,
                width: 4,
                inner: 4 * child as u64,
                child,
            })
            .collect(),
    });
    let graph = Graph { nodes };
    let placings = [
        plain(&graph, count),
        by_distance(&graph, count),
        by_spaces(&graph, count),
    ];
    for placing in placings {
        let mut ids = placing.order.clone();
        ids.sort_unstable();
        assert!(ids.into_iter().eq(0..=count));
        let place_of = placing.by_id(count + 1);
        for (id, node) in graph.nodes.iter().enumerate() {
            // Also past the inner start, so that an offset is never below 0.
            assert!(node.links.iter().all(|l| offset(&place_of, id, l) > 0));
        }
    }
}
