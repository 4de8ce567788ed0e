//! One graph written twice, each time by other calls and into other stores: the
//! same root gives the same table, or is refused for the same field and offset.

use crate::graphs::{make, Batch};
use compare::by_id::{shown, Reached};
use compare::decided::{self, Order};
use compare::groups::Groups;
use compare::proved::Proved;
use compare::shapes::{self, Family, Graph, Make, Piece, FAMILIES};
use compare::sharing::{Sharing, SHARINGS};
use compare::writing::Besides;
use compare::written::{hold_the_same, Packer, Two, Written};
use compare::{seed, Numbers};
use reference::call::Stores;
use reference::orders;
use reference::Answer;
use std::collections::HashSet;
use std::hash::Hash;

#[derive(Debug, Default)]
struct Seen {
    pairs: usize,
    calls: usize,
    packs: usize,
    /// Pairs of other limits and other store lengths.
    other_room: usize,
    /// Pieces written again, and others, in all sessions.
    besides: Besides,
    /// Pairs by the order that decides without copies: plain, distance, spaces.
    by_order: [usize; 3],
    /// Pairs that the order by spaces packs without copies.
    by_spaces: usize,
    /// Pairs with a table that has copies; the most copies.
    copied: usize,
    most_copies: u64,
    /// Pairs with a refusal, and refusals that name two ids.
    refused: usize,
    two_ids: usize,
    /// Pairs with two links of one piece to one child; with a leaf under two
    /// pieces; with two pieces of one size; with equal keys in the order that
    /// decides, if it is not the plain one.
    doubled: usize,
    shared_leaf: usize,
    one_size: usize,
    one_key: usize,
    /// Pairs that show a packer which goes by id: for those that one parent makes
    /// ready, for equal keys, for the numbers of the spaces.
    shown: [usize; 3],
}

/// Whether two of these are equal.
fn meet<T: Hash + Eq>(mut items: impl Iterator<Item = T>) -> bool {
    let mut met = HashSet::new();
    items.any(|item| !met.insert(item))
}

impl Seen {
    /// What the graph is like below its root, by one session.
    fn add_shape(&mut self, reached: &Reached, order: usize) {
        let nodes = &reached.graph.nodes;
        let below = orders::plain(&reached.graph, reached.root).order;
        let children = |id: usize| nodes[id].links.iter().map(|link| link.child);
        let doubled = below.iter().any(|&id| meet(children(id)));
        let parents = below.iter().flat_map(|&id| {
            let own: HashSet<usize> = children(id).collect();
            own.into_iter().filter(|&id| nodes[id].links.is_empty())
        });
        self.doubled += usize::from(doubled);
        self.shared_leaf += usize::from(meet(parents));
        self.one_size += usize::from(meet(below.iter().map(|&id| nodes[id].size)));
        if order > 0 {
            let keys = reached.keys(order);
            self.one_key += usize::from(meet(below.iter().map(|&id| keys[id])));
        }
    }

    /// Which packers that go by id this pair shows.
    fn add_shown<P: Packer>(&mut self, two: &Two<P>, reached: &[Reached; 2], order: usize) {
        let [one, other] = reached.each_ref().map(|reached| reached.by_id(order));
        for (count, placings) in self.shown.iter_mut().zip(one.iter().zip(&other)) {
            if let (Some(a), Some(b)) = placings {
                let a = shown(a, &reached[0].graph, &two[0]);
                let b = shown(b, &reached[1].graph, &two[1]);
                *count += usize::from(a != b);
            }
        }
    }

    /// Gives whether the order by spaces decides.
    fn add_pair<P: Packer>(&mut self, two: &Two<P>, root: usize) -> bool {
        let reached = two.each_ref().map(|written| Reached::of(written, root));
        let (order, fits) = reached[0].decided();
        self.pairs += 1;
        self.by_order[order] += 1;
        self.by_spaces += usize::from(order == 2 && fits);
        for written in two {
            self.calls += written.calls;
            self.besides += written.besides;
        }
        let [one, other] = two.each_ref().map(|written| written.room);
        let other_limits = one.pieces != other.pieces && one.links != other.links;
        self.other_room += usize::from(other_limits && one.store != other.store);
        self.add_shape(&reached[0], order);
        self.add_shown(two, &reached, order);
        order == 2
    }

    /// One of so many graphs has shown enough.
    fn suffice(&self, share: usize) {
        let Besides {
            again,
            closed,
            dropped,
        } = self.besides;
        let [by_turns, by_ties, by_spaces] = self.shown;
        for (count, floor) in [
            (self.pairs, 2_000),
            (self.other_room, 1_500),
            (self.by_order[1], 200),
            (self.by_order[2], self.pairs * share / 3),
            (self.by_spaces, 300),
            (self.copied, 150),
            (self.refused, 300),
            (self.two_ids, 600),
            (again.min(closed).min(dropped), 2_000),
            (self.doubled.min(self.shared_leaf), 700),
            (self.one_size, 1_000),
            (self.one_key, 400),
            (by_turns.min(by_ties).min(by_spaces), 200),
        ] {
            assert!(count * share >= floor, "{count} of {floor} / {share}");
        }
    }
}

/// Packs both with so many copies allowed, and gives what the first told.
fn pack<P: Packer>(
    two: &mut Two<P>,
    root: usize,
    copies: u32,
    numbers: &mut Numbers,
    seen: &mut Seen,
) -> Answer {
    let [(a, table), (b, other_table)] = two
        .each_mut()
        .map(|written| written.pack(root, copies, numbers));
    let told = |answer: &Answer| {
        let Answer { number, length, .. } = *answer;
        let table = [number, length, answer.copies, answer.placed];
        (table, answer.field, answer.needed)
    };
    assert_eq!(told(&a), told(&b), "{copies} copies allowed");
    assert!(table == other_table, "{copies} copies allowed");
    assert!(a.number == 0 || a.number == 11);
    if a.number == 11 {
        let [one, other] = [(&two[0], a), (&two[1], b)]
            .map(|(written, answer)| written.piece(answer.parent as usize));
        assert_eq!(one, other, "the parent of the field");
        seen.two_ids += usize::from(a.parent != b.parent);
    }
    seen.packs += 1;
    a
}

/// Writes a graph twice, and packs its root from both.
fn compare<P: Packer>(graph: &Graph, root: usize, numbers: &mut Numbers, seen: &mut Seen) {
    let graph: Graph = graph.iter().map(Piece::cut).collect();
    let mut two: Two<P> = [(); 2].map(|()| Written::new(&graph, numbers));
    hold_the_same(&graph, &two);
    let mut allowed = vec![0];
    if seen.add_pair(&two, root) {
        allowed.extend([1, 2 + numbers.below(40) as u32]);
    }
    if graph.len() < 16 && numbers.below(4) == 0 {
        allowed.push(1_024);
    }
    let mut told = Vec::new();
    for copies in allowed {
        told.push(pack(&mut two, root, copies, numbers, seen));
    }
    let most = told.iter().map(|answer| answer.copies).max().unwrap_or(0);
    seen.copied += usize::from(most > 0);
    seen.most_copies = seen.most_copies.max(most);
    seen.refused += usize::from(told.iter().any(|answer| answer.number == 11));
}

const fn batch(
    turns: usize,
    families: &'static [Family],
    (least, more): (usize, usize),
    make: Make,
) -> Batch {
    Batch {
        turns,
        families,
        least,
        more,
        make,
    }
}

/// Widths of links that hold a group together, but for a few.
const HOLDING: &[u32] = &[2, 2, 2, 2, 3, 4];

const GROUPED: &[Family] = &[
    Family::Grouped(Groups::Parted),
    Family::Grouped(Groups::Nested),
    Family::Grouped(Groups::Bridged),
    Family::Grouped(Groups::Zigzags),
];

/// Of few sizes, so that many are equal.
const BATCHES: [Batch; 6] = [
    batch(360, &FAMILIES, (2, 20), make(4, &[2, 2, 3, 4], &[2, 9, 9])),
    batch(30, &FAMILIES, (60, 60), make(3, &[2, 3, 4], &[2, 9, 900])),
    // A large leaf among small ones.
    batch(
        300,
        &[Family::Fan],
        (4, 8),
        make(3, &[2, 2, 3], &[2, 10, 10, 65_440]),
    ),
    batch(480, GROUPED, (9, 8), make(3, HOLDING, &[2, 10, 30_000])),
    batch(
        240,
        &[Family::Grouped(Groups::Ladders)],
        (9, 8),
        make(2, HOLDING, &[10, 30_000]),
    ),
    // Most links part.
    batch(
        300,
        &[Family::Shared, Family::Lattice, Family::Near],
        (8, 8),
        make(2, &[2, 3, 4, 4, 4], &[2, 10, 33_000]),
    ),
];

/// A graph and its root.
type Made<'a> = dyn FnMut(&Graph, usize, &mut Numbers) + 'a;

/// Graphs of the batches, one of so many, some with more links to one child.
fn of_batches(share: usize, numbers: &mut Numbers, made: &mut Made) {
    for batch in &BATCHES {
        let turns = batch.turns / share;
        Batch { turns, ..*batch }.each(numbers, |graph, numbers| {
            let mut graph = graph.clone();
            if numbers.below(3) == 0 && shapes::links(&graph) > 0 {
                let links = shapes::links(&graph) + numbers.below(4);
                shapes::thicken(&mut graph, links, &[2, 4], numbers);
            }
            made(&graph, graph.len() - 1, numbers);
        });
    }
}

/// Graphs that the second or the third order packs, many with equal keys.
fn of_two_orders(share: usize, numbers: &mut Numbers, made: &mut Made) {
    for turn in 0..600 / share {
        let order = [Order::Distance, Order::Spaces, Order::Spaces][turn % 3];
        let family = numbers.one_of(&[Family::Fan, Family::Shared, Family::Lattice]);
        let pieces = 12 + numbers.below(16);
        let links = pieces + numbers.below(24);
        let graph = decided::graph(order, family, pieces, links, numbers);
        made(&graph, graph.len() - 1, numbers);
    }
}

/// Graphs that need copies.
fn of_sharing(share: usize, numbers: &mut Numbers, made: &mut Made) {
    for turn in 0..560 / share {
        let sharing = SHARINGS[turn % SHARINGS.len()];
        let count = match (sharing, numbers.below(40)) {
            (Sharing::Again, _) => 1 + numbers.below(2),
            (_, 0) => 12 + numbers.below(20),
            _ => 2 + numbers.below(3),
        };
        let (graph, root) = sharing.graph(count, numbers);
        made(&graph, root, numbers);
    }
}

/// One of so many graphs.
fn run<P: Packer>(name: &str, share: usize) {
    let mut numbers = seed::numbers(name);
    let mut seen = Seen::default();
    for graphs in [of_batches, of_two_orders, of_sharing] {
        graphs(share, &mut numbers, &mut |graph, root, numbers| {
            compare::<P>(graph, root, numbers, &mut seen)
        });
    }
    println!("{name}: {seen:?}");
    seen.suffice(share);
}

#[test]
fn same_root_same_bytes() {
    run::<Proved>("same root", 1);
}

#[test]
fn same_root_same_bytes_by_the_reference() {
    run::<Stores>("same root by the reference", 12);
}
