//! Graphs of many shapes, built by calls on both packers, packed, and read
//! back by the reader.

use compare::made::Room;
use compare::met::Met;
use compare::pair::Counts;
use compare::shapes::{self, Family, Graph, Link, Make, Piece, FAMILIES, PARTS};
use compare::{seed, Checked, Numbers, Pair};
use reference::call::{Call, Stores};
use reference::graph::Graph as Drawn;
use reference::orders;
use reference::sound::sound;
use reference::Answer;

#[derive(Default)]
pub struct Seen {
    pub graphs: usize,
    pub calls: usize,
    pub told: Counts,
    pub most: (usize, usize),
    /// Tables by the order that made them fit: plain, distance, spaces.
    pub by_order: [usize; 3],
    /// Graphs whose whole table the order by spaces packs, and those whose whole
    /// table it refuses.
    pub by_spaces: [usize; 2],
    /// Refusals of an offset that is one too many for width 2.
    pub one_too_many: usize,
    /// Bytes of the longest table.
    pub longest: u64,
    /// Tables that the plain order fits by their inner starts alone.
    pub by_inner: usize,
    pub met: Met,
}

/// Room for the graph and little more.
fn room(graph: &Graph, numbers: &mut Numbers) -> Room {
    Room {
        pieces: graph.len() as u32,
        links: shapes::links(graph) as u32,
        store: shapes::bytes(graph) + numbers.below(3),
    }
}

/// Builds the graph, and gives the id of each of its pieces. One that is hopeless
/// is refused, and stands there cut.
pub fn build(graph: &Graph, session: &mut Checked, numbers: &mut Numbers) -> Vec<u32> {
    let mut ids = Vec::new();
    for piece in graph {
        let mut closed = write(piece, &ids, session, numbers);
        assert_eq!(closed.number == 16, piece.hopeless());
        if piece.hopeless() {
            session.run(&Call::Drop, numbers);
            closed = write(&piece.cut(), &ids, session, numbers);
        }
        assert_eq!(closed.number, 0);
        ids.push(closed.id as u32);
    }
    ids
}

/// Opens, fills and closes a piece, and gives what the close told.
fn write(piece: &Piece, ids: &[u32], session: &mut Checked, numbers: &mut Numbers) -> Answer {
    let mut last = Answer::default();
    for call in shapes::calls(piece, ids) {
        if numbers.below(32) == 0 {
            too_great(&call, session, numbers);
        }
        last = session.run(&call, numbers).answer;
    }
    last
}

/// The same link with an inner start just past its field is refused.
fn too_great(call: &Call, session: &mut Checked, numbers: &mut Numbers) {
    let (&Call::Link { width, id, .. }, Some(place)) =
        (call, session.claims.history.innermost_size())
    else {
        return;
    };
    let inner = place as u32 + 1;
    let told = session.run(&Call::Link { width, id, inner }, numbers);
    assert_eq!(told.answer.number, 3);
}

/// Whether the plain order fits, and whether it would if all offsets counted
/// from the first bytes of their pieces.
fn plain_fits(pair: &Pair, root: u32) -> (bool, bool) {
    let view = sound(&pair.reference.bytes, &pair.reference.records).expect("sound");
    let mut graph = Drawn::of(&view);
    let placing = orders::plain(&graph, root as usize);
    let fits = placing.overflow(&graph).is_none();
    for node in &mut graph.nodes {
        node.links.iter_mut().for_each(|link| link.inner = 0);
    }
    (fits, placing.overflow(&graph).is_none())
}

/// Which of the three orders is the first that fits.
pub fn first_fit(stores: &Stores, root: u32) -> usize {
    let view = sound(&stores.bytes, &stores.records).expect("sound");
    let graph = Drawn::of(&view);
    let all = [orders::plain, orders::by_distance, orders::by_spaces];
    let fits = |order: &fn(&Drawn, usize) -> _| {
        let placing: orders::Placing = order(&graph, root as usize);
        placing.overflow(&graph).is_none()
    };
    all.iter().position(fits).expect("one fits")
}

pub fn compare(graph: &Graph, numbers: &mut Numbers, seen: &mut Seen) {
    let mut session = Checked::started(room(graph, numbers), numbers);
    let ids = build(graph, &mut session, numbers);
    packs(graph, &ids, &mut session, numbers, seen);
}

/// The same of a session made without calls.
pub fn compare_made(graph: &Graph, numbers: &mut Numbers, seen: &mut Seen) {
    let mut session = Checked::made(graph, room(graph, numbers), numbers);
    let ids: Vec<u32> = (0..graph.len() as u32).collect();
    packs(graph, &ids, &mut session, numbers, seen);
}

/// Packs the last piece and any other, and the last into too short an output.
pub fn packs(
    graph: &Graph,
    ids: &[u32],
    session: &mut Checked,
    numbers: &mut Numbers,
    seen: &mut Seen,
) {
    let last = *ids.last().unwrap();
    match pack(last, 0, session, numbers, seen) {
        None => seen.by_spaces[1] += 1,
        Some(2) => seen.by_spaces[0] += 1,
        Some(_) => (),
    }
    pack(numbers.one_of(ids), 0, session, numbers, seen);
    pack(last, 1, session, numbers, seen);
    seen.graphs += 1;
    seen.met += session.claims.met;
    seen.calls += session.pair.told.iter().sum::<usize>();
    for (sum, count) in seen.told.iter_mut().zip(session.pair.told) {
        *sum += count;
    }
    seen.most = seen.most.max((graph.len(), shapes::links(graph)));
}

/// Packs a piece into so many bytes less than its table has, and gives the order
/// that fits.
fn pack(
    id: u32,
    less: usize,
    session: &mut Checked,
    numbers: &mut Numbers,
    seen: &mut Seen,
) -> Option<usize> {
    let answer = session.pack(id, less, numbers).answer;
    seen.one_too_many += usize::from(answer.needed == 65_536);
    seen.longest = seen.longest.max(answer.length);
    if answer.number != 0 {
        return None;
    }
    let order = first_fit(&session.pair.reference, id);
    seen.by_order[order] += 1;
    let (fits, without) = plain_fits(&session.pair, id);
    seen.by_inner += usize::from(fits && !without);
    Some(order)
}

/// Graphs of some families, with at least `least` pieces and fewer than `more`
/// more.
pub struct Batch {
    pub turns: usize,
    pub families: &'static [Family],
    pub least: usize,
    pub more: usize,
    pub make: Make,
}

impl Batch {
    /// Makes the graphs, one after the other.
    pub fn each(&self, numbers: &mut Numbers, mut made: impl FnMut(&Graph, &mut Numbers)) {
        for turn in 0..self.turns {
            let make = Make {
                pieces: self.least + numbers.below(self.more),
                ..self.make
            };
            let family = self.families[turn % self.families.len()];
            let graph = make.graph(family, numbers);
            made(&graph, numbers);
        }
    }
}

pub const BATCHES: [Batch; 5] = [
    Batch {
        turns: 1_400,
        families: &FAMILIES,
        least: 2,
        more: 40,
        make: make(4, &[2, 2, 3, 4], &[2, 3, 5, 9, 20]),
    },
    // Few pieces, of sizes about what a field of width 2 holds.
    Batch {
        turns: 400,
        families: &FAMILIES,
        least: 3,
        more: 4,
        make: make(
            3,
            &[2, 2, 2, 2, 3, 4],
            &[
                2, 3, 4, 10, 30_000, 65_526, 65_528, 65_529, 65_530, 65_532, 65_533, 65_534,
            ],
        ),
    },
    // One large leaf among small ones: placed last it fits.
    Batch {
        turns: 200,
        families: &[Family::Fan],
        least: 3,
        more: 4,
        make: make(3, &[2, 2, 2, 2, 3, 4], &[2, 4, 10, 10, 65_519, 65_525]),
    },
    // Two leaves, often both so large that the second is just too far.
    Batch {
        turns: 400,
        families: &[Family::Fan],
        least: 3,
        more: 1,
        make: make(2, &[2], &[2, 2, 65_529, 65_530, 65_530]),
    },
    // Many pieces whose table is longer than a field of width 2 reaches.
    Batch {
        turns: 40,
        families: &FAMILIES,
        least: 150,
        more: 150,
        make: make(2, &[2, 3, 3, 4, 4], &[4, 200, 300, 500, 900]),
    },
];

pub const fn make(fanout: usize, widths: &'static [u32], sizes: &'static [usize]) -> Make {
    Make {
        pieces: 0,
        fanout,
        widths,
        sizes,
    }
}

#[test]
fn many_graphs() {
    let mut numbers = seed::numbers("graphs");
    let mut seen = Seen::default();
    for batch in &BATCHES {
        batch.each(&mut numbers, |graph, numbers| {
            compare(graph, numbers, &mut seen)
        });
    }
    report(&seen);
    assert!(seen.graphs >= 2_000);
    assert!(seen.told[11] >= 200 && seen.told[10] >= 1_000 && seen.told[16] >= 50);
    assert!(seen.one_too_many >= 5);
    assert!(seen.by_order[1] >= 30);
    assert!(seen.met.least() >= 500 && seen.by_inner >= 20);
}

const MIXED: &[u32] = &[2, 3, 3, 4, 4];

/// As many calls as there is time for.
#[test]
fn large_regular_graphs() {
    large(
        "large regular graphs",
        &[
            (Family::Chain, &[2, 3, 4], &[2]),
            (Family::Lattice, MIXED, &[2, 9, 20]),
        ],
    );
}

#[test]
fn large_wide_graphs() {
    let seen = large(
        "large wide graphs",
        &[
            (Family::Fan, &[3, 4], &[2, 9]),
            (Family::Shared, MIXED, &[2, 9, 20]),
        ],
    );
    assert!(seen.told[11] >= 1);
}

type Kind = (Family, &'static [u32], &'static [usize]);

fn large(name: &str, kinds: &[Kind]) -> Seen {
    let mut numbers = seed::numbers(name);
    let mut seen = Seen::default();
    for &(family, widths, sizes) in kinds {
        let make = Make {
            pieces: 4_096,
            ..make(4, widths, sizes)
        };
        let graph = full(make.graph(family, &mut numbers));
        compare(&graph, &mut numbers, &mut seen);
    }
    report(&seen);
    assert_eq!(seen.most, (4_096, 16_384));
    assert!(seen.met.least() >= 1);
    seen
}

/// Links added to the root, or taken from it, until there are 16,384.
fn full(mut graph: Graph) -> Graph {
    let (root, more) = (
        graph.len() - 1,
        16_384_usize.checked_sub(shapes::links(&graph)),
    );
    match more {
        Some(more) => graph[root].links.extend((0..more).map(|k| {
            let link = Link::new(3 + k as u32 % 2, k % root);
            link.with_part(k % (PARTS + 1))
        })),
        None => {
            let less = shapes::links(&graph) - 16_384;
            let kept = graph[root].links.len() - less;
            graph[root].links.truncate(kept);
        }
    }
    graph
}

pub fn report(seen: &Seen) {
    let (pieces, links) = seen.most;
    println!(
        "{} graphs, {} calls, up to {pieces} pieces and {links} links, tables up to {} bytes",
        seen.graphs, seen.calls, seen.longest
    );
    println!(
        "  told 0: {}, 10: {}, 11: {}, 16: {}",
        seen.told[0], seen.told[10], seen.told[11], seen.told[16]
    );
    println!(
        "  tables by the plain order: {}, distances: {}, spaces: {}; by inner starts alone: {}; offsets of 65,536 refused: {}",
        seen.by_order[0], seen.by_order[1], seen.by_order[2], seen.by_inner, seen.one_too_many
    );
}
