//! The plain packer, by which speed is measured, makes the reference's tables
//! and refusals.

use crate::graphs::{self, first_fit};
use crate::spaces;
use compare::decided::{self, ORDERS};
use compare::largest::{Kind, FEW_NARROW, LINKS, MIXED, PIECES, WIDE};
use compare::made::{self, Room};
use compare::shapes::{self, Family, Graph, Piece};
use compare::{seed, tamper, Numbers};
use plain::{Packed, Refusal};
use reference::answer::NUMBERS;
use reference::call::{Call, Stores, STALE_BYTE};
use reference::limits;
use reference::view::View;
use reference::Answer;

#[derive(Default)]
struct Seen {
    packs: usize,
    told: [usize; NUMBERS],
    /// Tables by the order that made them fit.
    by_order: [usize; 3],
}

/// What the plain packer told, without the tally.
fn told_by_plain(packed: Result<Packed, Refusal>) -> Answer {
    match packed {
        Ok(packed) => Answer {
            length: packed.length as u64,
            copies: packed.copies.into(),
            placed: packed.placed as u64,
            ..Answer::default()
        },
        Err(Refusal::NoFit(over)) => Answer {
            number: 11,
            parent: over.parent.into(),
            field: over.field.into(),
            needed: over.needed,
            ..Answer::default()
        },
        Err(refusal) => Answer::bare(refusal.number()),
    }
}

/// What a pack needs that allows so many copies, if the stores have a frame.
fn need(stores: &Stores, copies: u32) -> usize {
    let framed = View::framed(&stores.bytes, &stores.records);
    framed.map_or(0, |View { layout, .. }| {
        let (pieces, links) = (layout.pieces as u64, layout.links as u64);
        limits::work_need(pieces, links, copies.min(1_024).into()) as usize
    })
}

/// Packs with both, and gives what both tell, and the output.
pub fn agree(stores: &Stores, id: u32, copies: u32, length: usize) -> (Answer, Vec<u8>) {
    let Stores { bytes, records } = stores;
    let mut output = vec![STALE_BYTE; length];
    let mut output_of_plain = output.clone();
    let mut work = vec![0; need(stores, copies)];
    let answer = reference::pack(bytes, records, id, copies, &mut output, &mut work);
    let packed = plain::pack(bytes, records, id, copies, &mut output_of_plain);
    let without_tally = Answer {
        bytes: 0,
        links: 0,
        objects: 0,
        depth: 0,
        ..answer
    };
    assert_eq!(told_by_plain(packed), without_tally);
    assert!(output == output_of_plain);
    (answer, output)
}

/// Packs with both, now and then with copies, and gives the number if none were
/// made.
fn agree_in_turn(stores: &Stores, id: u32, length: usize, seen: &mut Seen) -> Option<u64> {
    seen.packs += 1;
    let copies = [0, 0, 2, 0, 40, 0, 1_025][seen.packs % 7];
    // Copies of all links of the largest graphs take much memory.
    let copies = if stores.records.len() > 100_000 {
        copies.min(2)
    } else {
        copies
    };
    let answer = agree(stores, id, copies, length).0;
    seen.told[answer.number as usize] += 1;
    (answer.copies == 0).then_some(answer.number)
}

/// Packs a graph's last piece, another one, one that is not there, and the last
/// one into an output that may be too short.
fn packs(graph: &Graph, stores: &Stores, numbers: &mut Numbers, seen: &mut Seen) {
    let (count, most) = (graph.len() as u32, stores.bytes.len());
    let any = numbers.below(graph.len()) as u32;
    for (id, length) in [
        (count - 1, most),
        (any, most),
        (count, most),
        (count - 1, numbers.below(most)),
    ] {
        if agree_in_turn(stores, id, length, seen) == Some(0) {
            seen.by_order[first_fit(stores, id)] += 1;
        }
    }
}

/// Makes the graphs of all batches, one after the other.
fn each_graph(numbers: &mut Numbers, mut made: impl FnMut(&Graph, &mut Numbers)) {
    for batch in graphs::BATCHES.iter().chain(&spaces::BATCHES) {
        batch.each(numbers, &mut made);
    }
}

/// Stores of the graph with room for a few calls more.
fn roomy(graph: &Graph, numbers: &mut Numbers) -> Stores {
    let room = Room {
        pieces: graph.len() as u32 + 1,
        links: shapes::links(graph) as u32 + 3,
        store: shapes::bytes(graph) + 8 + numbers.below(300),
    };
    made::stores(graph, room, numbers)
}

fn print(what: &str, seen: &Seen) {
    let Seen { told, by_order, .. } = seen;
    println!(
        "{what}: told 0: {}, 4: {}, 9: {}, 10: {}, 11: {}, 12: {}, 13: {}; by the three orders {by_order:?}",
        told[0], told[4], told[9], told[10], told[11], told[12], told[13]
    );
}

#[test]
fn plain_packs_many_graphs() {
    let mut numbers = seed::numbers("graphs by the plain packer");
    let mut seen = Seen::default();
    each_graph(&mut numbers, |graph, numbers| {
        let graph: Graph = graph.iter().map(Piece::cut).collect();
        let stores = roomy(&graph, numbers);
        packs(&graph, &stores, numbers, &mut seen);
    });
    print("small", &seen);
    assert!(seen.by_order[0] >= 2_000 && seen.by_order[1] >= 30 && seen.by_order[2] >= 200);
    assert!(seen.told[4] >= 1_000 && seen.told[10] >= 1_000 && seen.told[11] >= 200);
}

/// Packs a graph of as many pieces as the limits allow.
fn pack_large(graph: &Graph, numbers: &mut Numbers, seen: &mut Seen) {
    let room = Room {
        pieces: PIECES as u32,
        links: LINKS as u32,
        store: shapes::bytes(graph),
    };
    packs(graph, &made::stores(graph, room, numbers), numbers, seen);
}

#[test]
fn plain_packs_all_pieces_and_links() {
    let mut numbers = seed::numbers("largest graphs by the plain packer");
    let mut seen = Seen::default();
    for (kind, links) in [
        (Kind::small(Family::Chain, MIXED), LINKS),
        (Kind::small(Family::Fan, FEW_NARROW), PIECES - 1),
        (Kind::small(Family::Shared, MIXED), LINKS),
        (Kind::long(Family::Near, WIDE).outlying(), LINKS),
        (Kind::small(Family::Any, MIXED), LINKS),
    ] {
        let graph = kind.graph(PIECES, links, &mut numbers);
        pack_large(&graph, &mut numbers, &mut seen);
    }
    print("largest", &seen);
    assert!(seen.told[0] >= 5 && seen.told[11] >= 1);
}

#[test]
fn plain_packs_all_pieces_by_each_order() {
    let mut numbers = seed::numbers("orders by the plain packer");
    let mut seen = Seen::default();
    for order in ORDERS {
        for family in [Family::Chain, Family::Fan, Family::Shared, Family::Lattice] {
            let graph = decided::graph(order, family, PIECES, LINKS, &mut numbers);
            pack_large(&graph, &mut numbers, &mut seen);
        }
    }
    print("by order", &seen);
    assert!(seen.by_order.iter().all(|&tables| tables >= 4));
}

/// Opens pieces, of which the first may get bytes and a field.
fn open_some(stores: &mut Stores, numbers: &mut Numbers) {
    let (width, id, inner) = (2, 0, 0);
    let put = Call::Put(vec![7; 1 + numbers.below(4)]);
    for call in [Call::Open, put, Call::Link { width, id, inner }, Call::Open] {
        if numbers.below(4) > 0 {
            stores.run(&call);
        }
    }
}

/// A closed piece loses its bytes to the next one.
fn empty_one(stores: &mut Stores, pieces: usize, numbers: &mut Numbers) {
    let view = View::framed(&stores.bytes, &stores.records).expect("framed");
    let id = numbers.below(pieces);
    let [end, begin] = [id, id + 1].map(|entry| view.layout.closed_begin(entry));
    stores.records[begin] = stores.records[end];
}

#[test]
fn plain_refuses_damaged_stores() {
    let mut numbers = seed::numbers("damage under the plain packer");
    let mut seen = Seen::default();
    each_graph(&mut numbers, |graph, numbers| {
        if graph.len() > 40 || shapes::bytes(graph) > 200_000 {
            return;
        }
        let graph: Graph = graph.iter().map(Piece::cut).collect();
        let whole = roomy(&graph, numbers);
        for turn in 0..4 {
            let mut stores = whole.clone();
            if turn % 2 == 0 {
                open_some(&mut stores, numbers);
            }
            match numbers.below(6) {
                0 => {}
                1 => tamper::a_closed_piece(&mut stores, numbers),
                2 => drop(tamper::an_inner_start(&mut stores, numbers)),
                3 => empty_one(&mut stores, graph.len(), numbers),
                _ => tamper::damage(&mut stores, numbers),
            }
            let root = graph.len() as u32 - 1;
            agree_in_turn(&stores, root, whole.bytes.len(), &mut seen);
        }
    });
    print("damaged", &seen);
    assert!(seen.told[12] >= 1_000 && seen.told[9] >= 1_000 && seen.told[0] >= 1_000);
}
