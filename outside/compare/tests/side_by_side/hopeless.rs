//! Pieces that no order can pack: refused by close while they are open, and
//! not sound once they are closed.

use crate::graphs::make;
use crate::tampered::Seen;
use compare::largest::{Kind, LINKS, MIXED, PIECES};
use compare::made::Room;
use compare::shapes::{self, Family, Graph, Make};
use compare::{seed, tamper, Checked, Numbers, Pair};
use reference::call::{Call, Stores};
use reference::limits;
use reference::lines::script;
use reference::random::allowed_inner;
use reference::view::View;

/// To id 0.
fn link(width: u32, inner: usize) -> Call {
    Call::Link {
        width,
        id: 0,
        inner: inner as u32,
    }
}

fn fill(length: usize) -> Call {
    Call::Put(vec![0; length])
}

fn tells(session: &mut Checked, call: Call, number: u64, numbers: &mut Numbers) {
    let told = session.run(&call, numbers).answer.number;
    assert_eq!(told, number, "{}", script(&call));
}

/// A leaf, and an open piece of so many bytes with three fields behind a header.
/// All their offsets count from its end, but that of the field `first` from
/// this much before.
fn with_three_fields(size: usize, header: usize, first: usize, before: usize) -> Vec<Call> {
    let inner = |field| header - if field == first { before } else { 0 };
    let mut calls = vec![
        Call::Open,
        Call::Put(b"x".to_vec()),
        Call::Close,
        Call::Open,
        fill(header),
    ];
    calls.extend((0..3).map(|field| link(2, inner(field))));
    calls.push(fill(size - header - 6));
    calls
}

/// The words of a link record of the piece.
fn record(stores: &Stores, closed: bool, field: usize) -> usize {
    let view = View::framed(&stores.bytes, &stores.records).expect("framed");
    let piece = if closed {
        view.closed_piece(1)
    } else {
        view.open_piece(0)
    };
    view.layout.link(piece.links.start + field)
}

/// What a tally tells when a word of the records is changed.
fn changed(stores: &Stores, word: usize, value: u32, numbers: &mut Numbers) -> u64 {
    let mut tried = stores.clone();
    tried.records[word] = value;
    Pair::of(tried).run(&Call::Tally, numbers).answer.number
}

#[test]
fn every_field_is_looked_at_to_the_byte() {
    let mut numbers = seed::numbers("hopeless pieces");
    for header in [1, 10, 5_000, 70_000] {
        for first in 0..3 {
            let before = numbers.below(header + 1);
            let most = header - before + 65_535;
            let room = Room {
                pieces: 2,
                links: 3,
                store: most + 2 + numbers.below(9),
            };
            let mut session = Checked::started(room, &mut numbers);
            for call in with_three_fields(most, header, first, before) {
                tells(&mut session, call, 0, &mut numbers);
            }
            let open = session.pair.reference.clone();
            let inner = record(&open, false, first) + 2;
            let start = (header - before) as u32;
            for lower in [start, 0, start.saturating_sub(1)] {
                assert_eq!(changed(&open, inner, lower, &mut numbers), 0);
            }
            tells(&mut session, Call::Close, 0, &mut numbers);
            let closed = session.pair.reference.clone();
            let inner = record(&closed, true, first) + 2;
            assert_eq!(closed.records[inner], start);
            for lower in (0..start).rev().take(3).chain((0..start).take(1)) {
                assert_eq!(changed(&closed, inner, lower, &mut numbers), 12);
            }
            // The piece with a byte more, of those that are free.
            let begin = closed.records[133 + 2];
            assert_eq!(changed(&closed, 133 + 2, begin - 1, &mut numbers), 12);
            session.pack(1, 0, &mut numbers);

            let mut session = Checked::started(room, &mut numbers);
            for call in with_three_fields(most, header, first, before) {
                tells(&mut session, call, 0, &mut numbers);
            }
            tells(&mut session, fill(1), 0, &mut numbers);
            tells(&mut session, Call::Close, 16, &mut numbers);
            tells(&mut session, Call::Close, 16, &mut numbers);
            tells(&mut session, Call::Drop, 0, &mut numbers);
            tells(&mut session, Call::Close, 1, &mut numbers);
        }
    }
}

/// Graphs of few pieces, many of them as long as they can be.
fn at_the_edge(turn: usize, numbers: &mut Numbers) -> Graph {
    let make = Make {
        pieces: 2 + numbers.below(3),
        ..make(2, &[2, 2, 2, 2, 3], &[2, 65_533, 65_540, 65_540, 65_540])
    };
    let family = [Family::Chain, Family::Near][turn % 2];
    let graph = make.graph(family, numbers);
    // Zeros, so that a field that is moved may stand on some.
    let cut = |mut piece: shapes::Piece| {
        piece.bytes[2..].fill(0);
        piece.cut()
    };
    graph.into_iter().map(cut).collect()
}

/// Sound stores of such a graph, with a hopeless piece open or none.
fn stores(graph: &Graph, opened: bool, numbers: &mut Numbers) -> Stores {
    let room = Room {
        pieces: graph.len() as u32 + 1,
        links: shapes::links(graph) as u32 + 2,
        store: shapes::bytes(graph) + 65_600,
    };
    let mut session = Checked::made(graph, room, numbers);
    if opened {
        tells(&mut session, Call::Open, 0, numbers);
        tells(&mut session, link(2, 0), 0, numbers);
        tells(&mut session, fill(65_534), 0, numbers);
        tells(&mut session, Call::Close, 16, numbers);
    }
    session.pair.reference
}

fn any_call(stores: &Stores, numbers: &mut Numbers) -> Call {
    let (pieces, links) = (stores.records[0], 9);
    match numbers.below(8) {
        0 => Call::Start { pieces, links: 0 },
        1 => Call::Open,
        2 => fill(numbers.below(40)),
        3 => link(2, allowed_inner(9, numbers)),
        4 => Call::Close,
        5 => Call::Drop,
        6 => Call::Tally,
        _ => Call::Pack {
            id: numbers.below(pieces as usize) as u32,
            copies: numbers.below(3) as u32,
            output: stores.bytes.len(),
            work: limits::work_need(pieces.into(), links, 2) as usize + 40,
        },
    }
}

#[test]
fn damaged_closed_pieces_at_the_edge() {
    let mut numbers = seed::numbers("damaged at the edge");
    let mut seen = Seen::default();
    for turn in 0..400 {
        let graph = at_the_edge(turn, &mut numbers);
        let opened = numbers.below(2) == 0;
        let stores = stores(&graph, opened, &mut numbers);
        for _ in 0..12 {
            let mut damaged = stores.clone();
            tamper::a_closed_piece(&mut damaged, &mut numbers);
            let mut pair = Pair::of(damaged);
            for _ in 0..=numbers.below(3) {
                let call = any_call(&stores, &mut numbers);
                seen.run(&mut pair, &call, &mut numbers);
            }
        }
    }
    let Seen {
        hopeless,
        unsound,
        sound,
        ..
    } = seen;
    println!("  each call on stores unsound by a hopeless piece alone: {hopeless:?}");
    println!("  on all unsound ones: {unsound:?}, on sound ones: {sound:?}");
    for counts in [hopeless, unsound, sound] {
        assert!(counts.iter().all(|&count| count >= 20));
    }
}

#[test]
fn hopeless_when_all_pieces_are_closed() {
    let mut numbers = seed::numbers("hopeless and full");
    let graph = Kind::small(Family::Lattice, MIXED).graph(PIECES, LINKS - 9, &mut numbers);
    let room = Room {
        pieces: PIECES as u32,
        links: LINKS as u32,
        store: shapes::bytes(&graph) + 70_000,
    };
    let mut session = Checked::made(&graph, room, &mut numbers);
    let calls = [
        (Call::Open, 0),
        (Call::Close, 5),
        (fill(9), 0),
        (link(2, 4), 0),
        (link(3, 0), 0),
        (Call::Close, 8),
        (fill(65_525), 0),
        (Call::Close, 8),
        (fill(1), 0),
        (Call::Close, 16),
        (Call::Tally, 0),
        (Call::Drop, 0),
        (Call::Close, 1),
    ];
    for (call, number) in calls {
        tells(&mut session, call, number, &mut numbers);
    }
    assert_eq!(session.pair.told[16], 1);
}
