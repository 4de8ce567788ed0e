//! Pieces that differ in inner starts alone, and the same ones again.

use crate::graphs::{build, make};
use compare::made::Room;
use compare::met::Met;
use compare::shapes::{self, Family, Graph, Make, Piece, PARTS};
use compare::{seed, Checked, Numbers};
use reference::answer::NUMBERS;
use reference::call::Call;
use reference::Answer;

/// The same piece with some of its inner starts chosen anew.
fn other_inner_starts(piece: &Piece, numbers: &mut Numbers) -> Piece {
    let mut other = piece.clone();
    for link in &mut other.links {
        if numbers.below(2) == 0 {
            link.part = numbers.one_of(&[0, PARTS / 2, PARTS]);
        }
    }
    other
}

/// A session with the graph's pieces closed, and room for some more.
fn begin(graph: &Graph, numbers: &mut Numbers) -> (Checked, Vec<u32>) {
    let room = Room {
        pieces: (graph.len() + 2 + numbers.below(20)) as u32,
        links: (shapes::links(graph) + 90) as u32,
        store: shapes::bytes(graph) + 800,
    };
    let mut session = Checked::started(room, numbers);
    let ids = build(graph, &mut session, numbers);
    (session, ids)
}

#[test]
fn pieces_that_differ_in_inner_starts_alone() {
    let mut numbers = seed::numbers("pieces apart");
    let (mut met, mut again, mut told) = (Met::default(), 0, [0; NUMBERS]);
    for _ in 0..300 {
        let make = Make {
            pieces: 2 + numbers.below(4),
            ..make(3, &[2, 3, 4], &[2, 3, 20])
        };
        let graph = make.graph(Family::Near, &mut numbers);
        let (mut session, ids) = begin(&graph, &mut numbers);
        for _ in 0..40 {
            let piece = &graph[1 + numbers.below(graph.len() - 1)];
            let piece = other_inner_starts(piece, &mut numbers);
            let closed = session.claims.history.tally().objects;
            let mut last = Answer::default();
            for call in shapes::calls(&piece, &ids) {
                last = session.run(&call, &mut numbers).answer;
            }
            if last.number == 8 {
                session.run(&Call::Drop, &mut numbers);
            } else {
                again += usize::from(last.id < closed);
            }
        }
        for id in 0..session.claims.history.tally().objects {
            assert_eq!(session.pack(id as u32, 0, &mut numbers).answer.number, 0);
        }
        met += session.claims.met;
        for (sum, count) in told.iter_mut().zip(session.pair.told) {
            *sum += count;
        }
    }
    println!("  {again} of them closed again, 8 told {} times", told[8]);
    assert!(met.least() >= 20 && met.apart >= 1_000);
    assert!(again >= 1_000 && told[8] >= 300);
}
