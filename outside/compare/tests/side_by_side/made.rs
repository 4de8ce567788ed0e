//! Sessions made without calls are those that the calls make.

use crate::graphs::{build, make};
use compare::made::{self, Room};
use compare::met::Met;
use compare::shapes::{self, Make, FAMILIES};
use compare::{seed, Checked};
use reference::call::{Call, Stores};
use reference::reading::same;

/// The words that say something while nothing is open.
fn said(stores: &Stores) -> Vec<u32> {
    let words = &stores.records;
    let (p, closed) = (words[0] as usize, words[1] as usize);
    let (l, lowest) = (words[134 + p] as usize, words[134 + p + closed] as usize);
    let record = |number: usize| 135 + 2 * p + 4 * number;
    [
        &words[0..=3],
        &words[68..=68],
        &words[133..=133 + closed],
        &words[134 + p..=134 + p + closed],
        &words[record(lowest)..record(l)],
    ]
    .concat()
}

#[test]
fn made_sessions_are_as_the_calls_make_them() {
    let mut numbers = seed::numbers("made sessions");
    let (mut calls, mut without) = (Met::default(), Met::default());
    for turn in 0..400 {
        let make = Make {
            pieces: 2 + numbers.below(40),
            ..make(4, &[2, 2, 3, 4], &[2, 3, 5, 9, 20, 300])
        };
        let mut graph = make.graph(FAMILIES[turn % FAMILIES.len()], &mut numbers);
        if shapes::links(&graph) > 0 {
            let more = shapes::links(&graph) + numbers.below(9);
            shapes::thicken(&mut graph, more, &[2, 3, 4], &mut numbers);
        }
        let room = Room {
            pieces: (graph.len() + numbers.below(4)) as u32,
            links: (shapes::links(&graph) + numbers.below(4)) as u32,
            store: shapes::bytes(&graph) + numbers.below(40),
        };
        let mut built = Checked::started(room, &mut numbers);
        let ids = build(&graph, &mut built, &mut numbers);
        assert!(ids.iter().copied().eq(0..graph.len() as u32));
        let stores = made::stores(&graph, room, &mut numbers);
        assert!(stores.bytes == built.pair.reference.bytes);
        assert_eq!(said(&stores), said(&built.pair.reference));

        let mut made = Checked::made(&graph, room, &mut numbers);
        made.run(&Call::Tally, &mut numbers);
        for id in ids {
            let history = [&made.claims.history, &built.claims.history];
            let [a, b] = history.map(|history| history.reading(id).expect("closed"));
            assert!(same(a, b));
            let one = made.pack(id, 0, &mut numbers);
            let other = built.pack(id, 0, &mut numbers);
            assert_eq!(one.answer, other.answer);
            let written = one.answer.length as usize;
            assert_eq!(one.output.1[..written], other.output.1[..written]);
        }
        calls += built.claims.met;
        without += made.claims.met;
    }
    assert!(calls.least() >= 100);
    assert_eq!(without.packed, calls.packed);
}
