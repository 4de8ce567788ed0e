//! Batches counted by hand, in the order of the rules' section 14.

mod common;

use common::{told, Session};
use reference::answer::Answer;
use reference::batch::{batch, Batched};
use reference::call::{Stores, STALE_WORK};
use reference::history::History;
use reference::limits::batch_need;

/// What the words of ids hold before they are written.
const STALE_ID: u32 = 0xa5a5_a5a5;

/// Pieces and links of the sessions here, and bytes of their stores.
const LIMITS: (u32, u32, usize) = (3, 3, 12);

fn session() -> Session {
    let (pieces, links, store) = LIMITS;
    Session::new(pieces, links, store)
}

/// A number, how many calls were carried out, and the tally.
fn batched(number: u64, calls: u64, ids: usize, tally: [u64; 4]) -> Batched {
    let [bytes, links, objects, depth] = tally;
    Batched {
        number,
        bytes,
        links,
        objects,
        depth,
        calls,
        ids: ids as u64,
    }
}

/// Runs a batch with this room for ids and just enough work memory: what it
/// tells, and the ids. All else that is lent is as it should be, and the history
/// says the same.
fn run(session: &mut Session, calls: &[u32], bytes: &[u8], room: usize) -> (Batched, Vec<u32>) {
    let need = 4 * LIMITS.0 as usize;
    let mut ids = vec![STALE_ID; room];
    let mut work = vec![STALE_WORK; need + 2];
    let answer = batch(&mut session.stores, calls, bytes, &mut ids, &mut work);
    assert_eq!(work[..need], vec![0; need]);
    assert_eq!(work[need..], [STALE_WORK; 2]);
    let written = answer.ids as usize;
    assert!(ids[written..].iter().all(|&id| id == STALE_ID));
    ids.truncate(written);
    (answer, ids)
}

/// The same on a fresh session, by the history as well.
fn fresh(calls: &[u32], bytes: &[u8], room: usize) -> (Batched, Vec<u32>) {
    let told = run(&mut session(), calls, bytes, room);
    let (pieces, links, store) = LIMITS;
    let mut history = History::begin(pieces, links, store, 1_000).unwrap();
    let mut ids = vec![STALE_ID; room];
    let expected = history.batch(calls, bytes, &mut ids, 12);
    ids.truncate(expected.ids as usize);
    assert_eq!((expected, ids), told);
    told
}

#[test]
fn no_words() {
    assert_eq!(fresh(&[], b"", 0), (batched(0, 0, 0, [0; 4]), vec![]));
    // Bytes that no put takes are no fault.
    assert_eq!(fresh(&[], b"xy", 2), (batched(0, 0, 0, [0; 4]), vec![]));
}

#[test]
fn every_call() {
    // A leaf, the same again, a parent of both by their closes, and a drop.
    let calls = [
        1, 2, 1, 5, 1, 2, 1, 5, 1, 4, 2, 0, 0, 4, 3, 1, 1, 2, 2, 5, 1, 3, 4, 1, 0, 6,
    ];
    let (answer, ids) = fresh(&calls, b"ddxy", 3);
    assert_eq!(answer, batched(0, 14, 3, [8, 2, 2, 0]));
    assert_eq!(ids, [0, 0, 1]);
}

/// The stores are those of the single calls, and a session goes on from one batch
/// to the next.
#[test]
fn as_the_single_calls() {
    let mut batches = session();
    let mut singles = session();
    let (answer, ids) = run(&mut batches, &[1, 2, 1, 5, 1, 2, 2], b"dxy", 1);
    assert_eq!(answer, batched(0, 5, 1, [3, 0, 1, 1]));
    assert_eq!(ids, [0]);
    // The closes of one batch are no closes of the next: a link by id.
    let (answer, ids) = run(&mut batches, &[3, 2, 0, 2, 5, 1, 2, 1, 5], b"d", 2);
    assert_eq!(answer, batched(0, 5, 2, [5, 1, 2, 0]));
    assert_eq!(ids, [1, 0]);
    assert_eq!(singles.piece(b"d", &[]), 0);
    singles.open();
    singles.put(b"xy");
    singles.link_from(2, 0, 2);
    assert_eq!(singles.close().id, 1);
    assert_eq!(singles.piece(b"d", &[]), 0);
    assert_eq!(batches.stores, singles.stores);
}

/// A first word that is none of the six.
#[test]
fn another_first_word() {
    for word in [0, 7, 8, 257, 65_537, u32::MAX] {
        let nothing = (batched(19, 0, 0, [0; 4]), vec![]);
        assert_eq!(fresh(&[word, 1], b"", 9), nothing);
        let (answer, ids) = fresh(&[1, 2, 1, 5, word, 0, 1], b"d", 9);
        assert_eq!(answer, batched(19, 3, 1, [1, 0, 1, 0]));
        assert_eq!(ids, [0]);
    }
}

/// All that a call needs but its last words: told before the call is judged, so
/// though nothing is open.
#[test]
fn words_cut_short() {
    for call in [&[2, 0][..], &[3, 2, 0, 0], &[4, 2, 0, 0]] {
        for length in 1..call.len() {
            let answer = fresh(&call[..length], b"", 0).0;
            assert_eq!(answer, batched(19, 0, 0, [0; 4]), "{:?}", &call[..length]);
            let calls = [&[1][..], &call[..length]].concat();
            assert_eq!(fresh(&calls, b"", 0).0, batched(19, 1, 0, [0, 0, 0, 1]));
        }
    }
    // The same words whole.
    assert_eq!(fresh(&[2, 0], b"", 0).0.number, 1);
    assert_eq!(fresh(&[3, 2, 0, 0], b"", 0).0.number, 1);
}

#[test]
fn fewer_bytes_than_a_put_names() {
    for (length, number) in [(0, 0), (3, 0), (4, 19), (256, 19), (u32::MAX, 19)] {
        assert_eq!(fresh(&[1, 2, length], b"xyz", 0).0.number, number);
    }
    // Bytes that an earlier put took are not left.
    assert_eq!(fresh(&[1, 2, 2, 2, 1], b"xyz", 0).0.number, 0);
    let answer = fresh(&[1, 2, 2, 2, 2], b"xyz", 0).0;
    assert_eq!(answer, batched(19, 2, 0, [2, 0, 0, 1]));
    // Before 1, which the put would be told.
    assert_eq!(fresh(&[2, 1], b"", 0).0.number, 19);
    assert_eq!(fresh(&[2, 1], b"x", 0).0.number, 1);
}

/// A close that is not among those carried out, or only later.
#[test]
fn a_link_to_no_close() {
    let leaf = [1, 2, 1, 5, 1];
    for (close, number) in [(0, 0), (1, 19), (2, 19), (65_536, 19), (u32::MAX, 19)] {
        let calls = [&leaf[..], &[4, 2, close, 0, 5]].concat();
        let answer = fresh(&calls, b"d", 2).0;
        let expected = match number {
            0 => batched(0, 6, 2, [3, 1, 2, 0]),
            _ => batched(19, 4, 1, [1, 0, 1, 1]),
        };
        assert_eq!(answer, expected);
    }
    // Before 3, of a width that no field has; a refused close counts for nothing.
    assert_eq!(fresh(&[1, 4, 9, 0, 0], b"", 1).0.number, 19);
    assert_eq!(fresh(&[1, 5, 4, 2, 0, 0], b"", 1).0.number, 5);
    // Closes of an earlier batch.
    let mut session = session();
    run(&mut session, &leaf, b"d", 1);
    assert_eq!(run(&mut session, &[4, 2, 0, 0], b"", 1).0.number, 19);
    assert_eq!(run(&mut session, &[3, 2, 0, 0], b"", 1).0.number, 0);
}

/// A j counts closes and not ids: the second close told 0 as the first one did,
/// the third told 1.
#[test]
fn closes_are_counted_and_not_ids() {
    let three = [1, 2, 1, 5, 1, 2, 1, 5, 1, 2, 1, 5, 1];
    for (close, child) in [(0, 0), (1, 0), (2, 1)] {
        let calls = [&three[..], &[4, 4, close, 0, 5]].concat();
        let mut own = session();
        let (answer, ids) = run(&mut own, &calls, b"dde", 4);
        assert_eq!(answer, batched(0, 12, 4, [6, 1, 3, 0]));
        assert_eq!(ids, [0, 0, 1, 2]);
        let mut by_id = session();
        by_id.piece(b"d", &[]);
        by_id.piece(b"d", &[]);
        by_id.piece(b"e", &[]);
        by_id.piece(b"", &[(4, child)]);
        assert_eq!(own.stores, by_id.stores);
    }
}

/// Told before the close is judged, though that would be refused.
#[test]
fn no_word_for_an_id() {
    let leaf = [1, 2, 1, 5, 1];
    let (answer, ids) = fresh(&leaf, b"d", 0);
    assert_eq!((answer, ids), (batched(19, 2, 0, [1, 0, 0, 1]), vec![]));
    let calls = [&leaf[..], &[2, 1, 5, 6]].concat();
    let (answer, ids) = fresh(&calls, b"dd", 1);
    assert_eq!((answer, ids), (batched(19, 5, 1, [2, 0, 1, 1]), vec![0]));
    assert_eq!(fresh(&[5], b"", 0).0.number, 19);
    assert_eq!(fresh(&[5], b"", 1).0.number, 1);
    // Nor is it needed by any other call.
    assert_eq!(fresh(&[1, 2, 1, 6], b"d", 0).0.number, 0);
}

#[test]
fn a_refused_call_ends_it() {
    // Of three pieces, three links and twelve bytes.
    let three: &[u32] = &[1, 2, 1, 5, 1, 2, 1, 5, 1, 2, 1, 5];
    let opens = [1; 65];
    let cases: [(&[u32], u64, u64, [u64; 4]); 11] = [
        (&[2, 0, 1], 1, 0, [0; 4]),
        (&[3, 9, 9, 9, 1], 1, 0, [0; 4]),
        (&[5, 1], 1, 0, [0; 4]),
        (&[6, 1], 1, 0, [0; 4]),
        (&opens, 2, 64, [0, 0, 0, 64]),
        (&[1, 3, 5, 0, 0, 6], 3, 1, [0, 0, 0, 1]),
        (&[1, 3, 2, 0, 0, 6], 4, 1, [0, 0, 0, 1]),
        (&[1, 5, 6], 5, 1, [0, 0, 0, 1]),
        (&[1, 2, 13, 6], 6, 1, [0, 0, 0, 1]),
        (&[1, 2, 12, 2, 0, 2, 1, 6], 6, 3, [12, 0, 0, 1]),
        (&[1, 2, 12, 5, 1, 3, 2, 0, 0, 6], 6, 4, [12, 0, 1, 1]),
    ];
    let bytes = b"abcdefghijklmnop";
    for (calls, number, carried_out, tally) in cases {
        let (answer, ids) = fresh(calls, bytes, 9);
        assert_eq!(answer, batched(number, carried_out, ids.len(), tally));
    }
    let links = [
        &three[..4],
        &[1, 3, 2, 0, 0, 3, 2, 0, 0, 4, 2, 0, 0],
        &[3, 2, 0, 0, 6],
    ]
    .concat();
    assert_eq!(fresh(&links, bytes, 9).0, batched(7, 7, 1, [7, 3, 1, 1]));
    let pieces = [three, &[1, 2, 1, 5, 6]].concat();
    assert_eq!(fresh(&pieces, bytes, 9).0, batched(8, 11, 3, [4, 0, 3, 1]));
    // A duplicate is accepted, so that nothing is open for the drop.
    let (answer, ids) = fresh(&pieces, b"abca", 9);
    assert_eq!(answer, batched(1, 12, 4, [3, 0, 3, 0]));
    assert_eq!(ids, [0, 1, 2, 0]);
}

#[test]
fn a_hopeless_piece_ends_it() {
    let mut session = Session::new(3, 3, 70_000);
    let calls = [1, 2, 1, 5, 1, 3, 2, 0, 0, 2, 65_534, 5, 6];
    let (answer, ids) = run(&mut session, &calls, &[7; 65_535], 2);
    assert_eq!(
        (answer, ids),
        (batched(16, 6, 1, [65_537, 1, 1, 1]), vec![0])
    );
}

/// The refused call has changed nothing, and a session goes on.
#[test]
fn what_is_before_stands() {
    let mut batches = session();
    let mut singles = session();
    let answer = run(&mut batches, &[1, 2, 2, 1, 5, 6], b"xy", 1).0;
    assert_eq!(answer, batched(5, 3, 0, [2, 0, 0, 2]));
    singles.open();
    singles.put(b"xy");
    singles.open();
    assert_eq!(batches.stores, singles.stores);
    assert_eq!(
        run(&mut batches, &[6, 5], b"", 1),
        (batched(0, 2, 1, [2, 0, 1, 0]), vec![0])
    );
}

/// 12 before 13, and both before any word.
#[test]
fn nothing_changes_beside_12_and_13() {
    assert_eq!(batch_need(3), 12);
    let mut unsound = session().stores;
    unsound.bytes[0] = 1;
    let sound = session().stores;
    let empty = Stores::new(0, 0);
    for (stores, words, number) in [
        (&sound, 0, 13),
        (&sound, 11, 13),
        (&unsound, 0, 12),
        (&unsound, 12, 12),
        (&empty, 12, 12),
    ] {
        for calls in [&[][..], &[1], &[7]] {
            let mut after = stores.clone();
            let (mut ids, mut work) = ([STALE_ID; 2], vec![STALE_WORK; words]);
            let answer = batch(&mut after, calls, b"d", &mut ids, &mut work);
            assert_eq!(answer, batched(number, 0, 0, [0; 4]));
            assert_eq!(&after, stores);
            assert_eq!((ids, work), ([STALE_ID; 2], vec![STALE_WORK; words]));
        }
    }
}

/// A tally after a batch is the one that it told.
#[test]
fn the_tally_is_true() {
    let mut session = session();
    let answer = run(
        &mut session,
        &[1, 2, 3, 5, 1, 3, 2, 0, 0, 1, 2, 1],
        b"abcd",
        1,
    )
    .0;
    let Batched {
        bytes,
        links,
        objects,
        depth,
        ..
    } = answer;
    let tally: Answer = told(0, [bytes, links, objects, depth]);
    assert_eq!(tally, told(0, [6, 1, 1, 2]));
    assert_eq!(session.tally(), tally);
}
