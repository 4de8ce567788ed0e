//! What start accepts, clears and leaves.

mod common;

use common::{told, Session};
use reference::answer::Answer;
use reference::call::{Call, Stores, STALE_RECORD};
use reference::session;

fn start(store: usize, records: usize, pieces: u32, links: u32) -> (u64, Stores) {
    let mut stores = Stores::new(store, records);
    let answer = stores.run(&Call::Start { pieces, links }).answer;
    assert_eq!(answer, Answer::bare(answer.number));
    (answer.number, stores)
}

#[test]
fn every_range_has_both_its_ends() {
    // The most words that any limits here need.
    let records = 135 + 2 * 16_385 + 4 * 65_537;
    for (pieces, links, store, number) in [
        (0, 0, 8, 13),
        (1, 0, 8, 0),
        (16_384, 0, 8, 0),
        (16_385, 0, 8, 13),
        (1, 65_536, 8, 0),
        (1, 65_537, 8, 13),
        (16_384, 65_536, 16_777_216, 0),
        (16_385, 65_536, 16_777_216, 13),
        (16_384, 65_537, 16_777_216, 13),
        (16_384, 65_536, 16_777_217, 13),
        (1, 0, 0, 13),
        (1, 0, 1, 0),
        (1, 0, 16_777_216, 0),
        (1, 0, 16_777_217, 13),
        (u32::MAX, 0, 8, 13),
        (1, u32::MAX, 8, 13),
        (65_537, 0, 8, 13),
        (1, 131_072, 8, 13),
    ] {
        assert_eq!(start(store, records, pieces, links).0, number);
    }
}

#[test]
fn the_need_is_exact() {
    assert_eq!(start(8, 135 + 2 * 5 + 4 * 7, 5, 7).0, 0);
    assert_eq!(start(8, 135 + 2 * 5 + 4 * 7 - 1, 5, 7).0, 13);
    assert_eq!(start(8, 0, 1, 0).0, 13);
    assert_eq!(start(0, 0, 1, 0).0, 13);
}

#[test]
fn an_accepted_start_fixes_all_the_needed_words_and_no_surplus() {
    let (number, stores) = start(9, 153, 2, 3);
    assert_eq!(number, 0);
    assert_eq!(stores.bytes, [0; 9]);
    let mut expected = [0; 153];
    expected[0] = 2;
    expected[133] = 9;
    expected[136] = 3;
    expected[151..].fill(STALE_RECORD);
    assert_eq!(stores.records, expected);
}

#[test]
fn a_refused_start_changes_nothing() {
    let mut session = Session::new(2, 1, 8);
    session.piece(b"a", &[]);
    let before = session.stores.clone();
    let (pieces, links) = (2, 2);
    assert_eq!(session.run(Call::Start { pieces, links }), Answer::bare(13));
    assert_eq!(session.stores, before);
    assert_eq!(session.tally(), told(0, [1, 0, 1, 0]));
}

#[test]
fn a_restart_takes_other_limits() {
    let mut session = Session::new(4, 3, 12);
    session.piece(b"a", &[]);
    session.piece(b"b", &[(2, 0)]);
    session.open();
    session.put(b"cc");
    let surplus = session.stores.records[143..].to_vec();
    let (pieces, links) = (2, 1);
    assert_eq!(session.run(Call::Start { pieces, links }), told(0, [0; 4]));
    assert_eq!(session.tally(), told(0, [0; 4]));
    assert_eq!(session.stores.bytes, [0; 12]);
    assert_eq!(session.stores.records[143..], surplus);
    assert_eq!(session.piece(b"d", &[]), 0);
    assert_eq!(session.piece(b"e", &[(2, 0)]), 1);
    session.open();
    assert_eq!(session.link(2, 0), told(7, [4, 1, 2, 1]));
    session.put(b"f");
    assert_eq!(session.close(), told(8, [5, 1, 2, 1]));
}

#[test]
fn an_id_from_before_a_restart_is_not_closed() {
    let mut session = Session::new(3, 1, 8);
    session.piece(b"a", &[]);
    session.piece(b"b", &[]);
    let (pieces, links) = (3, 1);
    session.run(Call::Start { pieces, links });
    session.open();
    assert_eq!(session.link(2, 1), told(4, [0, 0, 0, 1]));
    session.drop_piece();
    assert_eq!(session.pack(1, 8).answer, told(4, [0; 4]));
    assert_eq!(session.piece(b"c", &[]), 0);
    assert_eq!(session.pack(1, 8).answer, told(4, [1, 0, 1, 0]));
    assert_eq!(session.pack(0, 1).output, b"c");
}

#[test]
fn before_any_start_the_session_is_not_sound() {
    let mut stores = Stores::new(8, 200);
    assert_eq!(
        session::open(&stores.bytes, &mut stores.records),
        Answer::bare(12)
    );
    assert_eq!(session::tally(&[], &[]), Answer::bare(12));
    assert_eq!(session::tally(&[0; 8], &[0; 200]), Answer::bare(12));
}
