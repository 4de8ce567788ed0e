//! The history on its own.

mod common;

use common::told;
use reference::answer::Answer;
use reference::history::History;

fn begin(pieces: u32, links: u32, store: usize) -> History {
    let records = 135 + 2 * pieces as usize + 4 * links as usize;
    History::begin(pieces, links, store, records).unwrap()
}

fn piece(history: &mut History, bytes: &[u8], links: &[(u32, u32)]) -> u64 {
    history.open();
    history.put(bytes);
    for &(width, id) in links {
        assert_eq!(history.link(width, id, 0).number, 0);
    }
    let closed = history.close();
    assert_eq!(closed.number, 0);
    closed.id
}

#[test]
fn a_first_start_is_judged() {
    assert!(History::begin(1, 0, 1, 137).is_some());
    assert!(History::begin(1, 0, 1, 136).is_none());
    assert!(History::begin(0, 0, 1, 137).is_none());
    assert!(History::begin(16_384, 65_536, 16_777_216, 1 << 20).is_some());
    assert!(History::begin(16_385, 0, 1, 1 << 20).is_none());
    assert!(History::begin(1, 65_537, 1, 1 << 20).is_none());
    assert!(History::begin(1, 0, 0, 137).is_none());
    assert!(History::begin(1, 0, 16_777_217, 137).is_none());
    assert!(History::begin(u32::MAX, u32::MAX, 1, usize::MAX).is_none());
}

#[test]
fn ids_and_sums_of_case_1() {
    let mut history = begin(4, 4, 12);
    assert_eq!(piece(&mut history, b"d", &[]), 0);
    assert_eq!(piece(&mut history, b"b", &[(2, 0)]), 1);
    assert_eq!(piece(&mut history, b"d", &[]), 0);
    assert_eq!(piece(&mut history, b"c", &[(2, 0)]), 2);
    assert_eq!(piece(&mut history, b"a", &[(2, 1), (2, 2)]), 3);
    assert_eq!(history.tally(), told(0, [12, 4, 4, 0]));
    assert_eq!(history.table_length(3), Some(12));
    assert_eq!(history.table_length(1), Some(4));
    assert_eq!(history.table_length(0), Some(1));
    assert_eq!(history.table_length(4), None);
}

#[test]
fn refused_calls_change_nothing() {
    let mut history = begin(1, 1, 4);
    assert_eq!(history.put(b"abcde"), told(1, [0; 4]));
    assert_eq!(history.link(5, 9, 1), told(1, [0; 4]));
    assert_eq!(history.close(), told(1, [0; 4]));
    assert_eq!(history.drop_piece(), told(1, [0; 4]));
    piece(&mut history, b"a", &[]);
    history.open();
    assert_eq!(history.close(), told(5, [1, 0, 1, 1]));
    assert_eq!(history.link(258, u32::MAX, 0), told(3, [1, 0, 1, 1]));
    assert_eq!(history.link(2, u32::MAX, 0), told(4, [1, 0, 1, 1]));
    assert_eq!(history.link(4, 0, 1), told(3, [1, 0, 1, 1]));
    assert_eq!(history.link(4, 0, 0), told(6, [1, 0, 1, 1]));
    assert_eq!(history.link(2, 0, 0), told(0, [3, 1, 1, 1]));
    assert_eq!(history.link(4, 0, 3), told(3, [3, 1, 1, 1]));
    assert_eq!(history.link(4, 0, u32::MAX), told(3, [3, 1, 1, 1]));
    assert_eq!(history.link(4, 0, 2), told(7, [3, 1, 1, 1]));
    assert_eq!(history.put(b"bc"), told(6, [3, 1, 1, 1]));
    assert_eq!(history.close(), told(8, [3, 1, 1, 1]));
    assert_eq!(history.start(0, 0, 4, 140), Answer::bare(13));
    assert_eq!(history.tally(), told(0, [3, 1, 1, 1]));
}

#[test]
fn inner_starts_tell_pieces_apart() {
    let mut history = begin(4, 6, 40);
    piece(&mut history, b"x", &[]);
    let mut from = |inner| {
        history.open();
        history.put(b"head");
        assert_eq!(history.link(2, 0, inner).number, 0);
        history.close().id
    };
    assert_eq!([4, 3, 4, 3].map(&mut from), [1, 2, 1, 2]);
    assert_eq!(piece(&mut history, &[], &[(2, 1), (2, 2)]), 3);
    assert_eq!(history.table_length(3), Some(17));
    let fields = history.reading(1).unwrap().fields();
    assert_eq!((fields[0].place, fields[0].inner), (4, 4));
}

#[test]
fn a_hopeless_piece_stays_open() {
    let mut history = begin(1, 9, 80_000);
    piece(&mut history, b"x", &[]);
    for (width, inner) in [(2, 0), (2, 1), (2, 9), (3, 0), (4, 0)] {
        history.open();
        history.put(&[1; 9]);
        assert_eq!(history.link(width, 0, inner).number, 0);
        let before = 9 + width as usize;
        history.put(&vec![1; inner as usize + 65_535 - before]);
        // The object limit is reached.
        assert_eq!(history.close().number, 8);
        history.put(&[1]);
        let size = u64::from(inner) + 65_536;
        let number = if width == 2 { 16 } else { 8 };
        assert_eq!(history.close(), told(number, [1 + size, 1, 1, 1]));
        assert_eq!(history.drop_piece(), told(0, [1, 0, 1, 0]));
    }
}

#[test]
fn a_start_empties_it() {
    let mut history = begin(2, 1, 4);
    piece(&mut history, b"a", &[]);
    history.open();
    assert_eq!(history.start(1, 0, 4, 140), told(0, [0; 4]));
    assert!(history.reading(0).is_none());
    assert_eq!(piece(&mut history, b"b", &[]), 0);
}

#[test]
fn sixty_five_opens() {
    let mut history = begin(1, 0, 1);
    for depth in 1..=64 {
        assert_eq!(history.open(), told(0, [0, 0, 0, depth]));
    }
    assert_eq!(history.open(), told(2, [0, 0, 0, 64]));
}
