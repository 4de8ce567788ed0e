//! What close keeps, moves and gives back.

mod common;

use common::{told, Session};

#[test]
fn equal_bytes_with_different_links_keep_their_ids() {
    let mut session = Session::new(16, 16, 64);
    session.piece(b"d", &[]);
    session.piece(b"e", &[]);
    // All of these have four zero bytes.
    assert_eq!(session.piece(&[0, 0], &[(2, 0)]), 2);
    assert_eq!(session.piece(&[0, 0], &[(2, 1)]), 3);
    assert_eq!(session.piece(&[], &[(4, 0)]), 4);
    assert_eq!(session.piece(&[], &[(2, 0), (2, 0)]), 5);
    assert_eq!(session.piece(&[], &[(2, 0), (2, 1)]), 6);
    assert_eq!(session.piece(&[0; 4], &[]), 7);
    session.open();
    session.link(2, 0);
    session.put(&[0, 0]);
    assert_eq!(session.close().id, 8);
    assert_eq!(session.piece(&[0, 0], &[(2, 1)]), 3);
    assert_eq!(session.piece(&[], &[(2, 0), (2, 1)]), 6);
    assert_eq!(session.piece(&[0; 4], &[]), 7);
    assert_eq!(session.tally(), told(0, [30, 8, 9, 0]));
}

#[test]
fn pieces_that_differ_in_an_inner_start_keep_their_ids() {
    let mut session = Session::new(7, 7, 40);
    session.piece(b"x", &[]);
    for inner in 0..4 {
        assert_eq!(session.piece_from(b"abcd", inner), 1 + u64::from(inner));
    }
    // So do those that link them.
    assert_eq!(session.piece(&[], &[(2, 1)]), 5);
    assert_eq!(session.piece(&[], &[(2, 4)]), 6);
    for inner in 0..4 {
        assert_eq!(session.piece_from(b"abcd", inner), 1 + u64::from(inner));
    }
    session.open();
    session.put(b"abcd");
    session.link_from(2, 0, 4);
    assert_eq!(session.close(), told(8, [35, 7, 7, 1]));
}

#[test]
fn the_second_of_two_inner_starts_is_compared() {
    let mut session = Session::new(4, 8, 32);
    session.piece(b"x", &[]);
    let mut two = |second| {
        session.open();
        session.link(2, 0);
        session.link_from(2, 0, second);
        session.close().id
    };
    assert_eq!([2, 1, 0, 1].map(&mut two), [1, 2, 3, 2]);
}

/// Each field of width 2 of a piece of four, with inner starts by which it
/// alone decides.
#[test]
fn every_field_can_make_a_piece_hopeless() {
    for (size, decisive) in [65_600, 70_000, 140_000]
        .iter()
        .flat_map(|s| [(*s, 0), (*s, 1), (*s, 2), (*s, 3)])
    {
        for (less, number) in [(0, 0), (1, 16)] {
            let mut session = Session::new(2, 4, 150_000);
            session.piece(b"x", &[]);
            session.open();
            session.put(&vec![1; size - 65_535]);
            for field in 0..4 {
                // The least inner start with which it closes.
                let just = size as u32 - 65_535;
                let inner = if field == decisive { just - less } else { just };
                assert_eq!(session.link_from(2, 0, inner).number, 0);
            }
            session.put(&vec![1; 65_535 - 8]);
            let closed = session.close();
            assert_eq!((closed.number, closed.depth), (number, u64::from(less)));
        }
    }
}

#[test]
fn a_hopeless_piece_is_not_moved() {
    let mut session = Session::new(3, 2, 65_600);
    session.piece(b"x", &[]);
    session.open();
    session.put(b"o");
    session.open();
    session.link(2, 0);
    session.put(&[1; 65_534]);
    let before = session.stores.clone();
    assert_eq!(session.close(), told(16, [65_538, 1, 1, 2]));
    assert_eq!(session.close(), told(16, [65_538, 1, 1, 2]));
    assert_eq!(session.stores, before);
    assert_eq!(session.drop_piece(), told(0, [2, 0, 1, 1]));
    assert_eq!(session.link(2, 0), told(0, [4, 1, 1, 1]));
    assert_eq!(session.close().id, 1);
}

#[test]
fn wider_fields_always_close() {
    for width in [3, 4] {
        let mut session = Session::new(2, 1, 16_777_216);
        session.piece(b"x", &[]);
        session.open();
        session.link(width, 0);
        session.put(&vec![1; 16_777_215 - width as usize]);
        assert_eq!(session.close().id, 1);
    }
}

#[test]
fn a_prefix_is_no_duplicate() {
    let mut session = Session::new(4, 0, 16);
    assert_eq!(session.piece(b"ab", &[]), 0);
    assert_eq!(session.piece(b"abc", &[]), 1);
    assert_eq!(session.piece(b"a", &[]), 2);
    assert_eq!(session.piece(b"abc", &[]), 1);
}

#[test]
fn the_lowest_of_equal_closed_pieces_is_told() {
    let mut session = Session::new(4, 0, 8);
    for byte in [b'a', b'b', b'c'] {
        session.piece(&[byte], &[]);
    }
    // Two equal closed pieces are sound.
    session.stores.bytes[5] = b'b';
    assert_eq!(session.piece(b"b", &[]), 1);
}

#[test]
fn an_overlapping_move() {
    let mut session = Session::new(2, 3, 10);
    session.piece(b"x", &[]);
    session.open();
    session.link(2, 0);
    session.put(b"a");
    session.link_from(2, 0, 1);
    session.put(b"bc");
    // The gap has 2 bytes and 1 link record, the piece 7 and 2.
    let closed = session.close();
    assert_eq!((closed.number, closed.id), (0, 1));
    assert_eq!(session.stores.bytes, *b"\0\0\0\0a\0\0bcx");
    let p = 2;
    let records = &session.stores.records;
    assert_eq!(records[..3], [2, 2, 0]);
    assert_eq!(records[133..134 + p], [10, 9, 2]);
    assert_eq!(records[134 + p..135 + 2 * p], [3, 3, 1]);
    // The first record is vacated and keeps what it held.
    let links = [[0, 2, 0, 0], [0, 2, 0, 0], [3, 2, 1, 0]].concat();
    assert_eq!(records[135 + 2 * p..], links);
    let table = session.pack(1, 8).output;
    assert_eq!(table, *b"\0\x07a\0\x06bcx");
}

#[test]
fn a_move_over_no_gap_at_all() {
    let mut session = Session::new(2, 1, 4);
    session.piece(b"x", &[]);
    session.open();
    session.put(b"y");
    session.link(2, 0);
    let before = session.stores.bytes.clone();
    assert_eq!(session.close().id, 1);
    assert_eq!(session.stores.bytes, before);
    assert_eq!(session.tally(), told(0, [4, 1, 2, 0]));
}

#[test]
fn the_room_of_a_discarded_duplicate_serves_again() {
    let mut session = Session::new(3, 2, 7);
    session.piece(b"a", &[]);
    session.piece(&[], &[(2, 0)]);
    let before = session.stores.bytes.clone();
    assert_eq!(session.piece(&[], &[(2, 0)]), 1);
    assert_eq!(session.stores.bytes, before);
    assert_eq!(session.tally(), told(0, [3, 1, 2, 0]));
    assert_eq!(session.piece(b"bc", &[(2, 0)]), 2);
    assert_eq!(session.tally(), told(0, [7, 2, 3, 0]));
}

#[test]
fn a_dropped_piece_gives_back_its_own_room_only() {
    let mut session = Session::new(2, 2, 8);
    session.open();
    session.put(b"o");
    session.piece(b"a", &[]);
    session.open();
    session.put(b"b");
    session.link(2, 0);
    assert_eq!(session.tally(), told(0, [5, 1, 1, 2]));
    assert_eq!(session.drop_piece(), told(0, [2, 0, 1, 1]));
    assert_eq!(session.stores.bytes, *b"o\0\0\0\0\0\0a");
    assert_eq!(session.link(2, 0), told(0, [4, 1, 1, 1]));
    assert_eq!(session.close().id, 1);
}

#[test]
fn nested_pieces_close_from_the_inside() {
    let mut session = Session::new(3, 2, 12);
    for bytes in [b"a".as_slice(), b"bb", b"ccc"] {
        session.open();
        session.put(bytes);
    }
    assert_eq!(session.stores.bytes, *b"abbccc\0\0\0\0\0\0");
    assert_eq!(session.close().id, 0);
    assert_eq!(session.stores.bytes, *b"abb\0\0\0\0\0\0ccc");
    session.link(2, 0);
    assert_eq!(session.close().id, 1);
    session.link(2, 1);
    assert_eq!(session.close().id, 2);
    assert_eq!(session.stores.bytes, *b"\0\0a\0\0bb\0\0ccc");
    assert_eq!(session.pack(2, 10).output, *b"a\0\x03bb\0\x04ccc");
}
