//! When each refusal is told, and which of several.

mod common;

use common::{told, Session};
use reference::answer::Answer;
use reference::call::Call;
use reference::session;

#[test]
fn widths_are_not_cut_short() {
    let mut session = Session::new(1, 1, 16);
    session.piece(b"a", &[]);
    session.open();
    for width in [0, 1, 5, 6, 8, 256, 258, 259, 260, 65_538, 65_540, u32::MAX] {
        assert_eq!(session.link(width, 0), told(3, [1, 0, 1, 1]));
        assert_eq!(session.link(width, 7), told(3, [1, 0, 1, 1]));
    }
}

#[test]
fn inner_starts_are_not_cut_short() {
    let mut session = Session::new(1, 9, 64);
    session.piece(b"a", &[]);
    session.open();
    for place in [0, 2, 6] {
        // Each of them cut to 8, 16 or 31 bits is not past the field.
        let cut = [1 << 8, 1 << 16, 1 << 24, 1 << 31];
        let far = cut.iter().flat_map(|&past| [past, past + place]);
        for inner in far.chain([place + 1, u32::MAX - 3, u32::MAX - 1, u32::MAX]) {
            let held = session.tally();
            for (width, id) in [(2, 0), (3, 0), (4, 0), (2, 7), (5, 0)] {
                let refused = session.link_from(width, id, inner);
                assert_eq!(refused, Answer { number: 3, ..held }, "{inner}");
            }
        }
        let width = if place == 0 { 2 } else { 4 };
        assert_eq!(session.link_from(width, 0, place).number, 0);
    }
    assert_eq!(session.tally(), told(0, [11, 3, 1, 1]));
}

#[test]
fn an_inner_start_goes_by_the_innermost_piece() {
    let mut session = Session::new(2, 2, 16);
    session.piece(b"a", &[]);
    session.open();
    session.put(b"four");
    session.open();
    assert_eq!(session.link_from(2, 0, 1), told(3, [5, 0, 1, 2]));
    session.put(b"b");
    assert_eq!(session.link_from(2, 0, 2), told(3, [6, 0, 1, 2]));
    assert_eq!(session.link_from(2, 0, 1), told(0, [8, 1, 1, 2]));
    assert_eq!(session.close().id, 1);
    assert_eq!(session.link_from(2, 1, 5), told(3, [8, 1, 2, 1]));
    assert_eq!(session.link_from(2, 1, 4), told(0, [10, 2, 2, 1]));
}

#[test]
fn ids_are_not_cut_short() {
    let mut session = Session::new(1, 1, 16);
    session.piece(b"a", &[]);
    for id in [1, 256, 65_536, u32::MAX] {
        session.open();
        assert_eq!(session.link(2, id), told(4, [1, 0, 1, 1]));
        session.drop_piece();
        assert_eq!(session.pack(id, 16).answer, told(4, [1, 0, 1, 0]));
    }
}

#[test]
fn a_put_longer_than_any_store() {
    let mut session = Session::new(1, 0, 8);
    session.open();
    for length in [9, 256, 65_536, 1_048_576, 16_777_216, 16_777_217] {
        assert_eq!(session.put(&vec![1; length]), told(6, [0, 0, 0, 1]));
    }
    assert_eq!(session.put(&[1; 8]), told(0, [8, 0, 0, 1]));
    assert_eq!(session.put(&[]), told(0, [8, 0, 0, 1]));
    assert_eq!(session.put(&[1]), told(6, [8, 0, 0, 1]));
}

#[test]
#[ignore = "lends more than 4 GiB of address space"]
fn a_put_longer_than_32_bits_can_tell() {
    let mut session = Session::new(1, 0, 8);
    session.open();
    let long = vec![0; (1 << 32) + 1];
    let stores = &mut session.stores;
    let answer = session::put(&mut stores.bytes, &mut stores.records, &long);
    assert_eq!(answer, told(6, [0, 0, 0, 1]));
}

#[test]
fn the_longest_store_can_be_filled() {
    let mut session = Session::new(1, 0, 16_777_216);
    session.open();
    let held = 16_777_216;
    assert_eq!(session.put(&vec![1; 16_777_217]), told(6, [0, 0, 0, 1]));
    assert_eq!(session.put(&vec![1; 16_777_216]), told(0, [held, 0, 0, 1]));
    assert_eq!(session.close().id, 0);
    assert_eq!(
        session.pack(0, 16_777_215).answer,
        told(10, [held, 0, 1, 0])
    );
    assert_eq!(session.pack(0, 16_777_216).answer.length, held);
}

#[test]
fn open_past_64_and_again_after_a_drop() {
    let mut session = Session::new(1, 0, 8);
    for _ in 0..64 {
        assert_eq!(session.open().number, 0);
    }
    let before = session.stores.clone();
    assert_eq!(session.open(), told(2, [0, 0, 0, 64]));
    assert_eq!(session.stores, before);
    assert_eq!(session.drop_piece(), told(0, [0, 0, 0, 63]));
    assert_eq!(session.open(), told(0, [0, 0, 0, 64]));
    assert_eq!(session.open().number, 2);
}

#[test]
fn open_is_not_refused_at_the_piece_limit() {
    let mut session = Session::new(1, 0, 8);
    session.piece(b"a", &[]);
    assert_eq!(session.open(), told(0, [1, 0, 1, 1]));
}

#[test]
fn link_tells_1_3_4_7_6_in_this_order() {
    let mut session = Session::new(1, 1, 3);
    session.piece(b"a", &[]);
    assert_eq!(session.link(5, 9).number, 1);
    assert_eq!(session.link_from(2, 0, 1).number, 1);
    session.open();
    assert_eq!(session.link_from(4, 0, 1), told(3, [1, 0, 1, 1]));
    assert_eq!(session.link_from(4, 0, 0), told(6, [1, 0, 1, 1]));
    assert_eq!(session.link(2, 0), told(0, [3, 1, 1, 1]));
    assert_eq!(session.link(5, 9), told(3, [3, 1, 1, 1]));
    assert_eq!(session.link_from(2, 9, 3), told(3, [3, 1, 1, 1]));
    assert_eq!(session.link_from(2, 0, 3), told(3, [3, 1, 1, 1]));
    assert_eq!(session.link(2, 9), told(4, [3, 1, 1, 1]));
    assert_eq!(session.link(2, 0), told(7, [3, 1, 1, 1]));
}

#[test]
fn link_tells_6_for_its_own_width() {
    let mut session = Session::new(1, 2, 4);
    session.piece(b"a", &[]);
    session.open();
    assert_eq!(session.link(4, 0), told(6, [1, 0, 1, 1]));
    assert_eq!(session.link(2, 0), told(0, [3, 1, 1, 1]));
    assert_eq!(session.link(2, 0), told(6, [3, 1, 1, 1]));
    assert_eq!(session.put(b"b"), told(0, [4, 1, 1, 1]));
}

#[test]
fn put_tells_1_before_6() {
    let mut session = Session::new(1, 0, 2);
    assert_eq!(session.put(b"abc"), told(1, [0; 4]));
}

#[test]
fn close_tells_1_5_16_8_in_this_order() {
    let mut session = Session::new(1, 1, 70_000);
    session.piece(b"a", &[]);
    assert_eq!(session.close().number, 1);
    session.open();
    assert_eq!(session.close(), told(5, [1, 0, 1, 1]));
    session.link(2, 0);
    let before = session.stores.clone();
    assert_eq!(session.close(), told(8, [3, 1, 1, 1]));
    assert_eq!(session.stores, before);
    session.put(&[1; 65_534]);
    let before = session.stores.clone();
    assert_eq!(session.close(), told(16, [65_537, 1, 1, 1]));
    assert_eq!(session.stores, before);
}

#[test]
fn a_duplicate_is_never_told_8() {
    let mut session = Session::new(2, 2, 8);
    session.piece(b"a", &[]);
    session.piece(b"b", &[(2, 0)]);
    assert_eq!(session.piece(b"a", &[]), 0);
    session.open();
    session.put(b"b");
    session.link(2, 0);
    let closed = session.close();
    assert_eq!((closed.number, closed.id, closed.depth), (0, 1, 0));
}

#[test]
fn pack_tells_13_9_4_11_10_in_this_order() {
    let mut session = Session::new(4, 3, 70_000);
    session.piece(b"x", &[]);
    session.piece(&vec![1; 65_530], &[(2, 0)]);
    session.piece(&[], &[(2, 1), (2, 0)]);
    let need = 11 * 4 + 2 * 3;
    let pack = |id, output, work| Call::Pack {
        id,
        copies: 0,
        output,
        work,
    };
    session.open();
    assert_eq!(session.run(pack(9, 0, need - 1)), told(13, [0; 4]));
    assert_eq!(session.run(pack(9, 0, need)), told(9, [65_537, 3, 3, 1]));
    session.drop_piece();
    assert_eq!(session.run(pack(9, 0, 0)), told(13, [0; 4]));
    assert_eq!(session.run(pack(3, 0, need)), told(4, [65_537, 3, 3, 0]));
    for output in [0, 65_536, 65_537] {
        let unfit = session.run(pack(2, output, need));
        assert_eq!((unfit.number, unfit.bytes, unfit.length), (11, 65_537, 0));
        assert_eq!((unfit.parent, unfit.field, unfit.needed), (2, 2, 65_536));
    }
    let short = session.run(pack(1, 65_532, need));
    assert_eq!(short, told(10, [65_537, 3, 3, 0]));
    assert_eq!(session.run(pack(1, 65_533, need)).length, 65_533);
}
