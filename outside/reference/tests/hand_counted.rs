//! The cases counted by hand without copies, and those of width 3.

mod common;

use common::{told, Session};
use reference::answer::Answer;

/// Case 1 up to the last link, with the ids it gives.
fn before_last_link(store: usize) -> (Session, [u64; 4]) {
    let mut session = Session::new(4, 4, store);
    let ids = [
        session.piece(&[0x64], &[]),
        session.piece(&[0x62], &[(2, 0)]),
        session.piece(&[0x64], &[]),
        session.piece(&[0x63], &[(2, 0)]),
    ];
    session.open();
    session.put(&[0x61]);
    assert_eq!(session.link(2, 1), told(0, [10, 3, 3, 1]));
    (session, ids)
}

#[test]
fn case_1() {
    let (mut session, ids) = before_last_link(20);
    assert_eq!(ids, [0, 1, 0, 2]);
    assert_eq!(session.link(2, 2), told(0, [12, 4, 3, 1]));
    let closed = session.close();
    assert_eq!((closed.number, closed.id, closed.bytes), (0, 3, 12));
    let packed = session.pack(3, 12);
    assert_eq!(packed.answer.length, 12);
    let table = [0x61, 0, 5, 0, 8, 0x62, 0, 6, 0x63, 0, 3, 0x64];
    assert_eq!(packed.output, table);
}

#[test]
fn case_2() {
    let (mut short, _) = before_last_link(11);
    assert_eq!(short.link(2, 2), told(6, [10, 3, 3, 1]));
    assert_eq!(short.tally(), told(0, [10, 3, 3, 1]));
    let (mut enough, _) = before_last_link(12);
    assert_eq!(enough.link(2, 2), told(0, [12, 4, 3, 1]));
}

#[test]
fn case_3() {
    let mut session = Session::new(2, 2, 8);
    session.piece(&[0x78], &[]);
    session.piece(&[], &[(2, 0), (2, 0)]);
    assert_eq!(session.pack(1, 5).output, [0, 4, 0, 4, 0x78]);
}

#[test]
fn case_4() {
    let mut session = Session::new(2, 2, 8);
    session.piece(&[0x78], &[]);
    session.piece(&[], &[(4, 0)]);
    assert_eq!(session.pack(1, 5).output, [0, 0, 0, 4, 0x78]);
}

#[test]
fn case_5() {
    let mut session = Session::new(3, 3, 8);
    session.piece(&[0x78], &[]);
    session.piece(&[], &[(2, 0)]);
    session.piece(&[], &[(2, 0), (2, 1)]);
    assert_eq!(session.pack(2, 7).output, [0, 6, 0, 4, 0, 2, 0x78]);
}

#[test]
fn case_6() {
    let mut session = Session::new(2, 0, 8);
    session.piece(&[0x64], &[]);
    session.piece(&[0x65], &[]);
    let packed = session.pack(1, 1);
    assert_eq!(packed.answer.length, 1);
    assert_eq!(packed.output, [0x65]);
}

#[test]
fn case_7() {
    let mut session = Session::new(1, 0, 8);
    assert_eq!(session.piece(&[0x64], &[]), 0);
    assert_eq!(session.piece(&[0x64], &[]), 0);
    session.open();
    session.put(&[0x65]);
    assert_eq!(session.close(), told(8, [2, 0, 1, 1]));
    assert_eq!(session.tally(), told(0, [2, 0, 1, 1]));
}

#[test]
fn case_8() {
    let mut session = Session::new(1, 1, 8);
    assert_eq!(session.put(&[0x61]), told(1, [0; 4]));
    assert_eq!(session.put(&[]), told(1, [0; 4]));
    assert_eq!(session.link(2, 0), told(1, [0; 4]));
    assert_eq!(session.close(), told(1, [0; 4]));
    assert_eq!(session.drop_piece(), told(1, [0; 4]));
    session.open();
    assert_eq!(session.close(), told(5, [0, 0, 0, 1]));
    assert_eq!(session.put(&[]), told(0, [0, 0, 0, 1]));
    assert_eq!(session.close(), told(5, [0, 0, 0, 1]));
}

#[test]
fn case_9() {
    let mut session = Session::new(1, 0, 8);
    session.open();
    assert_eq!(session.put(b"abc"), told(0, [3, 0, 0, 1]));
    assert_eq!(session.drop_piece(), told(0, [0; 4]));
    assert_eq!(session.stores.bytes, [0; 8]);
}

#[test]
fn case_10() {
    let mut session = Session::new(1, 0, 8);
    assert_eq!(session.tally(), Answer::default());
    assert_eq!(session.pack(0, 8).answer, told(4, [0; 4]));
}

/// Leaves of the given lengths and a root with a width-2 link to each.
fn two_leaves(x: usize, y: usize) -> Session {
    let mut session = Session::new(3, 2, 140_000);
    session.piece(&vec![0x78; x], &[]);
    session.piece(&vec![0x79; y], &[]);
    session.piece(&[], &[(2, 0), (2, 1)]);
    session
}

#[test]
fn case_11() {
    let packed = two_leaves(65_531, 10).pack(2, 65_545);
    assert_eq!(packed.answer.length, 65_545);
    assert_eq!(packed.output[..5], [0, 4, 0xff, 0xff, 0x78]);
    assert_eq!(packed.output[65_534..65_536], [0x78, 0x79]);
}

#[test]
fn case_12() {
    let packed = two_leaves(65_532, 10).pack(2, 65_546);
    assert_eq!(packed.answer.length, 65_546);
    assert_eq!(packed.output[..5], [0, 14, 0, 4, 0x79]);
    assert_eq!(packed.output[13..15], [0x79, 0x78]);
}

#[test]
fn case_13() {
    let packed = two_leaves(65_532, 65_532).pack(2, 131_068);
    let expected = Answer {
        parent: 2,
        field: 2,
        needed: 65_536,
        ..told(11, [131_068, 2, 3, 0])
    };
    assert_eq!(packed.answer, expected);
}

#[test]
fn case_14() {
    let mut session = Session::new(7, 6, 90_000);
    let [f, g] = [&[0x66], &[0x67]].map(|bytes| session.piece(bytes, &[]) as u32);
    let [d, e] = [f, g].map(|child| {
        session.open();
        session.link(2, child);
        session.put(&vec![0x7a; 39_998]);
        session.close().id as u32
    });
    let [b, c] = [d, e].map(|child| session.piece(&[], &[(2, child)]) as u32);
    assert_ne!(b, c);
    let a = session.piece(&[], &[(4, b), (4, c)]) as u32;
    let packed = session.pack(a, 80_014);
    let expected = Answer {
        length: 80_014,
        placed: 7,
        ..told(0, [80_014, 6, 7, 0])
    };
    assert_eq!(packed.answer, expected);
    // a b d f c e g: a's offsets to b and c, b's to d, d's to f.
    assert_eq!(packed.output[..8], [0, 0, 0, 8, 0, 0, 156, 75]);
    assert_eq!(packed.output[8..12], [0, 2, 156, 64]);
    assert_eq!(packed.output[40_010], 0x66);
}

#[test]
fn case_15() {
    let mut session = Session::new(1, 0, 8);
    for depth in 1..=64 {
        assert_eq!(session.open(), told(0, [0, 0, 0, depth]));
    }
    assert_eq!(session.open(), told(2, [0, 0, 0, 64]));
}

#[test]
fn cases_16_and_17() {
    let table = |links: &[(u32, u32)]| {
        let mut session = Session::new(2, 2, 8);
        session.piece(&[0x78], &[]);
        session.piece(&[], links);
        let packed = session.pack(1, 8);
        packed.output[..packed.answer.length as usize].to_vec()
    };
    assert_eq!(table(&[(3, 0)]), [0, 0, 3, 0x78]);
    assert_eq!(table(&[(3, 0), (2, 0)]), [0, 0, 5, 0, 5, 0x78]);
}

const HEADER: [u8; 4] = [0, 1, 0, 2];

#[test]
fn case_18() {
    let mut session = Session::new(2, 1, 8);
    session.piece(&[0x78], &[]);
    session.piece_from(&HEADER, 4);
    let packed = session.pack(1, 7);
    assert_eq!(packed.answer.length, 7);
    assert_eq!(packed.output, [0, 1, 0, 2, 0, 2, 0x78]);
}

#[test]
fn case_19() {
    let mut session = Session::new(2, 2, 16);
    session.piece(&[0x78], &[]);
    session.open();
    session.put(&HEADER);
    session.link_from(2, 0, 4);
    session.link(2, 0);
    assert_eq!(session.close().id, 1);
    let packed = session.pack(1, 9);
    assert_eq!(packed.answer.length, 9);
    assert_eq!(packed.output, [0, 1, 0, 2, 0, 4, 0, 8, 0x78]);
}

#[test]
fn case_20() {
    let mut session = Session::new(3, 3, 19);
    session.piece(&[0x78], &[]);
    session.open();
    session.put(&HEADER);
    let before = session.stores.clone();
    assert_eq!(session.link_from(2, 0, 5), told(3, [5, 0, 1, 1]));
    assert_eq!(session.stores, before);
    assert_eq!(session.link_from(2, 0, 4), told(0, [7, 1, 1, 1]));
    assert_eq!(session.close().id, 1);
    assert_eq!(session.piece_from(&HEADER, 3), 2);
    assert_eq!(session.piece_from(&HEADER, 4), 1);
    assert_eq!(session.tally(), told(0, [13, 2, 3, 0]));
}

#[test]
fn case_21() {
    let root = |inner| {
        let mut session = Session::new(2, 1, 70_005);
        session.piece(&[0x78], &[]);
        session.open();
        session.put(&[0x72; 70_002]);
        session.link_from(2, 0, inner);
        (session.close(), session)
    };
    let (closed, mut session) = root(4_469);
    assert_eq!((closed.number, closed.id), (0, 1));
    let packed = session.pack(1, 70_005);
    assert_eq!(packed.answer.length, 70_005);
    assert_eq!(packed.output[70_001..], [0x72, 0xff, 0xff, 0x78]);
    let (closed, mut session) = root(4_468);
    assert_eq!(closed, told(16, [70_005, 1, 1, 1]));
    assert_eq!(session.pack(1, 70_005).answer.number, 9);
}

/// A leaf, and an open piece of a header, a width-2 field that counts from
/// behind it, and bytes up to this size.
fn up_to(size: usize, header: usize, pieces: u32) -> Session {
    let mut session = Session::new(pieces, 1, 70_000);
    session.piece(&[0x78], &[]);
    session.open();
    session.put(&vec![0x68; header]);
    session.link_from(2, 0, header as u32);
    session.put(&vec![0x72; size - header - 2]);
    session
}

#[test]
fn case_22() {
    let mut session = up_to(65_535, 0, 2);
    let closed = session.close();
    assert_eq!((closed.number, closed.id, closed.depth), (0, 1, 0));
    let packed = session.pack(1, 65_536);
    assert_eq!(packed.answer.length, 65_536);
    assert_eq!(packed.output[..3], [0xff, 0xff, 0x72]);
    assert_eq!(packed.output[65_534..], [0x72, 0x78]);

    for dropped in [true, false] {
        let mut session = up_to(65_535, 0, 2);
        assert_eq!(session.put(&[0x72]), told(0, [65_537, 1, 1, 1]));
        let before = session.stores.clone();
        assert_eq!(session.close(), told(16, [65_537, 1, 1, 1]));
        assert_eq!(session.stores, before);
        if dropped {
            assert_eq!(session.drop_piece(), told(0, [1, 0, 1, 0]));
        } else {
            assert_eq!(session.put(&[0x72]), told(0, [65_538, 1, 1, 1]));
            assert_eq!(session.close(), told(16, [65_538, 1, 1, 1]));
        }
    }
}

#[test]
fn case_23() {
    let mut session = up_to(65_545, 10, 2);
    assert_eq!(session.close().id, 1);
    let packed = session.pack(1, 65_546);
    assert_eq!(packed.output[9..13], [0x68, 0xff, 0xff, 0x72]);
    let mut session = up_to(65_546, 10, 2);
    assert_eq!(session.close(), told(16, [65_547, 1, 1, 1]));
}

#[test]
fn case_24() {
    let mut session = Session::new(1, 0, 8);
    session.piece(&[0x78], &[]);
    session.open();
    assert_eq!(session.close(), told(5, [1, 0, 1, 1]));
    let mut session = up_to(65_536, 0, 1);
    assert_eq!(session.close(), told(16, [65_537, 1, 1, 1]));
    let mut session = up_to(65_535, 0, 1);
    assert_eq!(session.close(), told(8, [65_536, 1, 1, 1]));
}

/// An object of 40,000 bytes with a link of this width to id 0.
fn large(session: &mut Session, width: u32) -> u32 {
    session.open();
    session.link(width, 0);
    session.put(&vec![0x64; 40_000 - width as usize]);
    session.close().id as u32
}

#[test]
fn width_3_joins() {
    let mut session = Session::new(4, 4, 80_009);
    session.piece(&[0x63], &[]);
    let both = [2, 3].map(|width| large(&mut session, width));
    let root = session.piece(&[], &both.map(|id| (4, id))) as u32;
    let expected = Answer {
        parent: 1,
        field: 0,
        needed: 80_000,
        ..told(11, [80_009, 4, 4, 0])
    };
    assert_eq!(session.pack(root, 80_009).answer, expected);
}

#[test]
fn width_3_keeps_together() {
    let mut session = Session::new(5, 5, 80_014);
    session.piece(&[0x78], &[]);
    let q = large(&mut session, 4);
    let c = session.piece(&[0x63; 40_000], &[]) as u32;
    let p = session.piece(&[], &[(3, q), (2, 0)]) as u32;
    let root = session.piece(&[], &[(4, p), (4, c)]) as u32;
    let packed = session.pack(root, 80_014);
    assert_eq!((packed.answer.number, packed.answer.length), (0, 80_014));
    // root p q x c: the root's offsets to p and c, p's to q and x.
    assert_eq!(packed.output[..8], [0, 0, 0, 8, 0, 0, 156, 78]);
    assert_eq!(packed.output[8..13], [0, 0, 5, 156, 69]);
    assert_eq!(packed.output[40_013], 0x78);
}
