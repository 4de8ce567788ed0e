//! A session through the wrapper: results, refusals, and that it goes on.

use bindings::{records_need, work_need, Answer, Packed, Refused, Session};

#[test]
fn a_refused_call_changes_nothing() {
    let (mut store, mut records) = ([0xee; 4], vec![0xee; records_need(2, 1)]);
    let mut session = Session::start(&mut store, &mut records, 2, 1).unwrap();
    session.open().unwrap();
    session.put(b"abc").unwrap();
    let held = session.tally().unwrap();
    let Err(Refused(refused)) = session.put(b"xy") else {
        panic!("two bytes have no room");
    };
    assert_eq!(refused, Answer { number: 6, ..held });
    assert_eq!(session.tally(), Ok(held));
    assert_eq!(session.drop_object().unwrap().bytes, 0);
}

#[test]
fn a_table_is_the_front_of_the_output() {
    let (mut store, mut records) = ([0; 8], vec![0; records_need(2, 1)]);
    let mut session = Session::start(&mut store, &mut records, 2, 1).unwrap();
    session.open().unwrap();
    session.put(b"x").unwrap();
    let leaf = session.close().unwrap();
    session.open().unwrap();
    session.link(4, leaf, 0).unwrap();
    let root = session.close().unwrap();
    let (mut out, mut work) = ([7; 9], vec![7; work_need(2, 1, 0)]);
    let table = &[0, 0, 0, 4, b'x'];
    assert_eq!(
        session.pack(root, 0, &mut out, &mut work),
        Ok(Packed {
            table,
            copies: 0,
            placed: 2
        })
    );
    assert_eq!(out[5..], [7; 4]);
    assert_eq!(
        session
            .pack(root, 0, &mut out[..4], &mut work)
            .unwrap_err()
            .0
            .number,
        10
    );
}

#[test]
fn an_inner_start_reaches_the_library_whole() {
    let (mut store, mut records) = ([0; 16], vec![0; records_need(2, 2)]);
    let mut session = Session::start(&mut store, &mut records, 2, 2).unwrap();
    session.open().unwrap();
    session.put(b"x").unwrap();
    let leaf = session.close().unwrap();
    session.open().unwrap();
    session.put(b"head").unwrap();
    let held = session.tally().unwrap();
    for inner in [5, 260, 65_540, 0x8000_0004, u32::MAX] {
        let refused = session.link(2, leaf, inner).unwrap_err();
        assert_eq!(refused.0, Answer { number: 3, ..held });
    }
    session.link(2, leaf, 4).unwrap();
    session.link(2, leaf, 0).unwrap();
    let root = session.close().unwrap();
    let (mut out, mut work) = ([7; 9], vec![7; work_need(2, 2, 0)]);
    let packed = session.pack(root, 0, &mut out, &mut work).unwrap();
    assert_eq!(packed.table, b"head\0\x04\0\x08x");
}

#[test]
fn a_hopeless_object_stays_open() {
    let (mut store, mut records) = (vec![0; 70_000], vec![0; records_need(2, 1)]);
    let mut session = Session::start(&mut store, &mut records, 2, 1).unwrap();
    session.open().unwrap();
    session.put(b"x").unwrap();
    let leaf = session.close().unwrap();
    for (bytes, hopeless) in [(65_534, true), (65_533, false)] {
        session.open().unwrap();
        session.link(2, leaf, 0).unwrap();
        let held = session.put(&vec![7; bytes]).unwrap();
        if hopeless {
            let refused = session.close().unwrap_err();
            assert_eq!(refused.0, Answer { number: 16, ..held });
            session.drop_object().unwrap();
        } else {
            assert_eq!(session.close(), Ok(1));
        }
    }
}

/// A leaf that the root links and two long objects.
#[test]
fn copies_reach_the_library_whole() {
    let (mut store, mut records) = (vec![0; 80_020], vec![0; records_need(4, 5)]);
    let mut session = Session::start(&mut store, &mut records, 4, 5).unwrap();
    session.open().unwrap();
    session.put(&[7; 10]).unwrap();
    let leaf = session.close().unwrap();
    let long = [1, 2].map(|byte| {
        session.open().unwrap();
        session.link(2, leaf, 0).unwrap();
        session.put(&vec![byte; 39_998]).unwrap();
        session.close().unwrap()
    });
    session.open().unwrap();
    session.link(2, leaf, 0).unwrap();
    for id in long {
        session.link(4, id, 0).unwrap();
    }
    let root = session.close().unwrap();
    let mut out = vec![7; 80_040];
    for (copies, parent, needed) in [(0, root, 80_010), (1, long[0], 80_000)] {
        let mut work = vec![7; work_need(4, 5, copies)];
        let refused = session.pack(root, copies, &mut out, &mut work).unwrap_err();
        let unfit = (refused.0.number, refused.0.parent, refused.0.needed);
        assert_eq!(unfit, (11, parent.into(), needed));
    }
    for copies in [2, 3, 1_024] {
        let mut work = vec![7; work_need(4, 5, copies)];
        let packed = session.pack(root, copies, &mut out, &mut work).unwrap();
        let Packed {
            table,
            copies,
            placed,
        } = packed;
        assert_eq!((table.len(), copies, placed), (80_040, 2, 6));
    }
    let mut work = vec![7; work_need(4, 5, 1_025)];
    for copies in [1_025, 65_536, u32::MAX] {
        let refused = session.pack(root, copies, &mut out, &mut work).unwrap_err();
        assert_eq!(refused.0.number, 13);
    }
}

#[test]
fn a_start_out_of_range_gives_no_session() {
    let (mut store, mut records) = ([0; 8], vec![0; records_need(1, 0)]);
    let refused = Session::start(&mut store, &mut records, 0, 0)
        .err()
        .unwrap();
    assert_eq!(
        refused.0,
        Answer {
            number: 13,
            ..Answer::default()
        }
    );
}
