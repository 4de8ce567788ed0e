//! Many calls in one through the wrapper: ids, refusals, and that a session goes on.

use bindings::{batch_need, calls, records_need, work_need, Batch, Batched, Session, Unfinished};

const STALE: u64 = 0xee;

/// HarfBuzz's graph: a leaf, kept once, under two objects under the root.
fn graph() -> (Batch, usize) {
    let mut batch = Batch::new();
    let mut object = |bytes: &[u8], children: &[usize]| {
        batch.open();
        batch.put(bytes);
        for &child in children {
            batch.link_own(2, child, 0);
        }
        batch.close()
    };
    let d = object(b"d", &[]);
    let b = object(b"b", &[d]);
    let again = object(b"d", &[]);
    let c = object(b"c", &[again]);
    let root = object(b"a", &[b, c]);
    (batch, root)
}

#[test]
fn a_graph_in_one_call() {
    let (batch, root) = graph();
    let (mut store, mut records) = ([0; 12], vec![0; records_need(4, 4)]);
    let mut session = Session::start(&mut store, &mut records, 4, 4).unwrap();
    let need = batch_need(4, 4);
    assert_eq!(need, 16);
    let (mut ids, mut work) = ([7; 6], vec![STALE; need + 1]);
    assert_eq!(batch.closes(), 5);
    let told = batch.run(&mut session, &mut ids, &mut work).unwrap();
    assert_eq!(told, [0, 1, 0, 2, 3]);
    let root = told[root];
    assert_eq!(ids[5], 7);
    assert_eq!((&work[..need], work[need]), (&[0; 16][..], STALE));
    let (mut out, mut work) = ([0; 12], vec![0; work_need(4, 4, 0)]);
    let packed = session.pack(root, 0, &mut out, &mut work).unwrap();
    assert_eq!(packed.table, b"a\0\x05\0\x08b\0\x06c\0\x03d");
}

#[test]
fn a_batch_is_run_on_a_session_that_goes_on() {
    let (mut store, mut records) = ([0xee; 16], vec![0xee; records_need(3, 2)]);
    let mut session = Session::start(&mut store, &mut records, 3, 2).unwrap();
    let (mut ids, mut work) = ([0; 2], vec![0; batch_need(3, 2)]);
    session.open().unwrap();
    session.put(b"leaf").unwrap();
    let leaf = session.close().unwrap();
    let mut batch = Batch::new();
    batch.open();
    batch.put(b"ab");
    batch.link(3, leaf, 2);
    let parent = batch.close();
    batch.open();
    batch.put(b"x");
    batch.drop_object();
    batch.open();
    batch.link_own(2, parent, 0);
    let told = batch.run(&mut session, &mut ids, &mut work).unwrap();
    assert_eq!(told, [1]);
    assert_eq!(session.close(), Ok(2));
    let tally = session.tally().unwrap();
    assert_eq!((tally.bytes, tally.links, tally.objects), (11, 2, 3));
}

#[test]
fn an_unfinished_batch_says_how_far_it_came() {
    let (batch, _) = graph();
    // The root's second field has no room.
    let (mut store, mut records) = ([0; 11], vec![0; records_need(4, 4)]);
    let mut session = Session::start(&mut store, &mut records, 4, 4).unwrap();
    let (mut ids, mut work) = ([7; 5], vec![STALE; batch_need(4, 4)]);
    let Unfinished { told, ids } = batch.run(&mut session, &mut ids, &mut work).unwrap_err();
    let expected = Batched {
        number: 6,
        bytes: 10,
        links: 3,
        objects: 3,
        depth: 1,
        calls: 17,
        ids: 4,
    };
    assert_eq!((told, ids), (expected, &[0, 1, 0, 2][..]));
    let tally = session.drop_object().unwrap();
    assert_eq!((tally.bytes, tally.objects, tally.depth), (7, 3, 0));
}

/// A batch with nothing but its number beside it.
fn bare(number: u64) -> Batched {
    Batched {
        number,
        ..Batched::default()
    }
}

#[test]
fn each_refusal_is_told() {
    let (mut store, mut records) = ([0; 8], vec![0; records_need(2, 1)]);
    let (mut ids, mut work) = ([7; 1], vec![STALE; batch_need(2, 1)]);
    let told = calls::batch(&mut store, &mut records, &[1], &[], &mut ids, &mut work);
    assert_eq!(told, bare(12));
    let mut session = Session::start(&mut store, &mut records, 2, 1).unwrap();
    let short = work.len() - 1;
    let told = session.batch(&[1], &[], &mut ids, &mut work[..short]);
    assert_eq!(told.unwrap_err().told, bare(13));
    assert_eq!(work, vec![STALE; batch_need(2, 1)]);
    let no_calls: [&[u32]; 6] = [
        &[7],
        &[3, 2, 0],
        &[2, 4],
        &[4, 2, 0, 0],
        &[2, u32::MAX],
        &[4, 2, u32::MAX, 0],
    ];
    for calls in no_calls {
        let told = session.batch(calls, b"abc", &mut ids, &mut work);
        assert_eq!(told.unwrap_err().told, bare(19));
    }
    let told = session.batch(&[5], &[], &mut [], &mut work);
    assert_eq!(told.unwrap_err().told, bare(19));
    for (calls, number) in [(&[5][..], 1), (&[2, 3], 1), (&[6], 1)] {
        let told = session.batch(calls, b"abc", &mut ids, &mut work);
        assert_eq!(told.unwrap_err().told, bare(number));
    }
    assert_eq!(ids, [7]);
    assert_eq!(session.batch(&[], &[], &mut ids, &mut work), Ok(&[][..]));
}

/// Words reach the library whole.
#[test]
fn a_close_past_all_others_is_none() {
    let (mut store, mut records) = ([0; 8], vec![0; records_need(2, 1)]);
    let mut session = Session::start(&mut store, &mut records, 2, 1).unwrap();
    for close in [1, 256, 65_536, u32::MAX as usize, 1 << 32, usize::MAX] {
        let mut batch = Batch::new();
        batch.open();
        batch.put(b"x");
        batch.close();
        batch.open();
        batch.link_own(2, close, 0);
        let (mut ids, mut work) = ([7; 1], vec![0; batch_need(2, 1)]);
        let Unfinished { told, ids } = batch.run(&mut session, &mut ids, &mut work).unwrap_err();
        assert_eq!((told.number, told.calls, ids), (19, 4, &[0][..]));
        session.drop_object().unwrap();
    }
}
