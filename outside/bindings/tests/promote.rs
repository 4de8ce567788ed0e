//! Lookups promoted through the wrapper: the packed table, and refusals.

use bindings::{calls, records_need, work_need, GsubPromoted, NotPromoted, Session};

const OBJECTS: u32 = 40;
const LINKS: u32 = 40;
const STORE: usize = 100_000;

/// So many substitutes each make a subtable of 30,006 bytes.
const SUBSTITUTES: u16 = 15_000;

/// Three lookups of one subtable each, which lie in one another: what follows a
/// subtable's count, the next ones and the coverages among it, are its
/// substitutes. Two have room near the list.
fn table() -> Vec<u8> {
    let n = SUBSTITUTES;
    let numbers = [
        1, 0, 10, 10, 12, // header
        0,  // no script, no feature
        3, 8, 16, 24, // three lookups
        1, 0, 1, 24, // of a subtable each
        1, 0, 1, 22, //
        1, 0, 1, 20, //
        2, 18, n, // subtables
        2, 18, n, //
        2, 18, n, //
        1, 1, 7, // coverages
        1, 1, 8, //
        1, 1, 9, //
    ];
    let mut table: Vec<u8> = numbers.into_iter().flat_map(u16::to_be_bytes).collect();
    // The last subtable begins where 56 bytes are before it.
    table.resize(56 + 6 + 2 * usize::from(n), 3);
    table
}

/// What it holds with one promoted: header, a list of nothing, list, lookups, an
/// Extension, subtables and coverages.
const HELD: usize = 10 + 2 + 8 + 3 * 8 + 8 + 3 * 30_006 + 3 * 6;

/// The stores, and the memory that is lent for the packed table.
struct Lent {
    store: Vec<u8>,
    records: Vec<u32>,
    out: Vec<u8>,
    work: Vec<u64>,
}

fn lent(store: usize, out: usize) -> Lent {
    Lent {
        store: vec![0xee; store],
        records: vec![0xee; records_need(OBJECTS, LINKS)],
        out: vec![0xee; out],
        work: vec![0xee; work_need(OBJECTS, LINKS, 0)],
    }
}

#[test]
fn the_last_lookup_is_promoted() {
    let table = table();
    let Lent {
        mut store,
        mut records,
        mut out,
        mut work,
    } = lent(STORE, STORE);
    let limits = (OBJECTS, LINKS);
    let told = Session::promote_gsub(
        &mut store,
        &mut records,
        limits,
        &table,
        &mut out,
        &mut work,
    );
    let (session, promoted) = told.unwrap();
    assert_eq!((promoted.promoted, promoted.root), (1, 12));
    assert_eq!(promoted.table.len(), HELD);
    let tally = session.tally().unwrap();
    assert_eq!((tally.objects, tally.bytes), (13, HELD as u64));
    // The session goes on, and packs to the same.
    let packed = promoted.table.to_vec();
    let again = session.pack(promoted.root, 0, &mut out, &mut work).unwrap();
    assert!(again.table == packed);
    // Packed, it is read with none promoted, and packs to itself.
    let told = calls::promote_gsub(
        &mut store,
        &mut records,
        OBJECTS,
        LINKS,
        &packed,
        &mut out,
        &mut work,
    );
    assert_eq!((told.number, told.promoted), (0, 0));
    assert!(out[..told.length as usize] == packed);
}

/// The same three with type 8: nothing before them, nothing behind them.
#[test]
fn lookups_of_another_type_are_promoted_whole() {
    let n = SUBSTITUTES;
    let numbers = [
        1, 0, 10, 10, 12, // header
        0,  // no script, no feature
        3, 8, 16, 24, // three lookups
        8, 0, 1, 24, // of a subtable each
        8, 0, 1, 26, //
        8, 0, 1, 28, //
        1, 30, 0, 0, n, // subtables
        1, 26, 0, 0, n, //
        1, 22, 0, 0, n, //
        1, 1, 7, // coverages
        1, 1, 8, //
        1, 1, 9, //
    ];
    let mut table: Vec<u8> = numbers.into_iter().flat_map(u16::to_be_bytes).collect();
    // The last subtable begins where 64 bytes are before it.
    table.resize(64 + 10 + 2 * usize::from(n), 3);
    let mut lent = lent(STORE, STORE);
    let (store, records) = (&mut lent.store, &mut lent.records);
    let (out, work) = (&mut lent.out, &mut lent.work);
    let limits = (OBJECTS, LINKS);
    let narrow = calls::promote_gsub(store, records, OBJECTS, LINKS, &table, out, work);
    assert_eq!((narrow.number, narrow.place), (15, 20));
    let whole = Session::promote_gsub_whole(store, records, limits, &table, out, work);
    let (session, promoted) = whole.unwrap();
    assert_eq!((promoted.promoted, promoted.root), (1, 12));
    assert_eq!(promoted.table.len(), HELD + 3 * 4);
    assert_eq!(session.tally().unwrap().objects, 13);
}

/// What is told beside a refusal, in a store and an output of these lengths.
fn refused((objects, links): (u32, u32), store: usize, out: usize, table: &[u8]) -> GsubPromoted {
    let mut lent = lent(store, out);
    let (store, records) = (&mut lent.store, &mut lent.records);
    let (out, work) = (&mut lent.out, &mut lent.work);
    match Session::promote_gsub(store, records, (objects, links), table, out, work) {
        Ok(_) => panic!("a table that is not packed"),
        Err(NotPromoted(told)) => {
            assert!(lent.out.iter().all(|&byte| byte == 0xee));
            told
        }
    }
}

fn told(number: u64) -> GsubPromoted {
    GsubPromoted {
        number,
        ..GsubPromoted::default()
    }
}

#[test]
fn each_refusal_is_told() {
    let table = table();
    let limits = (OBJECTS, LINKS);
    assert_eq!(refused(limits, HELD - 1, STORE, &table), told(6));
    assert_eq!(refused((OBJECTS, 12), STORE, STORE, &table), told(7));
    assert_eq!(refused((12, LINKS), STORE, STORE, &table), told(8));
    assert_eq!(refused(limits, STORE, HELD - 1, &table), told(10));
    assert_eq!(refused((0, LINKS), STORE, STORE, &table), told(13));
    assert_eq!(refused(limits, 0, STORE, &table), told(13));
    let mut lent = lent(STORE, STORE);
    let short = lent.work.len() - 1;
    let by_work = calls::promote_gsub(
        &mut lent.store,
        &mut lent.records,
        OBJECTS,
        LINKS,
        &table,
        &mut lent.out,
        &mut lent.work[..short],
    );
    assert_eq!(by_work, told(13));
    assert!(lent.work.iter().all(|&word| word == 0xee));
}

#[test]
fn a_refusal_names_its_field() {
    let table = table();
    let place = table.len() as u64 - 2;
    let cut = refused((OBJECTS, LINKS), STORE, STORE, &table[..table.len() - 1]);
    assert_eq!(cut, GsubPromoted { place, ..told(15) });
    // All three have the first one's coverage, which lies behind them all.
    let mut shared = table;
    shared[52..54].copy_from_slice(&12_u16.to_be_bytes());
    shared[58..60].copy_from_slice(&6_u16.to_be_bytes());
    let link = refused((OBJECTS, LINKS), STORE, STORE, &shared);
    let expected = GsubPromoted {
        parent: 2,
        field: 2,
        needed: 3 * 30_006,
        ..told(11)
    };
    assert_eq!(link, expected);
}
