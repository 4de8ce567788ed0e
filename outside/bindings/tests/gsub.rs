//! A GSUB table read through the wrapper: the root, packs, and refusals.

use bindings::{calls, records_need, work_need, GsubRead, NotRead, Session};

/// One lookup of two subtables that are equal, and have one coverage.
const TABLE: [u8; 52] = [
    0, 1, 0, 0, 0, 10, 0, 12, 0, 14, // header
    0, 0, // no script
    0, 0, // no feature
    0, 1, 0, 4, // one lookup
    0, 1, 0, 0, 0, 2, 0, 10, 0, 18, // two subtables
    0, 1, 0, 16, 0, 3, 0, 0, // glyphs 7 and 9 by 3
    0, 1, 0, 8, 0, 3, 0, 0, // the same
    0, 1, 0, 2, 0, 7, 0, 9, // glyphs 7 and 9
];

/// What it holds: the lists of scripts and of features are equal too.
const OBJECTS: u32 = 6;
const LINKS: u32 = 7;

#[test]
fn a_table_is_read_and_packed() {
    let (mut store, mut records) = (
        [0xee; TABLE.len()],
        vec![0xee; records_need(OBJECTS, LINKS)],
    );
    let (session, root) =
        Session::read_gsub(&mut store, &mut records, OBJECTS, LINKS, &TABLE).unwrap();
    assert_eq!(root, OBJECTS - 1);
    let tally = session.tally().unwrap();
    assert_eq!((tally.bytes, tally.links, tally.objects), (40, 7, 6));
    let (mut out, mut work) = ([7; TABLE.len()], vec![7; work_need(OBJECTS, LINKS, 0)]);
    let packed = session.pack(root, 0, &mut out, &mut work).unwrap();
    assert_eq!(packed.table.len(), 40);
    let packed = packed.table.to_vec();
    let again = calls::read_gsub(&mut store, &mut records, OBJECTS, LINKS, &packed);
    let expected = GsubRead {
        number: 0,
        bytes: 40,
        links: 7,
        objects: 6,
        depth: 0,
        id: 5,
        place: 0,
    };
    assert_eq!(again, expected);
}

/// One lookup of type 2: a sequence of two for glyph 7.
const MULTIPLE: [u8; 44] = [
    0, 1, 0, 0, 0, 10, 0, 10, 0, 12, // header
    0, 0, // no script, no feature
    0, 1, 0, 4, // one lookup
    0, 2, 0, 0, 0, 1, 0, 8, // of type 2
    0, 1, 0, 8, 0, 1, 0, 14, // a coverage, a sequence
    0, 1, 0, 1, 0, 7, // glyph 7
    0, 2, 0, 30, 0, 31, // glyphs 30 and 31
];

#[test]
fn a_table_of_another_type_is_read_whole() {
    let (mut store, mut records) = ([0xee; 60], vec![0xee; records_need(7, 7)]);
    let narrow = Session::read_gsub(&mut store, &mut records, 7, 7, &MULTIPLE);
    let place = narrow.err().map(|NotRead(told)| (told.number, told.place));
    assert_eq!(place, Some((15, 16)));
    let read = Session::read_gsub_whole(&mut store, &mut records, 7, 7, &MULTIPLE);
    let (session, root) = read.unwrap();
    assert_eq!((root, session.tally().unwrap().links), (6, 7));
    let (mut out, mut work) = ([7; 60], vec![7; work_need(7, 7, 0)]);
    let packed = session.pack(root, 0, &mut out, &mut work).unwrap();
    let packed = packed.table.to_vec();
    assert_eq!(packed.len(), MULTIPLE.len());
    let again = calls::read_gsub_whole(&mut store, &mut records, 7, 7, &packed);
    assert_eq!((again.number, again.id, again.bytes), (0, 6, 44));
}

fn refused(piece_limit: u32, link_limit: u32, store: usize, table: &[u8]) -> GsubRead {
    let (mut store, mut records) = (vec![0; store], vec![0; records_need(OBJECTS, LINKS)]);
    match Session::read_gsub(&mut store, &mut records, piece_limit, link_limit, table) {
        Ok(_) => panic!("a table that is not read"),
        Err(NotRead(told)) => told,
    }
}

#[test]
fn each_refusal_is_told() {
    let told = |number, place| GsubRead {
        number,
        place,
        ..GsubRead::default()
    };
    let limits = [
        (OBJECTS, LINKS, 9, 6),
        (OBJECTS, LINKS - 1, 100, 7),
        (OBJECTS - 1, LINKS, 100, 8),
        (OBJECTS, LINKS + 1, 100, 13),
        (0, LINKS, 100, 13),
        (OBJECTS, LINKS, 0, 13),
    ];
    for (objects, links, store, number) in limits {
        assert_eq!(refused(objects, links, store, &TABLE), told(number, 0));
    }
    for (length, place) in [(0, 0), (1, 0), (5, 4), (9, 10), (51, 50)] {
        let table = &TABLE[..length];
        assert_eq!(refused(OBJECTS, LINKS, 100, table), told(15, place));
    }
}
