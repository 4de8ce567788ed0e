//! Reads of GSUB tables, and substitutes, counted by hand.

mod common;

use common::told;
use reference::answer::{OUT_OF_RANGE, UNREADABLE};
use reference::call::{Call, Stores};
use reference::gsub::reading::reading;
use reference::gsub::{lookup_count, read_gsub, substitute, GsubRead};
use reference::history::History;
use reference::limits::record_need;
use reference::reader::shows;
use reference::reading::same;

/// Big-endian.
fn bytes(numbers: &[u16]) -> Vec<u8> {
    numbers.iter().flat_map(|n| n.to_be_bytes()).collect()
}

/// One table of each kind and format. The language system and the second
/// subtable are led to twice.
fn small() -> Vec<u8> {
    let parts: [&[u8]; 13] = [
        // 0: version 1.0, three lists.
        &bytes(&[1, 0, 10, 36, 50]),
        // 10: one script.
        b"\0\x01latn\0\x08",
        // 18: a default language system, and one language.
        b"\0\x0a\0\x01DEU \0\x0a",
        // 28: no order, no required feature, one feature.
        &bytes(&[0, 0xffff, 1, 0]),
        // 36: one feature.
        b"\0\x01smcp\0\x08",
        // 44: no parameters, one lookup.
        &bytes(&[0, 1, 0]),
        // 50: two lookups.
        &bytes(&[2, 6, 18]),
        // 56: two subtables and a mark filtering set.
        &bytes(&[1, 0x0010, 2, 20, 26, 9]),
        // 68: one subtable.
        &bytes(&[1, 0, 1, 14]),
        // 76: a delta of -2.
        &bytes(&[1, 16, 0xfffe]),
        // 82: two substitutes.
        &bytes(&[2, 18, 2, 500, 501]),
        // 92: two glyphs.
        &bytes(&[1, 2, 5, 1]),
        // 100: one range.
        &bytes(&[2, 1, 5, 20, 0]),
    ];
    parts.concat()
}

/// The places of its fields as they are read, those led to twice also twice.
const FIELDS: [usize; 66] = [
    0, 2, 4, 10, 12, 16, 18, 28, 30, 32, 34, 20, 22, 26, 28, 30, 32, 34, 6, 36, 38, 42, 44, 46, 48,
    8, 50, 52, 56, 58, 60, 62, 76, 78, 92, 94, 96, 98, 80, 64, 82, 84, 100, 102, 104, 106, 108, 86,
    88, 90, 66, 54, 68, 70, 72, 74, 82, 84, 100, 102, 104, 106, 108, 86, 88, 90,
];
const TAGS: [usize; 3] = [12, 22, 38];

/// What it holds.
const PIECES: u32 = 13;
const LINKS: u32 = 14;
const SIZE: usize = 110;
/// Its last coverage, read again while all but three links of it is held, stands
/// in a subtable of 2 bytes.
const PEAK: usize = SIZE - 6 + 12;

/// Stores of as many words as needed, and two more.
fn stores(pieces: u32, links: u32, store: usize) -> Stores {
    let need = record_need(pieces.into(), links.into()) as usize;
    Stores::new(store, need + 2)
}

/// What is told, and what is left. A refusal leaves what a start would.
fn read_in(pieces: u32, links: u32, store: usize, table: &[u8]) -> (GsubRead, Stores) {
    let mut read = stores(pieces, links, store);
    let told = read_gsub(&mut read, pieces, links, table);
    if told.number != 0 {
        let mut fresh = stores(pieces, links, store);
        fresh.run(&Call::Start { pieces, links });
        assert_eq!(read, fresh);
        let (number, place) = (told.number, told.place);
        assert_eq!(told, refused(number, place));
        assert!(number == UNREADABLE || place == 0);
    }
    (told, read)
}

fn refused(number: u64, place: u64) -> GsubRead {
    GsubRead {
        number,
        place,
        ..GsubRead::default()
    }
}

/// In a session with room enough.
fn read(table: &[u8]) -> GsubRead {
    read_in(100, 100, 1_000, table).0
}

/// The small table with another number at a place.
fn with(place: usize, number: u16) -> Vec<u8> {
    let mut table = small();
    table[place..place + 2].copy_from_slice(&number.to_be_bytes());
    table
}

fn unreadable(place: usize) -> GsubRead {
    refused(UNREADABLE, place as u64)
}

#[test]
fn each_table_is_one_piece() {
    let (answer, mut left) = read_in(PIECES, LINKS, PEAK, &small());
    let tally = left.run(&Call::Tally).answer;
    assert_eq!(
        tally,
        told(0, [SIZE as u64, LINKS.into(), PIECES.into(), 0])
    );
    let expected = GsubRead {
        number: 0,
        bytes: tally.bytes,
        links: tally.links,
        objects: tally.objects,
        depth: 0,
        id: u64::from(PIECES) - 1,
        place: 0,
    };
    assert_eq!(answer, expected);
    // The first are closed first: language system, script, scripts.
    let closed = &left.bytes[PEAK - 26..];
    assert_eq!(
        closed,
        b"\0\x01latn\0\0\0\0\0\x01DEU \0\0\0\0\xff\xff\0\x01\0\0"
    );
}

#[test]
fn the_root_reads_as_the_table_does() {
    let table = small();
    let lengths = (PEAK, record_need(PIECES.into(), LINKS.into()) as usize);
    let mut history = History::begin(1, 0, lengths.0, lengths.1).unwrap();
    let answer = history.read_gsub((PIECES, LINKS), lengths, &table);
    assert_eq!(answer, read_in(PIECES, LINKS, PEAK, &table).0);
    let root = history.reading(answer.id as u32).unwrap();
    assert!(same(root, &reading(&table).unwrap()));
    assert!(shows(&table, root));
    assert_eq!(history.table_length(answer.id as u32), Some(SIZE as u64));
}

#[test]
fn a_packed_table_is_read_the_same() {
    let (answer, mut left) = read_in(PIECES, LINKS, PEAK, &small());
    let before = left.clone();
    let pack = Call::Pack {
        id: answer.id as u32,
        copies: 0,
        output: SIZE,
        work: 1_000,
    };
    let packed = left.run(&pack);
    assert_eq!(
        (packed.answer.number, packed.answer.length),
        (0, SIZE as u64)
    );
    assert_eq!(read_gsub(&mut left, PIECES, LINKS, &packed.output), answer);
    assert_eq!(left, before);
    for lookup in 0..3 {
        let by = |table: &[u8]| [0, 1, 5, 6, 20].map(|glyph| substitute(table, lookup, glyph));
        assert_eq!(by(&packed.output), by(&small()));
    }
}

#[test]
fn a_cut_table_is_told_its_first_missing_field() {
    let table = small();
    for length in 0..SIZE {
        let missing = FIELDS.into_iter().find(|&place| {
            let width = if TAGS.contains(&place) { 4 } else { 2 };
            place + width > length
        });
        assert_eq!(read(&table[..length]), unreadable(missing.unwrap()));
        assert!(reading(&table[..length]).is_none());
    }
    // Bytes behind it are not looked at.
    let longer = [table, vec![0xff; 9]].concat();
    assert_eq!(read(&longer).bytes, SIZE as u64);
}

#[test]
fn every_judged_field_is_told_by_its_place() {
    let versions = [(0, 0), (0, 2), (0, 256), (2, 1), (2, 0xffff)];
    let types = [(56, 0), (56, 2), (68, 6), (68, 8), (68, 257), (68, 263)];
    let formats = [(76, 0), (76, 3), (82, 3), (92, 3), (100, 0), (100, 258)];
    let not_zero = [(28, 1), (28, 0xffff), (44, 1), (44, 256)];
    let offsets = [4, 6, 8, 16, 26, 42, 52, 54, 62, 64, 74, 78, 84].map(|place| (place, 0));
    for (place, number) in [&versions[..], &types, &formats, &not_zero, &offsets].concat() {
        assert_eq!(read(&with(place, number)), unreadable(place));
    }
}

#[test]
fn an_offset_that_leads_outside_is_told_by_its_child() {
    for (place, begin) in [
        (4, 0),
        (16, 10),
        (26, 18),
        (42, 36),
        (8, 0),
        (54, 50),
        (84, 82),
    ] {
        for offset in [SIZE as u16 - 1, 1_000, 0xffff] {
            let child = begin + usize::from(offset);
            assert_eq!(read(&with(place, offset)), unreadable(child));
        }
    }
}

#[test]
fn no_default_language_system_is_two_zero_bytes() {
    let answer = read(&with(18, 0));
    assert_eq!((answer.number, answer.bytes), (0, SIZE as u64));
    assert_eq!(
        (answer.links, answer.objects),
        (LINKS as u64 - 1, PIECES.into())
    );
}

#[test]
fn nothing_else_is_judged() {
    for (place, number) in [
        (30, 7),
        (34, 900),
        (48, 900),
        (58, 0xffff),
        (96, 0),
        (106, 0),
    ] {
        let table = with(place, number);
        assert_eq!(read(&table).number, 0, "{place}");
        assert!(reading(&table).is_some());
    }
    // A lookup without its flag's bit has no mark filtering set.
    assert_eq!(read(&with(58, 0xffef)).bytes, SIZE as u64 - 2);
}

#[test]
fn each_limit_is_exact() {
    let table = small();
    for (pieces, links, store, number) in [
        (PIECES, LINKS, PEAK, 0),
        (PIECES, LINKS, PEAK - 1, 6),
        (PIECES, LINKS, SIZE, 6),
        (PIECES, LINKS - 1, PEAK, 7),
        (PIECES, 0, PEAK, 7),
        (PIECES - 1, LINKS, PEAK, 8),
        (1, LINKS, PEAK, 8),
        (1, 0, 1, 6),
    ] {
        assert_eq!(read_in(pieces, links, store, &table).0.number, number);
    }
}

/// Both limits suffice but for the last field, which is a link.
#[test]
fn a_link_is_told_7_before_6() {
    // Nothing is led to twice, so that the end is the most.
    let mut table = with(18, 0);
    table[50..56].copy_from_slice(&bytes(&[1, 6, 0]));
    let (links, size) = (11, SIZE - 10);
    for (links, store, number) in [
        (links, size, 0),
        (links, size - 1, 6),
        (links - 1, size, 7),
        (links - 1, size - 1, 7),
    ] {
        assert_eq!(read_in(PIECES, links, store, &table).0.number, number);
    }
}

/// A store of this length is full when the field at a place is read.
fn full_at(place: usize) -> usize {
    let before = FIELDS.into_iter().take_while(|&field| field != place);
    let put = before.filter(|field| ![4, 16, 18].contains(field));
    put.map(|field| if TAGS.contains(&field) { 4 } else { 2 })
        .sum()
}

#[test]
fn a_field_is_judged_before_it_is_put() {
    for (place, number) in [(0, 2), (2, 1), (28, 1)] {
        let store = full_at(place).max(1);
        assert_eq!(read_in(9, 9, store, &small()).0, refused(6, 0));
        assert_eq!(
            read_in(9, 9, store, &with(place, number)).0,
            unreadable(place)
        );
        let cut = &small()[..place + 1];
        assert_eq!(read_in(9, 9, store, cut).0, unreadable(place));
    }
}

#[test]
fn a_tag_is_one_field() {
    let tag = TAGS[0];
    for free in 0..4 {
        let store = full_at(tag) + free;
        assert_eq!(read_in(9, 9, store, &small()).0, refused(6, 0));
        for cut in 0..4 {
            let table = &small()[..tag + cut];
            assert_eq!(read_in(9, 9, store, table).0, unreadable(tag));
        }
    }
}

#[test]
fn a_child_is_read_before_its_link_is_made() {
    // No link can be made; the first is that of the language system.
    assert_eq!(read_in(9, 0, 99, &small()).0, refused(7, 0));
    assert_eq!(read_in(9, 0, 99, &with(28, 1)).0, unreadable(28));
    assert_eq!(read_in(9, 0, 99, &small()[..35]).0, unreadable(34));
    // No second piece can be closed; the second is the script's.
    assert_eq!(read_in(1, 9, 99, &small()).0, refused(8, 0));
    assert_eq!(read_in(1, 9, 99, &with(26, 0)).0, unreadable(26));
}

/// One lookup with a subtable of so many substitutes, which are also its
/// coverage.
fn wide(substitutes: u16) -> Vec<u8> {
    let head = bytes(&[
        1,
        0,
        10,
        10,
        12,
        0,
        1,
        4,
        1,
        0,
        1,
        8,
        2,
        6,
        substitutes,
        1,
        0,
    ]);
    let mut table = head;
    table.resize(24 + 6 + 2 * usize::from(substitutes), 7);
    table
}

#[test]
fn a_table_too_long_for_its_offset_is_told_16() {
    for (substitutes, number) in [(32_764, 0), (32_765, 16)] {
        let table = wide(substitutes);
        let answer = read_in(6, 6, table.len() + 40, &table).0;
        assert_eq!(answer.number, number);
    }
    // It is told before 8, and after 6.
    let table = wide(32_765);
    assert_eq!(read_in(3, 6, table.len(), &table).0.number, 16);
    assert_eq!(read_in(3, 6, table.len() - 30, &table).0.number, 6);
}

#[test]
fn a_read_out_of_range_changes_nothing() {
    let need = record_need(4, 5) as usize;
    for (pieces, links, store, records) in [
        (0, 5, 50, need),
        (16_385, 5, 50, 100_000),
        (4, 65_537, 50, 300_000),
        (4, 5, 0, need),
        (4, 5, 50, need - 1),
    ] {
        let mut left = Stores::new(store, records);
        let before = left.clone();
        for table in [small(), Vec::new()] {
            let answer = read_gsub(&mut left, pieces, links, &table);
            assert_eq!(answer, refused(OUT_OF_RANGE, 0));
            assert_eq!(left, before);
        }
    }
}

#[test]
fn a_read_begins_anew() {
    let (answer, mut left) = read_in(PIECES, LINKS, PEAK, &small());
    let before = left.clone();
    for call in [Call::Open, Call::Put(b"x".to_vec())] {
        left.run(&call);
    }
    assert_eq!(read_gsub(&mut left, PIECES, LINKS, &small()), answer);
    assert_eq!(left, before);
}

#[test]
fn substitutes_of_the_small_table() {
    let table = small();
    assert_eq!(lookup_count(&table), 2);
    for (lookup, glyph, becomes) in [
        // By the delta, modulo 65,536, though the other subtable has 5 too.
        (0, 5, 3),
        (0, 1, 0xffff),
        // By the second subtable, which has substitutes for two glyphs.
        (0, 6, 501),
        (0, 7, 7),
        (0, 20, 20),
        (0, 21, 21),
        (1, 5, 500),
        (1, 6, 501),
        (1, 1, 1),
        // There is no such lookup.
        (2, 5, 5),
        (0xffff, 5, 5),
    ] {
        assert_eq!(substitute(&table, lookup, glyph), becomes);
    }
}

/// One lookup of type 7. Two offsets lead to its first Extension and one to its
/// second; both lead to one subtable.
fn extended() -> Vec<u8> {
    bytes(&[
        1, 0, 10, 10, 12, // 0: three lists, two of them none
        0,  // 10: no script, no feature
        1, 4, // 12: one lookup
        7, 0x0010, 3, 14, 14, 22, 9, // 16: three subtables and a mark filtering set
        1, 1, 0, 16, // 30: an Extension
        1, 1, 0, 8, // 38: another
        1, 6, 3, // 46: a delta of 3
        1, 2, 5, 8, // 52: two glyphs
    ])
}

/// Where its first Extension is.
const FIRST_EXTENSION: usize = 30;

#[test]
fn a_subtable_behind_extensions() {
    let table = extended();
    let (answer, mut left) = read_in(9, 20, 100, &table);
    // The Extensions lead to the same subtable: they are one piece.
    let expected = GsubRead {
        bytes: 60 - 8,
        links: 3 + 1 + 3 + 1 + 1,
        objects: 7,
        id: 6,
        ..GsubRead::default()
    };
    assert_eq!(answer, expected);
    let root = reading(&table).unwrap();
    assert!(shows(&table, &root));
    let pack = Call::Pack {
        id: 6,
        copies: 0,
        output: 60,
        work: 1_000,
    };
    let packed = left.run(&pack);
    assert_eq!((packed.answer.number, packed.answer.length), (0, 52));
    let packed = &packed.output[..52];
    assert!(same(&reading(packed).unwrap(), &root));
    for table in [&table[..], packed] {
        let becomes = [4, 5, 6, 8].map(|glyph| substitute(table, 0, glyph));
        assert_eq!(becomes, [4, 8, 6, 11]);
    }
}

/// A table with another number at a place.
fn changed(table: &[u8], place: usize, number: u16) -> Vec<u8> {
    let mut table = table.to_vec();
    table[place..place + 2].copy_from_slice(&number.to_be_bytes());
    table
}

#[test]
fn every_field_of_an_extension_is_told_by_its_place() {
    let table = extended();
    for (field, number) in [(0, 0), (0, 2), (0, 257), (2, 0), (2, 2), (2, 7), (2, 257)] {
        let place = FIRST_EXTENSION + field;
        assert_eq!(read(&changed(&table, place, number)), unreadable(place));
        assert!(reading(&changed(&table, place, number)).is_none());
    }
    // An offset has four bytes, all of which count.
    let offset = FIRST_EXTENSION + 4;
    assert_eq!(read(&changed(&table, offset + 2, 0)), unreadable(offset));
    let far = FIRST_EXTENSION + 65_536 + 16;
    assert_eq!(read(&changed(&table, offset, 1)), unreadable(far));
    let farther = FIRST_EXTENSION + (65_535 << 16) + 16;
    assert_eq!(read(&changed(&table, offset, 0xffff)), unreadable(farther));
    let past = FIRST_EXTENSION + 1_000;
    assert_eq!(read(&changed(&table, offset + 2, 1_000)), unreadable(past));
    // Cut inside, it is told as one field.
    for (length, place) in [(30, 30), (31, 30), (33, 32), (34, 34), (36, 34), (37, 34)] {
        assert_eq!(read(&table[..length]), unreadable(place));
    }
}

/// Fields are put in order: the Extension's format and type before its subtable.
#[test]
fn an_extension_is_put_before_its_subtable() {
    // Header, list and lookup as far as they are put, the list of none, and the
    // Extension.
    let before = 8 + 2 + 6 + 2;
    let spoilt = changed(&extended(), 46, 3);
    for (free, told) in [
        (0, refused(6, 0)),
        (2, refused(6, 0)),
        (3, refused(6, 0)),
        (4, unreadable(46)),
    ] {
        assert_eq!(read_in(9, 20, before + free, &spoilt).0, told);
    }
    let spoilt = changed(&extended(), FIRST_EXTENSION, 2);
    assert_eq!(read_in(9, 20, before, &spoilt).0, unreadable(30));
}

/// One lookup of two subtables with these numbers from their coverages on.
fn two(first: &[u16], second: &[u16]) -> Vec<u8> {
    let length = 2 * first.len() as u16;
    let head = [1, 0, 10, 10, 12, 0, 1, 4, 1, 0, 2, 10, 10 + length];
    let table = [&head, first, second].concat();
    let table = bytes(&table);
    assert_eq!(read(&table).number, 0);
    table
}

#[test]
fn the_first_subtable_that_covers_counts() {
    // Glyphs 4 and 4 again to 90 alone; glyphs 4 and 5 to 80 and 81.
    let first = [2, 8, 1, 90, 1, 2, 5, 4];
    let second = [2, 10, 2, 80, 81, 1, 2, 4, 5];
    let table = two(&first, &second);
    // 4 is there, though it has no substitute.
    assert_eq!(
        [4, 5, 6].map(|glyph| substitute(&table, 0, glyph)),
        [4, 90, 6]
    );
    let table = two(&second, &first);
    assert_eq!(
        [4, 5, 6].map(|glyph| substitute(&table, 0, glyph)),
        [80, 81, 6]
    );
}

#[test]
fn the_first_entry_or_range_counts() {
    let twice = [2, 12, 3, 70, 71, 72, 1, 3, 9, 8, 9];
    let none = [1, 6, 0, 1, 0];
    let table = two(&twice, &none);
    assert_eq!([8, 9].map(|glyph| substitute(&table, 0, glyph)), [71, 70]);
    // 10 to 12 from index 2 on, 11 to 20 from 0 on, and one that is no range.
    let ranges = [2, 12, 3, 70, 71, 72, 2, 3, 30, 29, 0, 10, 12, 2, 11, 20, 0];
    let table = two(&ranges, &none);
    let becomes = [10, 11, 12, 13, 14, 20, 30].map(|glyph| substitute(&table, 0, glyph));
    assert_eq!(becomes, [72, 11, 12, 72, 14, 20, 30]);
    // An index is not taken modulo 65,536.
    let past = [2, 12, 3, 70, 71, 72, 2, 1, 10, 12, 0xffff];
    let table = two(&past, &none);
    assert_eq!(
        [10, 11, 12].map(|glyph| substitute(&table, 0, glyph)),
        [10, 11, 12]
    );
}

#[test]
fn a_delta_is_added_modulo_65_536() {
    let up = [1, 6, 0x8000, 2, 1, 0, 0xffff, 0];
    let table = two(&up, &[1, 6, 0, 1, 0]);
    let becomes = [0, 1, 0x7fff, 0x8000, 0xffff].map(|glyph| substitute(&table, 0, glyph));
    assert_eq!(becomes, [0x8000, 0x8001, 0xffff, 0, 0x7fff]);
}
