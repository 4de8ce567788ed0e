//! Whole GSUB tables counted by hand, in the order of the rules' section 16.

use reference::answer::UNREADABLE;
use reference::call::Stores;
use reference::gsub::reading::promoted;
use reference::gsub::{read_gsub, read_gsub_whole, substitute, GsubRead, Params, Scope};
use reference::history::History;
use reference::limits::record_need;
use reference::reader::shows;
use reference::reading::same;

const PIECES: u32 = 40;
const LINKS: u32 = 60;
const STORE: usize = 1_000;

/// Big-endian.
fn bytes(numbers: &[u16]) -> Vec<u8> {
    numbers.iter().flat_map(|n| n.to_be_bytes()).collect()
}

fn stores() -> Stores {
    Stores::new(STORE, record_need(PIECES.into(), LINKS.into()) as usize)
}

/// What is told. An accepted root reads as the table by its description.
fn read(table: &[u8]) -> GsubRead {
    let mut left = stores();
    let told = read_gsub_whole(&mut left, PIECES, LINKS, table);
    let (limits, lengths) = ((PIECES, LINKS), (STORE, left.records.len()));
    let mut history = History::begin(PIECES, LINKS, lengths.0, lengths.1).unwrap();
    let expected = history.read_scope(Scope::Whole, limits, lengths, table, 0);
    assert_eq!(told, expected);
    match Scope::Whole.reading(table) {
        Ok(reading) => {
            assert!(same(history.reading(told.id as u32).unwrap(), &reading));
            assert!(shows(table, &reading));
        }
        Err(field) => assert_eq!(told, unreadable(field.place)),
    }
    told
}

fn unreadable(place: usize) -> GsubRead {
    GsubRead {
        number: UNREADABLE,
        place: place as u64,
        ..GsubRead::default()
    }
}

/// With another number at a place.
fn with(table: &[u8], place: usize, number: u16) -> Vec<u8> {
    let mut table = table.to_vec();
    table[place..place + 2].copy_from_slice(&number.to_be_bytes());
    table
}

/// Where the one subtable of a table begins.
const SUBTABLE: usize = 24;

/// A table of one lookup with one subtable. Scripts and features have no entry, and
/// are one list.
fn of(kind: u16, subtable: &[u16]) -> Vec<u8> {
    let before = [1, 0, 10, 10, 12, 0, 1, 4, kind, 0, 1, 8];
    bytes(&[&before, subtable].concat())
}

/// What stands before it: a header, a list of nothing, a list, a lookup.
const BEFORE: (u64, u64) = (4, 5);

/// A subtable: its type and its numbers; objects and links that it has, itself and
/// the link to it not counted; and the places of its fields that are judged, each
/// with numbers that are refused there.
type Case = (
    u16,
    &'static [u16],
    (u64, u64),
    &'static [(usize, &'static [u16])],
);

const BAD_FORMAT: &[u16] = &[0, 3, 0x100, 0xffff];
const BAD_ONLY_FORMAT: &[u16] = &[0, 2, 3, 0x101];
const BAD_CONTEXT: &[u16] = &[0, 4, 0x100];
const NO_OFFSET: &[u16] = &[0];

const CASES: [Case; 14] = [
    // A delta.
    (
        1,
        &[1, 6, 3, 1, 1, 7],
        (1, 1),
        &[(0, BAD_FORMAT), (2, NO_OFFSET), (6, BAD_FORMAT)],
    ),
    // A substitute; a range.
    (
        1,
        &[2, 8, 1, 9, 2, 1, 7, 7, 0],
        (1, 1),
        &[(0, BAD_FORMAT), (2, NO_OFFSET)],
    ),
    // A sequence of two.
    (
        2,
        &[1, 8, 1, 14, 1, 1, 7, 2, 30, 31],
        (2, 2),
        &[(0, BAD_ONLY_FORMAT), (2, NO_OFFSET), (6, NO_OFFSET)],
    ),
    // A set of one alternate.
    (
        3,
        &[1, 8, 1, 14, 1, 1, 7, 1, 40],
        (2, 2),
        &[(0, BAD_ONLY_FORMAT), (2, NO_OFFSET), (6, NO_OFFSET)],
    ),
    // A ligature of three components, and one whose count is 0.
    (
        4,
        &[1, 8, 1, 14, 1, 1, 7, 2, 6, 14, 50, 3, 8, 9, 51, 0],
        (4, 4),
        &[
            (0, BAD_ONLY_FORMAT),
            (2, NO_OFFSET),
            (6, NO_OFFSET),
            (16, NO_OFFSET),
            (18, NO_OFFSET),
        ],
    ),
    // Rules of glyphs, for the second of three alone.
    (
        5,
        &[1, 12, 3, 0, 18, 0, 1, 1, 7, 1, 4, 2, 1, 8, 0, 5],
        (3, 3),
        &[(0, BAD_CONTEXT), (2, NO_OFFSET), (20, NO_OFFSET)],
    ),
    // Rules of classes, one with a count of 0; an array of classes.
    (
        5,
        &[
            2, 12, 18, 2, 0, 28, 1, 1, 7, 1, 5, 2, 1, 2, 1, 4, 0, 1, 0, 5,
        ],
        (4, 4),
        &[
            (0, BAD_CONTEXT),
            (2, NO_OFFSET),
            (4, NO_OFFSET),
            (18, BAD_FORMAT),
            (30, NO_OFFSET),
        ],
    ),
    // Two coverages, a record.
    (
        5,
        &[3, 2, 1, 14, 20, 0, 5, 1, 1, 7, 2, 1, 3, 4, 0],
        (2, 2),
        &[
            (0, BAD_CONTEXT),
            (6, NO_OFFSET),
            (8, NO_OFFSET),
            (14, BAD_FORMAT),
            (20, BAD_FORMAT),
        ],
    ),
    // Chained rules of glyphs: one before, two of the input, none behind, a record.
    (
        6,
        &[1, 10, 2, 16, 0, 1, 1, 7, 1, 4, 1, 3, 2, 8, 0, 1, 0, 5],
        (3, 3),
        &[(0, BAD_CONTEXT), (2, NO_OFFSET), (18, NO_OFFSET)],
    ),
    // Chained rules of classes, with none before; ranges of classes.
    (
        6,
        &[
            2, 14, 0, 20, 20, 1, 30, 1, 1, 7, 2, 1, 3, 4, 1, 1, 4, 0, 0, 0, 0,
        ],
        (4, 5),
        &[
            (0, BAD_CONTEXT),
            (2, NO_OFFSET),
            (6, NO_OFFSET),
            (20, BAD_FORMAT),
            (32, NO_OFFSET),
        ],
    ),
    // None of all three.
    (
        6,
        &[2, 14, 0, 20, 0, 1, 0, 1, 1, 7, 2, 0],
        (2, 2),
        &[(0, BAD_CONTEXT), (2, NO_OFFSET), (6, NO_OFFSET)],
    ),
    // Coverages: one before, two of the input, one behind; a record.
    (
        6,
        &[3, 1, 22, 2, 22, 28, 1, 28, 1, 0, 5, 1, 1, 7, 1, 1, 8],
        (2, 4),
        &[
            (0, BAD_CONTEXT),
            (4, NO_OFFSET),
            (8, NO_OFFSET),
            (10, NO_OFFSET),
            (14, NO_OFFSET),
        ],
    ),
    // An Extension to a single substitution.
    (
        7,
        &[1, 1, 0, 8, 1, 6, 3, 1, 1, 7],
        (2, 2),
        &[
            (0, BAD_ONLY_FORMAT),
            (2, &[0, 7, 9, 0x101]),
            (8, BAD_FORMAT),
        ],
    ),
    // Reversed: one before, none behind, a substitute.
    (
        8,
        &[1, 14, 1, 20, 0, 1, 9, 1, 1, 7, 1, 1, 8],
        (2, 2),
        &[(0, BAD_ONLY_FORMAT), (2, NO_OFFSET), (6, NO_OFFSET)],
    ),
];

#[test]
fn each_type_and_format() {
    for (kind, subtable, (objects, links), _) in CASES {
        let table = of(kind, subtable);
        let told = read(&table);
        let counts = (told.number, told.objects, told.links, told.bytes);
        let (before, leads) = BEFORE;
        let expected = (0, before + 1 + objects, leads + links, table.len() as u64);
        assert_eq!(counts, expected, "type {kind}: {subtable:?}");
    }
}

#[test]
fn each_judged_field_is_told_by_its_place() {
    for (kind, subtable, _, judged) in CASES {
        let table = of(kind, subtable);
        for (field, refused) in judged {
            let place = SUBTABLE + field;
            for &number in *refused {
                let told = read(&with(&table, place, number));
                assert_eq!(told, unreadable(place), "type {kind}: {subtable:?}");
            }
        }
    }
}

/// Cut before its end a table lacks the field that is cut, or one that an offset
/// leads to.
#[test]
fn each_cut_is_told() {
    for (kind, subtable, ..) in CASES {
        let table = of(kind, subtable);
        for length in SUBTABLE..table.len() {
            let told = read(&table[..length]);
            assert_eq!(told.number, UNREADABLE, "type {kind}: {subtable:?}");
            let place = told.place as usize;
            assert!(place + 4 > length, "no field has more than four bytes");
        }
    }
}

/// Of a lookup, and behind an Extension; those of single substitutions know one.
#[test]
fn each_lookup_type() {
    const LOOKUP: usize = 16;
    for (kind, subtable, ..) in CASES {
        let table = of(kind, subtable);
        for other in [0, 9, 0x100 + kind, 0xffff] {
            assert_eq!(read(&with(&table, LOOKUP, other)), unreadable(LOOKUP));
        }
        let narrow = read_gsub(&mut stores(), PIECES, LINKS, &table);
        match kind {
            1 | 7 => assert_eq!(narrow, read(&table)),
            _ => assert_eq!(narrow, unreadable(LOOKUP)),
        }
        if kind == 7 {
            continue;
        }
        let extended = of(7, &[&[1, kind, 0, 8], subtable].concat());
        let (plain, told) = (read(&table), read(&extended));
        let (objects, links) = (plain.objects + 1, plain.links + 1);
        assert_eq!((told.number, told.objects, told.links), (0, objects, links));
        let narrow = read_gsub(&mut stores(), PIECES, LINKS, &extended);
        let expected = match kind {
            1 => told,
            _ => unreadable(SUBTABLE + 2),
        };
        assert_eq!(narrow, expected);
    }
}

/// A list of one feature with this tag, this number for its parameters' offset, and
/// these parameters 4 bytes behind its begin.
fn feature(tag: &[u8; 4], offset: u16, params: &[u8]) -> Vec<u8> {
    let header = bytes(&[1, 0, 10, 14, 12, 0, 0, 1]);
    [&header, &tag[..], &bytes(&[8, offset, 0]), params].concat()
}

const FEATURE: usize = 22;
const PARAMS: usize = 26;

#[test]
fn tags_call_for_parameters() {
    let cases: [(&[u8; 4], Params); 14] = [
        (b"size", Params::Size),
        (b"ss01", Params::StylisticSet),
        (b"ss20", Params::StylisticSet),
        (b"cv01", Params::CharacterVariant),
        (b"cv99", Params::CharacterVariant),
        (b"ss00", Params::None),
        (b"ss21", Params::None),
        (b"cv00", Params::None),
        (b"SS01", Params::None),
        (b"cvA1", Params::None),
        (b"ss1:", Params::None),
        (b"ss/9", Params::None),
        (b"Size", Params::None),
        (b"liga", Params::None),
    ];
    let params = bytes(&[0, 1, 2, 3, 4, 5, 0]);
    for (tag, expected) in cases {
        assert_eq!(Params::of_tag(tag), expected);
        let objects = |offset| {
            let told = read(&feature(tag, offset, &params));
            (told.number, told.place, told.objects, told.bytes)
        };
        // The lists of scripts and of lookups are one.
        assert_eq!(objects(0), (0, 0, 4, 10 + 2 + 8 + 4));
        let own = match expected {
            Params::None => (UNREADABLE, FEATURE as u64, 0, 0),
            Params::Size => (0, 0, 5, 24 + 10),
            Params::StylisticSet => (0, 0, 5, 24 + 4),
            Params::CharacterVariant => (0, 0, 5, 24 + 14),
        };
        assert_eq!(objects(4), own, "{tag:?}");
        let narrow = read_gsub(&mut stores(), PIECES, LINKS, &feature(tag, 4, &params));
        assert_eq!(narrow, unreadable(FEATURE));
    }
}

#[test]
fn parameters_have_a_version_and_characters() {
    let set = bytes(&[0, 7]);
    let bad = feature(b"ss05", 4, &bytes(&[1, 7]));
    assert_eq!(read(&bad), unreadable(PARAMS));
    assert_eq!(
        read(&feature(b"ss05", 4, &set[..3])),
        unreadable(PARAMS + 2)
    );
    // Two characters of three bytes each.
    let variant = [&bytes(&[0, 1, 2, 3, 4, 5, 2])[..], b"abcdef"].concat();
    let told = read(&feature(b"cv05", 4, &variant));
    assert_eq!((told.number, told.bytes), (0, 24 + 20));
    for (length, place) in [(19, 17), (18, 17), (17, 17), (16, 14), (14, 14), (13, 12)] {
        let cut = feature(b"cv05", 4, &variant[..length]);
        assert_eq!(read(&cut), unreadable(PARAMS + place));
    }
    let bad = with(&feature(b"cv05", 4, &variant), PARAMS, 1);
    assert_eq!(read(&bad), unreadable(PARAMS));
}

/// Version 1.1, of three empty lists, and what else there is.
fn version_1_1(offset: [u16; 2], variations: &[u16]) -> Vec<u8> {
    let header = [1, 1, 14, 14, 14, offset[0], offset[1], 0];
    bytes(&[&header, variations].concat())
}

/// One record: a set of one condition, and one feature's alternate.
const VARIATIONS: [u16; 26] = [
    1, 0, 0, 1, 0, 16, 0, 30, // 0: one record
    1, 0, 6, // 16: a set
    1, 0, 100, 200, // 22: a condition
    1, 0, 1, 3, 0, 12, // 30: a substitution
    0, 3, 7, 8, 9, // 42: a feature of three lookups
];
const VARIATIONS_AT: usize = 16;

#[test]
fn feature_variations() {
    let table = version_1_1([0, 16], &VARIATIONS);
    let told = read(&table);
    let counts = (told.number, told.objects, told.links, told.bytes);
    assert_eq!(counts, (0, 7, 8, table.len() as u64));
    let narrow = read_gsub(&mut stores(), PIECES, LINKS, &table);
    assert_eq!(narrow, unreadable(2));
    assert_eq!(read(&with(&table, 2, 2)), unreadable(2));
    for (field, number) in [
        (0, 0),
        (0, 2),
        (2, 1),
        (4, 1),
        (10, 0),
        (14, 0),
        (22, 0),
        (22, 2),
    ] {
        let place = VARIATIONS_AT + field;
        // An offset of four bytes is told by its first.
        let told = if [10, 14].contains(&field) {
            place - 2
        } else {
            place
        };
        assert_eq!(read(&with(&table, place, number)), unreadable(told));
    }
    for (field, number) in [(20, 0), (30, 2), (32, 1), (40, 0), (42, 1)] {
        let place = VARIATIONS_AT + field;
        let told = if [20, 40].contains(&field) {
            place - 2
        } else {
            place
        };
        assert_eq!(read(&with(&table, place, number)), unreadable(told));
    }
}

#[test]
fn no_feature_variations_are_four_zero_bytes() {
    let told = read(&version_1_1([0, 0], &[]));
    assert_eq!(
        (told.number, told.objects, told.links, told.bytes),
        (0, 2, 3, 16)
    );
    // The header's first 10 bytes as version 1.0.
    let told = read(&bytes(&[1, 0, 14, 14, 14, 0, 0, 0]));
    assert_eq!((told.number, told.bytes), (0, 12));
    // Cut inside the offset, where the lists are.
    assert_eq!(read(&bytes(&[1, 1, 10, 10, 10, 0])), unreadable(10));
}

/// Each lookup promoted has Extensions of its own type.
#[test]
fn promoted_lookups_keep_their_types() {
    for (kind, subtable, ..) in CASES {
        let table = of(kind, subtable);
        let mut left = stores();
        let told = Scope::Whole.read_last(&mut left, (PIECES, LINKS), &table, 1);
        let extended = match kind {
            7 => table.clone(),
            _ => of(7, &[&[1, kind, 0, 8], subtable].concat()),
        };
        assert_eq!(told, read(&extended), "type {kind}");
        let expected = Scope::Whole.reading(&extended).unwrap();
        let reading = Scope::Whole.reading(&table).unwrap();
        assert!(same(&promoted(&reading, 1), &expected));
        let mut other = stores();
        read_gsub_whole(&mut other, PIECES, LINKS, &extended);
        assert!(left == other, "the same session");
        // By 3, or to 9; of other types nothing is said.
        let becomes = match (kind, subtable[0]) {
            (1 | 7, 1) => 10,
            (1, _) => 9,
            _ => 7,
        };
        assert_eq!(substitute(&table, 0, 7), becomes);
        assert_eq!(substitute(&extended, 0, 7), becomes);
    }
}

/// A lookup of type 7 whose Extensions lead to other types: only that of type 1
/// substitutes.
#[test]
fn other_types_are_passed_over() {
    let head = [1, 0, 10, 10, 12, 0, 1, 4, 7, 0, 2, 10, 18];
    let extensions = [1, 3, 0, 16, 1, 1, 0, 16];
    let (alternates, single) = ([1, 18, 1, 14], [1, 10, 3]);
    // A set of one alternate, and the coverage of both.
    let children = [1, 30, 1, 1, 7];
    let table = [&head[..], &extensions, &alternates, &single, &children].concat();
    let table = bytes(&table);
    assert_eq!(read(&table).number, 0);
    assert_eq!(substitute(&table, 0, 7), 10);
}
