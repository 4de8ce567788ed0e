//! Promotions counted by hand, in the order of the rules' section 15.

mod large;

use large::{bytes, eight, five, growing, sharing, sum, table, OWN};
use reference::call::{Call, Stores, STALE_BYTE, STALE_WORK};
use reference::gsub::reading::{promoted, reading};
use reference::gsub::{lookup_count, promote_gsub, read_gsub, substitute, GsubPromoted};
use reference::history::History;
use reference::limits::{record_need, work_need};
use reference::reader::shows;
use reference::reading::same;

/// What it holds with the last three promoted: header, a list of nothing, list,
/// lookups, six Extensions, subtables and their coverages.
const FIVE_OBJECTS: u32 = 1 + 1 + 1 + 5 + 6 + 10 + 10;
const FIVE_LINKS: u32 = 3 + 5 + 10 + 6 + 10;
const FIVE_SUBTABLES: usize = 10 * 15_006 + 2 * (1 + 2 + 3 + 4 + 5 + 6 + 7 + 8 + 9);
const FIVE_BYTES: usize = 10 + 2 + 12 + 5 * 10 + 6 * 8 + FIVE_SUBTABLES + 10 * 6;

/// Lent memory, by its lengths beside the two limits.
#[derive(Clone, Copy)]
struct Lent {
    pieces: u32,
    links: u32,
    store: usize,
    output: usize,
}

const ROOMY: Lent = Lent {
    pieces: 100,
    links: 100,
    store: 400_000,
    output: 400_000,
};

/// What the needed work memory holds afterwards.
#[derive(Clone, Copy, PartialEq)]
enum Work {
    Stands,
    Cleared,
}

/// What is told of a table, its packed bytes, and the needed work memory. All else
/// that is lent is as it should be.
fn promote(lent: Lent, table: &[u8]) -> (GsubPromoted, Vec<u8>, Work) {
    let Lent { pieces, links, .. } = lent;
    let records = record_need(pieces.into(), links.into()) as usize + 2;
    let need = work_need(pieces.into(), links.into(), 0) as usize;
    let mut stores = Stores::new(lent.store, records);
    let mut output = vec![STALE_BYTE; lent.output];
    let mut work = vec![STALE_WORK; need + 2];
    let told = promote_gsub(&mut stores, (pieces, links), table, &mut output, &mut work);
    assert_eq!(work[need..], [STALE_WORK; 2]);
    let left = if work[0] == 0 {
        Work::Cleared
    } else {
        Work::Stands
    };
    let word = if left == Work::Cleared { 0 } else { STALE_WORK };
    assert!(work[..need].iter().all(|&other| other == word));
    let packed = output[..told.length as usize].to_vec();
    assert!(output[packed.len()..]
        .iter()
        .all(|&byte| byte == STALE_BYTE));
    let mut history = History::begin(pieces, links, lent.store, records).unwrap();
    if told.number == 0 {
        let last = told.promoted as u16;
        let read = history.read_last((pieces, links), (lent.store, records), table, last);
        assert_eq!((read.number, read.id, read.bytes), (0, told.id, told.bytes));
        check_packed(table, &packed, &told, &history);
    } else {
        let mut fresh = Stores::new(lent.store, records);
        fresh.run(&Call::Start { pieces, links });
        assert!(stores == fresh);
        assert!(packed.is_empty());
    }
    let tally = stores.run(&Call::Tally).answer;
    let counts = [tally.bytes, tally.links, tally.objects, tally.depth];
    assert_eq!(counts, [told.bytes, told.links, told.objects, told.depth]);
    (told, packed, left)
}

/// A packed table reads as the other one with its last lookups promoted, and
/// substitutes the same.
fn check_packed(table: &[u8], packed: &[u8], told: &GsubPromoted, history: &History) {
    let root = history.reading(told.id as u32).unwrap();
    let expected = promoted(&reading(table).unwrap(), told.promoted as usize);
    assert!(same(root, &expected));
    assert!(same(&reading(packed).unwrap(), &expected));
    assert!(shows(packed, &expected));
    assert_eq!(lookup_count(packed), lookup_count(table));
    for lookup in 0..lookup_count(table) {
        let by = |table: &[u8]| {
            let glyphs = 0..16;
            glyphs
                .map(|glyph| substitute(table, lookup, glyph))
                .collect::<Vec<_>>()
        };
        assert_eq!(by(table), by(packed));
    }
}

/// The types of a table's lookups, in the list's order.
fn types(table: &[u8]) -> Vec<u16> {
    let number = |at: usize| u16::from_be_bytes([table[at], table[at + 1]]);
    let list = usize::from(number(8));
    let lookups =
        (1..=usize::from(number(list))).map(|at| list + usize::from(number(list + 2 * at)));
    lookups.map(number).collect()
}

/// Accepted with so many promoted: what is held, all of it the table's.
fn accepted(last: u64, objects: u64, links: u64, bytes: u64) -> GsubPromoted {
    GsubPromoted {
        bytes,
        links,
        objects,
        id: objects - 1,
        length: bytes,
        promoted: last,
        ..GsubPromoted::default()
    }
}

fn refused(number: u64) -> GsubPromoted {
    GsubPromoted {
        number,
        ..GsubPromoted::default()
    }
}

#[test]
fn five_lookups_of_which_three_are_promoted() {
    let (told, packed, _) = promote(ROOMY, &five());
    let (objects, links) = (FIVE_OBJECTS.into(), FIVE_LINKS.into());
    assert_eq!(told, accepted(3, objects, links, FIVE_BYTES as u64));
    assert_eq!(types(&packed), [1, 1, 7, 7, 7]);
    // Of one subtable of some 30,000 bytes each.
    let lookups: [(u16, &[usize]); 5] = [(1, &[0]), (1, &[1]), (1, &[2]), (1, &[3]), (1, &[4])];
    let subtables = growing(5, 15_000);
    let table = table(&[0, 1, 2, 3, 4], &lookups, &subtables);
    let (told, packed, _) = promote(ROOMY, &table);
    let bytes = 10 + 2 + 12 + 5 * 8 + 3 * 8 + sum(&subtables) + 5 * 6;
    assert_eq!(told, accepted(3, 3 + 5 + 3 + 10, 3 + 5 + 5 + 3 + 5, bytes));
    assert_eq!(types(&packed), [1, 1, 7, 7, 7]);
}

/// The Extensions of both promoted lookups to the first subtable are equal.
#[test]
fn a_subtable_that_lookups_share() {
    let (table, subtables) = sharing();
    let (told, packed, _) = promote(ROOMY, &table);
    let bytes = 10 + 2 + 12 + 5 * 10 + 3 * 8 + sum(&subtables) + 6 * 6;
    assert_eq!(told, accepted(2, 3 + 5 + 3 + 12, 3 + 5 + 10 + 3 + 6, bytes));
    assert_eq!(types(&packed), [1, 1, 1, 7, 7]);
}

/// They count as promoted, and are left as they are.
#[test]
fn lookups_of_type_7() {
    let (eight, subtables) = eight();
    let (told, packed, _) = promote(ROOMY, &eight);
    let bytes = 10 + 2 + 18 + 8 * 8 + 8 * 8 + sum(&subtables) + 8 * 6;
    assert_eq!(told, accepted(0, 3 + 8 + 8 + 16, 3 + 8 + 8 + 8 + 8, bytes));
    assert_eq!(types(&packed), [7; 8]);
    // With three of type 1, two of which have room near the list.
    let subtables = growing(11, 15_000);
    let bytes = 10 + 2 + 24 + 11 * 8 + 9 * 8 + sum(&subtables) + 11 * 6;
    let expected = |last| accepted(last, 3 + 11 + 9 + 22, 3 + 11 + 11 + 9 + 11, bytes);
    let all = [0, 1, 2, 3, 4, 5, 6, 7, 8, 9, 10];
    let kind = |seven| if seven { 7 } else { 1 };
    let behind = all.map(|at| (kind(at >= 3), &OWN[at][..]));
    let (told, packed, _) = promote(ROOMY, &table(&all, &behind, &subtables));
    assert_eq!(told, expected(9));
    assert_eq!(types(&packed), [1, 1, 7, 7, 7, 7, 7, 7, 7, 7, 7]);
    let before = all.map(|at| (kind(at < 8), &OWN[at][..]));
    let (told, packed, _) = promote(ROOMY, &table(&all, &before, &subtables));
    assert_eq!(told, expected(1));
    assert_eq!(types(&packed), [7, 7, 7, 7, 7, 7, 7, 7, 1, 1, 7]);
}

/// Promoted for its last offset alone, it is there twice, and its subtable is
/// still near the list, where there is no room for the third.
#[test]
fn a_lookup_of_two_offsets() {
    let lookups: [(u16, &[usize]); 3] = [(1, &[0]), (1, &[1]), (1, &[2])];
    let mut subtables = growing(3, 15_000);
    subtables[2].0 = 20_000;
    let table = table(&[0, 1, 2, 1], &lookups, &subtables);
    let (told, packed, _) = promote(ROOMY, &table);
    let bytes = 10 + 2 + 10 + 4 * 8 + 2 * 8 + sum(&subtables) + 3 * 6;
    assert_eq!(told, accepted(2, 3 + 4 + 2 + 6, 3 + 4 + 4 + 2 + 3, bytes));
    assert_eq!(types(&packed), [1, 1, 7, 7]);
}

#[test]
fn a_lookup_without_subtables() {
    let lookups: [(u16, &[usize]); 4] = [(1, &[0]), (1, &[1]), (1, &[2]), (1, &[])];
    let subtables = growing(3, 15_000);
    let listed = table(&[0, 1, 2, 3], &lookups, &subtables);
    let (told, packed, _) = promote(ROOMY, &listed);
    let bytes = 10 + 2 + 10 + 3 * 8 + 6 + 8 + sum(&subtables) + 3 * 6;
    assert_eq!(told, accepted(2, 3 + 4 + 1 + 6, 3 + 4 + 3 + 1 + 3, bytes));
    assert_eq!(types(&packed), [1, 1, 7, 7]);
    // In front of them, and equal to none behind.
    let (told, packed, _) = promote(ROOMY, &table(&[3, 0, 1, 2, 3], &lookups, &subtables));
    assert_eq!(
        told,
        accepted(2, 3 + 5 + 1 + 6, 3 + 5 + 3 + 1 + 3, bytes + 2 + 6)
    );
    assert_eq!(types(&packed), [1, 1, 1, 7, 7]);
}

#[test]
fn what_fits_is_read_and_packed() {
    let small = table(&[0, 0], &[(1, &[0])], &growing(1, 4));
    let (told, packed, left) = promote(ROOMY, &small);
    assert_eq!(told, accepted(0, 6, 3 + 2 + 1 + 1, 10 + 2 + 6 + 8 + 14 + 6));
    assert!(left == Work::Cleared);
    let mut stores = Stores::new(1_000, 1_000);
    let read = read_gsub(&mut stores, 100, 100, &small);
    let pack = Call::Pack {
        id: read.id as u32,
        copies: 0,
        output: 100,
        work: 5_000,
    };
    assert_eq!(packed, stores.run(&pack).output[..packed.len()]);
    let none = table(&[], &[], &[]);
    let (told, packed, _) = promote(ROOMY, &none);
    assert_eq!(told, accepted(0, 2, 3, 12));
    // The list of lookups has no entry either: all three lists are one.
    assert_eq!(packed, bytes(&[1, 0, 10, 10, 10, 0]));
}

#[test]
fn each_limit_is_exact() {
    let just = Lent {
        pieces: FIVE_OBJECTS,
        links: FIVE_LINKS,
        store: FIVE_BYTES,
        output: FIVE_BYTES,
    };
    let (pieces, links, store) = (just.pieces - 1, just.links - 1, just.store - 1);
    let output = just.output - 1;
    for (lent, number) in [
        (just, 0),
        (Lent { store, ..just }, 6),
        (Lent { links, ..just }, 7),
        (Lent { pieces, ..just }, 8),
        (Lent { output, ..just }, 10),
        (Lent { output: 0, ..just }, 10),
    ] {
        let (told, _, left) = promote(lent, &five());
        assert_eq!(told.number, number);
        assert!(number == 0 || told == refused(number));
        assert!(left == Work::Cleared);
    }
    // Enough for the first trial and not for the second, though one more would fit.
    let pieces = FIVE_OBJECTS - 6;
    let (told, _, left) = promote(Lent { pieces, ..just }, &five());
    assert_eq!(told, refused(8));
    assert!(left == Work::Cleared);
    // Not enough for the first: no pack was made.
    let pieces = FIVE_OBJECTS - 7;
    let (told, _, left) = promote(Lent { pieces, ..just }, &five());
    assert_eq!(told, refused(8));
    assert!(left == Work::Stands);
}

/// Two subtables of some 40,000 bytes have one coverage, which lies behind both,
/// however they are led to.
#[test]
fn no_promotion_helps() {
    let lookups: [(u16, &[usize]); 2] = [(1, &[0]), (1, &[1])];
    let table = table(&[0, 1], &lookups, &[(20_000, 0), (20_001, 0)]);
    let (told, _, left) = promote(ROOMY, &table);
    // Closed before the first subtable are the list of nothing and the coverage.
    let expected = GsubPromoted {
        parent: 2,
        field: 2,
        needed: 40_006 + 40_008,
        ..refused(11)
    };
    assert_eq!(told, expected);
    assert!(left == Work::Cleared);
    // The output is not judged.
    let (told, ..) = promote(Lent { output: 0, ..ROOMY }, &table);
    assert_eq!(told, expected);
}

#[test]
fn a_start_out_of_range_changes_nothing() {
    let need = record_need(4, 5) as usize;
    for (pieces, links, store, records) in [
        (0, 5, 50, need),
        (16_385, 5, 50, 100_000),
        (4, 65_537, 50, 300_000),
        (4, 5, 0, need),
        (4, 5, 50, need - 1),
    ] {
        let mut left = Stores::new(store, records);
        let before = left.clone();
        let (mut output, mut work) = (vec![STALE_BYTE; 60], vec![STALE_WORK; 900]);
        let told = promote_gsub(&mut left, (pieces, links), &five(), &mut output, &mut work);
        assert_eq!(told, refused(13));
        assert!(left == before);
        assert!(output == vec![STALE_BYTE; 60] && work == vec![STALE_WORK; 900]);
    }
}

/// The table is read first, so that its own refusals come before.
#[test]
fn short_work_memory_leaves_a_fresh_session() {
    let small = table(&[0], &[(1, &[0])], &growing(1, 4));
    let (pieces, links) = (6, 6);
    let need = work_need(6, 6, 0) as usize;
    for (table, words, number) in [
        (&small[..], 0, 13),
        (&small, need - 1, 13),
        (&small[..36], 0, 15),
        (&small, need, 0),
    ] {
        let mut stores = Stores::new(60, 1_000);
        let (mut output, mut work) = (vec![STALE_BYTE; 60], vec![STALE_WORK; words]);
        let told = promote_gsub(&mut stores, (pieces, links), table, &mut output, &mut work);
        assert_eq!(told.number, number);
        if number != 0 {
            let mut fresh = Stores::new(60, 1_000);
            fresh.run(&Call::Start { pieces, links });
            assert!(stores == fresh);
            assert_eq!(
                told,
                GsubPromoted {
                    place: told.place,
                    ..refused(number)
                }
            );
            assert!(output == vec![STALE_BYTE; 60] && work == vec![STALE_WORK; words]);
        }
    }
}

#[test]
fn a_field_of_an_extension_is_told_by_its_place() {
    let listed = table(&[0], &[(7, &[0])], &growing(1, 4));
    // Header and list of nothing, list, lookup.
    let extension = 12 + 4 + 8;
    let table = |field: usize, number: u16| {
        let mut table = listed.clone();
        let at = extension + field;
        table[at..at + 2].copy_from_slice(&number.to_be_bytes());
        table
    };
    for (field, number, place) in [
        (0, 2, extension),
        (2, 7, extension + 2),
        (6, 0, extension + 4),
        (6, 1_000, extension + 1_000),
        (4, 2, extension + (2 << 16) + 8),
    ] {
        let (told, _, left) = promote(ROOMY, &table(field, number));
        let place = place as u64;
        assert_eq!(
            told,
            GsubPromoted {
                place,
                ..refused(15)
            }
        );
        assert!(left == Work::Stands);
    }
    let (told, ..) = promote(ROOMY, &listed[..extension + 7]);
    let place = extension as u64 + 4;
    assert_eq!(
        told,
        GsubPromoted {
            place,
            ..refused(15)
        }
    );
    assert_eq!(promote(ROOMY, &listed).0.number, 0);
}
