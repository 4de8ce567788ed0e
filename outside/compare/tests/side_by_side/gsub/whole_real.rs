//! Tables of real fonts of every lookup type, whole and damaged.

use super::{promoted, real, Seen};
use compare::made::Room;
use compare::{reads, real as folder, seed};
use reference::gsub::{Kind, Scope};
use std::collections::{BTreeMap, HashSet};

const SCOPE: Scope = Scope::Whole;

/// Types and formats of subtables, and of how many tables each must be met in.
const SUBTABLES: [(u16, u16); 13] = [
    (1, 1),
    (1, 2),
    (2, 1),
    (3, 1),
    (4, 1),
    (5, 1),
    (5, 2),
    (5, 3),
    (6, 1),
    (6, 2),
    (6, 3),
    (7, 1),
    (8, 1),
];
const TABLES: usize = 3;

/// Other kinds, by the number that they begin with.
const OTHERS: [(Kind, u16); 7] = [
    (Kind::Coverage, 1),
    (Kind::Coverage, 2),
    (Kind::ClassDef, 1),
    (Kind::ClassDef, 2),
    (Kind::SetParams, 0),
    (Kind::VariantParams, 0),
    (Kind::FeatureVariations, 1),
];

/// Tables of the other folder that no read accepts: a list's offset is 0.
const REFUSED: [&str; 4] = [
    "no-lists.gsub",
    "noto-sans-old-permic.gsub",
    "noto-sans-osage.gsub",
    "noto-sans-rejang.gsub",
];

/// The different kinds in a table, each with the number that it begins with.
fn kinds(table: &[u8]) -> HashSet<(Kind, u16)> {
    let first = |at: usize| u16::from_be_bytes([table[at], table[at + 1]]);
    let tables = SCOPE.tables(table).expect("it is read");
    tables.iter().map(|&(kind, at)| (kind, first(at))).collect()
}

#[test]
fn whole_tables_of_fonts() {
    let mut numbers = seed::numbers("whole tables of fonts");
    let (mut seen, mut met) = (Seen::of(SCOPE), HashSet::new());
    let mut counts: BTreeMap<(Kind, u16), usize> = BTreeMap::new();
    for (name, table) in folder::whole_tables() {
        let held = reads::held(SCOPE, &table);
        let told = seen.read(reads::roomy(&held), &table, &mut numbers);
        assert_eq!((told, told.number), (held, 0), "{name}");
        println!("  {name}: {} bytes, {} packed", table.len(), told.bytes);
        let readme = folder::whole_readme();
        assert!(readme.contains(&format!("`{name}`")), "{name}");
        for kind in kinds(&table) {
            *counts.entry(kind).or_default() += 1;
        }
        assert!(met.insert(table), "{name} is there twice");
    }
    seen.report();
    assert!(seen.packed >= 20 && seen.unfit == 0);
    let subtables = SUBTABLES.map(|(kind, format)| (Kind::Subtable(kind), format));
    for kind in subtables {
        assert!(counts.get(&kind) >= Some(&TABLES), "{kind:?}");
    }
    for kind in OTHERS {
        assert!(counts.contains_key(&kind), "{kind:?}");
    }
}

/// Those of single substitutions, and those that are refused as such.
#[test]
fn other_tables_of_fonts() {
    let mut numbers = seed::numbers("other tables of fonts");
    let mut seen = Seen::of(SCOPE);
    for (name, table) in folder::tables() {
        let held = reads::held(SCOPE, &table);
        let told = seen.read(reads::roomy(&held), &table, &mut numbers);
        let expected = if REFUSED.contains(&&name[..]) { 15 } else { 0 };
        assert_eq!(told.number, expected, "{name}");
    }
}

/// Packed with none promoted, as they fit.
#[test]
fn promotions_of_fonts() {
    let mut numbers = seed::numbers("whole promotions of fonts");
    let mut seen = promoted::Seen::of(SCOPE);
    for (name, table) in folder::whole_tables() {
        let held = reads::held(SCOPE, &table);
        let room: Room = reads::roomy(&held);
        let need = bindings::work_need(room.pieces, room.links, 0);
        let lengths = (room.store, need);
        let told = promoted::promote(room, &table, lengths, &mut seen, &mut numbers);
        let expected = (0, held.bytes, 0);
        assert_eq!(
            (told.number, told.length, told.promoted),
            expected,
            "{name}"
        );
    }
}

#[test]
fn damaged_whole_tables_of_fonts() {
    let mut numbers = seed::numbers("damaged whole tables of fonts");
    let mut seen = Seen::of(SCOPE);
    for (_, table) in folder::whole_tables() {
        real::damaged(&table, &mut seen, &mut numbers);
    }
    seen.report();
    seen.often(&[0, 6, 7, 8, 15].map(|number| (number, 50)));
}
