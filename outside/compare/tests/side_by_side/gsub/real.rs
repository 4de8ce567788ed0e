//! Tables of real fonts, whole and damaged.

use super::Seen;
use compare::{reads, real, seed, spoilt, Numbers};
use reference::gsub::{substitute, Scope};
use std::collections::HashSet;

/// Tables up to this length are asked for every glyph's substitutes.
const SHORT: usize = 500;
/// Tables up to this length are damaged in every field and cut at every byte.
const SHORTEST: usize = 150;

/// The tables that are refused, and the places of the fields that are why.
const REFUSED: [(&str, u64); 8] = [
    ("no-lists.gsub", 4),
    ("noto-sans-old-permic.gsub", 8),
    ("noto-sans-rejang.gsub", 8),
    ("noto-sans-osage.gsub", 8),
    ("noto-sans-limbu.gsub", 48),
    ("noto-sans-bassa-vah.gsub", 64),
    ("noto-sans-hanifi-rohingya.gsub", 94),
    ("noto-sans-cham.gsub", 198),
];

/// Lookups, glyphs, and what fontTools 4.38 says that they become; of a glyph
/// that is covered twice, the first is taken.
const BECOMES: [(&str, u16, u16, u16); 11] = [
    ("karmilla-bold.gsub", 0, 25, 458),
    ("noto-traditional-nushu.gsub", 0, 159, 558),
    ("bebas-neue-bold.gsub", 4, 26, 414),
    ("bebas-neue-book.gsub", 0, 342, 352),
    ("noto-sans-math.gsub", 0, 1_423, 1_424),
    ("sixtyfour.gsub", 0, 113, 465),
    ("cut-zanabazar.gsub", 11, 19, 22),
    ("cut-sogdian.gsub", 1, 22, 98),
    ("cut-gujarati.gsub", 0, 1_259, 1_238),
    ("cut-arabic.gsub", 123, 6_588, 6_630),
    ("aoyagi-kouzan-t.gsub", 0, 1_083, 15_128),
];

#[test]
fn tables_of_fonts() {
    let mut numbers = seed::numbers("tables of fonts");
    let (mut seen, mut met) = (Seen::of(Scope::Single), HashSet::new());
    for (name, table) in real::tables() {
        let held = reads::held(Scope::Single, &table);
        let told = seen.read(reads::roomy(&held), &table, &mut numbers);
        assert_eq!(told, held, "{name}");
        println!("  {name}: {} bytes, {} packed", table.len(), told.bytes);
        let refused = REFUSED.iter().find(|(refused, _)| *refused == name);
        let expected = refused.map_or((0, 0), |(_, place)| (15, *place));
        assert_eq!((told.number, told.place), expected, "{name}");
        assert!(real::readme().contains(&format!("`{name}`")), "{name}");
        assert!(met.insert(table), "{name} is there twice");
    }
    seen.report();
    assert!(seen.told[0] >= 24 && seen.told[15] == REFUSED.len());
    assert_eq!((seen.packed, seen.unfit), (seen.told[0], 0));
}

#[test]
fn substitutes_of_fonts() {
    let mut numbers = seed::numbers("substitutes of fonts");
    let glyphs: Vec<u16> = (0..=u16::MAX).collect();
    for (name, table) in real::tables() {
        for (_, lookup, glyph, becomes) in BECOMES.iter().filter(|(own, ..)| *own == name) {
            assert_eq!(substitute(&table, *lookup, *glyph), *becomes, "{name}");
        }
        let held = reads::held(Scope::Single, &table);
        if table.len() > SHORT || held.number != 0 {
            continue;
        }
        let room = reads::roomy(&held);
        let mut reading = reads::read(Scope::Single, room, &table, &mut numbers);
        let packed = reading.packed(&mut numbers).expect("it fits");
        let changed = reads::same_substitutes(&table, &packed, &glyphs);
        println!("  {name}: {changed} substitutes");
    }
}

/// Reads damaged tables, those of the shortest damaged in all ways.
pub(super) fn damaged(table: &[u8], seen: &mut Seen, numbers: &mut Numbers) {
    let some = 2 + 24_000 / table.len();
    let mut all: Vec<_> = (0..some).map(|_| spoilt::any(table, numbers)).collect();
    if table.len() <= SHORTEST {
        all.extend(spoilt::cut(table).chain(spoilt::set(table)));
    }
    let held = reads::held(seen.scope, table);
    for spoilt in all {
        let room = match numbers.below(2) {
            0 => reads::roomy(&held),
            _ => reads::about(&held, numbers),
        };
        seen.read(room, &spoilt, numbers);
    }
}

#[test]
fn damaged_tables_of_fonts() {
    let mut numbers = seed::numbers("damaged tables of fonts");
    let mut seen = Seen::of(Scope::Single);
    for (_, table) in real::tables() {
        damaged(&table, &mut seen, &mut numbers);
    }
    seen.report();
    seen.often(&[0, 6, 7, 8, 15].map(|number| (number, 100)));
}
