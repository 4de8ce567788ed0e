//! Tables at random, whole and damaged, in rooms that are often too small.

use super::Seen;
use compare::{reads, seed, spoilt, tables, Numbers};
use reference::gsub::Scope;

/// Reads a table whole, damaged in every field, and cut at every byte.
pub(super) fn in_all_ways(table: &[u8], seen: &mut Seen, numbers: &mut Numbers) {
    let held = reads::held(seen.scope, table);
    assert_eq!(held.number, 0);
    for _ in 0..12 {
        seen.read(reads::about(&held, numbers), table, numbers);
    }
    for spoilt in spoilt::cut(table).chain(spoilt::set(table)) {
        seen.read(reads::about(&held, numbers), &spoilt, numbers);
    }
    in_some_ways(table, 40, seen, numbers);
}

/// Reads a table damaged so many times.
pub(super) fn in_some_ways(table: &[u8], times: usize, seen: &mut Seen, numbers: &mut Numbers) {
    let held = reads::held(seen.scope, table);
    for _ in 0..times {
        let spoilt = spoilt::any(table, numbers);
        seen.read(reads::about(&held, numbers), &spoilt, numbers);
    }
    let told = reads::out_of_range(seen.scope, table, numbers);
    seen.told[told.number as usize] += 1;
}

#[test]
fn tables_whole_and_damaged() {
    let mut numbers = seed::numbers("GSUB tables");
    let mut seen = Seen::of(Scope::Single);
    for turn in 0..48 {
        let table = tables::random(1 + turn % 3, &mut numbers);
        in_all_ways(&table, &mut seen, &mut numbers);
    }
    for turn in 0..600 {
        let table = tables::random(turn % 9, &mut numbers);
        let held = reads::held(Scope::Single, &table);
        seen.read(reads::about(&held, &mut numbers), &table, &mut numbers);
        in_some_ways(&table, 12, &mut seen, &mut numbers);
    }
    seen.report();
    assert!(seen.told.iter().sum::<usize>() >= 20_000);
    seen.often(&[
        (0, 1_500),
        (6, 1_500),
        (7, 800),
        (8, 700),
        (13, 500),
        (15, 8_000),
    ]);
    assert!(seen.packed == seen.told[0] && seen.changed >= 3_000);
}

/// All glyphs, in every lookup.
#[test]
fn every_glyph_has_the_same_substitutes() {
    let mut numbers = seed::numbers("GSUB substitutes");
    let glyphs: Vec<u16> = (0..=u16::MAX).collect();
    let mut changed = 0;
    for turn in 0..20 {
        let table = tables::random(2 + turn % 4, &mut numbers);
        let room = reads::roomy(&reads::held(Scope::Single, &table));
        let mut reading = reads::read(Scope::Single, room, &table, &mut numbers);
        let packed = reading.packed(&mut numbers).expect("it fits");
        changed += reads::same_substitutes(&table, &packed, &glyphs);
    }
    println!("  {changed} substitutes");
    assert!(changed >= 20);
}
