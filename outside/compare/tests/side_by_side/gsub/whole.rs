//! Tables of every lookup type and format, whole and damaged, read and promoted.

use super::{promoted, random, Seen};
use compare::made::Room;
use compare::{reads, seed, spoilt, tables, whole, Checked, Numbers};
use reference::gsub::Scope;
use std::collections::BTreeMap;

const SCOPE: Scope = Scope::Whole;

/// What a field that is not read can be: the kind of its table, and what should be
/// there. A format that is none is told by the last of its table's.
const CAUSES: [&str; 51] = [
    "Header Fixed(1)",
    "Header Fixed(0)",
    "Header Offset(ScriptList)",
    "Header Offset(FeatureList)",
    "Header Offset(LookupList)",
    "ScriptList Offset(Script)",
    "Script Offset(LangSys)",
    "LangSys Fixed(0)",
    "FeatureList TaggedFeature",
    "Feature Fixed(0)",
    "SetParams Fixed(0)",
    "VariantParams Fixed(0)",
    "LookupList Offset(Lookup)",
    "Lookup OneOf([1, 2, 3, 4, 5, 6, 7, 8])",
    "Lookup OwnSubtable",
    "Subtable(1) Fixed(2)",
    "Subtable(1) Offset(Coverage)",
    "Subtable(2) Fixed(1)",
    "Subtable(2) Offset(Coverage)",
    "Subtable(2) Offset(Sequence)",
    "Subtable(3) Fixed(1)",
    "Subtable(3) Offset(Coverage)",
    "Subtable(3) Offset(AlternateSet)",
    "Subtable(4) Fixed(1)",
    "Subtable(4) Offset(Coverage)",
    "Subtable(4) Offset(LigatureSet)",
    "Subtable(5) Fixed(3)",
    "Subtable(5) Offset(Coverage)",
    "Subtable(5) Offset(ClassDef)",
    "Subtable(6) Fixed(3)",
    "Subtable(6) Offset(Coverage)",
    "Subtable(6) Offset(ClassDef)",
    "Subtable(7) Fixed(1)",
    "Subtable(7) OneOf([1, 2, 3, 4, 5, 6, 8])",
    "Subtable(7) ExtendedSubtable",
    "Subtable(8) Fixed(1)",
    "Subtable(8) Offset(Coverage)",
    "LigatureSet Offset(Ligature)",
    "SequenceRuleSet Offset(SequenceRule)",
    "ChainedRuleSet Offset(ChainedRule)",
    "Coverage Fixed(2)",
    "ClassDef Fixed(2)",
    "FeatureVariations Fixed(1)",
    "FeatureVariations Fixed(0)",
    "FeatureVariations LongOffset(ConditionSet)",
    "FeatureVariations LongOffset(FeatureTableSubstitution)",
    "ConditionSet LongOffset(Condition)",
    "Condition Fixed(1)",
    "FeatureTableSubstitution Fixed(1)",
    "FeatureTableSubstitution Fixed(0)",
    "FeatureTableSubstitution LongOffset(Feature)",
];

/// A table with a field that is judged spoilt, and which.
fn spoilt_field(table: &[u8], numbers: &mut Numbers) -> (Vec<u8>, String) {
    let judged = SCOPE.judged(table);
    let field = judged[numbers.below(judged.len())];
    let spoilt = spoilt::judged(table, &field, numbers);
    let part = field.part.expect("a field that is there");
    (spoilt, format!("{:?} {part:?}", field.kind))
}

#[test]
fn tables_of_every_type() {
    let mut numbers = seed::numbers("whole GSUB tables");
    let mut seen = Seen::of(SCOPE);
    for turn in 0..9 {
        let table = whole::random(1 + turn % 2, &mut numbers);
        random::in_all_ways(&table, &mut seen, &mut numbers);
    }
    for turn in 0..1_300 {
        let table = whole::random(turn % 5, &mut numbers);
        let held = reads::held(SCOPE, &table);
        assert_eq!(held.number, 0);
        for _ in 0..3 {
            seen.read(reads::about(&held, &mut numbers), &table, &mut numbers);
        }
        random::in_some_ways(&table, 10, &mut seen, &mut numbers);
    }
    seen.report();
    assert!(seen.told.iter().sum::<usize>() >= 20_000);
    seen.often(&[
        (0, 1_500),
        (6, 1_500),
        (7, 800),
        (8, 500),
        (13, 500),
        (15, 8_000),
    ]);
    assert!(seen.packed == seen.told[0] && seen.changed >= 1_000);
}

/// Each field that is judged is told by its place, if it is not read.
#[test]
fn every_cause_of_a_refusal() {
    let mut numbers = seed::numbers("causes of 15");
    let mut causes: BTreeMap<String, usize> = BTreeMap::new();
    for turn in 0..1_500 {
        let table = whole::random(1 + turn % 4, &mut numbers);
        let room = reads::roomy(&reads::held(SCOPE, &table));
        for _ in 0..5 {
            let (spoilt, cause) = spoilt_field(&table, &mut numbers);
            let told = reads::read(SCOPE, room, &spoilt, &mut numbers).told;
            // Another format or version may be read too.
            if told.number == 15 {
                *causes.entry(cause).or_default() += 1;
            }
        }
    }
    for cause in CAUSES {
        let count = causes.get(cause).copied().unwrap_or(0);
        println!("  {cause}: {count}");
        assert!(count >= 4, "{cause} is hardly met");
    }
}

/// What is read as a table of single substitutions is read just so.
#[test]
fn single_substitutions_are_read_alike() {
    let mut numbers = seed::numbers("whole reads of single substitutions");
    let mut alike = 0;
    for turn in 0..2_000 {
        let mut table = tables::random(turn % 7, &mut numbers);
        if turn % 3 == 0 {
            table = spoilt::any(&table, &mut numbers);
        }
        let held = reads::held(Scope::Single, &table);
        if held.number == 0 {
            let room = reads::roomy(&held);
            let [single, whole] = [Scope::Single, SCOPE].map(|scope| {
                let mut checked = Checked::unread(room.store, room.layout().need(), &mut numbers);
                let told = checked.read_gsub(scope, room.limits(), &table);
                (told, checked.pair.reference)
            });
            assert_eq!(single.0, whole.0);
            assert!(single.1 == whole.1, "the same session");
            alike += 1;
        }
    }
    assert!(alike >= 500);
}

/// Room for a table with all lookups promoted, or about as much as it needs.
fn room(table: &[u8], numbers: &mut Numbers) -> Room {
    let held = reads::held(SCOPE, table);
    if held.number != 0 {
        return promoted::LARGE;
    }
    if numbers.below(6) == 0 {
        return reads::about(&held, numbers);
    }
    let roomy = reads::roomy(&held);
    let store = roomy.store.min(held.bytes as usize + 66_000);
    Room { store, ..roomy }
}

/// The types of a table's lookups, in the list's order.
fn types(table: &[u8]) -> Vec<usize> {
    const LOOKUP_LIST: usize = 8;
    let number = |at: usize| usize::from(u16::from_be_bytes([table[at], table[at + 1]]));
    let list = number(LOOKUP_LIST);
    let lookups = (1..=number(list)).map(|at| list + number(list + 2 * at));
    lookups.map(number).collect()
}

#[test]
fn lookups_of_every_type_are_promoted() {
    let mut numbers = seed::numbers("whole promotions");
    let mut seen = promoted::Seen::of(SCOPE);
    // By the types that they had; one of type 7 is left as it is.
    let mut of_type = [0; 9];
    for turn in 0..1_200 {
        let table = whole::long(1 + turn % 2, &mut numbers);
        let room = room(&table, &mut numbers);
        let table = match turn % 6 {
            0 => spoilt_field(&table, &mut numbers).0,
            _ => table,
        };
        let lengths = promoted::lengths(room, &mut numbers);
        let told = promoted::promote(room, &table, lengths, &mut seen, &mut numbers);
        if told.promoted > 0 {
            let types = types(&table);
            let last = &types[types.len() - told.promoted as usize..];
            last.iter().for_each(|&kind| of_type[kind] += 1);
            seen.extended += usize::from(types.contains(&7));
        }
        if told.number == 0 && turn % 16 == 1 {
            promoted::at_the_edge(room, &table, &told, &mut seen, &mut numbers);
        }
    }
    seen.report();
    println!("  promoted, by type: {:?}", &of_type[1..]);
    for number in [0, 6, 7, 8, 10, 11, 13, 15, 16] {
        assert!(seen.told[number] >= 5, "number {number} is hardly told");
    }
    for count in [seen.none, seen.one, seen.some, seen.all, seen.extended] {
        assert!(count >= 12);
    }
    assert!(of_type[1..].iter().all(|&count| count >= 8));
}
