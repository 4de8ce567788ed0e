//! Reads in the middle of random lists of the other calls.

use compare::lists::Style;
use compare::pair::Counts;
use compare::{seed, spoilt, tables, whole, Checked, Numbers};
use reference::answer::NUMBERS;
use reference::call::Call;
use reference::gsub::Scope;

/// A small table of either scope, now and then damaged.
fn any_table(numbers: &mut Numbers) -> (Scope, Vec<u8>) {
    let (scope, table) = match numbers.below(2) {
        0 => (Scope::Single, tables::random(numbers.below(3), numbers)),
        _ => (Scope::Whole, whole::random(numbers.below(3), numbers)),
    };
    match numbers.below(4) {
        0 => (scope, spoilt::any(&table, numbers)),
        _ => (scope, table),
    }
}

/// One list: a start on stores that hold anything, then random calls and reads.
/// Gives how often all of them told each number, and how often the reads did.
fn run(style: Style, calls: usize, numbers: &mut Numbers) -> [Counts; 2] {
    let mut session = Checked::unread(style.store, style.records(), numbers);
    session.run(&style.start(), numbers);
    let mut reads = [0; NUMBERS];
    for _ in 0..calls {
        if numbers.below(12) > 0 {
            let call = style.next(&session.claims, numbers);
            session.run(&call, numbers);
            continue;
        }
        let (pieces, links) = match numbers.below(3) {
            0 => style.limits(numbers),
            _ => (style.pieces, style.links),
        };
        let (scope, table) = any_table(numbers);
        let told = session.read_gsub(scope, (pieces, links), &table);
        reads[told.number as usize] += 1;
        session.run(&Call::Tally, numbers);
    }
    [session.pair.told, reads]
}

#[test]
fn reads_among_other_calls() {
    let mut numbers = seed::numbers("reads among calls");
    let (mut all, mut reads) = ([0; NUMBERS], [0; NUMBERS]);
    for turn in 0..600 {
        let style = match turn % 3 {
            0 => Style::roomy(&mut numbers),
            1 => Style::deep(&mut numbers),
            _ => Style::small(&mut numbers),
        };
        let counts = run(style, 90, &mut numbers);
        for number in 0..NUMBERS {
            all[number] += counts[0][number];
            reads[number] += counts[1][number];
        }
    }
    println!("  all numbers {all:?}, those of reads {reads:?}");
    assert_eq!(all[12], 0, "a run stays sound");
    for number in [0, 6, 7, 8, 13, 15] {
        assert!(reads[number] >= 50, "number {number} is hardly told");
    }
}
