//! The twenty-eight hand-counted cases and the traps on both packers.

use compare::claims::Claims;
use compare::met::Met;
use compare::{Numbers, Pair};
use reference::call::Call;
use reference::cases::{hand_counted_cases, Case};
use reference::traps::trap_cases;
use reference::Answer;

/// Runs a case, and gives what its last call told and left in the output.
fn run(case: &Case) -> (Answer, Vec<u8>) {
    let (last, _) = run_whole(case);
    last
}

/// With the numbers and ids that all its calls told, and the inner starts met.
fn run_whole(case: &Case) -> ((Answer, Vec<u8>), Whole) {
    let mut numbers = Numbers::new(1);
    let mut pair = Pair::new(case.store, case.records, &mut numbers);
    let Call::Start { pieces, links } = case.calls[0] else {
        panic!("a case begins with a start");
    };
    pair.run(&case.calls[0], &mut numbers);
    let mut claims = Claims::begin(pieces, links, case.store, case.records);
    let mut last = (Answer::default(), Vec::new());
    let mut whole = Whole::default();
    for call in &case.calls[1..] {
        let outcome = pair.run(call, &mut numbers);
        claims.check(call, &outcome);
        whole.numbers.push(outcome.answer.number);
        if let Call::Close = call {
            whole.ids.push(outcome.answer.id);
            whole.closes.push(outcome.answer.number);
        }
        last = (outcome.answer, outcome.output.1);
    }
    whole.met = claims.met;
    (last, whole)
}

#[derive(Default)]
struct Whole {
    numbers: Vec<u64>,
    ids: Vec<u64>,
    /// The numbers of its closes.
    closes: Vec<u64>,
    met: Met,
}

fn named(name: &str) -> Case {
    hand_counted_cases()
        .into_iter()
        .chain(trap_cases())
        .find(|case| case.name == name)
        .expect("the case is there")
}

#[test]
fn every_case_is_the_same_on_both() {
    let mut met = Met::default();
    for case in hand_counted_cases().iter().chain(&trap_cases()) {
        met += run_whole(case).1.met;
    }
    assert!(met.least() >= 5 && met.edge.iter().all(|&count| count >= 5));
}

#[test]
fn inner_starts_counted_by_hand() {
    let (_, whole) = run_whole(&named("20"));
    assert_eq!(
        whole.numbers,
        [0, 0, 0, 0, 0, 3, 0, 0, 0, 0, 0, 0, 0, 0, 0, 0, 0, 0]
    );
    assert_eq!(whole.ids, [0, 1, 2, 1]);
}

#[test]
fn closes_counted_by_hand() {
    let refused: [(&str, &[u64]); 7] = [
        ("21 inner start 4468", &[0, 16]),
        ("22 size 65535", &[0, 0]),
        ("22 size 65536", &[0, 16]),
        ("22 size 65536 and more", &[0, 16, 16]),
        ("23 size 65545", &[0, 0]),
        ("23 size 65546", &[0, 16]),
        ("24", &[0, 5, 16, 8]),
    ];
    for (name, closes) in refused {
        assert_eq!(run_whole(&named(name)).1.closes, closes, "case {name}");
    }
}

#[test]
fn tables_counted_by_hand() {
    let tables: [(&str, &[u8]); 9] = [
        ("1", &[0x61, 0, 5, 0, 8, 0x62, 0, 6, 0x63, 0, 3, 0x64]),
        ("3", &[0, 4, 0, 4, 0x78]),
        ("4", &[0, 0, 0, 4, 0x78]),
        ("5", &[0, 6, 0, 4, 0, 2, 0x78]),
        ("6", &[0x65]),
        ("16", &[0, 0, 3, 0x78]),
        ("17", &[0, 0, 5, 0, 5, 0x78]),
        ("18", &[0, 1, 0, 2, 0, 2, 0x78]),
        ("19", &[0, 1, 0, 2, 0, 4, 0, 8, 0x78]),
    ];
    for (name, table) in tables {
        let (answer, output) = run(&named(name));
        assert_eq!(
            (answer.number, answer.length as usize),
            (0, table.len()),
            "case {name}"
        );
        assert_eq!(output, table, "case {name}");
    }
}

#[test]
fn numbers_counted_by_hand() {
    let told = |name| run(&named(name)).0;
    // What the last call of a case told: its number, and the bytes held.
    let last = [
        ("2 store 11", 0, 10),
        ("2 store 12", 0, 12),
        ("7", 0, 2),
        ("9", 0, 0),
        ("10", 4, 0),
        ("15", 2, 0),
        ("20", 0, 13),
        ("21 inner start 4468", 0, 70_005),
        ("22 size 65536", 0, 1),
        ("22 size 65536 and more", 0, 65_538),
        ("23 size 65546", 0, 65_547),
        ("24", 0, 65_536),
    ];
    for (name, number, bytes) in last {
        let answer = told(name);
        assert_eq!(
            (answer.number, answer.bytes),
            (number, bytes),
            "case {name}"
        );
    }
    for (name, length) in [
        ("11", 65_545),
        ("12", 65_546),
        ("14", 80_014),
        ("spaces by distance", 120_015),
        ("width 3 keeps together", 80_014),
        ("21 inner start 4469", 70_005),
        ("22 size 65535", 65_536),
        ("23 size 65545", 65_546),
    ] {
        assert_eq!(
            (told(name).number, told(name).length),
            (0, length),
            "case {name}"
        );
    }
    let unfit = [
        ("13", 2, 2, 65_536),
        ("25 copies 0", 3, 0, 80_010),
        ("25 copies 1", 1, 0, 80_000),
        ("26", 2, 6, 95_528),
        ("27", 2, 2, 105_528),
        ("child in space 0", 3, 0, 80_010),
        ("width 3 joins", 1, 0, 80_000),
    ];
    for (name, parent, field, needed) in unfit {
        let answer = told(name);
        let link = (answer.parent, answer.field, answer.needed);
        assert_eq!(
            (answer.number, link),
            (11, (parent, field, needed)),
            "case {name}"
        );
    }
}

#[test]
fn copies_counted_by_hand() {
    let told = run(&named("25 copies 2")).0;
    assert_eq!((told.number, told.length, told.copies), (0, 80_040, 2));
    assert_eq!(told.placed, 6);
    let (_, whole) = run_whole(&named("28"));
    assert_eq!(whole.numbers[3..], [13, 13, 13, 0, 0]);
}
