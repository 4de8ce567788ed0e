//! Random lists of all eight calls, with the history's claims after each.

use compare::claims::Claims;
use compare::lists::Style;
use compare::met::Met;
use compare::pair::Counts;
use compare::{seed, Numbers, Pair};
use reference::answer::{is_number, NUMBERS};

/// One list: a start on stores that hold anything, then random calls.
fn run(style: Style, calls: usize, numbers: &mut Numbers) -> (Counts, Met) {
    let (store, records) = (style.store, style.records());
    let mut pair = Pair::new(store, records, numbers);
    let started = pair.run(&style.start(), numbers);
    assert_eq!(started.answer.number, 0);
    let mut claims = Claims::begin(style.pieces, style.links, store, records);
    for _ in 0..calls {
        let call = style.next(&claims, numbers);
        let outcome = pair.run(&call, numbers);
        claims.check(&call, &outcome);
    }
    (pair.told, claims.met)
}

#[test]
fn random_lists() {
    let mut numbers = seed::numbers("random lists");
    let (mut told, mut met) = ([0; NUMBERS], Met::default());
    let mut add = |(counts, inner): (Counts, Met)| {
        for (sum, count) in told.iter_mut().zip(counts) {
            *sum += count;
        }
        met += inner;
    };
    for _ in 0..1_500 {
        add(run(Style::small(&mut numbers), 190, &mut numbers));
    }
    for _ in 0..60 {
        add(run(Style::roomy(&mut numbers), 200, &mut numbers));
    }
    for _ in 0..80 {
        add(run(Style::deep(&mut numbers), 250, &mut numbers));
    }
    for _ in 0..300 {
        add(run(Style::large(&mut numbers), 80, &mut numbers));
    }
    for _ in 0..300 {
        add(run(Style::edge(&mut numbers), 80, &mut numbers));
    }
    let calls: usize = told.iter().sum();
    println!("random lists: {calls} calls");
    for (number, count) in told
        .iter()
        .enumerate()
        .filter(|(number, _)| is_number(*number))
    {
        println!("  number {number:2}: {count}");
    }
    assert!(calls >= 300_000);
    assert_eq!(told[12], 0, "a run stays sound");
    for number in (0..NUMBERS).filter(|&number| number != 12) {
        let least = if is_number(number) { 20 } else { 0 };
        assert!(told[number] >= least, "number {number} is hardly told");
    }
    assert!(told[16] >= 200 && met.edge.iter().all(|&count| count >= 20));
    assert!(met.least() >= 300);
}
