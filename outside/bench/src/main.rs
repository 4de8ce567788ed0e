//! How long the proved library takes, and how many times that is the
//! reference's time, both measured in one run on the same memory; and how fast
//! it looks at the longest store.
//!
//! `cargo run --offline --profile bench --package bench`

mod batching;
mod closing;
mod copying;
mod framing;
mod growth;
mod largest;
mod looking;
mod ordering;
mod packing;
mod promoting;
mod putting;
mod reading;
mod sessions;
mod spaces;
mod timing;
mod whole;

use timing::Times;

/// One line of the table.
pub struct Line {
    pub what: String,
    pub times: Times,
}

fn main() {
    let parts = [
        spaces::asked,
        ordering::asked,
        copying::asked,
        reading::asked,
        whole::asked,
        promoting::asked,
        framing::asked,
        batching::asked,
    ];
    if parts.iter().any(|asked| asked()) {
        return;
    }
    println!(
        "{:<44}{:>12}{:>12}{:>8}",
        "", "proved µs", "reference", "ratio"
    );
    putting::lines().iter().for_each(print);
    closing::lines().iter().for_each(print);
    let packs = packing::lines();
    packs.iter().for_each(print);
    largest::lines().iter().for_each(print);
    println!(
        "\n{:<44}{:>12}{:>12}",
        "growth from 1,000 to 4,000 pieces", "proved", "reference"
    );
    // The lines come in twos: 1,000 pieces, then 4,000 of the same.
    for two in packs.chunks(2) {
        let (small, large) = (&two[0].times, &two[1].times);
        println!(
            "{:<44}{:>12.1}{:>12.1}",
            two[1].what,
            large.proved / small.proved,
            large.reference / small.reference
        );
    }
    println!(
        "\n{:<44}{:>12}{:>12}{:>12}{:>10}{:>10}{:>8}",
        "16 MiB store", "proved µs", "reference", "sum", "GB/s", "sum GB/s", "share"
    );
    looking::lines().iter().for_each(print_looking);
    ordering::print();
    copying::print();
    reading::print();
    whole::print(&[]);
    promoting::print();
    framing::print();
    batching::print();
}

/// Speeds in gigabytes a second, of what is looked at and of what is summed.
fn print_looking(line: &looking::Line) {
    let looked_at = line.looked_at as f64 / line.proved / 1e3;
    let summed = line.summed as f64 / line.sum / 1e3;
    println!(
        "{:<44}{:>12.1}{:>12.1}{:>12.1}{looked_at:>10.1}{summed:>10.1}{:>8.2}",
        line.what,
        line.proved,
        line.reference,
        line.sum,
        looked_at / summed
    );
}

fn print(line: &Line) {
    let Times { proved, reference } = line.times;
    println!(
        "{:<44}{proved:>12.1}{reference:>12.1}{:>8.2}",
        line.what,
        proved / reference
    );
}
