//! Reads of GSUB tables: the longest of the real ones, and tables in which one
//! table is led to thousands of times, read each time and kept once.
//!
//! `cargo run --offline --profile bench --package bench -- reads` prints them
//! alone.

use crate::timing::microseconds;
use bindings::{calls, records_need};
use compare::{crafted, real};

const OBJECTS: u32 = 4_096;
const LINKS: u32 = 65_536;
const STORE: usize = 1 << 20;
const TURNS: usize = 5;

/// Real tables of the most bytes.
const REAL: usize = 4;

/// So many lookups that are all one, with as many subtables that are all one.
const SHARED: [u16; 4] = [50, 100, 200, 400];

/// Prints the lines, if the words ask for nothing else.
pub fn asked() -> bool {
    let asked = std::env::args().skip(1).eq(["reads"]);
    if asked {
        print();
    }
    asked
}

pub fn print() {
    println!(
        "\n{:<46}{:>12}{:>12}",
        "reads of GSUB tables", "bytes", "proved µs"
    );
    let mut tables = real::tables();
    tables.sort_by_key(|(_, table)| std::cmp::Reverse(table.len()));
    for (name, table) in tables.iter().take(REAL) {
        line(name, table);
    }
    for n in SHARED {
        let visits = u32::from(n) * u32::from(n);
        line(
            &format!("one subtable, {visits} visits"),
            &crafted::shared(n, n),
        );
    }
}

fn line(what: &str, table: &[u8]) {
    println!("{what:<46}{:>12}{:>12.1}", table.len(), time(table));
}

/// The least of several turns.
fn time(table: &[u8]) -> f64 {
    let mut store = vec![0; STORE];
    let mut records = vec![0; records_need(OBJECTS, LINKS)];
    let mut least = f64::MAX;
    for _ in 0..TURNS {
        let read = || {
            let told = calls::read_gsub(&mut store, &mut records, OBJECTS, LINKS, table);
            assert_eq!(told.number, 0);
        };
        least = least.min(microseconds(read));
    }
    least
}
