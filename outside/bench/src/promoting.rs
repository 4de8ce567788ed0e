//! A table half of whose lookups have to be promoted, beside one read and one pack
//! of the table that it becomes, which is what the last trial does.
//!
//! `cargo run --offline --profile bench --package bench -- promotes` prints the line
//! alone.

use crate::timing::microseconds;
use compare::lent::Lent;
use compare::nested::Nested;
use reference::random::Numbers;

const LOOKUPS: usize = 64;
const PROMOTED: u64 = 32;

/// So many make a subtable of 2,026 bytes: 32 of them have room between the first
/// and its coverage, and 33 have not.
const SUBSTITUTES: usize = 1_010;

const OBJECTS: u32 = 512;
const LINKS: u32 = 512;
const STORE: usize = 1 << 18;
const TURNS: usize = 12;

/// Prints the line, if the words ask for nothing else.
pub fn asked() -> bool {
    let asked = std::env::args().skip(1).eq(["promotes"]);
    if asked {
        print();
    }
    asked
}

pub fn print() {
    let mut lent = Lent::new((OBJECTS, LINKS), STORE);
    let table = Nested::even(LOOKUPS, SUBSTITUTES).laid_out(&mut Numbers::new(1));
    let length = promote(&mut lent, &table.0);
    let packed = lent.out[..length].to_vec();
    let (mut promoted, mut once) = (f64::MAX, f64::MAX);
    for _ in 0..TURNS {
        promoted = promoted.min(microseconds(|| {
            promote(&mut lent, &table.0);
        }));
        once = once.min(microseconds(|| read_and_pack(&mut lent, &packed)));
    }
    println!(
        "\n{:<46}{:>12}{:>16}{:>8}\n{:<46}{promoted:>12.1}{once:>16.1}{:>8.1}",
        "lookups promoted",
        "proved µs",
        "read and pack",
        "ratio",
        format!("{PROMOTED} of {LOOKUPS}, {} bytes", packed.len()),
        promoted / once
    );
}

/// Gives the packed table's length.
fn promote(lent: &mut Lent, table: &[u8]) -> usize {
    let told = lent.promote_gsub(table);
    assert_eq!((told.number, told.promoted), (0, PROMOTED));
    told.length as usize
}

fn read_and_pack(lent: &mut Lent, table: &[u8]) {
    let read = lent.read_gsub(table);
    assert_eq!(read.number, 0);
    let packed = lent.pack(read.id as u32);
    assert_eq!((packed.number, packed.length), (0, table.len() as u64));
}
