//! The input and the expected output of the proved programs are what this
//! program prints.

use reference::call::{Call, Stores};
use reference::gsub::{lookup_count, read_gsub_whole, substitute};
use reference::limits::{record_need, work_need};
use reference::printed;

const CRATES: &str = concat!(env!("CARGO_MANIFEST_DIR"), "/../../crates");

fn bytes(path: &str) -> Vec<u8> {
    let path = format!("{CRATES}/{path}");
    std::fs::read(&path).unwrap_or_else(|error| panic!("{path}: {error}"))
}

fn file(path: &str) -> String {
    String::from_utf8(bytes(path)).expect("text")
}

/// Limits that the table fits.
const PIECES: u32 = 128;
const LINKS: u32 = 128;

/// The table as this program reads and packs it.
fn repacked(table: &[u8]) -> Vec<u8> {
    let mut stores = Stores::new(
        table.len(),
        record_need(PIECES.into(), LINKS.into()) as usize,
    );
    let read = read_gsub_whole(&mut stores, PIECES, LINKS, table);
    assert_eq!(read.number, 0);
    let pack = Call::Pack {
        id: read.id as u32,
        copies: 0,
        output: table.len(),
        work: work_need(PIECES.into(), LINKS.into(), 0) as usize,
    };
    let told = stores.run(&pack);
    assert_eq!(told.answer.number, 0);
    told.output[..told.answer.length as usize].to_vec()
}

#[test]
fn cases_input_is_the_script() {
    assert_eq!(file("cases/stdin"), printed::script());
}

#[test]
fn cases_output_is_as_told() {
    assert_eq!(file("cases/stdout"), printed::told());
}

#[test]
fn orders_output_is_as_printed() {
    assert_eq!(file("orders/stdout"), printed::orders());
}

#[test]
fn repack_output_is_as_packed() {
    assert_eq!(bytes("repack/stdout"), repacked(&bytes("repack/stdin")));
}

#[test]
fn gsub_show_output_has_every_substitute() {
    let (table, printed) = (bytes("gsub_show/stdin"), file("gsub_show/stdout"));
    for lookup in 0..lookup_count(&table) {
        let changed = (0..=u16::MAX).filter(|&glyph| substitute(&table, lookup, glyph) != glyph);
        let start = format!("lookup {lookup}: type ");
        let end = format!(" single substitutes {}", changed.count());
        let line = printed.lines().find(|line| line.starts_with(&start));
        let line = line.expect("a line for each lookup");
        // only single substitution is shown glyph by glyph
        assert!(line.ends_with(&end) || (end.ends_with(" 0") && !line.contains("single")));
    }
    let packed = format!("packed: {} bytes", repacked(&table).len());
    assert!(printed.lines().any(|line| line == packed));
}
