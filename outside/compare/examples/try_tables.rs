//! Reads GSUB tables with the proved library, packs them, and reads them again.
//!
//! `try_tables FOLDER FILE..` takes tables, a file each, and writes each packed one
//! to the folder under the same name. It prints a line for each: its name, `read` or
//! `refused`, and what is told; and then how often each kind of table was met.

use bindings::{GsubPromoted, GsubRead};
use compare::lent::Lent;
use reference::gsub::reading::promoted;
use reference::gsub::{Kind, Scope};
use reference::reading::same;
use std::collections::BTreeMap;
use std::path::Path;
use std::{env, fs};

/// The largest limits, and a store that any GSUB table of a font has room in.
const OBJECTS: u32 = 16_384;
const LINKS: u32 = 65_536;
const STORE: usize = 1 << 22;

/// What is told, and the packed table.
fn promote(lent: &mut Lent, table: &[u8]) -> (GsubPromoted, Vec<u8>) {
    let told = lent.promote_gsub_whole(table);
    let packed = lent.out[..told.length as usize].to_vec();
    (told, packed)
}

/// A table that is read: packed, it reads as it did, with lookups promoted or not,
/// and packs to itself. Gives the packed one.
fn tried(lent: &mut Lent, name: &str, table: &[u8]) -> Option<Vec<u8>> {
    let read = lent.read_gsub_whole(table);
    if read.number != 0 {
        refused(name, table, read.number, read.place);
        return None;
    }
    let (told, packed) = promote(lent, table);
    if told.number != 0 {
        refused(name, table, told.number, told.place);
        return None;
    }
    let again = lent.read_gsub_whole(&packed);
    let counts = (again.number, again.objects, again.links, again.bytes);
    let expected = (0, told.objects, told.links, told.bytes);
    assert_eq!(counts, expected, "{name}");
    let reading = |table| Scope::Whole.reading(table).expect("it is read");
    let expected = promoted(&reading(table), told.promoted as usize);
    assert!(same(&reading(&packed), &expected), "{name}");
    assert!(promote(lent, &packed).1 == packed, "{name}");
    let (before, after) = (table.len(), packed.len());
    let GsubRead { objects, links, .. } = read;
    println!(
        "{name}\tread\t{before}\t{objects}\t{links}\t{after}\t{}",
        told.promoted
    );
    Some(packed)
}

/// The number, and where and what the field is that is why.
fn refused(name: &str, table: &[u8], number: u64, place: u64) {
    let field = match Scope::Whole.reading(table) {
        Err(field) => {
            assert_eq!((number, place), (15, field.place as u64), "{name}");
            let part = field.part.map(|part| format!("{part:?}"));
            format!("{:?} {}", field.kind, part.as_deref().unwrap_or("cut"))
        }
        Ok(_) => {
            assert_ne!(number, 15, "{name}");
            String::from("-")
        }
    };
    println!(
        "{name}\trefused\t{}\t{number}\t{place}\t{field}",
        table.len()
    );
}

/// What a table is called where kinds are counted: by its format, if it has one.
fn called(kind: Kind, place: usize, table: &[u8]) -> String {
    let number = |at: usize| u16::from_be_bytes([table[at], table[at + 1]]);
    match kind {
        Kind::Header => format!("version 1.{}", number(place + 2)),
        Kind::Subtable(kind) => format!("type {kind} format {}", number(place)),
        Kind::Coverage | Kind::ClassDef => format!("{kind:?} format {}", number(place)),
        _ => format!("{kind:?}"),
    }
}

fn main() {
    let mut words = env::args().skip(1);
    let folder = words.next().expect("a folder for the packed tables");
    let (mut lent, mut met) = (
        Lent::new((OBJECTS, LINKS), STORE),
        BTreeMap::<String, usize>::new(),
    );
    for path in words {
        let table = fs::read(&path).expect("a table");
        let name = Path::new(&path).file_name().expect("a file");
        let name = name.to_string_lossy();
        let Some(packed) = tried(&mut lent, &name, &table) else {
            continue;
        };
        fs::write(Path::new(&folder).join(&*name), packed).expect("written");
        for (kind, place) in Scope::Whole.tables(&table).expect("it is read") {
            *met.entry(called(kind, place, &table)).or_default() += 1;
        }
    }
    for (kind, count) in met {
        println!("{kind}\tmet\t{count}");
    }
}
