//! Whole GSUB tables read and packed, beside a plain program: the reference's walk
//! into objects that are kept in vectors, equal ones found by the standard library's
//! map, and the plain pack.
//!
//! `cargo run --offline --profile bench --package bench -- whole FILE ..` takes
//! tables, a file each, as `outside/compare/fonts/try-fonts` cuts them out; without a
//! file it takes the longest ones of outside/compare/gsub.

use crate::timing::{least, microseconds};
use bindings::{calls, GsubPromoted};
use compare::lent::Lent;
use compare::real::{self, Named};
use plain::build::{Builder, Limits};
use reference::call::Call;
use reference::gsub::Scope;
use reference::Answer;
use std::path::Path;
use std::{env, fs};

/// The largest limits, and a store that any GSUB table of a font has room in.
const OBJECTS: u32 = 16_384;
const LINKS: u32 = 65_536;
const STORE: usize = 1 << 21;
const TURNS: usize = 3;

/// Tables that are taken where none is named.
const LONGEST: usize = 4;

const MILLI: f64 = 1e3;

/// Prints the lines, if the first word asks for them.
pub fn asked() -> bool {
    let mut words = env::args().skip(1);
    let asked = words.next().is_some_and(|word| word == "whole");
    if asked {
        let files: Vec<String> = words.collect();
        print(&files);
    }
    asked
}

pub fn print(files: &[String]) {
    println!(
        "\n{:<32}{:>8}{:>8}{:>7}{:>10}{:>8}{:>7}{:>9}{:>10}{:>8}{:>7}",
        "whole GSUB tables",
        "bytes",
        "objects",
        "links",
        "read ms",
        "plain",
        "ratio",
        "ns/byte",
        "pack ms",
        "plain",
        "ratio"
    );
    let mut lent = Lent::new((OBJECTS, LINKS), STORE);
    for (name, table) in tables(files) {
        line(&mut lent, &name, &table);
    }
}

fn tables(files: &[String]) -> Vec<Named> {
    if !files.is_empty() {
        let named = |path: &String| (path.clone(), fs::read(path).expect("a table"));
        return files.iter().map(named).collect();
    }
    let mut tables = [real::tables(), real::whole_tables()].concat();
    tables.sort_by_key(|(_, table)| std::cmp::Reverse(table.len()));
    tables.truncate(LONGEST);
    tables
}

fn line(lent: &mut Lent, path: &str, table: &[u8]) {
    let name = Path::new(path).file_name().unwrap_or_default();
    let name: String = name.to_string_lossy().chars().take(31).collect();
    let read = lent.read_gsub_whole(table);
    if read.number != 0 {
        println!(
            "{name:<32}{:>8}  refused {} at {}",
            table.len(),
            read.number,
            read.place
        );
        return;
    }
    let (objects, links) = (read.objects, read.links);
    let [proved, plain] = reads(lent, table, objects);
    print!("{name:<32}{:>8}{objects:>8}{links:>7}", table.len());
    let each = MILLI * proved / table.len() as f64;
    print_times(proved, plain);
    print!("{each:>9.1}");
    match packs(lent, read.id as u32) {
        Some([proved, plain]) => print_times(proved, plain),
        None => print!("  {}", promotion(lent, table)),
    }
    println!();
}

/// Microseconds of a read by both, into as many objects.
fn reads(lent: &mut Lent, table: &[u8], objects: u64) -> [f64; 2] {
    let proved = &mut |_: &mut ()| assert_eq!(lent.read_gsub_whole(table).objects, objects);
    let plain = &mut |_: &mut ()| assert_eq!(plain_read(table), objects);
    least(TURNS, || (), [proved, plain])
}

/// The same of a pack of what was read, where an order fits.
fn packs(lent: &mut Lent, root: u32) -> Option<[f64; 2]> {
    let told = lent.pack(root);
    if told.number != 0 {
        return None;
    }
    let length = told.length as usize;
    let mut plain_out = vec![0; length];
    let (store, records) = (&lent.store, &lent.records);
    let (out, work) = (&mut lent.out, &mut lent.work);
    let proved = &mut |_: &mut ()| {
        calls::pack(store, records, root, 0, out, work);
    };
    let plain = &mut |_: &mut ()| {
        let packed = plain::pack(store, records, root, 0, &mut plain_out);
        assert!(packed.is_ok());
    };
    let times = least(TURNS, || (), [proved, plain]);
    assert!(lent.out[..length] == plain_out);
    Some(times)
}

/// How many lookups are promoted until an order fits, or that none does, and how
/// long that takes.
fn promotion(lent: &mut Lent, table: &[u8]) -> String {
    let mut told = GsubPromoted::default();
    let time = microseconds(|| told = lent.promote_gsub_whole(table));
    let time = time / MILLI;
    match told.number {
        0 => format!("{} lookups promoted in {time:.1} ms", told.promoted),
        number => format!("refused {number} in {time:.1} ms"),
    }
}

fn print_times(proved: f64, plain: f64) {
    let [proved, plain] = [proved, plain].map(|time| time / MILLI);
    print!("{proved:>10.2}{plain:>8.2}{:>7.2}", proved / plain);
}

/// How many objects the plain program has of a table.
fn plain_read(table: &[u8]) -> u64 {
    let mut builder = Builder::new(Limits {
        objects: OBJECTS as usize,
        links: LINKS as usize,
        bytes: STORE,
    });
    let limits = (OBJECTS, LINKS);
    let mut run = |call: &Call| carried_out(&mut builder, call);
    let told = Scope::Whole.read_calls(limits, table, 0, &mut run);
    assert_eq!(told.number, 0);
    builder.closed() as u64
}

/// A call of a read; the answer has what the walk looks at.
fn carried_out(builder: &mut Builder, call: &Call) -> Answer {
    let mut answer = Answer::default();
    let done = match call {
        Call::Open => builder.open(),
        Call::Put(bytes) => builder.put(bytes),
        Call::Link { width, id, inner } => builder.link(*width, *id, *inner),
        Call::Close => builder.close().map(|id| answer.id = id.into()),
        _ => Ok(()),
    };
    answer.number = done.err().map_or(0, |refusal| refusal.number());
    answer
}
