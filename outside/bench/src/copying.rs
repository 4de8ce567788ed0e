//! Packs for which copies are made, beside those of the plain packer.
//!
//! `cargo run --offline --profile bench --package bench -- copies` prints them
//! alone.

use crate::timing::least;
use bindings::calls;
use compare::decided::{self, Order};
use compare::made::{self, Room};
use compare::shapes::{self, Family, Graph, Link, Piece};
use reference::call::Stores;
use reference::random::Numbers;

const OBJECTS: usize = 16_000;
const COPIES: [u32; 4] = [0, 1, 16, 256];
const TURNS: usize = 5;

/// Objects over one leaf, of which as many as copies are to be made have a field
/// that cannot reach it.
const SHARING: usize = 256;

/// So long that no field of width 2 reaches over it.
const LONG: usize = 65_536;

/// Prints the lines, if the words ask for nothing else.
pub fn asked() -> bool {
    let asked = std::env::args().skip(1).eq(["copies"]);
    if asked {
        print();
    }
    asked
}

pub fn print() {
    println!(
        "\n{:<46}{:>12}{:>12}{:>8}{:>24}",
        "copies made, 16,000 objects", "proved µs", "plain Rust", "ratio", "µs for each copy"
    );
    for (name, family, links) in [
        ("chain", Family::Chain, OBJECTS),
        ("shared leaves", Family::Shared, 2 * OBJECTS),
    ] {
        let mut none = [0.0; 2];
        for copies in COPIES {
            let [proved, plain] = Case::new(family, links, copies).times();
            let what = format!("{name}, {copies} copies");
            print!(
                "{what:<46}{proved:>12.1}{plain:>12.1}{:>8.2}",
                proved / plain
            );
            if copies == 0 {
                none = [proved, plain];
            } else {
                let each = |time: f64, none: f64| (time - none) / f64::from(copies);
                print!(
                    "{:>12.1}{:>12.1}",
                    each(proved, none[0]),
                    each(plain, none[1])
                );
            }
            println!();
        }
    }
}

/// A pack that the third order fits with just so many copies.
struct Case {
    stores: Stores,
    root: u32,
    copies: u32,
    work: Vec<u64>,
    tables: [Vec<u8>; 2],
}

impl Case {
    fn new(family: Family, links: usize, copies: u32) -> Case {
        let mut numbers = Numbers::new(1);
        let count = OBJECTS - SHARING - 2;
        let mut graph = decided::graph(Order::Spaces, family, count, links, &mut numbers);
        share(&mut graph, copies as usize);
        let room = Room {
            pieces: graph.len() as u32,
            links: shapes::links(&graph) as u32,
            store: shapes::bytes(&graph),
        };
        let table = vec![0; room.store + LEAF * copies as usize];
        Case {
            stores: made::stores(&graph, room, &mut numbers),
            root: room.pieces - 1,
            copies,
            work: vec![0; bindings::work_need(room.pieces, room.links, copies)],
            tables: [table.clone(), table],
        }
    }

    /// Microseconds of the proved library and of the plain packer.
    fn times(&mut self) -> [f64; 2] {
        let Stores { bytes, records } = &self.stores;
        let (root, copies) = (self.root, self.copies);
        let [table, plain_table] = &mut self.tables;
        let work = &mut self.work;
        let times = least(
            TURNS,
            || (),
            [
                &mut |_| {
                    let told = calls::pack(bytes, records, root, copies, table, work);
                    assert_eq!((told.number, told.copies), (0, copies.into()));
                },
                &mut |_| {
                    let packed = plain::pack(bytes, records, root, copies, plain_table);
                    assert_eq!(packed.expect("packed").copies, copies);
                },
            ],
        );
        assert!(self.tables[0] == self.tables[1]);
        times
    }
}

const LEAF: usize = 10;

/// Adds a leaf that waits for a long object, and objects that link it, so many of
/// them by width 2.
fn share(graph: &mut Graph, narrow: usize) {
    let mut root = graph.pop().expect("a graph has a root");
    let leaf = add(graph, LEAF, &[]);
    // In space 0, so that the others are spaces of their own.
    root.links.push(Link::new(3, leaf));
    for at in 0..SHARING {
        let width = if at < narrow { 2 } else { 4 };
        let object = add(graph, 10, &[Link::new(width, leaf)]);
        root.links.push(Link::new(4, object));
    }
    let long = add(graph, LONG, &[Link::new(4, leaf)]);
    root.links.push(Link::new(4, long));
    graph.push(root);
}

/// Adds an object of so many bytes besides its fields, and gives its number.
fn add(graph: &mut Graph, bytes: usize, links: &[Link]) -> usize {
    let id = graph.len();
    let mut own = (id as u32).to_be_bytes().to_vec();
    own.resize(bytes, b'c');
    graph.push(Piece {
        links: links.to_vec(),
        bytes: own,
        links_first: false,
    });
    id
}
