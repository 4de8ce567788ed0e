//! Packs by each of the three orders beside those of the plain packer, and what
//! each order alone takes where the one before does not fit.
//!
//! `cargo run --offline --profile bench --package bench -- orders` prints them alone;
//! with `fan "kahn order"` the largest fans are packed again and again for some
//! seconds, for a profiler to look at; with `plain` as a third word the plain packer
//! does.

use crate::growth::{print_head, print_line, Line, Times};
use crate::timing::microseconds;
use bindings::calls;
use compare::decided::{self, Order, ORDERS};
use compare::made::{self, Room};
use compare::shapes::{self, Family};
use reference::call::Stores;
use reference::graph::Graph;
use reference::orders;
use reference::random::Numbers;
use reference::sound::sound;
use std::env;
use std::time::{Duration, Instant};

/// How long one pack is repeated for a profiler.
const LONG: Duration = Duration::from_secs(6);

const COUNTS: [usize; 2] = [4_000, 16_000];
const ROUNDS: usize = 24;
const TURNS: usize = 2;

/// Different graphs that are packed in turn.
const GRAPHS: u64 = 8;

struct Shape {
    name: &'static str,
    family: Family,
    /// Links for each object; a family that has more keeps them.
    links: usize,
}

const fn shape(name: &'static str, family: Family, links: usize) -> Shape {
    Shape {
        name,
        family,
        links,
    }
}

const SHAPES: [Shape; 6] = [
    shape("chain", Family::Chain, 1),
    shape("chain, four links each", Family::Chain, 4),
    shape("fan", Family::Fan, 1),
    shape("shared leaves", Family::Shared, 4),
    shape("random graph", Family::Near, 4),
    shape("lattice", Family::Lattice, 4),
];

/// Prints the lines alone, or packs one shape's graphs again and again, if the words
/// ask for it.
pub fn asked() -> bool {
    let words: Vec<String> = env::args().skip(1).collect();
    let words: Vec<&str> = words.iter().map(String::as_str).collect();
    let (shape, order, pack) = match words[..] {
        ["orders"] => {
            print();
            return true;
        }
        [shape, order] => (shape, order, Case::pack as fn(&mut Case)),
        [shape, order, "plain"] => (shape, order, Case::pack_plainly as fn(&mut Case)),
        _ => return false,
    };
    let shape = SHAPES.iter().find(|known| known.name == shape);
    let order = ORDERS.into_iter().find(|&known| name(known) == order);
    let (Some(shape), Some(order)) = (shape, order) else {
        return false;
    };
    let mut case = Case::new(shape, COUNTS[1], order);
    let began = Instant::now();
    while began.elapsed() < LONG {
        pack(&mut case);
    }
    true
}

pub fn print() {
    print_head(
        "packs beside plain Rust",
        ["4,000 objects", "16,000 objects"],
    );
    for shape in &SHAPES {
        lines(shape).iter().for_each(print_line);
    }
}

/// Whole packs, and the differences from one order to the next.
fn lines(shape: &Shape) -> Vec<Line> {
    let packs = COUNTS.map(|count| timed(ORDERS.map(|order| Case::new(shape, count, order))));
    let mut whole = Vec::new();
    let mut alone = Vec::new();
    for (at, order) in ORDERS.into_iter().enumerate() {
        let what = format!("{}, {}", shape.name, name(order));
        if at > 0 {
            alone.push(Line {
                what: format!("{what} alone"),
                times: packs.map(|times| less(times[at], times[at - 1])),
            });
        }
        whole.push(Line {
            what,
            times: packs.map(|times| times[at]),
        });
    }
    whole.extend(alone);
    whole
}

fn name(order: Order) -> &'static str {
    match order {
        Order::Kahn => "kahn order",
        Order::Distance => "distance order",
        Order::Spaces => "order by spaces",
    }
}

fn less(times: Times, before: Times) -> Times {
    [times[0] - before[0], times[1] - before[1]]
}

/// Graphs of one shape, each with a root of which an order is the first that fits;
/// and memory that is lent to the packs of all. One graph packed again and again
/// would have its branches learnt.
struct Case {
    graphs: Vec<Written>,
    work: Vec<u64>,
    table: Vec<u8>,
    plain_table: Vec<u8>,
}

struct Written {
    stores: Stores,
    root: u32,
    work: usize,
}

impl Written {
    fn new(shape: &Shape, count: usize, order: Order, numbers: &mut Numbers) -> Written {
        let links = shape.links * count;
        let graph = decided::graph(order, shape.family, count, links, numbers);
        let room = Room {
            pieces: count as u32,
            links: shapes::links(&graph) as u32,
            store: shapes::bytes(&graph),
        };
        let written = Written {
            stores: made::stores(&graph, room, numbers),
            root: count as u32 - 1,
            work: bindings::work_need(room.pieces, room.links, 0),
        };
        assert_eq!(written.first_fit(), Some(order));
        written
    }

    fn first_fit(&self) -> Option<Order> {
        let Stores { bytes, records } = &self.stores;
        let graph = Graph::of(&sound(bytes, records).expect("sound"));
        let placings = [orders::plain, orders::by_distance, orders::by_spaces];
        let fits = |place: fn(&Graph, usize) -> orders::Placing| {
            place(&graph, self.root as usize).overflow(&graph).is_none()
        };
        let first = placings.into_iter().position(fits)?;
        Some(ORDERS[first])
    }

    fn pack(&self, table: &mut [u8], work: &mut [u64]) {
        let Stores { bytes, records } = &self.stores;
        let work = &mut work[..self.work];
        let answer = calls::pack(bytes, records, self.root, 0, table, work);
        assert_eq!(answer.number, 0);
    }

    fn pack_plainly(&self, table: &mut [u8]) {
        let Stores { bytes, records } = &self.stores;
        assert!(plain::pack(bytes, records, self.root, 0, table).is_ok());
    }
}

impl Case {
    fn new(shape: &Shape, count: usize, order: Order) -> Case {
        let written = |seed| Written::new(shape, count, order, &mut Numbers::new(seed));
        let graphs: Vec<Written> = (1..=GRAPHS).map(written).collect();
        let work = graphs.iter().map(|graph| graph.work).max();
        let table = graphs.iter().map(|graph| graph.stores.bytes.len()).max();
        let (work, table) = (work.unwrap_or(0), table.unwrap_or(0));
        let mut case = Case {
            graphs,
            work: vec![0; work],
            table: vec![0; table],
            plain_table: vec![0; table],
        };
        case.compare();
        case
    }

    /// Both write the same tables.
    fn compare(&mut self) {
        for graph in &self.graphs {
            graph.pack(&mut self.table, &mut self.work);
            graph.pack_plainly(&mut self.plain_table);
            assert!(self.table == self.plain_table);
        }
    }

    fn pack(&mut self) {
        for graph in &self.graphs {
            graph.pack(&mut self.table, &mut self.work);
        }
    }

    fn pack_plainly(&mut self) {
        for graph in &self.graphs {
            graph.pack_plainly(&mut self.plain_table);
        }
    }
}

/// The packs of all graphs a few times by the one and then by the other, in rounds
/// over all cases, so that a busy machine slows all; the time is of one pack. The
/// same memory is lent in every turn, as a caller would; the plain packer allocates
/// its own besides.
fn timed(mut cases: [Case; 3]) -> [Times; 3] {
    let mut times = [[f64::MAX; 2]; 3];
    for _ in 0..ROUNDS {
        for (case, [proved, plain]) in cases.iter_mut().zip(&mut times) {
            for _ in 0..TURNS {
                *proved = proved.min(microseconds(|| case.pack()));
            }
            for _ in 0..TURNS {
                *plain = plain.min(microseconds(|| case.pack_plainly()));
            }
        }
    }
    times.map(|both| both.map(|time| time / GRAPHS as f64))
}
