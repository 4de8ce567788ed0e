//! Objects written by one batch into a session that is started for them, beside a
//! plain builder that is made for them.
//!
//! `cargo run --offline --profile bench --package bench -- batches` prints the
//! lines alone.

use crate::growth::{print_head, print_line, Line, Times};
use crate::timing::microseconds;
use bindings::{batch_need, calls, records_need};
use compare::batches::Batch;
use compare::largest::WIDE;
use compare::shapes::{self, Family, Graph, Make, Piece};
use plain::build::{Builder, Limits};
use reference::random::Numbers;

const COUNTS: [usize; 2] = [4_000, 16_000];
const ROUNDS: usize = 24;

/// Different graphs of one shape that are written in turn.
const GRAPHS: u64 = 8;

/// Graphs by what their objects link.
const SHAPES: [(&str, Family); 4] = [
    ("chain", Family::Chain),
    ("fan", Family::Fan),
    ("shared leaves", Family::Shared),
    ("random graph", Family::Near),
];

/// As many equal bytes as leave room for 16,000 objects in the longest store.
const EQUAL: usize = 1_044;

/// So many equal bytes leave room for 4,000.
const MORE_EQUAL: usize = 4_096;
const FEWER: [usize; 2] = [1_000, 4_000];

/// The calls of this shape are also made one by one.
const SINGLY: (&str, Family) = SHAPES[3];
const SINGLE_ROUNDS: usize = 3;

/// Prints the lines, if the words ask for nothing else.
pub fn asked() -> bool {
    let asked = std::env::args().skip(1).eq(["batches"]);
    if asked {
        print();
    }
    asked
}

pub fn print() {
    print_head(
        "batches beside plain Rust",
        ["4,000 objects", "16,000 objects"],
    );
    for (name, family) in SHAPES {
        let graphs = |count| (1..=GRAPHS).map(move |seed| graph(family, count, seed));
        line(name, COUNTS.map(|count| Case::new(graphs(count))));
    }
    let equal = |length, count| Case::new([alike(length, count)].into_iter());
    line(
        "equal in their first 1,044 bytes",
        COUNTS.map(|count| equal(EQUAL, count)),
    );
    print_head("", ["1,000 objects", "4,000 objects"]);
    line(
        "equal in their first 4,096 bytes",
        FEWER.map(|count| equal(MORE_EQUAL, count)),
    );
    print_singly();
}

fn line(what: &str, cases: [Case; 2]) {
    print_line(&Line {
        what: what.to_string(),
        times: timed(cases),
    });
}

fn print_singly() {
    let (name, family) = SINGLY;
    let mut case = Case::new([graph(family, COUNTS[0], 1)].into_iter());
    let least = |times: &mut dyn Iterator<Item = f64>| times.fold(f64::MAX, f64::min);
    let batch = least(&mut (0..ROUNDS).map(|_| case.time()));
    let singly = least(&mut (0..SINGLE_ROUNDS).map(|_| case.time_singly()));
    println!(
        "\n{:<46}{:>12}{:>12}{:>8}\n{:<46}{batch:>12.1}{singly:>12.1}{:>8.4}",
        "the same calls one by one",
        "batch µs",
        "singly",
        "ratio",
        format!("{name}, 4,000 objects"),
        batch / singly
    );
}

fn graph(family: Family, count: usize, seed: u64) -> Graph {
    let make = Make {
        pieces: count,
        fanout: 4,
        widths: WIDE,
        sizes: &[2, 9, 20],
    };
    make.graph(family, &mut Numbers::new(seed))
}

/// Objects of so many equal bytes and then four that differ.
fn alike(length: usize, count: usize) -> Graph {
    let object = |id: usize| Piece {
        links: Vec::new(),
        bytes: [vec![b'a'; length], (id as u32).to_be_bytes().to_vec()].concat(),
        links_first: false,
    };
    (0..count).map(object).collect()
}

/// A graph's calls, and limits that it just fits in.
struct Written {
    batch: Batch,
    limits: Limits,
}

impl Written {
    fn new(graph: Graph) -> Written {
        Written {
            batch: Batch::of(&graph),
            limits: Limits {
                objects: graph.len(),
                links: shapes::links(&graph),
                bytes: shapes::bytes(&graph),
            },
        }
    }
}

/// Memory that is lent to the calls of all graphs.
struct Lent {
    store: Vec<u8>,
    records: Vec<u32>,
    ids: Vec<u32>,
    work: Vec<u64>,
}

impl Lent {
    /// A batch on a session that is started in it.
    fn write(&mut self, written: &Written) {
        let Written { batch, .. } = written;
        let (store, records) = self.start(written);
        let ids = &mut self.ids[..batch.closes];
        let work = &mut self.work;
        let told = calls::batch(
            &mut self.store[..store],
            &mut self.records[..records],
            &batch.calls,
            &batch.bytes,
            ids,
            work,
        );
        assert_eq!((told.number, told.ids as usize), (0, batch.closes));
    }

    /// The same calls one by one.
    fn write_singly(&mut self, written: &Written) {
        let (store, records) = self.start(written);
        let (store, records) = (&mut self.store[..store], &mut self.records[..records]);
        let Batch { calls, bytes, .. } = &written.batch;
        let (mut words, mut bytes) = (&calls[..], &bytes[..]);
        let mut ids = Vec::new();
        while let [first, rest @ ..] = words {
            let (answer, behind) = match (first, rest) {
                (1, rest) => (calls::open(store, records), rest),
                (2, [length, rest @ ..]) => {
                    let (own, behind) = bytes.split_at(*length as usize);
                    bytes = behind;
                    (calls::put(store, records, own), rest)
                }
                (4, [width, close, inner, rest @ ..]) => {
                    let id = ids[*close as usize];
                    (calls::link(store, records, *width, id, *inner), rest)
                }
                (5, rest) => {
                    let closed = calls::close(store, records);
                    ids.push(closed.id as u32);
                    (closed, rest)
                }
                _ => panic!("a graph is not written by {words:?}"),
            };
            assert_eq!(answer.number, 0);
            words = behind;
        }
        assert!(ids == self.ids[..ids.len()]);
    }

    /// A fresh session; how much of both stores it has.
    fn start(&mut self, written: &Written) -> (usize, usize) {
        let Limits {
            objects,
            links,
            bytes,
        } = written.limits;
        let records = records_need(objects as u32, links as u32);
        let (store, words) = (&mut self.store[..bytes], &mut self.records[..records]);
        let started = calls::start(store, words, objects as u32, links as u32);
        assert_eq!(started.number, 0);
        (bytes, records)
    }
}

/// Graphs of one shape. One graph written again and again would have its branches
/// learnt.
struct Case {
    graphs: Vec<Written>,
    lent: Lent,
    plain_ids: Vec<u32>,
}

impl Case {
    fn new(graphs: impl Iterator<Item = Graph>) -> Case {
        let graphs: Vec<Written> = graphs.map(Written::new).collect();
        let most = |of: fn(&Limits) -> usize| graphs.iter().map(|g| of(&g.limits)).max().unwrap();
        let (objects, links) = (most(|l| l.objects), most(|l| l.links));
        let mut case = Case {
            lent: Lent {
                store: vec![0; most(|l| l.bytes)],
                records: vec![0; records_need(objects as u32, links as u32)],
                ids: vec![0; objects],
                work: vec![0; batch_need(objects as u32, links as u32)],
            },
            plain_ids: vec![0; objects],
            graphs,
        };
        case.compare();
        case
    }

    /// Both tell the same ids.
    fn compare(&mut self) {
        for at in 0..self.graphs.len() {
            self.lent.write(&self.graphs[at]);
            build(&self.graphs[at], &mut self.plain_ids);
            assert!(self.lent.ids == self.plain_ids);
        }
    }

    /// Microseconds that writing all graphs takes.
    fn time(&mut self) -> f64 {
        let graphs = self.graphs.iter();
        graphs
            .map(|graph| microseconds(|| self.lent.write(graph)))
            .sum()
    }

    fn time_singly(&mut self) -> f64 {
        let graphs = self.graphs.iter();
        graphs
            .map(|graph| microseconds(|| self.lent.write_singly(graph)))
            .sum()
    }

    /// What is built is freed before the next, and that is not timed.
    fn time_plainly(&mut self) -> f64 {
        let graphs = self.graphs.iter();
        graphs
            .map(|graph| {
                let mut built = None;
                microseconds(|| built = Some(build(graph, &mut self.plain_ids)))
            })
            .sum()
    }
}

fn build(written: &Written, ids: &mut [u32]) -> Builder {
    let Batch {
        calls,
        bytes,
        closes,
    } = &written.batch;
    let mut builder = Builder::new(written.limits);
    let (progress, built) = builder.run(calls, bytes, &mut ids[..*closes]);
    assert_eq!((built, progress.ids), (Ok(()), *closes));
    builder
}

/// All graphs of each case by the one and then by the other, in rounds over both
/// cases, so that a busy machine slows all; the time is of one graph.
fn timed(mut cases: [Case; 2]) -> [Times; 2] {
    let mut times = [[f64::MAX; 2]; 2];
    for _ in 0..ROUNDS {
        for (case, [proved, plain]) in cases.iter_mut().zip(&mut times) {
            *proved = proved.min(case.time());
            *plain = plain.min(case.time_plainly());
        }
    }
    let [small, large] = &cases;
    let each = |times: Times, case: &Case| times.map(|time| time / case.graphs.len() as f64);
    [each(times[0], small), each(times[1], large)]
}
