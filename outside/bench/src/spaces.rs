//! What finding the spaces takes beside a try of the distance order. The library
//! is entered by whole calls alone, so a pack that no order fits is run under
//! callgrind, which counts anew at the begin and at the end of each order tried.
//!
//! `cargo run --offline --profile bench --package bench -- spaces`

use crate::sessions::Memory;
use crate::timing::least;
use bindings::calls;
use compare::made::{self, Room};
use compare::shapes::{self, Graph, Link, Piece};
use reference::random::Numbers;
use std::path::Path;
use std::process::Command;
use std::{env, fs, process};

/// The word that asks for these lines.
const ASKED: &str = "spaces";

/// The function of the library that tries an order.
const ORDER: &str = "order::try_order";

const COUNTS: [usize; 2] = [4_000, 16_000];

struct Shape {
    name: &'static str,
    /// The earlier pieces that a piece links by width 2.
    children: fn(usize) -> Vec<usize>,
    /// Whether the root links it, by width 4.
    hung: fn(usize) -> bool,
    /// Whether these links come in any order, and not by rising id.
    shuffled: bool,
}

const SHAPES: [Shape; 4] = [
    Shape {
        name: "zigzag",
        ..ZIGZAG
    },
    Shape {
        name: "zigzag, shuffled",
        shuffled: true,
        ..ZIGZAG
    },
    Shape {
        name: "spaces of two",
        children: |id| (id - id % 2..id).collect(),
        ..ZIGZAG
    },
    // All link one leaf.
    Shape {
        name: "one space",
        children: |id| (0..id.min(1)).collect(),
        hung: |id| id > 0,
        ..ZIGZAG
    },
];

/// Every second piece is a leaf, which the pieces on both sides link.
const ZIGZAG: Shape = Shape {
    name: "",
    children: |id| match id {
        1 => vec![0],
        _ if id % 2 == 1 => vec![id - 3, id - 1],
        _ => vec![],
    },
    hung: |id| id % 2 == 1,
    shuffled: false,
};

/// Prints the lines, or is the pack that is counted, if the words ask for it.
pub fn asked() -> bool {
    let words: Vec<String> = env::args().skip(1).collect();
    match words.iter().map(String::as_str).collect::<Vec<_>>()[..] {
        [ASKED] => print(),
        [ASKED, name, count] => {
            let shape = SHAPES.iter().find(|shape| shape.name == name);
            let count = count.parse().expect("a number of pieces");
            Refused::of(&graph(shape.expect("a shape"), count)).pack();
        }
        _ => return false,
    }
    true
}

fn print() {
    println!(
        "{:<28}{:>10}{:>33}{:>33}",
        "", "pack", "instructions", "cycles, estimated"
    );
    let two = ["spaces", "distance", "ratio"].map(|word| format!("{word:>11}"));
    println!("{:<28}{:>10}{}{}", "", "µs", two.concat(), two.concat());
    for shape in &SHAPES {
        let both = COUNTS.map(|count| line(shape, count));
        let growth = |of: fn(&Cost) -> f64| {
            let [small, large] = &both;
            [0, 1].map(|phase| of(&large[phase]) / of(&small[phase]))
        };
        print!("{:<28}{:>10}", "  growth", "");
        for [spaces, distance] in [growth(|c| c.instructions), growth(|c| c.cycles)] {
            print!("{spaces:>11.1}{distance:>11.1}{:>11}", "");
        }
        println!();
    }
}

/// Prints a line, and gives what the spaces and the distance order took.
fn line(shape: &Shape, count: usize) -> [Cost; 2] {
    let refused = Refused::of(&graph(shape, count));
    let [time] = least(6, || (), [&mut |_| refused.pack()]);
    let costs = counted(shape, count);
    print!("{:<28}{time:>10.0}", format!("{}, {count}", shape.name));
    for of in [|c: &Cost| c.instructions, |c: &Cost| c.cycles] {
        let [spaces, distance] = [0, 1].map(|phase| of(&costs[phase]));
        print!("{spaces:>11.0}{distance:>11.0}{:>11.3}", spaces / distance);
    }
    println!();
    costs
}

/// In every order a long piece lies between the root and the child of the root's
/// first field, which it links too, so each look for an overflow ends at once.
fn graph(shape: &Shape, count: usize) -> Graph {
    let narrow = |&child: &usize| Link::new(2, child);
    let mut graph: Graph = (0..count - 3)
        .map(|id| piece(id, (shape.children)(id).iter().map(narrow).collect()))
        .collect();
    let far = graph.len();
    graph.push(piece(far, vec![]));
    graph.push(piece(far + 1, vec![Link::new(4, far)]));
    graph[far + 1].bytes.resize(65_536, 0);
    let mut links = vec![Link::new(2, far), Link::new(4, far + 1)];
    let ids = match shape.shuffled {
        true => shapes::shuffled(0..far, &mut Numbers::new(1)),
        false => (0..far).collect(),
    };
    let hung = ids.into_iter().filter(|&id| (shape.hung)(id));
    links.extend(hung.map(|id| Link::new(4, id)));
    graph.push(piece(far + 2, links));
    assert!(!graph.iter().any(Piece::hopeless));
    graph
}

fn piece(id: usize, links: Vec<Link>) -> Piece {
    Piece {
        links,
        bytes: (id as u32).to_be_bytes().to_vec(),
        links_first: true,
    }
}

/// A session whose last piece no order packs.
struct Refused {
    memory: Memory,
    root: u32,
    work: usize,
}

impl Refused {
    fn of(graph: &Graph) -> Refused {
        let room = Room {
            pieces: graph.len() as u32,
            links: shapes::links(graph) as u32,
            store: shapes::bytes(graph),
        };
        let stores = made::stores(graph, room, &mut Numbers::new(1));
        Refused {
            memory: Memory {
                store: stores.bytes,
                records: stores.records,
            },
            root: room.pieces - 1,
            work: bindings::work_need(room.pieces, room.links, 0),
        }
    }

    fn pack(&self) {
        let Memory { store, records } = &self.memory;
        let (mut out, mut work) = (vec![0; store.len()], vec![0; self.work]);
        let told = calls::pack(store, records, self.root, 0, &mut out, &mut work);
        let unfit = (told.number, told.parent, told.field);
        assert_eq!(unfit, (11, self.root.into(), 0));
    }
}

struct Cost {
    instructions: f64,
    cycles: f64,
}

/// What finding the spaces and trying the distance order take.
fn counted(shape: &Shape, count: usize) -> [Cost; 2] {
    let folder = env::temp_dir().join(format!("scoterlime-spaces-{}", process::id()));
    fs::create_dir_all(&folder).expect("a folder for what is counted");
    let out = folder.join("out");
    let run = Command::new("valgrind")
        .args([
            "-q",
            "--tool=callgrind",
            "--cache-sim=yes",
            "--branch-sim=yes",
        ])
        .arg("--toggle-collect=scoterlime_pack")
        .args([
            format!("--dump-before={ORDER}"),
            format!("--dump-after={ORDER}"),
        ])
        .arg(format!("--callgrind-out-file={}", out.display()))
        .arg(env::current_exe().expect("this program"))
        .args([ASKED, shape.name, &count.to_string()])
        .output()
        .expect("valgrind is at hand");
    let said = String::from_utf8_lossy(&run.stderr);
    assert!(run.status.success(), "{said}");
    // Before the first order, the plain one, the distances, the distance order, the
    // spaces, the order by them; what is left is not numbered.
    let parts = [6, 7].map(|part| folder.join(format!("out.{part}")).exists());
    assert_eq!(parts, [true, false], "{ORDER} is not entered three times");
    let costs = [5, 4].map(|part| cost(&folder.join(format!("out.{part}"))));
    fs::remove_dir_all(&folder).expect("the folder is there");
    costs
}

/// What callgrind wrote of one part. Cycles are weighed as KCachegrind does.
fn cost(file: &Path) -> Cost {
    let text = fs::read_to_string(file).expect("a part");
    let words = |key| {
        let line = text.lines().find_map(|line| line.strip_prefix(key));
        line.expect("callgrind's words").split_whitespace()
    };
    let counts = words("summary:").map(|count| count.parse::<f64>().expect("a count"));
    let counts: Vec<(&str, f64)> = words("events:").zip(counts).collect();
    let sum = |names: &[&str]| -> f64 {
        let named = counts.iter().filter(|(name, _)| names.contains(name));
        named.map(|(_, count)| count).sum()
    };
    let instructions = sum(&["Ir"]);
    let branches = sum(&["Bcm", "Bim"]);
    let first = sum(&["I1mr", "D1mr", "D1mw"]);
    let last = sum(&["ILmr", "DLmr", "DLmw"]);
    Cost {
        instructions,
        cycles: instructions + 10.0 * (branches + first) + 100.0 * last,
    }
}
