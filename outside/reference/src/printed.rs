//! What the proved programs read and must print: `crates/cases` the
//! hand-counted cases and the traps, `crates/orders` the named graphs.

use crate::call::{Call, Stores};
use crate::cases::{hand_counted_cases, Case};
use crate::graph::Graph;
use crate::graphs::{self, Named};
use crate::lines::{self, numbers};
use crate::orders::{by_distance, by_spaces, plain, Placing};
use crate::traps::trap_cases;

/// The stores and the output of `cases` are no longer than this.
pub const LONGEST: usize = 196_608;

/// Byte runs up to this length are printed whole.
const WHOLE: usize = 64;

/// The cases that it has room for.
fn printed_cases() -> Vec<Case> {
    let all = hand_counted_cases().into_iter().chain(trap_cases());
    all.filter(|case| longest(case) <= LONGEST).collect()
}

fn longest(case: &Case) -> usize {
    let lent = case.calls.iter().map(|call| match call {
        Call::Put(bytes) => bytes.len(),
        Call::Pack { output, .. } => *output,
        _ => 0,
    });
    lent.fold(case.store, usize::max)
}

/// What `cases` reads.
pub fn script() -> String {
    let mut text = String::new();
    for case in printed_cases() {
        text += &format!("c {}\nl {} {}\n", case.name, case.store, case.records);
        for call in &case.calls {
            text += &format!("{}\n", lines::script(call));
        }
        text += "v\n";
    }
    text
}

/// What `cases` prints.
pub fn told() -> String {
    printed_cases().iter().map(told_of).collect()
}

fn told_of(case: &Case) -> String {
    let mut text = format!("case {}\n", case.name);
    let mut stores = Stores::new(case.store, case.records);
    for call in &case.calls {
        let told = stores.run(call);
        text += &format!("{}\n", lines::told(call, &told.answer));
        if let Call::Pack { .. } = call {
            text += &format!("output={}\n", run_of(&told.output));
            text += &format!("work={}\n", numbers(&told.work));
        }
    }
    text + &stores_of(&stores)
}

fn stores_of(stores: &Stores) -> String {
    format!(
        "store={}\nrecords={}\n",
        run_of(&stores.bytes),
        numbers(&stores.records)
    )
}

/// Bytes in hex, or of many the length and a sum that tells their order.
fn run_of(bytes: &[u8]) -> String {
    if bytes.len() <= WHOLE {
        return lines::hex(bytes);
    }
    let sum = bytes.iter().fold(0u64, |sum, &byte| {
        (sum * 31 + u64::from(byte)) % 4_294_967_296
    });
    format!("{} sum {sum}", bytes.len())
}

/// What `orders` prints.
pub fn orders() -> String {
    graphs::all().iter().map(orders_of).collect()
}

fn orders_of(named: &Named) -> String {
    let (graph, root) = (&named.graph, named.root);
    format!(
        "graph {}\n{}{}{}",
        named.name,
        placing_of("kahn", graph, &plain(graph, root)),
        placing_of("distance", graph, &by_distance(graph, root)),
        placing_of("spaces", graph, &by_spaces(graph, root))
    )
}

fn placing_of(order: &str, graph: &Graph, placing: &Placing) -> String {
    let overflow = match placing.overflow(graph) {
        Some(o) => format!("{} {} {}", o.parent, o.field, o.needed),
        None => "none".to_string(),
    };
    format!(
        "{order}={}\nplaces={}\noverflow={overflow}\n",
        numbers(&placing.order),
        numbers(&placing.places)
    )
}
