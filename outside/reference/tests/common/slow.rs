//! Random graphs, and the orders as their definitions say, with everything
//! looked for anew.

use super::Numbers;
use reference::graph::{Graph, Link, Node};
use reference::orders::Overflow;
use reference::random::allowed_inner;

pub fn overflow(parent: usize, field: u64, needed: u64) -> Option<Overflow> {
    Some(Overflow {
        parent,
        field,
        needed,
    })
}

/// Graphs with shared children, equal sizes and all widths.
pub fn any_graph(numbers: &mut Numbers) -> Graph {
    let count = 1 + numbers.below(12);
    let mut nodes = Vec::new();
    for id in 0..count {
        let links = if id == 0 { 0 } else { numbers.below(5) };
        let mut place = 0;
        let mut own = Vec::new();
        for _ in 0..links {
            place += numbers.one_of(&[0, 0, 1]);
            let width = numbers.one_of(&[2, 2, 2, 3, 4]);
            let child = numbers.below(id);
            let inner = allowed_inner(place as usize, numbers) as u64;
            own.push(Link {
                place,
                width,
                inner,
                child,
            });
            place += width;
        }
        let rest = numbers.one_of(&[1, 1, 2, 3, 30_000, 65_530]);
        nodes.push(Node {
            size: place + rest,
            links: own,
        });
    }
    Graph { nodes }
}

/// The same with a root that has links, most of width 4, to many of them.
pub fn parted_graph(numbers: &mut Numbers) -> Graph {
    let Graph { mut nodes } = any_graph(numbers);
    let mut place = 0;
    let mut links = Vec::new();
    for child in 0..nodes.len() {
        let width = numbers.one_of(&[0, 0, 0, 4, 4, 4, 4, 4, 4, 2, 3]);
        if width > 0 {
            let inner = allowed_inner(place as usize, numbers) as u64;
            links.push(Link {
                place,
                width,
                inner,
                child,
            });
            place += width;
        }
    }
    let size = place + 1;
    nodes.push(Node { size, links });
    Graph { nodes }
}

/// All sums of weights over paths from the root, least taken, by going round
/// until nothing changes.
pub fn slow_distances(graph: &Graph, root: usize) -> Vec<Option<u64>> {
    let mut known: Vec<Option<u64>> = vec![None; graph.nodes.len()];
    known[root] = Some(0);
    loop {
        let before = known.clone();
        for (id, node) in graph.nodes.iter().enumerate() {
            for link in &node.links {
                let Some(own) = known[id] else { continue };
                let base = 256_u64.pow(link.width as u32);
                let sum = own + base + graph.nodes[link.child].size;
                if known[link.child].is_none_or(|other| sum < other) {
                    known[link.child] = Some(sum);
                }
            }
        }
        if known == before {
            return known;
        }
    }
}

/// When a piece became ready: the turn of its last reached parent, then the
/// place of its last field there.
fn ready_time(graph: &Graph, order: &[usize], reached: &[bool], id: usize) -> Option<(usize, u64)> {
    let mut latest = (0, 0);
    for (parent, node) in graph.nodes.iter().enumerate() {
        let mut fields = node.links.iter().filter(|link| link.child == id);
        if let (true, Some(last)) = (reached[parent], fields.next_back()) {
            let turn = order.iter().position(|&placed| placed == parent)?;
            latest = latest.max((turn + 1, last.place));
        }
    }
    Some(latest)
}

pub fn slow_order(graph: &Graph, root: usize, rank: impl Fn(usize) -> u64) -> Vec<usize> {
    let distances = slow_distances(graph, root);
    let reached: Vec<bool> = distances.iter().map(Option::is_some).collect();
    let mut order = Vec::new();
    loop {
        let ready = (0..graph.nodes.len()).filter(|id| reached[*id] && !order.contains(id));
        let timed = ready.filter_map(|id| {
            let time = ready_time(graph, &order, &reached, id)?;
            Some((rank(id), time, id))
        });
        match timed.min() {
            Some((_, _, id)) => order.push(id),
            None => return order,
        }
    }
}

/// Of all the links that do not fit, with all sums made anew, the first.
pub fn slow_overflow(
    graph: &Graph,
    order: &[usize],
    inner: impl Fn(&Link) -> u64,
) -> Option<Overflow> {
    let place = |id: usize| -> u64 {
        let before = order.iter().take_while(|&&other| other != id);
        before.map(|&other| graph.nodes[other].size).sum()
    };
    let links = order
        .iter()
        .flat_map(|&id| graph.nodes[id].links.iter().map(move |link| (id, link)));
    let mut needed = links.map(|(parent, link)| {
        let start = place(parent) + inner(link);
        (parent, link, place(link.child) - start)
    });
    let unfit = needed.find(|(_, link, needed)| *needed >= 256_u64.pow(link.width as u32));
    unfit.and_then(|(parent, link, needed)| overflow(parent, link.place, needed))
}

/// Each round every object takes the least mark of those it is joined with,
/// until nothing changes. Marks are positions in the order, and 0 in space 0.
pub fn slow_spaces(graph: &Graph, order: &[usize]) -> Vec<u64> {
    let narrow: Vec<(usize, usize)> = order
        .iter()
        .flat_map(|&id| {
            let links = graph.nodes[id].links.iter();
            links
                .filter(|link| link.width != 4)
                .map(move |link| (id, link.child))
        })
        .collect();
    let mut mark: Vec<usize> = vec![usize::MAX; graph.nodes.len()];
    for (position, &id) in order.iter().enumerate() {
        mark[id] = position;
    }
    for _ in 0..order.len() {
        for &(id, child) in &narrow {
            if mark[id] == 0 {
                mark[child] = 0;
            }
        }
    }
    for _ in 0..order.len() {
        for &(id, child) in &narrow {
            if mark[id] != 0 && mark[child] != 0 {
                let least = mark[id].min(mark[child]);
                (mark[id], mark[child]) = (least, least);
            }
        }
    }
    let mut firsts: Vec<usize> = order.iter().map(|&id| mark[id]).collect();
    firsts.sort_unstable();
    firsts.dedup();
    let number = |id: usize| firsts.binary_search(&mark[id]).unwrap_or(0) as u64;
    (0..graph.nodes.len()).map(number).collect()
}
