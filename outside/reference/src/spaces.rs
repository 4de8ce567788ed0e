//! Spaces: the pieces that narrow links hold together.

use crate::graph::{Graph, Link};

/// Only width 4 parts spaces.
fn narrow(link: &Link) -> bool {
    link.width != 4
}

/// The number of each piece's space by id, over an order of the reached
/// pieces from the root on. A piece that is not reached has 0.
pub fn numbers(graph: &Graph, order: &[usize]) -> Vec<u64> {
    let near = near(graph, order[0]);
    let joined = neighbours(graph, order, &near);
    let mut numbers: Vec<Option<u64>> = near.iter().map(|&near| near.then_some(0)).collect();
    let mut next = 1;
    for &first in order {
        if numbers[first].is_none() {
            let mut found = vec![first];
            while let Some(id) = found.pop() {
                if numbers[id].is_none() {
                    numbers[id] = Some(next);
                    found.extend(&joined[id]);
                }
            }
            next += 1;
        }
    }
    numbers.into_iter().map(Option::unwrap_or_default).collect()
}

/// Space 0: what narrow links alone lead to from the root.
fn near(graph: &Graph, root: usize) -> Vec<bool> {
    let mut near = vec![false; graph.nodes.len()];
    let mut found = vec![root];
    while let Some(id) = found.pop() {
        if !near[id] {
            near[id] = true;
            let links = graph.nodes[id].links.iter();
            found.extend(links.filter(|link| narrow(link)).map(|link| link.child));
        }
    }
    near
}

/// For each piece of the order outside space 0 those outside it that a narrow
/// link joins it with, either way.
fn neighbours(graph: &Graph, order: &[usize], near: &[bool]) -> Vec<Vec<usize>> {
    let mut joined = vec![Vec::new(); graph.nodes.len()];
    for &id in order.iter().filter(|&&id| !near[id]) {
        for link in graph.nodes[id].links.iter().filter(|link| narrow(link)) {
            if !near[link.child] {
                joined[id].push(link.child);
                joined[link.child].push(id);
            }
        }
    }
    joined
}
