//! Copies that cure an overflow of the third order.

use crate::graph::distances;
use crate::orders::{by_keys, Placing};
use crate::session::{Link, Objects, Session};
use crate::table::{self, Overflow};
use std::ops::Range;

/// The most that may be allowed.
pub const MOST: u32 = 1_024;

struct Node {
    /// The object whose bytes it has.
    original: u32,
    links: Range<usize>,
}

/// The objects up to the root, and behind them the copies.
pub struct Copied<'a> {
    session: &'a Session<'a>,
    nodes: Vec<Node>,
    links: Vec<Link>,
}

impl Objects for Copied<'_> {
    fn size(&self, node: u32) -> u32 {
        self.session.size(self.original(node))
    }

    fn bytes(&self, node: u32) -> &[u8] {
        self.session.bytes(self.original(node))
    }

    fn links(&self, node: u32) -> &[Link] {
        &self.links[self.nodes[node as usize].links.clone()]
    }
}

impl<'a> Copied<'a> {
    fn new(session: &'a Session<'a>, root: u32) -> Copied<'a> {
        let mut copied = Copied {
            session,
            nodes: Vec::new(),
            links: Vec::new(),
        };
        for id in 0..=root {
            copied.push(id, session.links(id));
        }
        copied
    }

    fn push(&mut self, original: u32, links: &[Link]) {
        let begin = self.links.len();
        self.links.extend_from_slice(links);
        let links = begin..self.links.len();
        self.nodes.push(Node { original, links });
    }

    fn original(&self, node: u32) -> u32 {
        self.nodes[node as usize].original
    }

    /// Where a link leads.
    fn child(&mut self, link: &Overflow) -> &mut u32 {
        let own = self.nodes[link.parent as usize].links.clone();
        let mut links = self.links[own].iter_mut();
        let found = links.find(|[field, _, _, _]| *field == link.field);
        &mut found.expect("a field of the parent")[3]
    }

    /// Leads a link to a copy of its child, whose own links lead where the
    /// child's do.
    fn copy(&mut self, link: &Overflow) {
        let copy = self.nodes.len() as u32;
        let child = std::mem::replace(self.child(link), copy);
        let links = self.links(child).to_vec();
        self.push(self.original(child), &links);
    }
}

/// What the third order found: all that copies change.
pub struct Third {
    pub incoming: Vec<u32>,
    /// What its space adds to the key of each object.
    pub shares: Vec<u64>,
    pub order: Vec<u32>,
    pub unfit: Overflow,
}

/// A table's objects and copies, placed.
pub struct Cured<'a> {
    pub objects: Copied<'a>,
    pub placing: Placing<u64>,
    pub made: u32,
}

/// Copies, and the third order again, until every offset fits; or the link that
/// no copy may cure.
pub fn cure<'a>(
    session: &'a Session<'a>,
    root: u32,
    allowed: u32,
    mut third: Third,
) -> Result<Cured<'a>, Overflow> {
    let mut objects = Copied::new(session, root);
    for made in 1..=allowed {
        let child = *objects.child(&third.unfit);
        if third.incoming[child as usize] < 2 {
            break;
        }
        objects.copy(&third.unfit);
        third.copy(child, objects.links(child));
        let placing = third.place(&objects, root);
        match table::overflow(&objects, &placing) {
            Some(unfit) => third.unfit = unfit,
            None => {
                return Ok(Cured {
                    objects,
                    placing,
                    made,
                })
            }
        }
        third.order = placing.order;
    }
    Err(Overflow {
        parent: objects.original(third.unfit.parent),
        ..third.unfit
    })
}

impl Third {
    /// One link less leads to the child, one to its copy, and one more to each
    /// of their children. The copy stands behind the child, so that parents still
    /// come first.
    fn copy(&mut self, child: u32, links: &[Link]) {
        let copy = self.incoming.len() as u32;
        self.incoming[child as usize] -= 1;
        self.incoming.push(1);
        for &[_, _, _, below] in links {
            self.incoming[below as usize] += 1;
        }
        self.shares.push(self.shares[child as usize]);
        let at = self.order.iter().position(|&node| node == child);
        self.order.insert(at.expect("placed") + 1, copy);
    }

    fn place(&self, objects: &Copied, root: u32) -> Placing<u64> {
        let mut keys = distances(objects, self.incoming.len(), root, &self.order);
        for &node in &self.order {
            keys[node as usize] += self.shares[node as usize];
        }
        by_keys(objects, root, &self.incoming, &keys)
    }
}
