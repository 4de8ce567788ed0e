//! Pieces as sizes and links.

use crate::view::View;

#[derive(Clone, Copy, Debug, PartialEq, Eq)]
pub struct Link {
    /// Place of the field in its piece.
    pub place: u64,
    /// 2, 3 or 4.
    pub width: u64,
    /// Place in its piece that its offset counts from.
    pub inner: u64,
    pub child: usize,
}

#[derive(Clone, Debug, PartialEq, Eq)]
pub struct Node {
    pub size: u64,
    /// In rising order of place.
    pub links: Vec<Link>,
}

/// Pieces numbered by id, and behind them the copies made of them.
#[derive(Clone, Debug, PartialEq, Eq)]
pub struct Graph {
    pub nodes: Vec<Node>,
}

impl Graph {
    /// The closed pieces of a sound session.
    pub fn of(view: &View) -> Graph {
        let node = |id| {
            let piece = view.closed_piece(id);
            let link = |record| {
                let field = view.field(record);
                Link {
                    place: field.place.into(),
                    width: field.width.into(),
                    inner: field.inner.into(),
                    child: field.child as usize,
                }
            };
            Node {
                size: piece.bytes.len() as u64,
                links: piece.links.map(link).collect(),
            }
        };
        Graph {
            nodes: (0..view.closed()).map(node).collect(),
        }
    }

    /// For each node, whether the root reaches it.
    fn reached(&self, root: usize) -> Vec<bool> {
        let mut reached = vec![false; self.nodes.len()];
        let mut found = vec![root];
        while let Some(id) = found.pop() {
            if !reached[id] {
                reached[id] = true;
                found.extend(self.nodes[id].links.iter().map(|link| link.child));
            }
        }
        reached
    }

    /// How many links of reached nodes lead to each node.
    pub fn incoming(&self, root: usize) -> Vec<usize> {
        let reached = self.reached(root);
        let mut count = vec![0; self.nodes.len()];
        for id in (0..self.nodes.len()).filter(|&id| reached[id]) {
            for link in &self.nodes[id].links {
                count[link.child] += 1;
            }
        }
        count
    }

    /// For each node, the least sum of weights over all paths from the root, if
    /// there is a path.
    pub fn distances(&self, root: usize) -> Vec<Option<u64>> {
        let mut least: Vec<Option<u64>> = vec![None; self.nodes.len()];
        let mut waiting = self.incoming(root);
        let mut settled = vec![(root, 0)];
        // A distance is settled once all links into its node are passed.
        least[root] = Some(0);
        while let Some((id, own)) = settled.pop() {
            for link in &self.nodes[id].links {
                let through = own + self.weight(link);
                let child = link.child;
                let known = least[child].map_or(through, |other| other.min(through));
                least[child] = Some(known);
                waiting[child] -= 1;
                if waiting[child] == 0 {
                    settled.push((child, known));
                }
            }
        }
        least
    }

    fn weight(&self, link: &Link) -> u64 {
        let width_weight = match link.width {
            2 => 65_536,
            3 => 16_777_216,
            _ => 4_294_967_296,
        };
        self.nodes[link.child].size + width_weight
    }
}
