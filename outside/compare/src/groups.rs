//! Graphs that fall into spaces. The last piece is the root.

use crate::shapes::{shuffled, Choice};
use reference::random::Numbers;

/// Widths of links that part, but for a few.
const PARTING: &[u32] = &[4, 4, 4, 4, 4, 4, 4, 4, 4, 4, 4, 4, 4, 4, 2, 3];

/// Widths of links that join.
const NARROW: &[u32] = &[2, 2, 3];

/// How many groups stand under one another, where some do.
const DEEP: usize = 3;

#[derive(Clone, Copy, Debug, PartialEq, Eq)]
pub enum Groups {
    /// Groups under the root, with few links between them.
    Parted,
    /// Groups under groups under groups.
    Nested,
    /// Groups over leaves that they share; the root links some of these too.
    Bridged,
    /// Two chains with rungs between them, several times.
    Ladders,
    /// Every second piece is a leaf, which the pieces on both sides link.
    Zigzags,
}

/// A piece by its id, the pieces of a group, the leaves before the first group,
/// and the widths of links that neither part nor join.
pub struct Spot {
    pub id: usize,
    pub group: usize,
    pub leaves: usize,
    pub widths: &'static [u32],
}

impl Groups {
    /// Pieces of a group.
    pub fn size(self, fanout: usize) -> usize {
        match self {
            Groups::Ladders | Groups::Zigzags => 2 * fanout,
            _ => fanout,
        }
    }

    /// Leaves before the first group, in a graph of so many pieces.
    pub fn leaves(self, count: usize) -> usize {
        match self {
            Groups::Bridged => 1 + count / 8,
            _ => 0,
        }
    }

    /// Which pieces the root links.
    pub fn below_root(self, root: &Spot, numbers: &mut Numbers) -> Vec<Choice> {
        let ids = match self {
            Groups::Zigzags => (0..root.id).collect(),
            _ => shuffled(0..root.id, numbers),
        };
        let hung = |child| Some((child, self.hung(&root.of(child), numbers)?));
        ids.into_iter().filter_map(hung).collect()
    }

    /// The widths of the root's link to a piece, if it links it.
    fn hung(self, child: &Spot, numbers: &mut Numbers) -> Option<&'static [u32]> {
        if child.id < child.leaves {
            return (numbers.below(4) == 0).then_some(NARROW);
        }
        let linked = match self {
            Groups::Nested if child.number() % DEEP + 1 < DEEP => {
                child.above() == 1 && numbers.below(4) == 0
            }
            Groups::Ladders => child.above() <= 2,
            Groups::Zigzags => child.at() % 2 == 1,
            _ => child.above() == 1,
        };
        linked.then_some(PARTING)
    }

    /// Which pieces any other piece links.
    pub fn below(self, spot: &Spot, numbers: &mut Numbers) -> Vec<Choice> {
        let Spot { id, widths, .. } = *spot;
        if id < spot.leaves {
            return Vec::new();
        }
        let at = spot.at();
        match self {
            Groups::Ladders => {
                let rail = (at >= 2).then(|| (id - 2, widths));
                let rung = (at % 2 == 1).then(|| (id - 1, NARROW));
                rail.into_iter().chain(rung).collect()
            }
            Groups::Zigzags if at % 2 == 0 => Vec::new(),
            Groups::Zigzags => {
                let before = (at >= 3).then(|| (id - 3, widths));
                before.into_iter().chain([(id - 1, widths)]).collect()
            }
            _ => {
                let mut children = shuffled(id - at..id, numbers);
                children.truncate(1 + numbers.below(2));
                let own = children.into_iter().map(|child| (child, widths));
                own.chain(self.across(spot, numbers)).collect()
            }
        }
    }

    /// A link of a piece that leaves its group.
    fn across(self, spot: &Spot, numbers: &mut Numbers) -> Option<Choice> {
        let begin = spot.id - spot.at();
        match self {
            Groups::Nested if spot.number() % DEEP > 0 => {
                let linked = spot.above() == 1 || numbers.below(3) == 0;
                linked.then_some((begin - 1, PARTING))
            }
            Groups::Bridged if numbers.below(3) == 0 => {
                Some((numbers.below(spot.leaves), spot.widths))
            }
            Groups::Parted if spot.id > 0 && numbers.below(12) == 0 => {
                Some((numbers.below(spot.id), spot.widths))
            }
            _ => None,
        }
    }
}

impl Spot {
    fn of(&self, id: usize) -> Spot {
        Spot { id, ..*self }
    }

    /// The number of its group.
    fn number(&self) -> usize {
        (self.id - self.leaves) / self.group
    }

    /// Its position in its group.
    fn at(&self) -> usize {
        (self.id - self.leaves) % self.group
    }

    /// Pieces from it to the end of its group, itself included.
    fn above(&self) -> usize {
        self.group - self.at()
    }
}
