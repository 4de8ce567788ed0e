//! Graphs by family, and the calls that build them.

use crate::groups::{Groups, Spot};
use reference::call::Call;
use reference::random::Numbers;
use reference::view::Field;

/// A link to an earlier piece.
#[derive(Clone, Copy, Debug, PartialEq, Eq)]
pub struct Link {
    pub width: u32,
    pub child: usize,
    /// Its inner start, by parts of the way from the piece's first byte, which
    /// is 0, to the field, which is [`PARTS`]: wherever the field will stand,
    /// the inner start is not past it.
    pub part: usize,
}

pub const PARTS: usize = 16;

impl Link {
    /// A link whose offset counts from the piece's first byte.
    pub const fn new(width: u32, child: usize) -> Link {
        let part = 0;
        Link { width, child, part }
    }

    pub const fn with_part(self, part: usize) -> Link {
        Link { part, ..self }
    }

    /// A link with any inner start.
    pub fn any(width: u32, child: usize, numbers: &mut Numbers) -> Link {
        let part = match numbers.below(5) {
            0..=1 => 0,
            2 => PARTS,
            _ => numbers.below(PARTS + 1),
        };
        Link { width, child, part }
    }
}

/// A piece: links to earlier pieces first or last, and its other bytes.
#[derive(Clone, Debug)]
pub struct Piece {
    pub links: Vec<Link>,
    pub bytes: Vec<u8>,
    pub links_first: bool,
}

impl Piece {
    /// Its fields, by rising place.
    pub fn fields(&self) -> impl Iterator<Item = Field> + '_ {
        let first = if self.links_first {
            0
        } else {
            self.bytes.len()
        };
        self.links.iter().scan(first, |next, link| {
            let place = *next;
            *next += link.width as usize;
            Some(Field {
                place: place as u32,
                width: link.width,
                inner: (place * link.part / PARTS) as u32,
                child: link.child as u32,
            })
        })
    }

    /// Bytes that it holds, fields included.
    pub fn size(&self) -> usize {
        let fields: usize = self.links.iter().map(|link| link.width as usize).sum();
        self.bytes.len() + fields
    }

    /// Whether no order can pack it.
    pub fn hopeless(&self) -> bool {
        let size = self.size();
        self.fields()
            .any(|field| size - field.inner as usize >= 1 << (8 * field.width))
    }

    /// As many of its bytes as it can have without being hopeless.
    pub fn cut(&self) -> Piece {
        let mut cut = self.clone();
        while cut.hopeless() {
            cut.bytes.pop().expect("fields alone are short");
        }
        cut
    }

    /// All its bytes, its fields being zero.
    pub fn all_bytes(&self) -> Vec<u8> {
        let fields = vec![0; self.size() - self.bytes.len()];
        if self.links_first {
            [fields, self.bytes.clone()].concat()
        } else {
            [self.bytes.clone(), fields].concat()
        }
    }
}

pub type Graph = Vec<Piece>;

#[derive(Clone, Copy, Debug, PartialEq, Eq)]
pub enum Family {
    Chain,
    Fan,
    Shared,
    Lattice,
    Near,
    Any,
    /// What falls into spaces.
    Grouped(Groups),
}

/// A child, and the widths that a link to it may have.
pub type Choice = (usize, &'static [u32]);

pub const FAMILIES: [Family; 6] = [
    Family::Chain,
    Family::Fan,
    Family::Shared,
    Family::Lattice,
    Family::Near,
    Family::Any,
];

/// How widths and sizes are chosen.
#[derive(Clone, Copy, Debug)]
pub struct Make {
    pub pieces: usize,
    /// Links of a piece, where the family leaves it open, or pieces of a group, of
    /// which ladders and zigzags have twice as many.
    pub fanout: usize,
    pub widths: &'static [u32],
    pub sizes: &'static [usize],
}

impl Make {
    pub fn graph(&self, family: Family, numbers: &mut Numbers) -> Graph {
        let count = self.pieces.max(2);
        (0..count)
            .map(|id| {
                let children = self.children(family, id, count, numbers);
                self.piece(id, &children, numbers)
            })
            .collect()
    }

    fn piece(&self, id: usize, children: &[Choice], numbers: &mut Numbers) -> Piece {
        let size = numbers.one_of(self.sizes);
        let mut bytes = (id as u16).to_be_bytes().to_vec();
        bytes.resize(size.max(2), numbers.next() as u8);
        Piece {
            links: children
                .iter()
                .map(|&(child, widths)| Link::any(numbers.one_of(widths), child, numbers))
                .collect(),
            bytes,
            links_first: numbers.below(2) == 0,
        }
    }

    /// Which earlier pieces the piece links.
    fn children(
        &self,
        family: Family,
        id: usize,
        count: usize,
        numbers: &mut Numbers,
    ) -> Vec<Choice> {
        let last = id + 1 == count;
        let fanout = self.fanout.min(id);
        let children: Vec<usize> = match family {
            Family::Chain => (id.saturating_sub(1)..id).collect(),
            Family::Fan if last => shuffled(0..id, numbers),
            Family::Fan => Vec::new(),
            Family::Shared if last => shuffled(count / 3..id, numbers),
            Family::Shared if id < count / 3 => Vec::new(),
            Family::Shared => (0..fanout).map(|_| numbers.below(count / 3)).collect(),
            Family::Lattice => lattice(id, last, count, fanout, numbers),
            Family::Near => (0..fanout).map(|_| near(id, numbers)).collect(),
            Family::Any => (0..numbers.below(fanout + 1))
                .map(|_| numbers.below(id))
                .collect(),
            Family::Grouped(groups) => return self.grouped(groups, id, count, numbers),
        };
        let any = |child| (child, self.widths);
        children.into_iter().map(any).collect()
    }

    fn grouped(
        &self,
        groups: Groups,
        id: usize,
        count: usize,
        numbers: &mut Numbers,
    ) -> Vec<Choice> {
        let spot = Spot {
            id,
            group: groups.size(self.fanout),
            leaves: groups.leaves(count),
            widths: self.widths,
        };
        if id + 1 == count {
            groups.below_root(&spot, numbers)
        } else {
            groups.below(&spot, numbers)
        }
    }
}

/// Rows of pieces, each piece over some of the row below; the root over the top.
fn lattice(
    id: usize,
    last: bool,
    count: usize,
    fanout: usize,
    numbers: &mut Numbers,
) -> Vec<usize> {
    let row = (count as f64).sqrt() as usize + 1;
    let base = id / row * row;
    if base == 0 {
        return Vec::new();
    }
    if last {
        return (base - row..id).collect();
    }
    (0..fanout)
        .map(|k| base - row + (id + k * numbers.below(3)) % row)
        .collect()
}

/// One of the last pieces before this one.
fn near(id: usize, numbers: &mut Numbers) -> usize {
    id - 1 - numbers.below(id.min(60))
}

pub fn shuffled(ids: std::ops::Range<usize>, numbers: &mut Numbers) -> Vec<usize> {
    let mut ids: Vec<usize> = ids.collect();
    for at in (1..ids.len()).rev() {
        ids.swap(at, numbers.below(at + 1));
    }
    ids
}

pub fn links(graph: &Graph) -> usize {
    graph.iter().map(|piece| piece.links.len()).sum()
}

/// How many of them have an inner start above 0.
pub fn inner_starts(graph: &Graph) -> usize {
    let fields = graph.iter().flat_map(Piece::fields);
    fields.filter(|field| field.inner > 0).count()
}

/// Bytes that all pieces hold, fields included.
pub fn bytes(graph: &Graph) -> usize {
    graph.iter().map(Piece::size).sum()
}

/// More links, each from a piece that has some to one of its children, until
/// there are at least this many.
pub fn thicken(graph: &mut Graph, wanted: usize, widths: &[u32], numbers: &mut Numbers) {
    let parents: Vec<usize> = (0..graph.len())
        .filter(|&id| !graph[id].links.is_empty())
        .collect();
    for more in 0..wanted.saturating_sub(links(graph)) {
        let own = &mut graph[parents[more % parents.len()]].links;
        let child = own[numbers.below(own.len())].child;
        own.push(Link::any(numbers.one_of(widths), child, numbers));
    }
}

/// The calls that open, fill and close a piece, by the ids of those before it.
pub fn calls(piece: &Piece, ids: &[u32]) -> Vec<Call> {
    let link = |field: Field| Call::Link {
        width: field.width,
        id: ids[field.child as usize],
        inner: field.inner,
    };
    let mut filling: Vec<Call> = piece.fields().map(link).collect();
    let at = if piece.links_first { filling.len() } else { 0 };
    filling.insert(at, Call::Put(piece.bytes.clone()));
    let mut calls = vec![Call::Open];
    calls.append(&mut filling);
    calls.push(Call::Close);
    calls
}
