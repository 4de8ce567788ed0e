//! The two stores read at the documented positions.

use crate::answer::Answer;
use crate::limits;
use std::ops::Range;

pub const PIECE_LIMIT: usize = 0;
pub const CLOSED_COUNT: usize = 1;
pub const OPEN_DEPTH: usize = 2;
const OPEN_ENDS: usize = 3;
const OPEN_LINK_ENDS: usize = 68;
const CLOSED_BEGINS: usize = 133;

/// Positions of words in the record store for given limits.
#[derive(Clone, Copy, Debug)]
pub struct Layout {
    pub pieces: usize,
    pub links: usize,
}

impl Layout {
    pub fn open_end(self, entry: usize) -> usize {
        OPEN_ENDS + entry
    }

    pub fn open_link_end(self, entry: usize) -> usize {
        OPEN_LINK_ENDS + entry
    }

    pub fn closed_begin(self, entry: usize) -> usize {
        CLOSED_BEGINS + entry
    }

    pub fn closed_link_begin(self, entry: usize) -> usize {
        link_limit_word(self.pieces) + entry
    }

    /// The first of the four words of a link record.
    pub fn link(self, record: usize) -> usize {
        135 + 2 * self.pieces + 4 * record
    }

    pub fn need(self) -> usize {
        self.link(self.links)
    }
}

fn link_limit_word(pieces: usize) -> usize {
    134 + pieces
}

/// One piece: where its bytes lie and which link records are its own.
#[derive(Clone, Debug, PartialEq, Eq)]
pub struct Piece {
    pub bytes: Range<usize>,
    pub links: Range<usize>,
}

/// One link record.
#[derive(Clone, Copy, Debug, PartialEq, Eq)]
pub struct Field {
    pub place: u32,
    pub width: u32,
    /// The place that the offset counts from.
    pub inner: u32,
    pub child: u32,
}

/// The stores, with limits in range and both lengths right for them.
#[derive(Clone, Copy, Debug)]
pub struct View<'a> {
    pub store: &'a [u8],
    pub words: &'a [u32],
    pub layout: Layout,
}

impl<'a> View<'a> {
    /// Reads the limits. There is no view if a limit is out of range, the byte
    /// store is not as long as at the start, or the record store is too short.
    pub fn framed(store: &'a [u8], words: &'a [u32]) -> Option<View<'a>> {
        let pieces = *words.get(PIECE_LIMIT)?;
        if !limits::pieces_in_range(pieces.into()) {
            return None;
        }
        let links = *words.get(link_limit_word(pieces as usize))?;
        if !limits::links_in_range(links.into()) {
            return None;
        }
        let layout = Layout {
            pieces: pieces as usize,
            links: links as usize,
        };
        if words.len() < layout.need() || !limits::store_in_range(store.len()) {
            return None;
        }
        let view = View {
            store,
            words,
            layout,
        };
        (view.closed_begin(0) == store.len()).then_some(view)
    }

    fn word(&self, position: usize) -> usize {
        self.words[position] as usize
    }

    pub fn closed(&self) -> usize {
        self.word(CLOSED_COUNT)
    }

    pub fn depth(&self) -> usize {
        self.word(OPEN_DEPTH)
    }

    pub fn open_end(&self, entry: usize) -> usize {
        self.word(self.layout.open_end(entry))
    }

    pub fn open_link_end(&self, entry: usize) -> usize {
        self.word(self.layout.open_link_end(entry))
    }

    pub fn closed_begin(&self, entry: usize) -> usize {
        self.word(self.layout.closed_begin(entry))
    }

    pub fn closed_link_begin(&self, entry: usize) -> usize {
        self.word(self.layout.closed_link_begin(entry))
    }

    /// An open piece, the oldest being number 0.
    pub fn open_piece(&self, number: usize) -> Piece {
        Piece {
            bytes: self.open_end(number)..self.open_end(number + 1),
            links: self.open_link_end(number)..self.open_link_end(number + 1),
        }
    }

    pub fn closed_piece(&self, id: usize) -> Piece {
        Piece {
            bytes: self.closed_begin(id + 1)..self.closed_begin(id),
            links: self.closed_link_begin(id + 1)..self.closed_link_begin(id),
        }
    }

    pub fn field(&self, record: usize) -> Field {
        let first = self.layout.link(record);
        Field {
            place: self.words[first],
            width: self.words[first + 1],
            inner: self.words[first + 2],
            child: self.words[first + 3],
        }
    }

    /// The bytes between the open pieces and the closed ones.
    pub fn between(&self) -> Range<usize> {
        self.open_end(self.depth())..self.closed_begin(self.closed())
    }

    /// Same bytes and same links.
    pub fn equal(&self, one: &Piece, other: &Piece) -> bool {
        one.links.len() == other.links.len()
            && self.store[one.bytes.clone()] == self.store[other.bytes.clone()]
            && one
                .links
                .clone()
                .zip(other.links.clone())
                .all(|(a, b)| self.field(a) == self.field(b))
    }

    /// Whether a piece, whose fields are right, has one that can be filled in no
    /// order: its child lies past the piece's end, which is too far already.
    pub fn hopeless(&self, piece: &Piece) -> bool {
        let size = piece.bytes.len() as u64;
        piece
            .links
            .clone()
            .map(|record| self.field(record))
            .any(|field| size - u64::from(field.inner) >= limits::capacity(field.width))
    }

    /// The tally of a sound session.
    pub fn tally(&self) -> Answer {
        let between = self.between();
        let free_links = self.closed_link_begin(self.closed()) - self.open_link_end(self.depth());
        Answer {
            bytes: (self.store.len() - between.len()) as u64,
            links: (self.layout.links - free_links) as u64,
            objects: self.closed() as u64,
            depth: self.depth() as u64,
            ..Answer::default()
        }
    }
}
