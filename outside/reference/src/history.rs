//! The history of a run: what the calls must tell and what the pieces must
//! read, from the calls' arguments alone.

use crate::answer::Answer;
use crate::reading::{same, Draft, Reading};
use std::collections::{HashMap, HashSet};
use std::rc::Rc;

#[derive(Debug)]
pub struct History {
    piece_limit: usize,
    link_limit: usize,
    store_length: usize,
    /// Oldest first.
    open: Vec<Draft>,
    /// By id.
    closed: Vec<Rc<Reading>>,
    /// The sizes and the fields of the closed ones.
    closed_bytes: usize,
    closed_fields: usize,
}

impl History {
    /// The history that a first start begins, if that start is accepted.
    pub fn begin(pieces: u32, links: u32, store: usize, records: usize) -> Option<History> {
        let words = 135 + 2 * u64::from(pieces) + 4 * u64::from(links);
        let accepted = (1..=16_384).contains(&pieces)
            && links <= 65_536
            && (1..=16_777_216).contains(&store)
            && records as u64 >= words;
        accepted.then(|| History {
            piece_limit: pieces as usize,
            link_limit: links as usize,
            store_length: store,
            open: Vec::new(),
            closed: Vec::new(),
            closed_bytes: 0,
            closed_fields: 0,
        })
    }

    /// The same with these pieces closed, all of them different: for sessions
    /// too large to be made call by call.
    pub fn with_closed(mut self, pieces: Vec<Rc<Reading>>) -> History {
        pieces.into_iter().for_each(|piece| self.keep(piece));
        self
    }

    fn keep(&mut self, piece: Rc<Reading>) {
        self.closed_bytes += piece.size();
        self.closed_fields += piece.fields().len();
        self.closed.push(piece);
    }

    /// A later start on the same stores.
    pub fn start(&mut self, pieces: u32, links: u32, store: usize, records: usize) -> Answer {
        match History::begin(pieces, links, store, records) {
            Some(fresh) => {
                *self = fresh;
                self.tell(0)
            }
            None => Answer::bare(13),
        }
    }

    pub fn open(&mut self) -> Answer {
        if self.open.len() == 64 {
            return self.tell(2);
        }
        self.open.push(Draft::default());
        self.tell(0)
    }

    pub fn put(&mut self, bytes: &[u8]) -> Answer {
        let passes = self.passes_store(bytes.len());
        let Some(piece) = self.open.last_mut() else {
            return self.tell(1);
        };
        if passes {
            return self.tell(6);
        }
        piece.put(bytes);
        self.tell(0)
    }

    pub fn link(&mut self, width: u32, id: u32, inner: u32) -> Answer {
        let number = self.link_number(width, id, inner);
        let child = self.reading(id).cloned();
        if let (0, Some(piece), Some(child)) = (number, self.open.last_mut(), child) {
            piece.link(width as usize, inner as usize, child);
        }
        self.tell(number)
    }

    /// What a link would be told now.
    pub fn link_number(&self, width: u32, id: u32, inner: u32) -> u64 {
        let Some(place) = self.innermost_size() else {
            return 1;
        };
        if ![2, 3, 4].contains(&width) || inner as usize > place {
            return 3;
        }
        if self.reading(id).is_none() {
            return 4;
        }
        if self.field_sum() == self.link_limit {
            return 7;
        }
        if self.passes_store(width as usize) {
            return 6;
        }
        0
    }

    /// The size of the innermost open piece, which is the place of its next
    /// field.
    pub fn innermost_size(&self) -> Option<usize> {
        self.open.last().map(Draft::size)
    }

    /// How many fields the innermost open piece has.
    pub fn innermost_fields(&self) -> usize {
        self.open.last().map_or(0, Draft::field_count)
    }

    /// How far the end of the innermost open piece is from the first inner start
    /// of its fields of width 2.
    pub fn narrow_reach(&self) -> Option<usize> {
        self.open.last().and_then(Draft::narrow_reach)
    }

    pub fn close(&mut self) -> Answer {
        let Some(piece) = self.open.last() else {
            return self.tell(1);
        };
        if piece.size() == 0 {
            return self.tell(5);
        }
        if piece.hopeless() {
            return self.tell(16);
        }
        let reading = piece.finish();
        let equal = self.closed.iter().position(|kept| same(kept, &reading));
        if equal.is_none() && self.closed.len() == self.piece_limit {
            return self.tell(8);
        }
        self.open.pop();
        let id = equal.unwrap_or(self.closed.len());
        if equal.is_none() {
            self.keep(reading);
        }
        Answer {
            id: id as u64,
            ..self.tell(0)
        }
    }

    pub fn drop_piece(&mut self) -> Answer {
        match self.open.pop() {
            Some(_) => self.tell(0),
            None => self.tell(1),
        }
    }

    pub fn tally(&self) -> Answer {
        self.tell(0)
    }

    /// Words of work memory that a batch needs now.
    pub fn batch_need(&self) -> usize {
        4 * self.piece_limit
    }

    /// The reading that an id stands for now.
    pub fn reading(&self, id: u32) -> Option<&Rc<Reading>> {
        self.closed.get(id as usize)
    }

    /// The length of a table packed now from an id: the sum of the sizes of the
    /// different readings among the root's and all those below it.
    pub fn table_length(&self, id: u32) -> Option<u64> {
        let root = self.reading(id)?;
        let different = different_readings(root);
        Some(different.iter().map(|reading| reading.size() as u64).sum())
    }

    /// How many pieces a table packed now from an id has beside its copies: the
    /// different readings among the root's and all those below it.
    pub fn table_pieces(&self, id: u32) -> Option<u64> {
        let root = self.reading(id)?;
        Some(different_readings(root).len() as u64)
    }

    /// The sizes of all the pieces kept, open and closed.
    pub fn sum(&self) -> usize {
        let open: usize = self.open.iter().map(Draft::size).sum();
        open + self.closed_bytes
    }

    fn field_sum(&self) -> usize {
        let open: usize = self.open.iter().map(Draft::field_count).sum();
        open + self.closed_fields
    }

    fn passes_store(&self, more: usize) -> bool {
        self.sum().saturating_add(more) > self.store_length
    }

    fn tell(&self, number: u64) -> Answer {
        Answer {
            number,
            bytes: self.sum() as u64,
            links: self.field_sum() as u64,
            objects: self.closed.len() as u64,
            depth: self.open.len() as u64,
            ..Answer::default()
        }
    }
}

/// The different readings among a root's and all those below it.
fn different_readings(root: &Rc<Reading>) -> Vec<&Rc<Reading>> {
    let mut met = HashSet::new();
    let mut by_mark: HashMap<u64, Vec<&Rc<Reading>>> = HashMap::new();
    let mut waiting = vec![root];
    while let Some(reading) = waiting.pop() {
        if !met.insert(Rc::as_ptr(reading)) {
            continue;
        }
        let alike = by_mark.entry(reading.mark()).or_default();
        if !alike.iter().any(|other| same(other, reading)) {
            alike.push(reading);
        }
        waiting.extend(reading.fields().iter().map(|field| &field.child));
    }
    by_mark.into_values().flatten().collect()
}
