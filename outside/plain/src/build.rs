//! Objects written as an ordinary Rust program writes them: kept in vectors of its
//! own, equal ones found by the standard library's map.

use crate::session::{capacity, Link};
use std::collections::hash_map::{Entry, RandomState};
use std::collections::HashMap;
use std::hash::BuildHasher;
use std::ops::Range;

const DEEPEST: usize = 64;
const WIDTHS: std::ops::RangeInclusive<u32> = 2..=4;

/// No object's id.
const NONE: u32 = u32::MAX;

/// What a builder may hold.
#[derive(Clone, Copy, Debug)]
pub struct Limits {
    pub objects: usize,
    pub links: usize,
    pub bytes: usize,
}

/// Why a call changed nothing.
#[derive(Clone, Copy, Debug, PartialEq, Eq)]
pub enum Refusal {
    NothingOpen,
    TooDeep,
    BadField,
    NotClosed,
    EmptyObject,
    StoreFull,
    LinksFull,
    ObjectsFull,
    Hopeless,
    NoCall,
}

impl Refusal {
    /// Its number in docs/RULES.md.
    pub fn number(&self) -> u64 {
        match self {
            Refusal::NothingOpen => 1,
            Refusal::TooDeep => 2,
            Refusal::BadField => 3,
            Refusal::NotClosed => 4,
            Refusal::EmptyObject => 5,
            Refusal::StoreFull => 6,
            Refusal::LinksFull => 7,
            Refusal::ObjectsFull => 8,
            Refusal::Hopeless => 16,
            Refusal::NoCall => 19,
        }
    }
}

/// How far a list of calls came.
#[derive(Clone, Copy, Debug, Default, PartialEq, Eq)]
pub struct Progress {
    /// Calls carried out.
    pub calls: usize,
    /// Ids written.
    pub ids: usize,
}

/// Objects one behind the other, with where each ends.
#[derive(Default)]
struct Objects {
    bytes: Vec<u8>,
    links: Vec<Link>,
    ends: Vec<(usize, usize)>,
}

impl Objects {
    fn ranges(&self, at: usize) -> (Range<usize>, Range<usize>) {
        let begin = at.checked_sub(1).map_or((0, 0), |before| self.ends[before]);
        let end = self.ends[at];
        (begin.0..end.0, begin.1..end.1)
    }

    fn object(&self, at: usize) -> (&[u8], &[Link]) {
        let (bytes, links) = self.ranges(at);
        (&self.bytes[bytes], &self.links[links])
    }

    /// Forgets the last one.
    fn pop(&mut self) {
        self.ends.pop();
        let (bytes, links) = self.ends.last().copied().unwrap_or_default();
        self.bytes.truncate(bytes);
        self.links.truncate(links);
    }

    fn push(&mut self, bytes: &[u8], links: &[Link]) {
        self.bytes.extend_from_slice(bytes);
        self.links.extend_from_slice(links);
        self.ends.push((self.bytes.len(), self.links.len()));
    }
}

pub struct Builder {
    limits: Limits,
    /// Oldest first.
    open: Objects,
    /// By id.
    closed: Objects,
    hasher: RandomState,
    /// The first object of each hash of contents, and of each object the next one of
    /// the same hash: a map of the contents themselves would keep them twice, and is
    /// slower.
    first: HashMap<u64, u32>,
    next: Vec<u32>,
}

impl Builder {
    pub fn new(limits: Limits) -> Builder {
        Builder {
            limits,
            open: Objects::default(),
            closed: Objects {
                bytes: Vec::with_capacity(limits.bytes),
                links: Vec::with_capacity(limits.links),
                ends: Vec::with_capacity(limits.objects),
            },
            hasher: RandomState::new(),
            first: HashMap::with_capacity(limits.objects),
            next: Vec::with_capacity(limits.objects),
        }
    }

    pub fn closed(&self) -> usize {
        self.closed.ends.len()
    }

    pub fn depth(&self) -> usize {
        self.open.ends.len()
    }

    pub fn held_bytes(&self) -> usize {
        self.open.bytes.len() + self.closed.bytes.len()
    }

    pub fn held_links(&self) -> usize {
        self.open.links.len() + self.closed.links.len()
    }

    pub fn open(&mut self) -> Result<(), Refusal> {
        if self.depth() == DEEPEST {
            return Err(Refusal::TooDeep);
        }
        self.open.push(&[], &[]);
        Ok(())
    }

    pub fn put(&mut self, bytes: &[u8]) -> Result<(), Refusal> {
        let held = self.held_bytes();
        let (end, _) = self.open.ends.last_mut().ok_or(Refusal::NothingOpen)?;
        if bytes.len() > self.limits.bytes - held {
            return Err(Refusal::StoreFull);
        }
        self.open.bytes.extend_from_slice(bytes);
        *end = self.open.bytes.len();
        Ok(())
    }

    pub fn link(&mut self, width: u32, id: u32, inner: u32) -> Result<(), Refusal> {
        let innermost = self.depth().checked_sub(1).ok_or(Refusal::NothingOpen)?;
        let place = self.open.ranges(innermost).0.len() as u32;
        if !WIDTHS.contains(&width) || inner > place {
            return Err(Refusal::BadField);
        }
        if id as usize >= self.closed() {
            return Err(Refusal::NotClosed);
        }
        if self.held_links() == self.limits.links {
            return Err(Refusal::LinksFull);
        }
        if width as usize > self.limits.bytes - self.held_bytes() {
            return Err(Refusal::StoreFull);
        }
        self.open.links.push([place, width, inner, id]);
        let end = self.open.bytes.len() + width as usize;
        self.open.bytes.resize(end, 0);
        self.open.ends[innermost] = (end, self.open.links.len());
        Ok(())
    }

    /// The closed object's id.
    pub fn close(&mut self) -> Result<u32, Refusal> {
        let innermost = self.depth().checked_sub(1).ok_or(Refusal::NothingOpen)?;
        let (bytes, links) = self.open.object(innermost);
        if bytes.is_empty() {
            return Err(Refusal::EmptyObject);
        }
        if hopeless(bytes.len(), links) {
            return Err(Refusal::Hopeless);
        }
        let hash = self.hasher.hash_one((bytes, links.as_flattened()));
        let new = self.closed.ends.len() as u32;
        let full = self.closed.ends.len() == self.limits.objects;
        let first = match self.first.entry(hash) {
            Entry::Vacant(_) if full => return Err(Refusal::ObjectsFull),
            Entry::Vacant(first) => *first.insert(new),
            Entry::Occupied(first) => *first.get(),
        };
        let mut id = first;
        while id < new && self.closed.object(id as usize) != (bytes, links) {
            let next = &mut self.next[id as usize];
            if *next == NONE && full {
                return Err(Refusal::ObjectsFull);
            }
            *next = new.min(*next);
            id = *next;
        }
        if id == new {
            self.closed.push(bytes, links);
            self.next.push(NONE);
        }
        self.open.pop();
        Ok(id)
    }

    pub fn drop_object(&mut self) -> Result<(), Refusal> {
        if self.depth() == 0 {
            return Err(Refusal::NothingOpen);
        }
        self.open.pop();
        Ok(())
    }

    /// Makes the calls that the words say, up to the first that is refused or is
    /// none. The ids that the closes told are the front of `ids`.
    pub fn run(
        &mut self,
        mut calls: &[u32],
        mut bytes: &[u8],
        ids: &mut [u32],
    ) -> (Progress, Result<(), Refusal>) {
        let mut progress = Progress::default();
        while !calls.is_empty() {
            match self.call(calls, &mut bytes, ids, &mut progress.ids) {
                Ok(rest) => calls = rest,
                Err(refusal) => return (progress, Err(refusal)),
            }
            progress.calls += 1;
        }
        (progress, Ok(()))
    }

    /// Makes the first call, and gives the words behind it.
    fn call<'c>(
        &mut self,
        calls: &'c [u32],
        bytes: &mut &[u8],
        ids: &mut [u32],
        told: &mut usize,
    ) -> Result<&'c [u32], Refusal> {
        match calls {
            [1, rest @ ..] => self.open().map(|()| rest),
            [2, length, rest @ ..] => {
                let split = bytes.split_at_checked(*length as usize);
                let (own, behind) = split.ok_or(Refusal::NoCall)?;
                *bytes = behind;
                self.put(own).map(|()| rest)
            }
            [3, width, id, inner, rest @ ..] => self.link(*width, *id, *inner).map(|()| rest),
            [4, width, close, inner, rest @ ..] => {
                let id = *ids[..*told].get(*close as usize).ok_or(Refusal::NoCall)?;
                self.link(*width, id, *inner).map(|()| rest)
            }
            [5, rest @ ..] => {
                let word = ids.get_mut(*told).ok_or(Refusal::NoCall)?;
                *word = self.close()?;
                *told += 1;
                Ok(rest)
            }
            [6, rest @ ..] => self.drop_object().map(|()| rest),
            _ => Err(Refusal::NoCall),
        }
    }
}

/// Whether some field can be filled in no order. Few objects are long enough.
fn hopeless(size: usize, links: &[Link]) -> bool {
    let over = |&[_, width, inner, _]: &Link| (size as u64) - u64::from(inner) >= capacity(width);
    size as u64 >= capacity(*WIDTHS.start()) && links.iter().any(over)
}
