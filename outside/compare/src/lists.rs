//! Random calls, by what the session holds when they are made.

use crate::claims::Claims;
use reference::call::Call;
use reference::limits;
use reference::random::{any_inner, Numbers};
use reference::Answer;

/// A few bytes less than what a field of width 2 holds.
const EDGE: usize = 65_533;

/// Limits, lengths and habits of a run.
#[derive(Clone, Copy, Debug)]
pub struct Style {
    pub pieces: u32,
    pub links: u32,
    pub store: usize,
    /// Words of the record store past its need.
    pub surplus: usize,
    /// Lengths of puts.
    sizes: &'static [usize],
    /// Of a hundred calls, how many only open.
    opens: usize,
    /// Bytes of puts are below this.
    bytes: usize,
    widths: &'static [u32],
    /// Of ten puts and links, how many bring the innermost piece about to where
    /// a field of width 2 can just be filled.
    edge: usize,
    /// Mostly a piece gets so many fields before it is closed.
    fields: usize,
}

impl Style {
    /// Small limits and stores, often nearly full; few different bytes, so
    /// that duplicates are common.
    pub fn small(numbers: &mut Numbers) -> Style {
        Style {
            pieces: 1 + numbers.below(12) as u32,
            links: numbers.below(17) as u32,
            store: 1 + numbers.one_of(&[20, 90, 90, 300]).min(numbers.below(300)),
            surplus: numbers.below(20),
            sizes: &[0, 1, 1, 2, 3, 5, 8],
            opens: 0,
            bytes: 2,
            widths: &[2, 2, 2, 2, 3, 3, 4, 4, 0, 1, 5, 258],
            edge: 0,
            fields: 0,
        }
    }

    /// Stores with long runs of free bytes.
    pub fn roomy(numbers: &mut Numbers) -> Style {
        Style {
            pieces: 30,
            links: 60,
            store: 9_000 + numbers.below(9_000),
            surplus: numbers.below(3),
            sizes: &[1, 2, 3, 90, 700],
            ..Style::small(numbers)
        }
    }

    /// Many open pieces.
    pub fn deep(numbers: &mut Numbers) -> Style {
        Style {
            pieces: 40,
            store: 60 + numbers.below(200),
            opens: 60,
            ..Style::small(numbers)
        }
    }

    /// Sizes near what a field of width 2 holds.
    pub fn large(numbers: &mut Numbers) -> Style {
        Style {
            pieces: 12,
            links: 30,
            store: 200_000 + numbers.below(250_000),
            surplus: 1,
            sizes: &[2, 6, 33_000, 33_000, 40_000, 65_531],
            opens: 0,
            bytes: 256,
            widths: &[2, 2, 2, 2, 2, 2, 3, 4],
            edge: 0,
            fields: 2,
        }
    }

    /// Pieces that can hardly be packed, or just not.
    pub fn edge(numbers: &mut Numbers) -> Style {
        Style {
            edge: 6,
            bytes: 2,
            ..Style::large(numbers)
        }
    }

    pub fn records(&self) -> usize {
        limits::record_need(self.pieces.into(), self.links.into()) as usize + self.surplus
    }

    pub fn start(&self) -> Call {
        Call::Start {
            pieces: self.pieces,
            links: self.links,
        }
    }

    /// The next call, refused ones included.
    pub fn next(&self, claims: &Claims, numbers: &mut Numbers) -> Call {
        if numbers.below(100) < self.opens {
            return Call::Open;
        }
        // A hopeless piece would be in the way of all others.
        if claims.history.narrow_reach() >= Some(EDGE) && numbers.below(2) == 0 {
            let close = numbers.below(3) > 0;
            return if close { Call::Close } else { Call::Drop };
        }
        let Answer { depth, objects, .. } = claims.history.tally();
        let few = objects > 1 && claims.history.innermost_fields() < self.fields;
        let more = few && numbers.below(4) > 0;
        match (numbers.below(200), depth) {
            (0..=1, _) => self.restart(numbers),
            (2..=11, _) => Call::Tally,
            (12..=27, _) => Call::Open,
            (28..=35, _) => self.put(claims, numbers),
            (36..=45, _) => self.link(claims, numbers),
            (46..=50, _) => Call::Close,
            (51..=60, _) => Call::Drop,
            (61..=70, _) => pack(claims, numbers),
            (71..=140, 0) => Call::Open,
            (_, 0) => pack(claims, numbers),
            (71..=100, _) => self.put(claims, numbers),
            (101..=145, _) => self.link(claims, numbers),
            (146..=153, _) => Call::Drop,
            (_, _) if more => self.link(claims, numbers),
            (_, _) => Call::Close,
        }
    }

    fn restart(&self, numbers: &mut Numbers) -> Call {
        let (pieces, links) = self.limits(numbers);
        Call::Start { pieces, links }
    }

    /// Of pieces and links, mostly such that the record store has room for them.
    pub fn limits(&self, numbers: &mut Numbers) -> (u32, u32) {
        let pieces = match numbers.below(8) {
            0 => numbers.one_of(&[0, 16_384, 16_385, u32::MAX]),
            1 => self.pieces + 1,
            _ => 1 + numbers.below(self.pieces as usize) as u32,
        };
        let links = match numbers.below(8) {
            0 => numbers.one_of(&[65_536, 65_537, u32::MAX]),
            _ => numbers.below(self.links as usize + 1) as u32,
        };
        (pieces, links)
    }

    fn link(&self, claims: &Claims, numbers: &mut Numbers) -> Call {
        let place = claims.history.innermost_size().unwrap_or(0);
        let near = (place + 2).checked_sub(EDGE + numbers.below(4));
        let inner = match near {
            Some(near) if numbers.below(10) < self.edge => near as u32,
            _ => any_inner(place, numbers),
        };
        Call::Link {
            width: numbers.one_of(self.widths),
            id: any_id(claims, numbers),
            inner,
        }
    }

    fn put(&self, claims: &Claims, numbers: &mut Numbers) -> Call {
        let room = self.store - claims.history.sum();
        let reach = claims.history.narrow_reach();
        let near = reach.and_then(|reach| (EDGE + numbers.below(4)).checked_sub(reach));
        let length = match (numbers.below(20), near) {
            (0, _) => room,
            (1, _) if numbers.below(4) == 0 => room + 1,
            (_, Some(near)) if numbers.below(10) < self.edge => near,
            _ => numbers.one_of(self.sizes),
        };
        if length > 100 {
            return Call::Put(vec![numbers.below(self.bytes) as u8; length]);
        }
        Call::Put(
            (0..length)
                .map(|_| numbers.below(self.bytes) as u8)
                .collect(),
        )
    }
}

/// Often the last closed piece, which reaches most. Output and work memory are often just long enough or just too short.
fn pack(claims: &Claims, numbers: &mut Numbers) -> Call {
    let id = match numbers.below(2) {
        0 => (claims.history.tally().objects as u32).saturating_sub(1),
        _ => any_id(claims, numbers),
    };
    let length = claims.history.table_length(id).unwrap_or(3) as usize;
    let output = match numbers.below(8) {
        0 => length - 1,
        1 => numbers.below(length + 1),
        2 => length + numbers.below(9),
        // With room for copies.
        3 => 2 * length,
        _ => length,
    };
    let copies = any_copies(numbers);
    let need = claims.work_need(copies.min(1_024));
    let work = match numbers.below(10) {
        0 => need - 1,
        1 => numbers.below(need),
        2 => need + numbers.below(9),
        _ => need,
    };
    Call::Pack {
        id,
        copies,
        output,
        work,
    }
}

/// Mostly none or a few; seldom as many as are allowed, which need much memory.
fn any_copies(numbers: &mut Numbers) -> u32 {
    match numbers.below(64) {
        0 => 1_024,
        1 => 1_025,
        2 => numbers.next() as u32,
        3..=31 => numbers.one_of(&[1, 1, 2, 5]),
        _ => 0,
    }
}

/// Mostly an id of a closed piece.
fn any_id(claims: &Claims, numbers: &mut Numbers) -> u32 {
    let closed = claims.history.tally().objects as usize;
    match numbers.below(20) {
        0 => numbers.next() as u32,
        1 => closed as u32,
        _ => numbers.below(closed.max(1)) as u32,
    }
}
