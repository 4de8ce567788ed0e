//! How often inner starts, closes at the edge of what a field can hold, and tables
//! with copies were met.

use reference::call::Call;
use reference::history::History;
use reference::reading::{Field, Reading};
use std::ops::AddAssign;
use std::rc::Rc;

#[derive(Clone, Copy, Debug, Default)]
pub struct Met {
    /// Accepted links with an inner start above 0, before their field.
    pub between: usize,
    /// Accepted links with an inner start above 0, at their field.
    pub at_field: usize,
    /// Links refused for their inner start alone: with 0 they pass.
    pub refused: usize,
    /// Packed tables with an inner start above 0.
    pub packed: usize,
    /// Packed tables with copies.
    pub copied: usize,
    /// New pieces that differ from a closed one in inner starts alone.
    pub apart: usize,
    /// Accepted closes of pieces that could not have a byte more, and closes
    /// refused for one byte.
    pub edge: [usize; 2],
}

impl Met {
    /// A call that the history has not been fed yet.
    pub fn before(call: &Call, history: &History) -> Met {
        let mut met = Met::default();
        let (&Call::Link { width, id, inner }, Some(place)) = (call, history.innermost_size())
        else {
            return met;
        };
        match history.link_number(width, id, inner) {
            0 if inner == 0 => (),
            0 if (inner as usize) < place => met.between = 1,
            0 => met.at_field = 1,
            _ => met.refused = usize::from(history.link_number(width, id, 0) == 0),
        }
        met
    }

    /// A close that told this number, of a piece of this narrow reach.
    pub fn close(reach: Option<usize>, number: u64) -> Met {
        let edge = match (reach, number) {
            (Some(65_535), 0) => [1, 0],
            (Some(65_536), 16) => [0, 1],
            _ => [0, 0],
        };
        Met {
            edge,
            ..Met::default()
        }
    }

    /// A piece that was closed just now, and is new.
    pub fn closed(id: u32, history: &History) -> Met {
        let own = history.reading(id).expect("closed");
        let mut others = (0..id).filter_map(|id| history.reading(id));
        Met {
            apart: usize::from(others.any(|other| same_but_inner(other, own))),
            ..Met::default()
        }
    }

    /// Prints the counts, and gives the least of those about links and tables with
    /// inner starts.
    pub fn least(&self) -> usize {
        let Met {
            between,
            at_field,
            refused,
            packed,
            copied,
            apart,
            edge: [just, past],
        } = *self;
        println!("  inner starts above 0: {between} links before the field, {at_field} at it");
        println!("  {refused} links refused for theirs alone, {packed} tables with some");
        println!("  {apart} new pieces that differ from a closed one in theirs alone");
        println!("  {copied} tables with copies");
        println!(
            "  {just} closes that one byte more would keep from passing, {past} that one byte does"
        );
        [between, at_field, refused, packed]
            .into_iter()
            .min()
            .unwrap()
    }
}

impl AddAssign for Met {
    fn add_assign(&mut self, other: Met) {
        self.between += other.between;
        self.at_field += other.at_field;
        self.refused += other.refused;
        self.packed += other.packed;
        self.copied += other.copied;
        self.apart += other.apart;
        for (sum, count) in self.edge.iter_mut().zip(other.edge) {
            *sum += count;
        }
    }
}

/// The same bytes, and the same links but for inner starts. A child is kept once.
fn same_but_inner(one: &Reading, other: &Reading) -> bool {
    let (fields, others) = (one.fields(), other.fields());
    let same = |(f, g): (&Field, &Field)| {
        f.place == g.place && f.width == g.width && Rc::ptr_eq(&f.child, &g.child)
    };
    fields.len() == others.len()
        && one.bytes() == other.bytes()
        && fields.iter().zip(others).all(same)
}
