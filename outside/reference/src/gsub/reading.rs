//! What a table reads, by a description of each kind of table and without a
//! session: bytes, fields, and the readings that the fields lead to.

use super::rows::{Kind, Part};
use super::{big_endian, number, Scope, EXTENSION, LONG, SHORT};
use crate::reading::{Draft, Reading};
use std::collections::HashMap;
use std::rc::Rc;

/// What a table of single substitutions reads, if it can be read.
pub fn reading(slice: &[u8]) -> Option<Rc<Reading>> {
    Scope::Single.reading(slice).ok()
}

/// A field: where it is, in which kind of table, and what should be there.
#[derive(Clone, Copy, Debug, PartialEq)]
pub struct FieldAt {
    pub place: usize,
    pub kind: Kind,
    /// None, where the table is cut before what decides its parts.
    pub part: Option<Part>,
}

impl Scope {
    /// What a whole table reads, or the first field that is not read.
    pub fn reading(self, slice: &[u8]) -> Result<Rc<Reading>, FieldAt> {
        Tables::new(self, slice).reading(Kind::Header, 0)
    }

    /// The tables that a table is made of, by their kinds and places, if it can be
    /// read.
    pub fn tables(self, slice: &[u8]) -> Option<Vec<(Kind, usize)>> {
        let mut tables = Tables::new(self, slice);
        tables.reading(Kind::Header, 0).ok()?;
        let mut met: Vec<_> = tables.known.into_keys().collect();
        met.sort_unstable();
        Some(met)
    }

    /// The fields that may not hold any number, each once, up to the first that is
    /// not read.
    pub fn judged(self, slice: &[u8]) -> Vec<FieldAt> {
        let mut tables = Tables::new(self, slice);
        let _ = tables.reading(Kind::Header, 0);
        tables.judged
    }
}

struct Tables<'a> {
    scope: Scope,
    slice: &'a [u8],
    /// One table may be met often, and is looked at once.
    known: HashMap<(Kind, usize), Rc<Reading>>,
    /// Its fields that may not hold any number.
    judged: Vec<FieldAt>,
}

impl Tables<'_> {
    fn new(scope: Scope, slice: &[u8]) -> Tables<'_> {
        Tables {
            scope,
            slice,
            known: HashMap::new(),
            judged: Vec::new(),
        }
    }

    fn reading(&mut self, kind: Kind, place: usize) -> Result<Rc<Reading>, FieldAt> {
        if let Some(known) = self.known.get(&(kind, place)) {
            return Ok(Rc::clone(known));
        }
        let mut draft = Draft::default();
        let parts = kind.parts(self.scope, self.slice, place);
        let parts = parts.ok_or_else(|| self.cut(kind, place))?;
        self.append(parts, kind, place, &mut draft)?;
        let reading = draft.finish();
        self.known.insert((kind, place), Rc::clone(&reading));
        Ok(reading)
    }

    /// Why a table is not read that is cut before the field that decides its parts:
    /// that field, or the one before it.
    fn cut(&self, kind: Kind, place: usize) -> FieldAt {
        let first = number(self.slice, place);
        let good = match kind {
            Kind::Header => first == Some(1),
            Kind::Lookup => first.is_some_and(|first| self.scope.has_lookup(first)),
            _ => false,
        };
        let place = if good { place + SHORT } else { place };
        let part = None;
        FieldAt { place, kind, part }
    }

    /// Reads parts of the table at a place from where the draft ends.
    fn append(
        &mut self,
        parts: &[Part],
        kind: Kind,
        place: usize,
        draft: &mut Draft,
    ) -> Result<(), FieldAt> {
        for part in parts {
            let here = place + draft.size();
            let this = FieldAt {
                place: here,
                kind,
                part: Some(*part),
            };
            let field = self.slice.get(here..here + part.width()).ok_or(this)?;
            let number = big_endian(field);
            if part.is_judged() {
                self.judged.push(this);
            }
            if !part.holds(number) {
                return Err(this);
            }
            match self.child(*part, place, here) {
                Some(child) if number != 0 => {
                    let child = self.reading(child, place + number)?;
                    draft.link(part.width(), 0, child);
                }
                _ => draft.put(field),
            }
            let (times, parts) = self.repeated(*part, place, number);
            for _ in 0..times {
                self.append(parts, kind, place, draft)?;
            }
        }
        Ok(())
    }

    /// What an offset at `here` in the table at `place` leads to.
    fn child(&self, part: Part, place: usize, here: usize) -> Option<Kind> {
        let at = |place| number(self.slice, place);
        match part {
            Part::Offset(kind) | Part::OffsetOrNone(kind) => Some(kind),
            Part::LongOffset(kind) | Part::LongOffsetOrNone(kind) => Some(kind),
            Part::TaggedFeature => {
                let tag = self.slice.get(here - LONG..here)?;
                Some(Kind::feature(self.scope.params(tag)))
            }
            Part::OwnSubtable => at(place).map(Kind::Subtable),
            Part::ExtendedSubtable => at(here - SHORT).map(Kind::Subtable),
            _ => None,
        }
    }

    /// Which parts follow, and how often. No count is less than none.
    fn repeated(&self, part: Part, place: usize, count: usize) -> (usize, &'static [Part]) {
        let at = |further| usize::from(number(self.slice, place + further).unwrap_or(0));
        match part {
            Part::Repeated(parts) => (count, parts),
            Part::RepeatedLess(parts) => (count.saturating_sub(1), parts),
            Part::Times(further, parts) => (at(further), parts),
            Part::TimesLess(further, parts) => (at(further).saturating_sub(1), parts),
            _ => (0, &[]),
        }
    }
}

impl Part {
    fn is_judged(self) -> bool {
        // Nothing that is judged may hold any number, so not these two.
        self.width() > 0 && !(self.holds(0) && self.holds(usize::MAX))
    }

    /// Whether its field may hold this number.
    pub fn holds(self, number: usize) -> bool {
        match self {
            Part::Fixed(only) => number == usize::from(only),
            Part::OneOf(some) => some.iter().any(|&one| number == usize::from(one)),
            Part::Offset(_) | Part::LongOffset(_) => number != 0,
            Part::TaggedFeature | Part::OwnSubtable | Part::ExtendedSubtable => number != 0,
            _ => true,
        }
    }
}

/// What a table reads in which the last lookups stand promoted, so many of them:
/// by what the table itself reads.
pub fn promoted(table: &Rc<Reading>, last: usize) -> Rc<Reading> {
    const LOOKUP_LIST: usize = 2;
    with_children(table, table.bytes(), |at, child| match at {
        LOOKUP_LIST => promoted_list(child, last),
        _ => Rc::clone(child),
    })
}

fn promoted_list(list: &Rc<Reading>, last: usize) -> Rc<Reading> {
    let first = list.fields().len().saturating_sub(last);
    with_children(list, list.bytes(), |at, lookup| {
        if at < first {
            Rc::clone(lookup)
        } else {
            promoted_lookup(lookup)
        }
    })
}

/// One of type 7 is as it was.
fn promoted_lookup(lookup: &Rc<Reading>) -> Rc<Reading> {
    let (kind, rest) = lookup.bytes().split_at(SHORT);
    let extended = EXTENSION.to_be_bytes();
    if kind == extended {
        return Rc::clone(lookup);
    }
    let bytes = [&extended, rest].concat();
    with_children(lookup, &bytes, |_, subtable| {
        let mut extension = Draft::default();
        extension.put(&1_u16.to_be_bytes());
        extension.put(kind);
        extension.link(LONG, 0, Rc::clone(subtable));
        extension.finish()
    })
}

/// A reading with these bytes, and each field's child made anew.
fn with_children(
    reading: &Reading,
    bytes: &[u8],
    child: impl Fn(usize, &Rc<Reading>) -> Rc<Reading>,
) -> Rc<Reading> {
    let mut draft = Draft::default();
    for (at, field) in reading.fields().iter().enumerate() {
        draft.put(&bytes[draft.size()..field.place]);
        draft.link(field.width, field.inner, child(at, &field.child));
    }
    draft.put(&bytes[draft.size()..]);
    draft.finish()
}
