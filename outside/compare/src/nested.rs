//! GSUB tables whose long subtables and coverages lie in one another, so that a
//! short table reads as one that fits no order before lookups are promoted.

use crate::parts::Part;
use crate::Numbers;

/// Bytes that all subtables, or all coverages, have about: some tables just fit,
/// and some do not.
const SIZES: [usize; 4] = [2_000, 60_000, 80_000, 100_000];

/// Where the list of lookups is: behind the header and a list of nothing.
const LIST: usize = 12;

/// A lookup, by its type, its flag and which subtables it has.
struct Lookup {
    kind: u16,
    flag: u16,
    subtables: Vec<usize>,
}

impl Lookup {
    fn size(&self) -> usize {
        6 + 2 * self.subtables.len() + 2 * usize::from(self.flag != 0)
    }

    fn extensions(&self) -> usize {
        match self.kind {
            7 => self.subtables.len(),
            _ => 0,
        }
    }
}

/// How many substitutes it has, or none for a delta, and which coverage.
struct Subtable {
    substitutes: Option<usize>,
    coverage: usize,
}

/// A table's tables below the list, which has lookups by number.
pub struct Nested {
    list: Vec<usize>,
    lookups: Vec<Lookup>,
    subtables: Vec<Subtable>,
    /// How many glyphs each has.
    coverages: Vec<usize>,
}

/// Fewer than the bound, and mostly more than none.
fn some(bound: usize, numbers: &mut Numbers) -> usize {
    numbers.below(bound).max(numbers.below(2))
}

impl Nested {
    pub fn random(numbers: &mut Numbers) -> Nested {
        let lookups = 1 + numbers.below(6);
        let subtables = 1 + numbers.below(4) + numbers.below(3);
        let own = numbers.below(5) > 0;
        let coverages = if own { subtables } else { 1 + numbers.below(3) };
        let about = numbers.one_of(&SIZES) / 2 / subtables;
        let long_coverages = numbers.below(4) == 0;
        let length = |long: bool, numbers: &mut Numbers| match numbers.below(6) {
            0 => numbers.below(9),
            _ if !long => 1 + numbers.below(4),
            _ => (about + numbers.below(about)).min(32_760 + numbers.below(6)),
        };
        let mut nested = Nested {
            list: Vec::new(),
            lookups: Vec::new(),
            subtables: Vec::new(),
            coverages: Vec::new(),
        };
        for _ in 0..coverages {
            nested.coverages.push(length(long_coverages, numbers));
        }
        for at in 0..subtables {
            let substitutes = match numbers.below(8) {
                0 => None,
                _ => Some(length(!long_coverages, numbers)),
            };
            let coverage = if own { at } else { numbers.below(coverages) };
            nested.subtables.push(Subtable {
                substitutes,
                coverage,
            });
        }
        nested.lead(lookups, numbers);
        nested
    }

    /// So many lookups, each with one subtable of so many substitutes, and that with
    /// a coverage which no other has.
    pub fn even(lookups: usize, substitutes: usize) -> Nested {
        let lookup = |at| Lookup {
            kind: 1,
            flag: 0,
            subtables: vec![at],
        };
        let subtable = |coverage| Subtable {
            substitutes: Some(substitutes),
            coverage,
        };
        Nested {
            list: (0..lookups).collect(),
            lookups: (0..lookups).map(lookup).collect(),
            subtables: (0..lookups).map(subtable).collect(),
            coverages: (1..=lookups).collect(),
        }
    }

    /// Lookups of these subtables, and their list. Mostly each subtable has one
    /// lookup, and each lookup one place in the list.
    fn lead(&mut self, lookups: usize, numbers: &mut Numbers) {
        let count = self.subtables.len();
        let shared = numbers.below(4) == 0;
        for at in 0..lookups {
            let subtables = if shared {
                (0..some(3, numbers))
                    .map(|_| numbers.below(count))
                    .collect()
            } else {
                (0..count)
                    .filter(|subtable| subtable % lookups == at)
                    .collect()
            };
            self.lookups.push(Lookup {
                kind: numbers.one_of(&[1, 1, 1, 1, 1, 7]),
                flag: numbers.one_of(&[0, 0, 0x0010]),
                subtables,
            });
        }
        self.list = (0..lookups).collect();
        match numbers.below(5) {
            0 => self.list.push(numbers.below(lookups)),
            1 => self.list.truncate(numbers.below(lookups + 1)),
            _ => {}
        }
    }

    /// How many Extensions the table has with all lookups promoted.
    pub fn extensions(&self) -> usize {
        let lookups = self.list.iter().map(|&at| &self.lookups[at]);
        lookups.map(|lookup| lookup.subtables.len()).sum()
    }

    /// Whether a lookup of the list has type 7 before any is promoted.
    pub fn extended(&self) -> bool {
        self.list.iter().any(|&at| self.lookups[at].kind == 7)
    }

    /// The table, and how many of its bytes stand before the fill.
    pub fn laid_out(&self, numbers: &mut Numbers) -> (Vec<u8>, usize) {
        let places = self.places();
        let mut table = Part::of(&[1, 0, 10, 10, LIST as u16, 0, self.list.len() as u16]);
        for &at in &self.list {
            table.put((places.lookups[at] - LIST) as u16);
        }
        self.put_lookups(&places, &mut table);
        for (subtable, place) in self.subtables.iter().zip(&places.subtables) {
            let offset = places.coverages[subtable.coverage] - place;
            let (format, number) = match subtable.substitutes {
                None => (1, numbers.below(12) as u16),
                Some(count) => (2, count as u16),
            };
            table.put_all(&[format, offset as u16, number]);
        }
        for count in &self.coverages {
            let glyph = numbers.below(12) as u16;
            table.put_all(&[1, *count as u16, glyph]);
        }
        let (mut table, byte) = (table.bytes, numbers.next() as u8);
        let front = table.len();
        let fill = (front..places.end).map(|at| byte.wrapping_add(at as u8));
        table.extend(fill);
        (table, front)
    }

    fn put_lookups(&self, places: &Places, table: &mut Part) {
        let (mut extension, mut extensions) = (places.extensions, Part::default());
        for (lookup, begin) in self.lookups.iter().zip(&places.lookups) {
            let count = lookup.subtables.len() as u16;
            table.put_all(&[lookup.kind, lookup.flag, count]);
            for &subtable in &lookup.subtables {
                let mut place = places.subtables[subtable];
                if lookup.kind == 7 {
                    let offset = (place - extension) as u16;
                    extensions.put_all(&[1, 1, 0, offset]);
                    place = extension;
                    extension += 8;
                }
                table.put((place - begin) as u16);
            }
            if lookup.flag != 0 {
                table.put(9);
            }
        }
        table.bytes.extend(extensions.bytes);
    }

    fn places(&self) -> Places {
        let mut next = LIST + 2 + 2 * self.list.len();
        let mut take = |size: usize| {
            next += size;
            next - size
        };
        let sizes = self.lookups.iter().map(Lookup::size);
        let lookups = sizes.map(&mut take).collect();
        let extensions = take(8 * self.lookups.iter().map(Lookup::extensions).sum::<usize>());
        let subtables: Vec<usize> = self.subtables.iter().map(|_| take(6)).collect();
        let coverages: Vec<usize> = self.coverages.iter().map(|_| take(6)).collect();
        // Behind the count of each all that it counts.
        let substitutes = self
            .subtables
            .iter()
            .map(|own| own.substitutes.unwrap_or(0));
        let subtable_ends = subtables
            .iter()
            .zip(substitutes)
            .map(|(at, n)| at + 6 + 2 * n);
        let glyphs = self.coverages.iter().zip(&coverages);
        let coverage_ends = glyphs.map(|(n, at)| at + 4 + 2 * n);
        let end = subtable_ends.chain(coverage_ends).max().unwrap_or(0);
        Places {
            lookups,
            extensions,
            subtables,
            coverages,
            end: end.max(next),
        }
    }
}

/// Where the parts of a table are.
struct Places {
    lookups: Vec<usize>,
    extensions: usize,
    subtables: Vec<usize>,
    coverages: Vec<usize>,
    end: usize,
}
