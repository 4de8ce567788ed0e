//! GSUB tables of every lookup type and format that can be read, at random; and
//! long ones, whose tables lie in one another, so that a short table reads as one
//! that fits no order before lookups are promoted.

use crate::parts::{laid_out, Part};
use crate::tables::Making;
use crate::Numbers;

/// All types but that of Extensions.
const TYPES: [u16; 7] = [1, 2, 3, 4, 5, 6, 8];
const EXTENSION: u16 = 7;

/// Tags that call for no parameters, some of them nearly another's.
const PLAIN: [[u8; 4]; 8] = [
    *b"liga", *b"ss00", *b"ss21", *b"cv00", *b"SS01", *b"ss0:", *b"sizf", *b"cv 1",
];
const SIZE: [[u8; 4]; 1] = [*b"size"];
const SETS: [[u8; 4]; 4] = [*b"ss01", *b"ss09", *b"ss10", *b"ss20"];
const VARIANTS: [[u8; 4]; 4] = [*b"cv01", *b"cv10", *b"cv21", *b"cv99"];

/// Bytes of an offset in version 1.1's tables.
const LONG: usize = 4;

/// The most numbers that a subtable with a narrow offset can have, about.
const WIDEST: usize = 32_756;

/// Parts that many others lead to.
#[derive(Default)]
struct Leaves {
    coverages: Vec<usize>,
    classes: Vec<usize>,
}

struct Whole<'a> {
    making: Making<'a>,
    leaves: Leaves,
    /// How many of the next parts may have a tail, and about how many numbers stand
    /// in one.
    tails: usize,
    long: usize,
}

/// Features of a kind, and the tags that call for them.
type Features = (Vec<usize>, &'static [[u8; 4]]);

impl Whole<'_> {
    fn below(&mut self, bound: usize) -> usize {
        self.making.numbers.below(bound)
    }

    fn add(&mut self, part: Part) -> usize {
        self.making.parts.push(part);
        self.making.parts.len() - 1
    }

    /// One or more of a kind, some of them equal.
    fn some(&mut self, make: impl Fn(&mut Self) -> Part) -> Vec<usize> {
        let count = 1 + self.below(self.making.most + 1);
        let mut made: Vec<usize> = Vec::new();
        for _ in 0..count {
            let part = match made.last() {
                Some(&last) if self.below(5) == 0 => self.making.parts[last].clone(),
                _ => make(self),
            };
            made.push(self.add(part));
        }
        made
    }

    /// An offset to one of these.
    fn lead(&mut self, part: &mut Part, children: &[usize]) {
        part.lead(self.making.numbers.one_of(children));
    }

    fn lead_long(&mut self, part: &mut Part, children: &[usize]) {
        part.lead_by(LONG, self.making.numbers.one_of(children));
    }

    /// A count and as many offsets, some of which may be none.
    fn put_leads(&mut self, part: &mut Part, children: &[usize], none: bool) {
        let count = self.making.count();
        part.put(count);
        for _ in 0..count {
            match none && self.below(3) == 0 {
                true => part.put(0),
                false => self.lead(part, children),
            }
        }
    }

    /// Numbers that begin to be counted from another count than 0.
    fn put_numbers(&mut self, part: &mut Part, count: u16) {
        for _ in 0..count {
            let glyph = self.making.glyph();
            part.put(glyph);
        }
    }

    /// A count and its numbers, at the end of a part: now and then so many that
    /// what lies behind the part is read as the last of them.
    fn end_with(&mut self, part: &mut Part, width: usize, less: u16) {
        let count = self.making.count();
        let more = self.tail(width);
        // A count that is to be one fewer may be 0.
        let counted = match less {
            1 if more == 0 && self.below(4) == 0 => 0,
            _ => count + less + more as u16,
        };
        part.put(counted);
        let there = usize::from(counted.saturating_sub(less)) - more;
        self.put_numbers(part, (there * width / 2) as u16);
        part.tail = width * more;
    }

    /// How many entries of so many bytes a tail has.
    fn tail(&mut self, width: usize) -> usize {
        if self.tails == 0 || self.below(6) == 0 {
            return 0;
        }
        self.tails -= 1;
        let most = 2 * WIDEST / width + self.below(9);
        ((self.long + self.below(self.long)) * 2 / width).min(most)
    }

    fn coverages(&mut self) -> Vec<usize> {
        self.leaves.coverages.clone()
    }

    /// A format and a coverage.
    fn covered(&mut self, format: u16) -> Part {
        let (mut part, coverages) = (Part::of(&[format]), self.coverages());
        self.lead(&mut part, &coverages);
        part
    }

    fn coverage(&mut self) -> Part {
        if self.below(4) > 0 {
            return self.making.coverage(&[]);
        }
        let mut part = Part::of(&[1]);
        self.end_with(&mut part, 2, 0);
        part
    }

    fn class_def(&mut self) -> Part {
        let mut part = match self.below(2) {
            0 => Part::of(&[1, 3]),
            _ => Part::of(&[2]),
        };
        let width = if part.bytes[1] == 1 { 2 } else { 6 };
        self.end_with(&mut part, width, 0);
        part
    }

    fn single(&mut self) -> Part {
        if self.below(2) == 0 {
            let mut part = self.covered(1);
            part.put(self.making.glyph());
            return part;
        }
        let mut part = self.covered(2);
        self.end_with(&mut part, 2, 0);
        part
    }

    /// A sequence, or a set of alternates.
    fn glyphs(&mut self) -> Part {
        let mut part = Part::default();
        self.end_with(&mut part, 2, 0);
        part
    }

    fn ligature(&mut self) -> Part {
        let mut part = Part::of(&[self.making.glyph()]);
        self.end_with(&mut part, 2, 1);
        part
    }

    /// A list of offsets to tables of a kind.
    fn set(&mut self, make: impl Fn(&mut Self) -> Part) -> Part {
        let (children, mut part) = (self.some(make), Part::default());
        self.put_leads(&mut part, &children, false);
        part
    }

    /// A coverage, and offsets to tables of a kind.
    fn covered_list(&mut self, make: impl Fn(&mut Self) -> Part) -> Part {
        let (children, mut part) = (self.some(make), self.covered(1));
        self.put_leads(&mut part, &children, false);
        part
    }

    fn rule(&mut self) -> Part {
        let (glyphs, records) = (self.making.count(), self.making.count());
        let mut part = Part::of(&[glyphs, records]);
        self.put_numbers(&mut part, glyphs.saturating_sub(1) + 2 * records);
        part
    }

    fn chained_rule(&mut self) -> Part {
        let mut part = Part::default();
        for less in [0, 1, 0] {
            let count = self.making.count();
            part.put(count);
            self.put_numbers(&mut part, count.saturating_sub(less));
        }
        self.end_with(&mut part, 4, 0);
        part
    }

    fn context(&mut self) -> Part {
        let format = 1 + self.below(3) as u16;
        if format == 3 {
            let (glyphs, records) = (self.making.count(), self.making.count());
            let (mut part, coverages) = (Part::of(&[3, glyphs, records]), self.coverages());
            for _ in 0..glyphs {
                self.lead(&mut part, &coverages);
            }
            self.put_numbers(&mut part, 2 * records);
            return part;
        }
        let (sets, mut part) = (self.some(|own| own.set(Whole::rule)), self.covered(format));
        if format == 2 {
            let classes = self.leaves.classes.clone();
            self.lead(&mut part, &classes);
        }
        self.put_leads(&mut part, &sets, true);
        part
    }

    fn chained_context(&mut self) -> Part {
        let format = 1 + self.below(3) as u16;
        if format == 3 {
            let (mut part, coverages) = (Part::of(&[3]), self.coverages());
            for _ in 0..3 {
                self.put_leads(&mut part, &coverages, false);
            }
            self.end_with(&mut part, 4, 0);
            return part;
        }
        let sets = self.some(|own| own.set(Whole::chained_rule));
        let mut part = self.covered(format);
        if format == 2 {
            self.put_classes(&mut part);
        }
        self.put_leads(&mut part, &sets, true);
        part
    }

    /// Those of the backtrack, which may be none, of the input and of the lookahead.
    fn put_classes(&mut self, part: &mut Part) {
        let classes = self.leaves.classes.clone();
        for none in [true, false, true] {
            match none && self.below(3) == 0 {
                true => part.put(0),
                false => self.lead(part, &classes),
            }
        }
    }

    fn reverse_chain(&mut self) -> Part {
        let (mut part, coverages) = (self.covered(1), self.coverages());
        for _ in 0..2 {
            self.put_leads(&mut part, &coverages, false);
        }
        self.end_with(&mut part, 2, 0);
        part
    }

    fn subtable(&mut self, kind: u16) -> Part {
        match kind {
            1 => self.single(),
            2 | 3 => self.covered_list(Whole::glyphs),
            4 => self.covered_list(|own| own.set(Whole::ligature)),
            5 => self.context(),
            6 => self.chained_context(),
            _ => self.reverse_chain(),
        }
    }

    /// Lookups of a type, and some of type 7 around it.
    fn lookups(&mut self, kind: u16) -> Vec<usize> {
        let subtables = self.some(|own| own.subtable(kind));
        let extensions = self.some(|own| {
            let mut part = Part::of(&[1, kind]);
            own.lead_long(&mut part, &subtables);
            part
        });
        let mut lookups = self.some(|own| own.making.lookup_of(kind, &subtables));
        if self.below(2) == 0 {
            lookups.extend(self.some(|own| own.making.lookup_of(EXTENSION, &extensions)));
        }
        lookups
    }

    fn lookup_list(&mut self) -> Part {
        self.leaves.coverages = self.some(Whole::coverage);
        self.leaves.classes = self.some(Whole::class_def);
        let mut lookups = Vec::new();
        for _ in 0..1 + self.below(3) {
            let kind = self.making.numbers.one_of(&TYPES);
            lookups.extend(self.lookups(kind));
        }
        self.making.lookup_list(&lookups)
    }

    /// A list of so many lookups with a long subtable or two each, which mostly has
    /// a coverage of its own.
    fn long_lookup_list(&mut self, lookups: usize) -> Part {
        let mut made = Vec::new();
        for _ in 0..lookups {
            let kind = self.making.numbers.one_of(&TYPES);
            let lookup = self.long_lookup(kind);
            made.push(self.add(lookup));
        }
        if self.below(4) == 0 {
            made.push(self.making.numbers.one_of(&made));
        }
        let mut part = Part::of(&[made.len() as u16]);
        made.iter().for_each(|&lookup| part.lead(lookup));
        part
    }

    fn long_lookup(&mut self, kind: u16) -> Part {
        let (count, extended) = (1 + self.below(2), self.below(6) == 0);
        let own = if extended { EXTENSION } else { kind };
        let mut part = Part::of(&[own, 0, count as u16]);
        for _ in 0..count {
            if self.leaves.coverages.is_empty() || self.below(8) > 0 {
                self.tails = usize::from(self.below(8) == 0);
                self.leaves.coverages = self.some(Whole::coverage);
                self.leaves.classes = self.some(Whole::class_def);
            }
            self.tails = 1;
            let subtable = self.subtable(kind);
            let mut child = self.add(subtable);
            if extended {
                let mut extension = Part::of(&[1, kind]);
                extension.lead_by(LONG, child);
                child = self.add(extension);
            }
            part.lead(child);
        }
        self.tails = 0;
        part
    }

    /// A feature whose tag calls for one of these parameters, or for none.
    fn feature(&mut self, params: &[usize]) -> Part {
        let mut part = Part::default();
        match params.is_empty() || self.below(3) == 0 {
            true => part.put(0),
            false => self.lead(&mut part, params),
        }
        let count = self.making.count();
        part.put(count);
        self.put_numbers(&mut part, count);
        part
    }

    fn size(&mut self) -> Part {
        let mut part = Part::default();
        self.put_numbers(&mut part, 5);
        part
    }

    fn set_name(&mut self) -> Part {
        Part::of(&[0, self.making.glyph()])
    }

    fn variant_names(&mut self) -> Part {
        let mut part = Part::of(&[0]);
        self.put_numbers(&mut part, 5);
        let count = self.making.count();
        part.put(count);
        let characters = (0..3 * count).map(|at| at as u8);
        part.bytes.extend(characters);
        part
    }

    fn feature_list(&mut self) -> Part {
        let params = [
            (self.some(Whole::size), &SIZE[..]),
            (self.some(Whole::set_name), &SETS[..]),
            (self.some(Whole::variant_names), &VARIANTS[..]),
            (Vec::new(), &PLAIN[..]),
        ];
        let features = params.map(|(params, tags)| (self.some(|own| own.feature(&params)), tags));
        let count = self.making.count();
        let mut part = Part::of(&[count]);
        for _ in 0..count {
            let (features, tags): &Features = &features[self.below(4)];
            part.bytes.extend(self.making.numbers.one_of(tags));
            self.lead(&mut part, features);
        }
        part
    }

    /// A count, and as often what is put for each.
    fn put_each(&mut self, part: &mut Part, put: impl Fn(&mut Self, &mut Part)) {
        let count = self.making.count();
        part.put(count);
        for _ in 0..count {
            put(self, part);
        }
    }

    fn condition_set(&mut self) -> Part {
        let conditions = self.some(|own| Part::of(&[1, 0, own.making.glyph(), 0x4000]));
        let mut part = Part::default();
        self.put_each(&mut part, |own, part| own.lead_long(part, &conditions));
        part
    }

    fn feature_substitution(&mut self) -> Part {
        let features = self.some(|own| own.feature(&[]));
        let mut part = Part::of(&[1, 0]);
        self.put_each(&mut part, |own, part| {
            part.put(own.making.count());
            own.lead_long(part, &features);
        });
        part
    }

    fn feature_variations(&mut self) -> Part {
        let conditions = self.some(Whole::condition_set);
        let features = self.some(Whole::feature_substitution);
        let mut part = Part::of(&[1, 0, 0]);
        self.put_each(&mut part, |own, part| {
            own.lead_long(part, &conditions);
            own.lead_long(part, &features);
        });
        part
    }

    fn script_list(&mut self) -> Part {
        let lang_systems = self.making.some(Making::lang_sys, &[]);
        let scripts = self.making.some(Making::script, &lang_systems);
        self.making.tagged_list(&scripts)
    }

    /// The header, the last of all parts.
    fn header(&mut self, lookups: impl Fn(&mut Self) -> Part) {
        let minor = self.below(2) as u16;
        let lists = [self.script_list(), self.feature_list(), lookups(self)];
        let mut header = Part::of(&[1, minor]);
        for list in lists {
            header.lead(self.add(list));
        }
        match (minor, self.below(3)) {
            (0, _) => {}
            (_, 0) => header.put_all(&[0, 0]),
            _ => {
                let variations = self.feature_variations();
                header.lead_by(LONG, self.add(variations));
            }
        }
        self.add(header);
    }
}

/// A table of lists with at most so many entries each, which can be read.
pub fn random(most: usize, numbers: &mut Numbers) -> Vec<u8> {
    made(most, 0, numbers, |own| own.lookup_list())
}

/// Bytes that all subtables of a long table have about: some tables just fit, and
/// some do not.
const SIZES: [usize; 4] = [2_000, 80_000, 120_000, 160_000];

/// The same of up to six lookups with long subtables.
pub fn long(most: usize, numbers: &mut Numbers) -> Vec<u8> {
    let lookups = 1 + numbers.below(6);
    let size = numbers.one_of(&SIZES) / 3 / lookups;
    made(most, size, numbers, |own| own.long_lookup_list(lookups))
}

fn made(
    most: usize,
    long: usize,
    numbers: &mut Numbers,
    lookups: impl Fn(&mut Whole) -> Part,
) -> Vec<u8> {
    let parts = Vec::new();
    let making = Making {
        parts,
        most,
        numbers,
    };
    let mut whole = Whole {
        making,
        leaves: Leaves::default(),
        tails: 0,
        long,
    };
    whole.header(lookups);
    let Making { parts, numbers, .. } = whole.making;
    laid_out(&parts, numbers)
}
