//! GSUB tables that can be read, at random.

use crate::parts::{laid_out, Part};
use crate::Numbers;

const TAGS: [[u8; 4]; 6] = [
    *b"DFLT",
    *b"latn",
    *b"grek",
    *b"smcp",
    *b"DEU ",
    [0, 1, 0, 2],
];
const FLAGS: [u16; 6] = [0, 0, 8, 0x0010, 0x001f, 0xffef];

/// The parts made so far, and how many entries a list has at most.
pub(crate) struct Making<'a> {
    pub parts: Vec<Part>,
    pub most: usize,
    pub numbers: &'a mut Numbers,
}

impl Making<'_> {
    /// Some parts of a kind, which lead to those below. Some are equal.
    pub fn some(&mut self, make: fn(&mut Self, &[usize]) -> Part, below: &[usize]) -> Vec<usize> {
        let count = 1 + self.numbers.below(self.most + 1);
        let first = self.parts.len();
        for _ in 0..count {
            let part = match self.parts.last() {
                Some(last) if self.parts.len() > first && self.numbers.below(4) == 0 => {
                    last.clone()
                }
                _ => make(self, below),
            };
            self.parts.push(part);
        }
        (first..first + count).collect()
    }

    /// Mostly at least one.
    pub fn count(&mut self) -> u16 {
        let least = self.most.min(self.numbers.below(6)).min(1);
        (least + self.numbers.below(self.most + 1 - least)) as u16
    }

    /// Mostly one of few, so that subtables cover the same ones.
    pub fn glyph(&mut self) -> u16 {
        match self.numbers.below(8) {
            0 => self.numbers.next() as u16,
            1 => 0xffff - self.numbers.below(3) as u16,
            _ => self.numbers.below(12) as u16,
        }
    }

    pub fn put_glyphs(&mut self, part: &mut Part, count: u16) {
        part.put(count);
        for _ in 0..count {
            let glyph = self.glyph();
            part.put(glyph);
        }
    }

    pub fn coverage(&mut self, _: &[usize]) -> Part {
        let format = 1 + self.numbers.below(2) as u16;
        let (mut part, count) = (Part::of(&[format]), self.count());
        if format == 1 {
            self.put_glyphs(&mut part, count);
            return part;
        }
        part.put(count);
        for _ in 0..count {
            let start = self.glyph();
            let end = match self.numbers.below(6) {
                0 => self.numbers.next() as u16,
                _ => start.saturating_add(self.count()),
            };
            let index = match self.numbers.below(8) {
                0 => 0xffff,
                _ => self.count(),
            };
            for number in [start, end, index] {
                part.put(number);
            }
        }
        part
    }

    pub fn single(&mut self, coverages: &[usize]) -> Part {
        let format = 1 + self.numbers.below(2) as u16;
        let mut part = Part::of(&[format]);
        part.lead(self.numbers.one_of(coverages));
        if format == 1 {
            part.put(self.glyph());
        } else {
            let count = self.count();
            self.put_glyphs(&mut part, count);
        }
        part
    }

    fn extension(&mut self, singles: &[usize]) -> Part {
        let mut part = Part::of(&[1, 1]);
        part.lead_by(4, self.numbers.one_of(singles));
        part
    }

    fn lookup(&mut self, singles: &[usize]) -> Part {
        self.lookup_of(1, singles)
    }

    fn extended_lookup(&mut self, extensions: &[usize]) -> Part {
        self.lookup_of(7, extensions)
    }

    pub fn lookup_of(&mut self, kind: u16, subtables: &[usize]) -> Part {
        let (flag, count) = (self.numbers.one_of(&FLAGS), self.count());
        let mut part = Part::of(&[kind, flag, count]);
        for _ in 0..count {
            part.lead(self.numbers.one_of(subtables));
        }
        if flag & 0x0010 != 0 {
            let set = self.count();
            part.put(set);
        }
        part
    }

    pub fn lookup_list(&mut self, lookups: &[usize]) -> Part {
        let count = self.count();
        let mut part = Part::of(&[count]);
        for _ in 0..count {
            part.lead(self.numbers.one_of(lookups));
        }
        part
    }

    pub fn feature(&mut self, _: &[usize]) -> Part {
        let mut part = Part::of(&[0]);
        let count = self.count();
        self.put_glyphs(&mut part, count);
        part
    }

    pub fn lang_sys(&mut self, _: &[usize]) -> Part {
        let mut part = Part::of(&[0, 0xffff]);
        let count = self.count();
        self.put_glyphs(&mut part, count);
        part
    }

    pub fn script(&mut self, lang_systems: &[usize]) -> Part {
        let mut part = Part::default();
        match self.numbers.below(3) {
            0 => part.put(0),
            _ => part.lead(self.numbers.one_of(lang_systems)),
        }
        self.put_tagged(&mut part, lang_systems);
        part
    }

    /// A list of scripts, or of features.
    pub fn tagged_list(&mut self, below: &[usize]) -> Part {
        let mut part = Part::default();
        self.put_tagged(&mut part, below);
        part
    }

    fn put_tagged(&mut self, part: &mut Part, below: &[usize]) {
        let count = self.count();
        part.put(count);
        for _ in 0..count {
            part.bytes.extend(self.numbers.one_of(&TAGS));
            part.lead(self.numbers.one_of(below));
        }
    }

    /// The header, the last of all parts.
    fn header(&mut self) {
        let lang_systems = self.some(Making::lang_sys, &[]);
        let scripts = self.some(Making::script, &lang_systems);
        let features = self.some(Making::feature, &[]);
        let coverages = self.some(Making::coverage, &[]);
        let singles = self.some(Making::single, &coverages);
        let extensions = self.some(Making::extension, &singles);
        let mut lookups = self.some(Making::lookup, &singles);
        lookups.extend(self.some(Making::extended_lookup, &extensions));
        let mut header = Part::of(&[1, 0]);
        for list in [
            self.tagged_list(&scripts),
            self.tagged_list(&features),
            self.lookup_list(&lookups),
        ] {
            header.lead(self.parts.len());
            self.parts.push(list);
        }
        self.parts.push(header);
    }
}

/// A table of lists with at most so many entries each, which can be read.
pub fn random(most: usize, numbers: &mut Numbers) -> Vec<u8> {
    let parts = Vec::new();
    let mut making = Making {
        parts,
        most,
        numbers,
    };
    making.header();
    let parts = making.parts;
    laid_out(&parts, numbers)
}
