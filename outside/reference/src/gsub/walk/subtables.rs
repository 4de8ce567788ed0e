//! Subtables of all types but the contexts, coverages and classes.

use super::{Kind, Step, Table, Walk};

/// Numbers of a range: its ends, and a coverage index or a class.
const RANGE: usize = 3;

impl Walk<'_> {
    pub(super) fn subtable(&mut self, table: &mut Table, kind: u16) -> Step<()> {
        match kind {
            1 => self.single(table),
            2 | 3 => self.covered_offsets(table, Kind::Glyphs),
            4 => self.covered_offsets(table, Kind::LigatureSet),
            5 => self.context(table),
            6 => self.chained_context(table),
            7 => self.extension(table),
            _ => self.reverse_chain(table),
        }
    }

    fn single(&mut self, table: &mut Table) -> Step<()> {
        let format = self.judged(table, one_or_two)?;
        self.offset(table, Kind::Coverage)?;
        if format == 1 {
            let _delta = self.plain(table)?;
            return Ok(());
        }
        self.counted(table)
    }

    /// A format, a coverage, and an offset for each of its glyphs.
    fn covered_offsets(&mut self, table: &mut Table, child: Kind) -> Step<()> {
        self.one(table)?;
        self.offset(table, Kind::Coverage)?;
        self.counted_offsets(table, child)
    }

    pub(super) fn ligature(&mut self, table: &mut Table) -> Step<()> {
        let _ligature = self.plain(table)?;
        self.counted_less_one(table)
    }

    fn reverse_chain(&mut self, table: &mut Table) -> Step<()> {
        self.one(table)?;
        self.offset(table, Kind::Coverage)?;
        self.counted_offsets(table, Kind::Coverage)?; // backtrack
        self.counted_offsets(table, Kind::Coverage)?; // lookahead
        self.counted(table)
    }

    pub(super) fn coverage(&mut self, table: &mut Table) -> Step<()> {
        match self.judged(table, one_or_two)? {
            1 => self.counted(table),
            _ => self.ranges(table),
        }
    }

    pub(super) fn class_def(&mut self, table: &mut Table) -> Step<()> {
        if self.judged(table, one_or_two)? == 1 {
            let _start = self.plain(table)?;
            return self.counted(table);
        }
        self.ranges(table)
    }

    fn ranges(&mut self, table: &mut Table) -> Step<()> {
        let count = self.plain(table)?;
        self.entries(table, count, RANGE)
    }
}

fn one_or_two(format: u16) -> bool {
    format == 1 || format == 2
}
