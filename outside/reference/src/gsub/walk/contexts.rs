//! Contexts and chained contexts. Rules of glyphs and of classes are laid out
//! alike.

use super::{Kind, Step, Table, Walk};

/// Numbers of a record: a sequence index, and a lookup's.
const RECORD: usize = 2;

impl Walk<'_> {
    pub(super) fn context(&mut self, table: &mut Table) -> Step<()> {
        match self.judged(table, one_to_three)? {
            1 => self.offset(table, Kind::Coverage)?,
            2 => {
                self.offset(table, Kind::Coverage)?;
                self.offset(table, Kind::ClassDef)?;
            }
            _ => {
                let glyphs = self.plain(table)?;
                let records = self.plain(table)?;
                self.offsets(table, glyphs, Kind::Coverage)?;
                return self.entries(table, records, RECORD);
            }
        }
        self.counted_offsets_or_none(table, Kind::RuleSet)
    }

    pub(super) fn rule(&mut self, table: &mut Table) -> Step<()> {
        let glyphs = self.plain(table)?;
        let records = self.plain(table)?;
        self.numbers(table, glyphs.saturating_sub(1))?; // input
        self.entries(table, records, RECORD)
    }

    pub(super) fn chained_context(&mut self, table: &mut Table) -> Step<()> {
        match self.judged(table, one_to_three)? {
            1 => self.offset(table, Kind::Coverage)?,
            2 => {
                self.offset(table, Kind::Coverage)?;
                self.offset_or_none(table, Kind::ClassDef)?; // backtrack
                self.offset(table, Kind::ClassDef)?; // input
                self.offset_or_none(table, Kind::ClassDef)?; // lookahead
            }
            _ => {
                self.counted_offsets(table, Kind::Coverage)?; // backtrack
                self.counted_offsets(table, Kind::Coverage)?; // input
                self.counted_offsets(table, Kind::Coverage)?; // lookahead
                return self.records(table);
            }
        }
        self.counted_offsets_or_none(table, Kind::ChainedRuleSet)
    }

    pub(super) fn chained_rule(&mut self, table: &mut Table) -> Step<()> {
        self.counted(table)?; // backtrack
        self.counted_less_one(table)?; // input
        self.counted(table)?; // lookahead
        self.records(table)
    }

    fn records(&mut self, table: &mut Table) -> Step<()> {
        let count = self.plain(table)?;
        self.entries(table, count, RECORD)
    }
}

fn one_to_three(format: u16) -> bool {
    (1..=3).contains(&format)
}
