//! Lookups, as they are or promoted, and Extensions.

use super::super::{EXTENSION, LONG, SHORT, USE_MARK_FILTERING_SET};
use super::{Kind, Step, Table, Walk};

impl Walk<'_> {
    pub(super) fn lookup_list(&mut self, table: &mut Table) -> Step<()> {
        let count = self.plain(table)?;
        let first_promoted = count.saturating_sub(self.promoted);
        self.offsets(table, first_promoted, Kind::Lookup)?;
        self.offsets(table, count - first_promoted, Kind::PromotedLookup)
    }

    pub(super) fn lookup(&mut self, table: &mut Table) -> Step<()> {
        let scope = self.scope;
        let kind = self.judged(table, |kind| scope.has_lookup(kind))?;
        self.flag_and_subtables(table, Kind::Subtable(kind))
    }

    /// One of type 7 is left as it is.
    pub(super) fn promoted_lookup(&mut self, table: &mut Table) -> Step<()> {
        let scope = self.scope;
        let kind = self.met(table, |kind| scope.has_lookup(kind))?;
        self.put(&EXTENSION.to_be_bytes())?;
        table.next += SHORT;
        let subtable = match kind {
            EXTENSION => Kind::Subtable(kind),
            _ => Kind::NewExtension(kind),
        };
        self.flag_and_subtables(table, subtable)
    }

    /// What a lookup has behind its type.
    fn flag_and_subtables(&mut self, table: &mut Table, subtable: Kind) -> Step<()> {
        let flag = self.plain(table)?;
        self.counted_offsets(table, subtable)?;
        if flag & USE_MARK_FILTERING_SET != 0 {
            let _set = self.plain(table)?;
        }
        Ok(())
    }

    pub(super) fn extension(&mut self, table: &mut Table) -> Step<()> {
        let scope = self.scope;
        self.one(table)?;
        let kind = self.judged(table, |kind| scope.has_subtable(kind))?;
        self.long_offset(table, Kind::Subtable(kind))
    }

    /// An Extension that the slice does not have, to the subtable where it would
    /// begin.
    pub(super) fn new_extension(&mut self, table: &mut Table, kind: u16) -> Step<()> {
        self.put(&1_u16.to_be_bytes())?;
        self.put(&kind.to_be_bytes())?;
        let id = self.table(Kind::Subtable(kind), table.begin)?;
        self.link(LONG, id)
    }
}
