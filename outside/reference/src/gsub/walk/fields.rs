//! The fields of a table, each judged before it is put.

use super::super::{big_endian, LONG, SHORT};
use super::{unreadable, Kind, Step, Table, Walk};

/// Bytes of a tag, and of a character.
const TAG: usize = 4;
const CHARACTER: usize = 3;

impl Walk<'_> {
    /// A count, and as many tags, each with an offset to what the tag calls for.
    pub(super) fn tagged(&mut self, table: &mut Table, child: impl Fn(&[u8]) -> Kind) -> Step<()> {
        for _ in 0..self.plain(table)? {
            let begin = table.next;
            self.several(table, TAG, 1)?;
            let child = child(&self.slice[begin..table.next]);
            self.offset(table, child)?;
        }
        Ok(())
    }

    /// A count, and as many numbers.
    pub(super) fn counted(&mut self, table: &mut Table) -> Step<()> {
        let count = self.plain(table)?;
        self.numbers(table, count)
    }

    /// A count, and as many numbers less one. No count is less than none.
    pub(super) fn counted_less_one(&mut self, table: &mut Table) -> Step<()> {
        let count = self.plain(table)?;
        self.numbers(table, count.saturating_sub(1))
    }

    /// A count, and as many offsets.
    pub(super) fn counted_offsets(&mut self, table: &mut Table, child: Kind) -> Step<()> {
        let count = self.plain(table)?;
        self.offsets(table, count, child)
    }

    /// A count, and as many offsets, each of which may be zero for no child.
    pub(super) fn counted_offsets_or_none(&mut self, table: &mut Table, child: Kind) -> Step<()> {
        for _ in 0..self.plain(table)? {
            self.offset_or_none(table, child)?;
        }
        Ok(())
    }

    pub(super) fn offsets(&mut self, table: &mut Table, count: u16, child: Kind) -> Step<()> {
        for _ in 0..count {
            self.offset(table, child)?;
        }
        Ok(())
    }

    pub(super) fn numbers(&mut self, table: &mut Table, count: u16) -> Step<()> {
        self.several(table, SHORT, count.into())
    }

    /// So many entries of so many numbers each.
    pub(super) fn entries(&mut self, table: &mut Table, count: u16, numbers: usize) -> Step<()> {
        self.several(table, SHORT, usize::from(count) * numbers)
    }

    pub(super) fn characters(&mut self, table: &mut Table, count: u16) -> Step<()> {
        self.several(table, CHARACTER, count.into())
    }

    /// So many fields of so many bytes. Those that the slice has are put in one: if
    /// one of them has no room, that is told before the one that is missing.
    fn several(&mut self, table: &mut Table, width: usize, count: usize) -> Step<()> {
        let rest = self.slice.get(table.next..).unwrap_or_default();
        let there = count.min(rest.len() / width);
        self.put(&rest[..width * there])?;
        table.next += width * there;
        if there < count {
            return Err(unreadable(table.next));
        }
        Ok(())
    }

    pub(super) fn plain(&mut self, table: &mut Table) -> Step<u16> {
        self.judged(table, |_| true)
    }

    pub(super) fn zero(&mut self, table: &mut Table) -> Step<()> {
        self.judged(table, |number| number == 0).map(|_| ())
    }

    pub(super) fn one(&mut self, table: &mut Table) -> Step<()> {
        self.judged(table, |number| number == 1).map(|_| ())
    }

    /// A number, put if it is as it should be.
    pub(super) fn judged(&mut self, table: &mut Table, good: impl Fn(u16) -> bool) -> Step<u16> {
        let number = self.met(table, good)?;
        self.put(&number.to_be_bytes())?;
        table.next += SHORT;
        Ok(number)
    }

    /// The number of the next field, if it is as it should be.
    pub(super) fn met(&self, table: &Table, good: impl Fn(u16) -> bool) -> Step<u16> {
        let number = self.peek(table, SHORT)? as u16;
        if !good(number) {
            return Err(unreadable(table.next));
        }
        Ok(number)
    }

    pub(super) fn offset(&mut self, table: &mut Table, child: Kind) -> Step<()> {
        self.lead(table, SHORT, child)
    }

    pub(super) fn long_offset(&mut self, table: &mut Table, child: Kind) -> Step<()> {
        self.lead(table, LONG, child)
    }

    /// An offset, or zero for no child.
    pub(super) fn offset_or_none(&mut self, table: &mut Table, child: Kind) -> Step<()> {
        self.lead_or_none(table, SHORT, child)
    }

    pub(super) fn long_offset_or_none(&mut self, table: &mut Table, child: Kind) -> Step<()> {
        self.lead_or_none(table, LONG, child)
    }

    fn lead_or_none(&mut self, table: &mut Table, width: usize, child: Kind) -> Step<()> {
        match self.peek(table, width)? {
            0 => self.several(table, width, 1),
            _ => self.lead(table, width, child),
        }
    }

    /// An offset from the table's first byte: its child in full, then the link.
    fn lead(&mut self, table: &mut Table, width: usize, child: Kind) -> Step<()> {
        let offset = self.peek(table, width)?;
        if offset == 0 {
            return Err(unreadable(table.next));
        }
        let id = self.table(child, table.begin + offset)?;
        self.link(width, id)?;
        table.next += width;
        Ok(())
    }

    /// The next field of so many bytes as a number, if the slice has all of them.
    fn peek(&self, table: &Table, width: usize) -> Step<usize> {
        let field = self.slice.get(table.next..table.next + width);
        field.map(big_endian).ok_or(unreadable(table.next))
    }
}
