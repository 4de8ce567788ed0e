//! GSUB tables read into sessions by both packers, packed, and read again.

mod lists;
mod many;
mod promoted;
mod random;
mod real;
mod shared;
mod whole;
mod whole_real;
mod wide;

use compare::made::Room;
use compare::pair::Counts;
use compare::{reads, Numbers};
use reference::answer::NUMBERS;
use reference::gsub::{GsubRead, Scope};

/// What was met.
struct Seen {
    scope: Scope,
    told: Counts,
    /// Tables packed and read again, and those that no order fits.
    packed: usize,
    unfit: usize,
    /// Glyphs that a lookup of these changes.
    changed: usize,
}

impl Seen {
    fn of(scope: Scope) -> Seen {
        Seen {
            scope,
            told: [0; NUMBERS],
            packed: 0,
            unfit: 0,
            changed: 0,
        }
    }

    /// Reads a table; if it is accepted, packs it and reads it again.
    fn read(&mut self, room: Room, table: &[u8], numbers: &mut Numbers) -> GsubRead {
        let mut reading = reads::read(self.scope, room, table, numbers);
        let told = reading.told;
        self.told[told.number as usize] += 1;
        if told.number != 0 {
            return told;
        }
        match reading.packed(numbers) {
            Some(packed) => {
                self.packed += 1;
                self.changed += reads::same_substitutes(table, &packed, &reads::named(table));
            }
            None => self.unfit += 1,
        }
        told
    }

    /// Each number was told at least so often.
    fn often(&self, least: &[(usize, usize)]) {
        for &(number, least) in least {
            assert!(self.told[number] >= least, "number {number} is hardly told");
        }
    }

    /// Prints how often each number was told.
    fn report(&self) {
        let reads: usize = self.told.iter().sum();
        println!("  {reads} reads");
        for (number, count) in self
            .told
            .iter()
            .enumerate()
            .filter(|(_, count)| **count > 0)
        {
            println!("  number {number:2}: {count}");
        }
        let Seen {
            packed,
            unfit,
            changed,
            ..
        } = self;
        println!("  {packed} packed and read again, {unfit} fit no order, {changed} substitutes");
    }
}
