//! Whether a table shows a reading.

use crate::reading::Reading;
use std::collections::HashSet;
use std::rc::Rc;

/// Why a table does not show a reading, with the place of the piece at fault.
#[derive(Clone, Copy, Debug, PartialEq, Eq)]
pub enum Fault {
    /// The piece at this place would pass the table's end.
    PastEnd { place: u64 },
    /// A byte outside the fields of the piece at this place differs.
    Differs { place: u64 },
}

/// Whether the table shows the reading from its first byte.
pub fn shows(table: &[u8], reading: &Rc<Reading>) -> bool {
    check(table, reading).is_ok()
}

/// The same, with the first fault met.
pub fn check(table: &[u8], reading: &Rc<Reading>) -> Result<(), Fault> {
    shown(table, reading).map(|_| ())
}

/// All that the table shows when it is read from its first byte, each place with
/// the reading shown there.
pub fn shown<'a>(
    table: &[u8],
    reading: &'a Rc<Reading>,
) -> Result<Vec<(u64, &'a Rc<Reading>)>, Fault> {
    let mut met = HashSet::new();
    let mut shown = Vec::new();
    let mut waiting = vec![(0, reading)];
    while let Some((place, reading)) = waiting.pop() {
        // What was looked at once at a place need not be looked at again.
        if !met.insert((place, Rc::as_ptr(reading))) {
            continue;
        }
        shown.push((place, reading));
        let part = part(table, place, reading.size()).ok_or(Fault::PastEnd { place })?;
        if !agrees_outside_fields(part, reading) {
            return Err(Fault::Differs { place });
        }
        for field in reading.fields() {
            let offset = big_endian(&part[field.place..field.place + field.width]);
            waiting.push((place + field.inner as u64 + offset, &field.child));
        }
    }
    Ok(shown)
}

fn part(table: &[u8], place: u64, size: usize) -> Option<&[u8]> {
    let begin = usize::try_from(place).ok()?;
    table.get(begin..begin.checked_add(size)?)
}

fn agrees_outside_fields(part: &[u8], reading: &Reading) -> bool {
    let mut begin = 0;
    for field in reading.fields() {
        if part[begin..field.place] != reading.bytes()[begin..field.place] {
            return false;
        }
        begin = field.place + field.width;
    }
    part[begin..] == reading.bytes()[begin..]
}

fn big_endian(field: &[u8]) -> u64 {
    field
        .iter()
        .fold(0, |number, &byte| number * 256 + u64::from(byte))
}
